# The daily habits. `make` alone lists them: proving takes long, and nobody is to begin it by accident. CONTRIBUTING.md says
# what each takes.
NAME ?= razor_core
PROGRAM ?= $(shell tools/program)

.PHONY: help prove build unproved check test test-crate must-fail fmt docs check-docs try gate

help: ## list these
	@sed -n 's/^\([a-z-]*\): ## /\1\t/p' Makefile | expand -t 14

prove: ## prove and build the program
	tools/build razor_cli >/dev/null

build: ## the same as prove
	tools/build razor_cli >/dev/null

unproved: ## build the program without proofs or checks, to time it, as out/razor
	mkdir -p out
	tools/unproved razor_cli out/razor

test: ## run all tests over the program that is there, which is built first if there is none
	tests/all

check: ## prove the crate NAME
	cd crates/$(NAME) && rt check

test-crate: ## prove and run the tests of the crate NAME
	cd crates/$(NAME) && rt test

must-fail: ## try the edits of the crate NAME that have to be refused
	rt must-fail $(NAME)

fmt: ## lay out the files of all crates
	for crate in crates/*/; do (cd $$crate && rt fmt) || exit; done

docs: ## make the documents that are written from other files
	.ci/docs/all

check-docs: ## see that the documents are current, and name what is there
	.ci/docs/all --check

try: ## try the program PROGRAM on random inputs, for longer than the tests do
	tests/fuzz/run --seconds 60 $(PROGRAM)
	tests/try --program $(PROGRAM)
	tests/edge/stack $(PROGRAM)
	tests/edge/tools $(PROGRAM)

gate: ## the merge gate: all proofs, edits, tests and programs, and the documents
	.ci/run
