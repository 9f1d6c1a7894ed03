"""Tests of the package, by unittest: `cd python && python3 -B -m unittest`."""
