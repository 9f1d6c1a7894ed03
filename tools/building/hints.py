"""Puts the inline hints of sources onto the functions of a program's LLVM code, where `rt try` leaves them out: hints.py FOLDER .. CODE MADE

The folders are those of the crates whose sources are read.
"""
import os
import re
import sys

# What LLVM calls a hint.
WORDS = {"inline": "inlinehint", "inline(always)": "alwaysinline", "inline(never)": "noinline", "cold": "cold"}

HINT = re.compile(r"\s*#\[(inline(?:\((?:always|never)\))?|cold)\]\s*$")
PASSED_OVER = re.compile(r"\s*(?:#\[|//|$)")
IMPL = re.compile(r"(?:unsafe )?impl\b(.*)")
FUNCTION = re.compile(r"\s*(?:pub(?:\([^)]*\))? )?(?:const )?(?:unsafe )?(?:const )?fn (\w+)")
NAMED = re.compile(r"\s*&?(?:'\w+ )?(?:mut )?([\w:]+)")

# A function's name with its parameters in <>, and the number of its attributes.
DEFINED = re.compile(r'define internal .*?@"([^"]+)"\(.*\) #(\d+) ')
ATTRIBUTES = re.compile(r"attributes #(\d+) = \{(.*)\}")


def behind_parameters(text):
    """The text without the type parameters that it begins with."""
    if not text.startswith("<"):
        return text
    depth = 0
    for at, character in enumerate(text):
        depth += {"<": 1, ">": -1}.get(character, 0)
        if depth == 0:
            return text[at + 1 :]
    return ""


def type_of(rest):
    """The type of whose `impl` block this is, or none."""
    rest = behind_parameters(rest)
    found = NAMED.match(rest.partition(" for ")[2] or rest)
    return found and found.group(1).split("::")[-1]


def hints_of(path, crate):
    """The functions of a file that have hints: crate, type (none outside of one) and name, and LLVM's words."""
    type_, held = None, set()
    for line in open(path, errors="replace"):
        if block := IMPL.match(line):
            type_ = type_of(block.group(1))
        elif line.startswith("}"):
            type_ = None
        if hint := HINT.match(line):
            held.add(WORDS[hint.group(1)])
        elif not PASSED_OVER.match(line):
            function = FUNCTION.match(line)
            if function and held:
                yield (crate, type_ if line.startswith(" ") else None, function.group(1)), frozenset(held)
            held = set()


def hints_below(folders):
    """The hints of all sources of these crates' folders."""
    found = {}
    for folder in folders:
        for at, _, names in os.walk(f"{folder}/src"):
            for name in names:
                if name.endswith(".rt"):
                    found.update(hints_of(f"{at}/{name}", os.path.basename(folder)))
    return found


def asked_of(name, hints):
    """What is asked of the function of the code: a method stands behind its type, any other function behind its module."""
    crate, *between, function = name.partition("::<")[0].split("::")
    owner = between[-1] if between else None
    found = hints.get((crate, owner, function))
    if found is None and (owner is None or owner[0].islower()):
        return hints.get((crate, None, function))
    return found


def marked(lines, hints):
    """The lines of the code with the hints in its attributes."""
    groups = {int(found.group(1)): found.group(2) for found in map(ATTRIBUTES.match, lines) if found}
    made, next_group = {}, max(groups) + 1
    for line in lines:
        found = DEFINED.match(line)
        words = found and asked_of(found.group(1), hints)
        if words:
            group = int(found.group(2))
            if (group, words) not in made:
                made[group, words] = next_group
                next_group += 1
            at = found.start(2)
            line = f"{line[:at]}{made[group, words]}{line[found.end(2):]}"
        yield line
    for (group, words), number in made.items():
        yield f"attributes #{number} = {{ {' '.join(sorted(words))} {groups[group]}}}\n"


def main():
    *folders, code, made = sys.argv[1:]
    with open(code) as given:
        lines = given.readlines()
    with open(made, "w") as out:
        out.writelines(marked(lines, hints_below(folders)))


if __name__ == "__main__":
    main()
