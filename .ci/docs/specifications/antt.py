"""The definitions of the files in specs/, with the names that each clause cites."""
import dataclasses
import functools
import pathlib
import re

ROOT = pathlib.Path(__file__).resolve().parents[3]

IMPORT = re.compile(r"^(?:pub )?use Rattle\.(\w+)\.specs\.([\w.]+?)(?:\.\{([^}]*)\}| as (\w+))?$", re.MULTILINE)
HEAD = re.compile(r"(abbrev |unfoldable )?(pub )?(record |data )?([^\s:(){}]+) (.*)")
BINDER = re.compile(r"[({]([^(){}:]+) :|λ ([^.]+)\.")
WORD = re.compile(r"[^\s(){},;]+")
MODULE = re.compile(r"^(?:pub )?mod (\w+)", re.MULTILINE)

# The folder of specs/ with what the headline stands on.
HEADLINE = "Headline"


@dataclasses.dataclass(frozen=True)
class Place:
    """Where a name stands: a file of a crate's specs/, or what the compiler declares there of a type of the code."""

    crate: str
    file: str
    name: str


@dataclasses.dataclass
class Clause:
    """A clause, a field or a constructor: the words of its pattern, and what it cites."""

    pattern: list
    bound: set
    words: list


@dataclasses.dataclass
class Definition:
    place: Place
    is_public: bool
    says: str
    kind: str
    lines: list

    @functools.cached_property
    def clauses(self):
        """The head, and each clause, field or constructor."""
        return [clause_of(text, at > 0, self.kind) for at, text in enumerate(self.parts())]

    def parts(self):
        """The text of the head, and of each clause, field or constructor."""
        parts = []
        for line in self.lines:
            text = line.strip()
            if text.startswith("--"):
                continue
            begins = not line.startswith((" ", "}", ")")) or (self.kind and re.match(r"  \S", line) and not line.startswith("  }"))
            if begins or not parts:
                parts.append(text)
            else:
                parts[-1] += f" {text}"
        return parts

    def constructors(self):
        return [clause.pattern[0] for clause in self.clauses[1:]] if self.kind == "data" else []


def clause_of(text, is_clause, kind):
    bound = {name for found in BINDER.findall(text) for name in " ".join(found).split()}
    pattern, rest = [], text
    if is_clause and kind:
        pattern, rest = WORD.findall(text.removeprefix("pub "))[:1], text.partition(" : ")[2]
    elif is_clause:
        left, equals, right = text.partition(" =")
        if equals:
            pattern, rest = WORD.findall(left), right
    words = WORD.findall(rest)
    # A block of steps cites the operator between them without naming it.
    return Clause(pattern, bound, [*words, ">>="] if "do" in words else words)


class File:
    """A file of specs/."""

    def __init__(self, crate, name):
        self.crate, self.name = crate, name
        text = path_of(crate, name).read_text()
        lines = text.splitlines()
        count = next((at for at, line in enumerate(lines) if not line.startswith("--")), len(lines))
        self.says = sentence(lines[:count])
        self.modules, self.names = imports(text)
        self.definitions = {it.place.name: it for it in definitions(crate, name, lines[count:])}
        for it in self.definitions.values():
            for name in (it.place.name, *it.constructors()):
                self.names[name.replace("◌", "")] = Place(crate, self.name, name)


def sentence(lines):
    """The text of comment lines."""
    return " ".join(line.strip().removeprefix("--").strip() for line in lines)


def imports(text):
    """What the names of modules, and the other names, stand for that a file imports of this repository and of the library."""
    modules, names = {}, {}
    for crate, path, listed, alias in IMPORT.findall(text):
        file = path if path.startswith("declared.") else file_on(crate, path)
        if listed:
            for one in listed.split(","):
                name, _, other = one.strip().partition(" as ")
                names[(other or name).replace("◌", "")] = Place(crate, file, name)
        else:
            modules[alias or path.rpartition(".")[2]] = (crate, file)
    return modules, names


@functools.cache
def file_on(crate, path):
    """The file that a path leads to, or through: the constructors of a type may be imported from a path that ends with the type."""
    front = path.rpartition(".")[0]
    return path if not front or path_of(crate, path).exists() else file_on(crate, front)


def definitions(crate, file, lines):
    """The definitions of a file, in order."""
    found, above = [], []
    for line in lines:
        head = HEAD.match(line)
        if line.startswith("--"):
            above.append(line)
            continue
        if head and (head[1] or head[2] or head[3] or head[5].startswith(": ")) and head[4] != "mod":
            found.append(Definition(Place(crate, file, head[4]), bool(head[2]), sentence(above), (head[3] or "").strip(), [line]))
        elif found and line.strip() and not line.startswith(("use ", "pub use ", "infix")):
            found[-1].lines.append(line)
        above = []
    return found


def specs_of(crate):
    return ROOT / "crates" / crate / "specs"


def path_of(crate, file):
    return specs_of(crate) / f"{file.replace('.', '/')}.antt"


def modules(crate):
    """The files of a crate's specs/, as its Lib.antt and the files above them name them, the headline's first."""
    found = [it for name in within(crate, "Lib") for it in (name, *(f"{name}.{below}" for below in within(crate, name)))]
    return sorted((it for it in found if it != HEADLINE), key=lambda it: not it.startswith(f"{HEADLINE}."))


def within(crate, file):
    """The files that a file names as its modules."""
    path = path_of(crate, file)
    return MODULE.findall(path.read_text()) if path.exists() else []


def crates():
    """The crates, in the order of crates.txt."""
    return re.findall(r"^(\w+)(?: staticlib)?:", (ROOT / "crates.txt").read_text(), re.MULTILINE)


class Specifications:
    """All files of specs/ that their Lib.antt names."""

    def __init__(self):
        self.files = {(crate, name): File(crate, name) for crate in crates() for name in modules(crate)}
        self.owners = {
            Place(*key, name): it
            for key, file in self.files.items()
            for it in file.definitions.values()
            for name in (it.place.name, *it.constructors())
        }

    def place(self, file, word):
        """Where a word of a file stands, if it is imported or defined there."""
        front, _, back = word.partition(".")
        if front in file.modules and back:
            return self.own(Place(*file.modules[front], back.partition(".")[0]))
        return self.own(file.names.get(front))

    def own(self, place):
        """Where a name is defined that a file may only pass on."""
        while place is not None and place not in self.owners and (place.crate, place.file) in self.files:
            passed = self.files[place.crate, place.file].names.get(place.name.replace("◌", ""))
            if passed in (None, place):
                break
            place = passed
        return place

    def public(self):
        return [it for file in self.files.values() for it in file.definitions.values() if it.is_public]
