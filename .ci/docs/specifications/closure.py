"""What a definition stands on, and what of it one command needs.

A clause whose pattern has a constructor of the top call's own types is gone through only where that constructor is
built by what has been gone through; of the type of commands only the constructor that is asked for counts.
"""
import collections
import functools

from specifications.antt import Place

VARIANTS = ".TheVariants"


class Cited:
    """What each clause of each definition cites."""

    def __init__(self, specifications):
        self.specifications = specifications
        self.known = {}

    def clauses(self, definition):
        """For each clause the places in its pattern, and those that it cites."""
        if definition.place not in self.known:
            self.known[definition.place] = [self.of_clause(definition, it) for it in definition.clauses]
        return self.known[definition.place]

    def of_clause(self, definition, clause):
        file = self.specifications.files[definition.place.crate, definition.place.file]
        place = lambda word: self.specifications.place(file, word)
        pattern = [found for found in map(place, clause.pattern) if found and self.is_constructor(found)]
        taken = clause.bound | {word for word in clause.pattern if not self.is_constructor(place(word))}
        cited = [place(word) for word in clause.words if word.partition(".")[0] not in taken or word == definition.place.name]
        return pattern, [found for found in cited if found]

    def is_constructor(self, place):
        return place is not None and self.type_of(place) is not None

    def type_of(self, place):
        """The type of which the place is a constructor, or none."""
        if place.file.endswith(VARIANTS):
            file = place.file.removesuffix(VARIANTS)
            return Place(place.crate, file, file.rpartition(".")[2])
        owner = self.specifications.owners.get(place)
        return owner.place if owner and owner.place != place else None

    def all(self, definition):
        return [place for pattern, cited in self.clauses(definition) for place in (*pattern, *cited)]


class Reached:
    """What was gone through: definitions in the order in which they were met, and types of the code."""

    def __init__(self, definitions=(), types=()):
        self.definitions, self.types = dict(definitions), dict(types)

    def both(self, other):
        return self.kept(lambda mine, theirs: {it: mine[it] for it in mine if it in theirs}, other)

    def beyond(self, other):
        return self.kept(lambda mine, theirs: {it: mine[it] for it in mine if it not in theirs}, other)

    def either(self, other):
        return self.kept(lambda mine, theirs: mine | theirs, other)

    def kept(self, join, other):
        return Reached(join(self.definitions, other.definitions), join(self.types, other.types))


def whole(cited, roots):
    """What these places stand on."""
    reached, waiting = Reached(), collections.deque(roots)
    while waiting:
        definition = meet(cited, reached, waiting.popleft())
        if definition:
            waiting.extend(cited.all(definition))
    return reached


def meet(cited, reached, place):
    """Adds what a place names to what was met, and gives its definition if that is new."""
    definition = cited.specifications.owners.get(place)
    if definition is None:
        of = cited.type_of(place) or place
        if of.file.startswith("declared."):
            reached.types[of] = True
        return None
    if definition.place in reached.definitions:
        return None
    reached.definitions[definition.place] = definition
    return definition


class Promise:
    """The promise of the top call, command by command."""

    def __init__(self, specifications, crate, file, name):
        self.cited = Cited(specifications)
        self.crate = crate
        self.top = specifications.files[crate, file].definitions[name]
        self.words = self.cited_by(self.top, "the command that words spell", lambda it: "".join(it.lines[0].split()[-2:]) == "OptionCommand")
        self.command = self.cited_by(self.words, "the commands", lambda it: it.place.name == "Command")
        self.of_words = whole(self.cited, [self.words.place])

    def cited_by(self, definition, what, is_it):
        """The one definition of this kind that a definition cites."""
        owners = self.cited.specifications.owners
        for place in self.cited.all(definition):
            if place in owners and is_it(owners[place]):
                return owners[place]
        raise ValueError(f"{definition.place.name} cites no definition of {what}")

    @functools.cached_property
    def methods(self):
        """The types by which one constructor of commands stands for several commands: those that stand beside the commands."""
        beside = self.cited.specifications.files[self.command.place.crate, self.command.place.file].definitions.values()
        types = {it.place for it in beside if it.kind == "data" and it is not self.command}
        return types.intersection(place for _, cited in self.cited.clauses(self.command) for place in cited)

    @functools.cached_property
    def commands(self):
        """The constructors that each command is made of, by its name."""
        found = {}
        for constructor, cited in self.clauses_of(self.command)[1:]:
            methods = [each for of in self.methods.intersection(cited) for each in self.variants(of)]
            for each in methods or constructor:
                found[each.name.lower()] = {each, *constructor}
        return found

    def beside(self, named):
        """What these definitions of the promise's crate stand on, each named by its file and its name, without the promise."""
        places = [Place(self.crate, file, name) for file, name in named]
        return whole(self.cited, [place for place in places if place != self.top.place])

    def variants(self, of):
        """The constructors of such a type."""
        return [Place(of.crate, of.file, name) for name in self.cited.specifications.owners[of].constructors()]

    def closure(self, live):
        """What the promise stands on, for the command that these constructors make."""
        reached, live, size = Reached(), set(live), None
        meet(self.cited, reached, self.top.place)
        while size != (size := (len(reached.definitions), len(reached.types), len(live))):
            for definition in list(reached.definitions.values()):
                if definition.place not in self.of_words.definitions:
                    self.go_through(reached, live, definition)
        reached.definitions |= self.of_words.definitions
        reached.types |= self.of_words.types
        return reached

    def go_through(self, reached, live, definition):
        for pattern, cited in self.clauses_of(definition):
            if live.issuperset(filter(self.is_followed, pattern)):
                for place in (*pattern, *cited):
                    meet(self.cited, reached, place)
                live.update(place for place in cited if self.cited.is_constructor(place) and not self.is_of_commands(place))

    def clauses_of(self, definition):
        """The clauses; the pattern of a constructor is itself."""
        clauses = self.cited.clauses(definition)
        if definition.kind != "data":
            return clauses
        names = [Place(definition.place.crate, definition.place.file, name) for name in definition.constructors()]
        return [clauses[0], *(([name], cited) for name, (_, cited) in zip(names, clauses[1:]))]

    def is_followed(self, constructor):
        """Whether clauses are parted by this constructor: one of the top call's own types, or of commands."""
        of = self.cited.type_of(constructor)
        return of.crate == self.crate or of == self.command.place or of in self.methods

    def is_of_commands(self, constructor):
        return self.cited.type_of(constructor) == self.command.place

    def is_of_command(self, constructor):
        """Whether the place is a constructor of commands, or one of a type by which a constructor of these stands for several."""
        return self.cited.type_of(constructor) in {self.command.place, *self.methods}

    def cases(self, reached, live):
        """The clauses of the definitions that were met which are for this command alone."""
        for definition in reached.definitions.values():
            if definition.place in self.of_words.definitions:
                continue
            for (pattern, _), text in zip(self.cited.clauses(definition), definition.parts()):
                if any(map(self.is_of_commands, pattern)) and live.issuperset(filter(self.is_of_command, pattern)):
                    yield text
