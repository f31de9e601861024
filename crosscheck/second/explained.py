"""What `--explain` adds to a line, by docs/FORMAT.md. Python's standard library alone."""
from second.documents import POSTMARKS, declared_by, lines_of, read_stanzas, utf8_error
from second.universe import satisfies_clause
from second.values import BLANKS, ENTRIES, PROPERTIES

SHOWN_LENGTH = 60
# how files of some formats begin
FORMATS = {
    b"\x1f\x8b": "a gzip file", b"BZh": "a bzip2 file", b"\xfd7zXZ\x00": "an xz file",
    b"\x28\xb5\x2f\xfd": "a Zstandard file", b"\xff\xfe": "a UTF-16 file", b"\xfe\xff": "a UTF-16 file",
}


def with_cause(line, cause):
    return f"{line}; {cause}" if cause else line


def escaped(text):
    """The text, its control characters as escapes."""
    return "".join(f"\\u{{{ord(it):X}}}" if it < " " or "\x7f" <= it <= "\x9f" else it for it in text)


def shown(text):
    """The text as it is told: trimmed, cut, and escaped."""
    text = text.strip(BLANKS)
    return escaped(text[:SHOWN_LENGTH]) + ".." * (len(text) > SHOWN_LENGTH)


def format_of(data):
    """What a file that begins with these bytes is, if they are those of a format."""
    return next((f"it is {name}" for start, name in FORMATS.items() if data.startswith(start)), "")


def place_of(package):
    return f"{package.words()} line {package.line}"


class Explainer:
    """The causes of violations by one status. Each clause and each package is looked up once.

    `listed` has the line of a solution's first stanza of each pair.
    """

    def __init__(self, packages, listed=()):
        self.packages, self.listed, self.remedies, self.needs = packages, dict(listed), {}, {}

    def remedy(self, package, what):
        line = self.listed.get((package.name, package.version))
        return f"{place_of(package)} {what}" + (f", not installed on line {line} of the solution" if line else "")

    def clause(self, clause):
        """The first package that alone satisfies it and was installed, or else the first that alone satisfies it."""
        if clause not in self.remedies:
            would = [package for package in self.packages if satisfies_clause([package], clause)]
            found = [self.remedy(package, "was installed") for package in would if package.installed]
            found += [self.remedy(package, "would do") for package in would[:1]]
            self.remedies[clause] = (found + ["nothing in the problem would do"])[0]
        return self.remedies[clause]

    def name(self, name):
        found = next((place_of(package) for package in self.packages if package.name == name), f"no {name}")
        return f"the problem has {found}"

    def needed(self, met, status):
        """The line of a package that meets an entry, and the first other package that needs it."""
        if met.place not in self.needs:
            needers = (place_of(it) for it in status if it != met and needs(it, met, status))
            self.needs[met.place] = f"line {met.line}, needed by {next(needers, 'nothing installed')}"
        return self.needs[met.place]


def needs(package, met, status):
    """Whether a clause of its `depends` is satisfied by `met` and by no other of the status."""
    return any([it for it in status if satisfies_clause([it], clause)] == [met] for clause in package.depends)


class Place:
    """Where an error is: the stanza, and the property that begins on the line, if one does."""

    def __init__(self, data, line):
        self.stanzas, self.line = read_stanzas(data.decode())[0], line
        self.declared = declared_by(self.stanzas)
        self.stanza = next(it for it in self.stanzas if it.line <= line <= it.last)
        here = [(name, value) for at, name, value in self.stanza.properties if at == line]
        self.name, self.value = here[0] if here else ("", "")
        self.is_postmark = self.name in POSTMARKS
        self.glued = ", a blank line may be missing before it" if self.is_postmark else ""

    def first(self, is_wanted):
        """The line of the first such stanza."""
        return next(stanza.line for stanza in self.stanzas if is_wanted(stanza))

    def invalid(self):
        """The type of a value, and the value or its first invalid entry."""
        types = {name: known.type for name, known in self.declared.items()} | PROPERTIES
        word = "vpkglist" if self.stanza.mark() == "request" else types[self.name].word
        text, entry = self.value.strip(BLANKS), ""
        if word in ENTRIES:
            pieces = enumerate(text.split(","), 1)
            at, text = next((at, piece.strip(BLANKS)) for at, piece in pieces if ENTRIES[word](piece) is None)
            entry = f", entry {at}"
        return f"{self.name} is no {word}{entry}" + (f": {shown(text)}" if text else "")

    def declaration(self):
        piece = self.stanza.declarations()[1][self.line]
        return f"declaration {piece}" if piece else ""

    def pair(self):
        name, version = self.stanza.pair()
        return f"{name} {version} stands on line {self.first(lambda it: it.pair() == (name, version))}"


CAUSES = {
    4: lambda place: f"it begins with {place.name}",
    6: lambda place: f"the request stands on line {place.first(lambda it: it.mark() == 'request')}",
    7: lambda place: f"{place.name} stands on line {place.stanza.line_of(place.name)}{place.glued}",
    8: lambda place: f"nothing declares {place.name}{place.glued}",
    9: Place.invalid, 10: Place.declaration, 11: Place.pair, 15: Place.pair,
    14: lambda place: f"it lacks {place.stanza.missing(place.declared)[0]}",
    16: lambda it: f"a blank line is missing before {it.name}" if it.is_postmark else f"{it.name} has no meaning here",
}


def error_cause(data, line, kind):
    """What is added to the first error of a document; nothing if its kind has nothing."""
    if kind == 1:
        at = utf8_error(data)
        place = at - data.rfind(b"\n", 0, at)
        return format_of(data) or f"byte {place} of the line is {data[at]:02X}"
    if kind == 2:
        text = lines_of(data.decode())[line - 1]
        if text.startswith("\ufeff"):
            return "it begins with a byte order mark" if line == 1 else ""
        return f"it is {shown(text)}"
    if kind == 13:
        return "" if data else "it is empty"
    return CAUSES[kind](Place(data, line)) if kind in CAUSES else ""
