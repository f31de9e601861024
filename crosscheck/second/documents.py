"""CUDF documents, by docs/FORMAT.md. An error is a line and a kind. Python's standard library alone."""
import re

from second.values import BLANKS, IDENT, PROPERTIES, READERS, RESERVED, read_declarations, read_vpkglist

POSTMARKS = ("preamble", "package", "request")
WISHES = ("install", "remove", "upgrade")
# what is read of a solution's packages
COUNTED = ("package", "version", "installed")
KINDS = dict(enumerate((
    "not UTF-8", "not a property, continuation, comment or blank line", "continuation of nothing",
    "stanza without postmark", "preamble is not first", "stanza after the request", "property repeated",
    "property not declared", "value is not of its type", "bad declaration", "package repeated", "no version",
    "no request", "declared property missing", "pair repeated", "property out of place",
), 1))
STRICT_KINDS = (14, 15, 16)


class Stanza:
    """The first and the last line, and of each property its line, its name and its value."""

    def __init__(self, line):
        self.line, self.last, self.properties = line, line, []

    def mark(self):
        return self.properties[0][1]

    def value(self, name):
        """The value of the first property of this name, or None."""
        return next((value for _, other, value in self.properties if other == name), None)

    def line_of(self, name):
        return next(line for line, other, _ in self.properties if other == name)

    def pair(self):
        """The name and the version of a package, or None unless both are valid."""
        name, version = self.value("package"), READERS["posint"](self.value("version") or "")
        return (name, version) if self.mark() == "package" and READERS["pkgname"](name) and version else None

    def declarations(self):
        """What a preamble declares, by name, and by the lines of invalid values the place of the invalid piece or 0."""
        declared, invalid = {}, {}
        for line, name, value in self.properties:
            more, place = read_declarations(value, declared) if name == "property" else ({}, None)
            declared.update(more)
            invalid.update({} if place is None else {line: place})
        return declared, invalid

    def missing(self, declared):
        """The names that are declared without a default and missing."""
        return [name for name, known in declared.items() if known.default is None and self.value(name) is None]


def lines_of(text):
    lines = text.removesuffix("\n").split("\n") if text else []
    return [line.removesuffix("\r") for line in lines]


def line_class(line):
    if line.startswith("#"):
        return "comment"
    if line.strip(BLANKS) == "":
        return "blank"
    if line[0] in BLANKS:
        return "continuation"
    return "name line" if re.match(IDENT.pattern + ":", line) else "invalid"


def read_stanzas(text):
    """The stanzas, the E2 or E3 at which reading ends, and the number of lines."""
    stanzas, is_open, fault, lines = [], False, None, lines_of(text)
    for number, line in enumerate(lines, 1):
        found = line_class(line)
        if found == "comment":
            continue
        if found == "name line":
            name, value = line.split(":", 1)
            stanzas += [] if is_open else [Stanza(number)]
            stanzas[-1].properties.append((number, name, [value.strip(BLANKS)]))
        elif found == "continuation" and is_open:
            stanzas[-1].properties[-1][2].append(line.strip(BLANKS))
        elif found != "blank":
            fault = number, 2 if found == "invalid" else 3
        is_open = found == "name line" or is_open and found != "blank"
        if is_open:
            stanzas[-1].last = number
        if fault:
            break
    for stanza in stanzas:
        stanza.properties = [(at, name, " ".join(filter(None, texts))) for at, name, texts in stanza.properties]
    return stanzas, fault, len(lines)


def declared_by(stanzas):
    """What the preamble declares, by name."""
    return stanzas[0].declarations()[0] if stanzas and stanzas[0].mark() == "preamble" else {}


def declared_in(data):
    """The same of a document that is UTF-8."""
    return declared_by(read_stanzas(data.decode())[0])


def utf8_error(data):
    """The place of the first byte that is not UTF-8, or None."""
    try:
        data.decode()
    except UnicodeDecodeError as error:
        return error.start
    return None


def repeated(properties):
    """Errors of properties whose names come again."""
    names = [name for _, name, _ in properties]
    return [(line, 7) for at, (line, name, _) in enumerate(properties) if name in names[:at]]


def package_faults(stanza, declared, pairs, is_problem):
    """`declared` has what may stand in it, by name, and `pairs` those of earlier stanzas."""
    types = PROPERTIES | {name: known.type for name, known in declared.items()}
    names = types if is_problem else (*RESERVED, *declared)
    yield from ((line, 8) for line, name, _ in stanza.properties if name not in names)
    properties = [it for it in stanza.properties if is_problem or it[1] in COUNTED]
    yield from ((line, 9) for line, name, value in properties if name in types and types[name].read(value) is None)
    yield from repeated(properties)
    yield from [(stanza.last, 14)] if is_problem and stanza.missing(declared) else []
    if stanza.value("version") is None:
        yield stanza.last, 12
    elif stanza.pair() and stanza.pair() in pairs:
        yield stanza.line_of("version"), 11 if is_problem else 15
    pairs.add(stanza.pair())


def other_faults(stanza, is_problem):
    """Of a preamble or a request, in a solution only properties out of place."""
    mark, properties = stanza.mark(), stanza.properties
    has_wishes = is_problem and mark == "request"
    for line, name, value in properties:
        is_out = name not in ("request", *WISHES) if has_wishes else name in RESERVED and name != mark
        yield from [(line, 16)] if is_out else []
        yield from [(line, 9)] if has_wishes and name in WISHES and read_vpkglist(value) is None else []
    if is_problem and mark == "preamble":
        yield from ((line, 10) for line in stanza.declarations()[1])
        properties = [it for it in properties if it[1] != "property"]
    yield from repeated(properties) if is_problem else []


def faults_in(text, is_problem, others):
    stanzas, fault, lines = read_stanzas(text)
    yield from [fault] if fault else []
    marks = [stanza.mark() for stanza in stanzas]
    end = marks.index("request") if is_problem and "request" in marks else len(marks)
    declared, pairs = dict(others) | declared_by(stanzas), set()
    for at, (mark, stanza) in enumerate(zip(marks, stanzas)):
        wrong = {4: mark not in POSTMARKS, 5: is_problem and mark == "preamble" and at > 0, 6: at > end}
        yield from ((stanza.line, kind) for kind, is_so in wrong.items() if is_so)
        if mark == "package" and at < end:
            yield from package_faults(stanza, declared, pairs, is_problem)
        elif not any(wrong.values()):
            yield from other_faults(stanza, is_problem)
    if is_problem and "request" not in marks:
        yield max(lines, 1), 13


def faults_of(data, is_problem, is_strict=False, others=()):
    """The errors of a problem or a solution; a solution that says FAIL has at most E1.

    `others` has what the problem of a solution declares, by name.
    """
    at = utf8_error(data)
    if at is not None:
        return {(1 + data.count(b"\n", 0, at), 1)}
    if not is_problem and says_fail(data.decode()):
        return set()
    left_out = () if is_strict else STRICT_KINDS if is_problem else (8, *STRICT_KINDS)
    return {fault for fault in faults_in(data.decode(), is_problem, others) if fault[1] not in left_out}


def says_fail(text):
    first = next((line for line in lines_of(text) if line_class(line) not in ("comment", "blank")), "")
    return first.strip(BLANKS) == "FAIL"


def cut_joined(data):
    """The problem and the solution of one input."""
    end, has_request = 0, False
    for line in re.findall(rb"[^\n]*\n|[^\n]+", data):
        end += len(line)
        if has_request and line.removesuffix(b"\n").removesuffix(b"\r").strip(b" \t") == b"":
            return data[:end], data[end:]
        has_request = has_request or line.startswith(b"request:")
    return data, b""
