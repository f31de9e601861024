"""Answers to vectors, in the words of crates/cudf_rows. Python's standard library alone."""
from functools import partial

from second import documents, values
from second.criteria import read_list
from second.judge import installed
from second.keys import parse
from second.universe import Problem, clause_text, meeting, numbers, satisfies_clause, vpkg_text


def written(data):
    """Bytes as an answer has them."""
    plain = {byte: chr(byte) for byte in range(32, 127) if byte != ord("{")} | {10: "¶"}
    return "".join(plain.get(byte, f"{{{byte:02x}}}") for byte in data)


def yes_if(is_so):
    return "yes" if is_so else "no"


def listed(entries, show=str):
    return f"[{', '.join(map(show, entries))}]"


vpkgs, clauses = partial(listed, show=vpkg_text), partial(listed, show=clause_text)


def typed(word, show=str):
    """What shows the value of a text of this type."""
    read = values.READERS[word]
    return lambda text: "not of the type" if read(text) is None else show(read(text))


def declarations(text):
    """The names, types and defaults; those of several values are not compared."""
    pieces, shown = values.cut_declarations(text) if text.strip(values.BLANKS) else [], []
    for read in [None] if pieces is None else map(values.read_declaration, pieces):
        if read is None:
            return "bad declaration"
        idents = listed(read.type.idents) if read.type.idents else ""
        default = "" if read.default is None else f" = <{read.default}>"
        shown.append(f"{read.name}: {read.type.word}{idents}{default}")
    return f"[{'; '.join(shown)}]"


def fits(text):
    """Whether the text after a type is of it."""
    word, _, value = text.partition(" ")
    kind, rest = values.read_type(word)
    return yes_if(rest == "" and kind.read(value) is not None)


def meets(text):
    """Whether a number is within the bound of a vpkg."""
    number, _, vpkg = text.partition(" ")
    bound = values.read_vpkg(vpkg)[1]
    return yes_if(bound is None or values.OPERATORS[bound[0]](int(number), bound[1]))


OF_TEXT = {
    "posint": typed("posint"), "nat": typed("nat"), "int": typed("int"), "bool": typed("bool"),
    "vpkg": typed("vpkg", vpkg_text), "veqpkg": typed("veqpkg", vpkg_text), "vpkglist": typed("vpkglist", vpkgs),
    "veqpkglist": typed("veqpkglist", vpkgs), "formula": typed("vpkgformula", clauses), "meets": meets, "fits": fits,
    "ident": lambda text: yes_if(values.IDENT.fullmatch(text)),
    "pkgname": lambda text: yes_if(values.PKGNAME.fullmatch(text)),
    "declarations": declarations, "key": lambda text: text if parse(text) else "not a key",
    "criterion": lambda text: listed(read_list(text), "".join) if read_list(text) else "not a list",
    "fail": lambda text: yes_if(documents.says_fail(text)),
}


def error(faults):
    line, kind = min(faults, default=(0, 0))
    return f"line {line}: E{kind} {documents.KINDS[kind]}" if faults else "no fault"


def text(data):
    """The stanzas; a value that is no part of one of its lines was joined."""
    if documents.utf8_error(data) is not None:
        return error(documents.faults_of(data, is_problem=True))
    (stanzas, fault, count), shown = documents.read_stanzas(data.decode()), []
    lines = documents.lines_of(data.decode())
    for stanza in stanzas:
        properties = [f"{stanza.line} to {stanza.last}"]
        for number, name, value in stanza.properties:
            is_whole = any(value in line for line in lines[number - 1:stanza.last])
            properties.append(f"{number} {name} <{written(value.encode())}>" + ("" if is_whole else " joined"))
        shown.append(listed(properties))
    return " ".join([f"{count} lines", *shown] + ([error([fault])] if fault else []))


def package(it, own, declaration):
    """A package. Of a declared formula `recommends` it is shown whether it is its own."""
    shown = f"{it.line} {it.words()}" + (f" depends {clauses(it.depends)}" if it.depends else "")
    for name, entries in (("conflicts", it.conflicts), ("provides", it.provides)):
        shown += f" {name} {vpkgs(entries)}" if entries else ""
    shown += " installed" * it.installed + ("" if it.keep == "none" else f" keep {it.keep}")
    if declaration and declaration.type.word == "vpkgformula":
        recommends = f" recommends {clauses(it.recommends)}"
        shown += f" says{recommends}" if own is not None else ""
        shown += recommends if own is not None or declaration.default is not None else ""
    return shown


def problem(data):
    """A problem, or its first error."""
    if faults := documents.faults_of(data, is_problem=True):
        return error(faults)
    stanzas, read = documents.read_stanzas(data.decode())[0], Problem(data.decode())
    declared = documents.declared_by(stanzas).get("recommends")
    own = [stanza.value("recommends") for stanza in stanzas if stanza.mark() == "package"]
    shown = [package(it, said, declared) for it, said in zip(read.packages, own)]
    wished = "".join(f" {name} {vpkgs(entries)}" for name, entries in read.request.wished.items() if entries)
    return "; ".join([*shown, f"{read.request.line} request{wished}"])


OF_BYTES = {
    "text": text, "problem": problem,
    "joined": lambda data: "".join(f"<{written(part)}>" for part in documents.cut_joined(data)),
    "fault": lambda data: error(documents.faults_of(data, is_problem=True)),
    "strict_fault": lambda data: error(documents.faults_of(data, is_problem=True, is_strict=True)),
}


def solution(data, asked, is_strict=False):
    if faults := documents.faults_of(data, False, is_strict, asked.declared):
        return error(faults)
    status, unknown = installed(asked, data.decode())
    shown = [f"{place} line {line}: {name} {version}" for place, line, name, version in unknown]
    return f"installs {listed(it.place for it in status)}, unknown {listed(shown)}"


def satisfied(data, asked):
    """By which package a vpkg is satisfied before, and by which but the first."""
    ways = asked.initial, [it for it in asked.initial if it.place != 1]
    met = [meeting(status, values.read_vpkg(data.decode())) for status in ways]
    return ", without 1 ".join(f"yes by {it.place}" if it else "no" for it in met)


def numbers_of(data, asked):
    given = numbers(asked.initial, data.decode())
    return f"{min(given)} to {max(given)}" if given else "none"


OF_PROBLEM = {
    "solution": solution, "strict_solution": lambda data, asked: solution(data, asked, is_strict=True),
    "satisfied": satisfied, "numbers": numbers_of,
    "initial": lambda data, asked: listed(it.place for it in asked.initial),
    "clause": lambda data, asked: yes_if(satisfies_clause(asked.initial, values.read_clause(data.decode()))),
}


def answer(call, data, last):
    """The answer to a call, of which some are about the last problem."""
    if call in OF_TEXT:
        return OF_TEXT[call](data.decode())
    return OF_BYTES[call](data) if call in OF_BYTES else OF_PROBLEM[call](data, Problem(last.decode()))
