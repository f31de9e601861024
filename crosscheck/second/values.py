"""CUDF values and declarations, read as docs/FORMAT.md defines them. Python's standard library alone.

What reads a type returns None for a text that is not of it.
"""
import re
import sys
from collections import namedtuple

sys.set_int_max_str_digits(0)

BLANKS = " \t"
GREATEST = 2**64 - 1
PKGNAME = re.compile(r"[A-Za-z0-9+\-./@()%_:~]+")
IDENT = re.compile(r"[A-Za-z][A-Za-z0-9_-]*")
OPERATORS = {"=": int.__eq__, "!=": int.__ne__, ">=": int.__ge__, ">": int.__gt__, "<=": int.__le__, "<": int.__lt__}
VPKG = re.compile(rf"({PKGNAME.pattern})[ \t]*(?:({'|'.join(OPERATORS)})(.*))?")
QUOTED = r'"(?:[^"\\]|\\["\\])*"'
Type = namedtuple("Type", "word read idents", defaults=[()])
# the default is without brackets, or None
Declaration = namedtuple("Declaration", "name type default", defaults=[None])


def read_number(text, least, greatest=GREATEST, signs="+"):
    text = text.strip(BLANKS)
    is_fine = re.fullmatch(f"[{signs}]?[0-9]+", text) and least <= int(text) <= greatest
    return int(text) if is_fine else None


def read_posint(text):
    return read_number(text, 1)


def trimmed(is_fine):
    """What reads a trimmed text that passes a test."""
    return lambda text: text.strip(BLANKS) if is_fine(text.strip(BLANKS)) else None


read_constant = trimmed(("true!", "false!").__contains__)


def read_vpkg(text):
    """The name, and the operator with its number, or None without these."""
    found = VPKG.fullmatch(text.strip(BLANKS))
    if not found:
        return None
    name, operator, digits = found.groups()
    if operator is None:
        return name, None
    number = read_posint(digits)
    return None if number is None else (name, (operator, number))


def read_veqpkg(text):
    vpkg = read_vpkg(text)
    return vpkg if vpkg and (vpkg[1] is None or vpkg[1][0] == "=") else None


def read_clause(text):
    """The atoms, a constant as its text."""
    atoms = tuple(read_constant(piece) or read_vpkg(piece) for piece in text.split("|"))
    return None if None in atoms else atoms


def list_of(read):
    def read_list(text):
        entries = tuple(map(read, text.split(","))) if text.strip(BLANKS) else ()
        return None if None in entries else entries
    return read_list


ENTRIES = {"vpkgformula": read_clause, "vpkglist": read_vpkg, "veqpkglist": read_veqpkg}
READERS = {
    "posint": read_posint, "nat": lambda text: read_number(text, 0),
    "int": lambda text: read_number(text, -(2**63), 2**63 - 1, "+-"), "bool": trimmed(("true", "false").__contains__),
    "string": str, "pkgname": trimmed(PKGNAME.fullmatch), "ident": trimmed(IDENT.fullmatch), "vpkg": read_vpkg,
    "veqpkg": read_veqpkg, **{word: list_of(read) for word, read in ENTRIES.items()},
}
read_formula, read_vpkglist, read_veqpkglist = (READERS[word] for word in ENTRIES)
TYPES = {word: Type(word, read) for word, read in READERS.items()}
# what a package may have without a declaration
PROPERTIES = {
    "package": TYPES["pkgname"], "version": TYPES["posint"], "depends": TYPES["vpkgformula"],
    "conflicts": TYPES["vpkglist"], "provides": TYPES["veqpkglist"], "installed": TYPES["bool"],
    "was-installed": TYPES["string"],
    "keep": Type("enum", trimmed(("version", "package", "feature", "none").__contains__)),
}
RESERVED = (*PROPERTIES, "preamble", "request")


def cut_declarations(text):
    """The pieces between commas outside quotes and brackets, or None if these are invalid."""
    parts, pieces, is_inside = re.findall(QUOTED + r'|[^"]', text), [""], False
    if "".join(parts) != text:
        return None
    for part in parts:
        if part == ("[" if is_inside else "]"):
            return None
        is_inside = part == "[" or is_inside and part != "]"
        if part == "," and not is_inside:
            pieces.append("")
        else:
            pieces[-1] += part
    return None if is_inside else pieces


def read_type(text):
    """The type at the beginning of a text, and the rest; or None."""
    word = re.match("[A-Za-z]*", text).group()
    if word in TYPES:
        return TYPES[word], text[len(word):]
    choice = re.match(r"enum[ \t]*\[([^\]]*)\]", text)
    idents = tuple(map(READERS["ident"], choice[1].split(","))) if choice else (None,)
    return None if None in idents else (Type("enum", trimmed(idents.__contains__), idents), text[choice.end():])


def read_default(text, kind):
    """The default without its brackets, or None if it is not of the type."""
    text = text.strip(BLANKS)
    if len(text) > 1 and text[0] == "[" and text[-1] == "]":
        text = text[1:-1].strip(BLANKS)
    if text.startswith('"'):
        is_fine = re.fullmatch(QUOTED, text) and (kind.word == "string" or text[1:-1] in kind.idents)
    else:
        is_fine = '"' not in text and kind.read(text) is not None
    return text if is_fine else None


def read_declaration(piece):
    head = re.match(rf"[ \t]*({IDENT.pattern})[ \t]*:[ \t]*", piece)
    read = head and read_type(piece[head.end():])
    if not read:
        return None
    kind, rest = read[0], read[1].strip(BLANKS)
    if rest == "":
        return Declaration(head[1], kind)
    default = read_default(rest[1:], kind) if rest[0] == "=" else None
    return None if default is None else Declaration(head[1], kind, default)


def read_declarations(text, before):
    """What a value declares, by name, and the place of its first invalid piece.

    The place is None if all are valid, and 0 if the value can't be cut. `before` has the names of earlier values.
    """
    declared, pieces = {}, cut_declarations(text) if text.strip(BLANKS) else []
    for place, piece in enumerate(pieces or (), 1):
        read = read_declaration(piece)
        if not read or any(read.name in names for names in (RESERVED, before, declared)):
            return {}, place
        declared[read.name] = read
    return declared, 0 if pieces is None else None
