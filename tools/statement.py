#!/usr/bin/env python3
"""Computes what a reader has to believe: the files of definitions on which the headline rests.

The headline is the contract of `run`, a public function of the crate `cudf_check`, with three laws. It rests on

- the files of the definitions that these contracts name, and that the types of their signatures name, in the members of
  a trait and in the contracts of a type's own methods;
- what a type shows to contracts, even a private one: the ghost fields of its declaration, its views (`impl Model`), and
  the same of the types of its fields;
- the files that the `use` lines of these files name, and so on.

The program has to call `run`. No other public function of `cudf_check` may write; what `cudf_device` has to write with,
the program may not use. Only the two functions of `Steps` that set a count have a proof written by hand: with a further one
a count could be set back. The standard library and the crates from outside are believed as they are.

Of these files a command needs the definitions that the contracts name, and those that these name: of equations by the
job, those of its own. The exact texts of `cnf` and `refute` aren't counted, as the headline says what they mean; nor is
which calls are made, a promise of its own.

    statement.py           prints the files in reading order, and for each command the lines of definitions that it needs,
                           with and without what `--explain` and `-H` change; compares these with docs/PROOFS.md
    statement.py COMMAND   prints the definitions that the command needs
    statement.py --write   writes the table of docs/PROOFS.md anew

Status 1: the table isn't what was computed, the headline rests on a file that is for proofs alone, the program calls
another function, or there is a further proof by hand. 2: something can't be read or found.
"""
import functools
import re
import sys
from pathlib import Path

ROOT = Path(__file__).resolve().parent.parent
CRATES, PROOFS = ROOT / "crates", ROOT / "docs/PROOFS.md"
TABLE = re.compile(r"(?<=<!-- statement: written by tools/statement.py -->\n).*?(?=<!-- end of statement -->)", re.S)

# our crates, the lowest first, and those from outside
LIBRARIES = [line.split(":") for line in (ROOT / "crates.txt").read_text().splitlines() if line[:1].isalpha()]
ORDER = [crate.split()[0] for crate, _ in LIBRARIES]
OUTSIDE = {"std", "core"}.union(*(below.split() for _, below in LIBRARIES)).difference(ORDER)

# the function that carries the headline, and the laws with the commands that need them
ENTRY = "run"
LAWS = {"ascending": {"check", "all"}, "empty": {"check", "refute", "all"}}
# what isn't followed: exact texts, which calls are made, and without `--explain` and `-H` the style that these ask for, by
# a law of cudf_check
TEXTS, STYLE, PLAIN = {"cnf_answer", "cnf_better", "refute_answer", "refute_better"}, "style_of", "plain"
CALLS = {"StopsInTime", "StopsWriting", "IsStopped", "LeavesBehind"}
# and what a text means, of commands of which the headline says the text
MEANINGS, MEANT = {"Means"}, {"cnf", "refute", "all"}
PROOFS_BY_HAND = {f"crates/cudf_index/proofs/steps/mark/GhostNumber/{name}/Proof.antt" for name in ("grow", "new")}

# a whole `use`, to the end of the line, or of the line on which its braces end; and the two forms that are read
USE = re.compile(r"^[^\S\n]*(?:pub(?:\([^)]*\))?\s+)?(?:ghost\s+)?use\b(?:\{[^}]*\}|[^\n{])*", re.M)
NAMES = r"(?:%s\{([^{}]*)\}|\s+as\s+(\w+))?\s*"
DEFINITIONS = re.compile(r"\s*(?:pub\s+)?(?:ghost\s+)?use\s+Rattle\.(\w+(?:\.\w+)*)" + NAMES % r"\." + r";?\s*")
ITEMS = re.compile(r"\s*(?:pub(?:\([^)]*\))?\s+)?use\s+(\w+(?:::\w+)*)" + NAMES % "::" + r";\s*")
NAME = re.compile(r"\s*(?!\*(?:\s|$))(\S+)(?:\s+as\s+(\S+))?\s*")
# comments; the strings and characters of Rust are found too, as the group, and kept
COMMENTS = {".rt": re.compile(r"""("(?:\\.|[^"\\])*"|'(?:\\.|[^'\\\n])')|//[^\n]*""", re.S),
            ".antt": re.compile(r"()(?:^|(?<=\s))--[^\n]*", re.M)}
# the brace that opens a clause, or else the body; ghost fields and members, but invariants, which contracts don't see
BRACE = re.compile(r"(?:\b((?:requires|ensures)\b\*?(?:\s+\w+)?|ghost\s+\w+:))?\s*\{")
GHOST = r"\bghost (?!use\b|invariant\b)\w+\s*[:=]"
# the heads of a type's declaration, of its views, and of its own methods
TYPE = r"^ *(?:pub(?:\([^)]*\))? +)?(trait|struct|enum|union|type) +%s\b"
VIEW = r"^ *impl(?:<[^{]*?>)? (?:[\w:]+::)?Model for (?:[\w:]+::)?%s\b[^{]*\{"
OWN = r"^impl(?:<[^{]*?>)? %s\b[^{]*\{"
# the head of a definition, a constructor, and the words of a definition
HEAD = re.compile(r"(?:(?:pub|abbrev|unfoldable|opaque|data|record)\s+)+([^\s:(){}]+)")
CONSTRUCTOR = re.compile(r"  (\S+) :")
WORD = re.compile(r"[^\s(){}\[\];,]+")
# the jobs of each command
JOBS = "cudf_job.specs.declared.job.Job.TheVariants"
COMMANDS = {"lint": {"Lint"}, "check": {"Check"}, "score": {"Score"}, "rank": {"Rank"}, "cnf": {"Cnf", "CnfBetter"},
            "refute": {"Refute", "RefuteBetter"}}
COMMANDS["all"] = set().union(*COMMANDS.values())
# names that every file has without a `use`
PRELUDE = set("Self Option Some None Result Ok Err Vec Box String Copy Clone Drop Fn FnMut FnOnce Sized Send Sync "
              "Iterator PartialEq Eq PartialOrd Ord Default From Into".split())


class Fault(Exception):
    """A status and a message: 1 if the headline isn't what the program does, 2 if the sources can't be read."""


@functools.cache
def code_of(path):
    """A file's text without comments."""
    return COMMENTS[path.suffix].sub(r"\1", path.read_text())


def blocks(text, head):
    """The parts of a text that begin with such a head, each to the brace that closes its first one."""
    return [block_from(text, found.start()) for found in re.finditer(head, text, re.M)]


def block_from(text, start):
    """The text from `start` to the brace that closes the first one after it."""
    depth = 0
    for place in range(text.index("{", start), len(text)):
        depth += {"{": 1, "}": -1}.get(text[place], 0)
        if depth == 0:
            return text[start:place + 1]
    raise Fault(2, "a brace isn't closed")


@functools.cache
def uses_in(path):
    """The modules of definitions that a file uses, each with its names and what they stand for there; its items, by their
    names; and its other text."""
    modules, items, text = [], {}, code_of(path)
    for line in USE.findall(text):
        found = DEFINITIONS.fullmatch(line) or ITEMS.fullmatch(line)
        above, listed, alias = found.groups() if found else ("", "*", None)
        names = [NAME.fullmatch(name) for name in (listed or "").split(",") if name.strip()]
        if not all(names):
            raise Fault(2, f"{path.relative_to(ROOT)}: can't read `{' '.join(line.split())}`")
        pairs = [name.groups() for name in names] if listed is not None else [("self", alias)]
        last = re.split(r"\.|::", above)[-1]
        named = {other or (last if name == "self" else name): name for name, other in pairs}
        if found.re is DEFINITIONS:
            modules.append((above, named))
        else:
            items |= {name: above if item == "self" else f"{above}::{item}" for name, item in named.items()}
    rest = USE.sub("", text)
    if re.search(r"\bRattle\.", rest):
        raise Fault(2, f"{path.relative_to(ROOT)}: a definition is named by its whole path, and not by a `use`")
    return modules, items, rest


def uses_of(path, within=None):
    """The definitions that a file uses, each with its module, "self" for all; with `within`, those that this text names."""
    def is_named(name):
        return within is None or "◌" in name or re.search(rf"(?<![\w'-]){re.escape(name)}(?![\w'-])", within)
    return [(module, item) for module, names in uses_in(path)[0] for name, item in names.items() if is_named(name)]


@functools.cache
def sources(crate):
    """The files of src/; tests say nothing to contracts."""
    files = sorted((CRATES / crate / "src").rglob("*.rt"))
    return [path for path in files if "tests" not in path.parts and path.name != "tests.rt"]


def contract_at(text, start):
    """The signature and the clauses of the function that begins at `start`, without its body."""
    brace = BRACE.search(text, start)
    while brace and brace[1]:
        brace = BRACE.search(text, brace.end() + len(block_from(text, brace.end() - 1)) - 1)
    if brace is None:
        raise Fault(2, "a function without a body")
    return text[start:brace.start()]


def contract_of(crate, name):
    """The file of `run`, or of a law in the module `laws`, and its signature and clauses."""
    head = rf"^{'' if name == ENTRY else '    '}pub fn {name}\b"
    found = [(path, begin.start()) for path in sources(crate) for begin in re.finditer(head, code_of(path), re.M)]
    if len(found) != 1:
        raise Fault(2, f"`pub fn {name}` isn't found once in crates/{crate}/src")
    path, start = found[0]
    return path, contract_at(code_of(path), start)


def check_entry():
    """No other public function of cudf_check but `run` takes something to write to."""
    for path in sources("cudf_check"):
        for begin in re.finditer(r"^( *)pub fn (\w+)", code_of(path), re.M):
            indent, name = begin.groups()
            writes = re.search(r"\b(?:Sink|Write)\b", contract_at(code_of(path), begin.start()))
            if writes and (indent or name != ENTRY):
                raise Fault(1, f"`{name}` of {path.relative_to(ROOT)} writes beside `{ENTRY}`")


def check_program():
    """The program calls `run`, no other function of cudf_check, and nothing of cudf_device, which writes too."""
    called = False
    for path in sources("cudf_program"):
        _, items, rest = uses_in(path)
        names = {name: item for name, item in items.items() if item.split("::")[0] in ("cudf_check", "cudf_device")}
        names |= {item: item for item in re.findall(r"\bcudf_(?:check|device)(?:::\w+)+", rest)}
        for name, item in names.items():
            is_type = item.startswith("cudf_check::") and not item.islower()
            if not is_type and item != f"cudf_check::{ENTRY}":
                raise Fault(1, f"the program uses `{item}`, which doesn't carry the headline")
            is_call = re.search(rf"(?<![\w.:]){name}\s*(?:::\s*<|\()", rest)
            called = called or item == f"cudf_check::{ENTRY}" and is_call is not None
    if not called:
        raise Fault(1, f"the program doesn't call `{ENTRY}` of cudf_check")


def check_proofs_by_hand():
    """Counts that contracts see are set by the functions of PROOFS_BY_HAND alone."""
    found = {str(path.relative_to(ROOT)) for path in CRATES.glob("*/proofs/**/Proof.antt")}
    for path in sorted(found - PROOFS_BY_HAND):
        raise Fault(1, f"{path}: a further proof by hand, which could set a count of steps")
    for path in sorted(PROOFS_BY_HAND - found):
        raise Fault(2, f"{path}: the proof by hand isn't found")


def declaration_of(path, name):
    """The kind of a type that a file declares, and the text that declares it; None where it doesn't."""
    text = code_of(path)
    begin = re.search(TYPE % name, text, re.M)
    if begin is None:
        return None
    end = re.search(r"[{;]", text[begin.end():])
    if end is None:
        raise Fault(2, f"the declaration of {name} has no end")
    is_block = end[0] == "{"
    return begin[1], block_from(text, begin.start()) if is_block else text[begin.start():begin.end() + end.end()]


def types_in_fields(name, kind, declared):
    """The names of types in the fields of a declaration, without its parameters and its variants."""
    for ghost in blocks(declared, GHOST):
        declared = declared.replace(ghost, "")
    _, text = re.split(rf"\b{name}\b", re.sub(r"#\[[^\]]*\]", "", declared), 1)
    parameters = re.match(r"\s*(?:<[^{(=]*>)?", text)[0]
    fields = text.removeprefix(parameters)
    if kind == "enum":
        fields = re.sub(r"^ {4}[A-Z]\w*", "", fields, flags=re.M)
    if re.search(r"::\s*[A-Z]", fields):
        raise Fault(2, f"a field of {name} names its type by a path, and not by a `use`")
    words = dict.fromkeys(re.findall(r"(?<![\w'])[A-Z]\w*", fields))
    return [word for word in words if not re.search(rf"\b{word}\b", parameters)]


def place_of(crate, path, name):
    """Where a type that a file names is declared; None where it isn't in one of our crates."""
    if declaration_of(path, name):
        return crate, path, name
    item = uses_in(path)[1].get(name)
    if item is None and name not in PRELUDE:
        raise Fault(2, f"can't find the type `{name}`, which a type of crates/{crate} names")
    first = item.split("::")[0] if item else "std"
    if first in OUTSIDE:
        return None
    if first not in (*ORDER, "crate", "self", "super", *(path.stem for path in sources(crate))):
        raise Fault(2, f"can't find `{item}`, which crates/{crate} uses")
    crate, name = first if first in ORDER else crate, item.split("::")[-1]
    files, library = [path for path in sources(crate) if declaration_of(path, name)], CRATES / crate / "src/lib.rt"
    # a lib.rt may take it from another crate
    if not files and uses_in(library)[1].get(name, "").split("::")[0] in ORDER:
        return place_of(crate, library, name)
    if len(files) != 1:
        raise Fault(2, f"the type `{name}` is declared in {len(files)} files of crates/{crate}/src")
    return crate, files[0], name


def shown_by(place, seen):
    """The definitions on which what a type shows rests: ghost fields, views, and the same of the types of its fields."""
    if place is None or place in seen:
        return []
    seen.add(place)
    crate, path, name = place
    kind, declared = declaration_of(path, name)
    found = uses_of(path, "\n".join(blocks(declared, GHOST)))
    for file in sources(crate):
        for view in blocks(code_of(file), VIEW % name):
            found += uses_of(file, "\n".join(blocks(view, GHOST)))
    for field in types_in_fields(name, kind, declared) if kind != "trait" else ():
        found += shown_by(place_of(crate, path, field), seen)
    return found


def signature_uses(crate, path, contract):
    """The definitions on which the traits and types that a signature names rest."""
    head = re.split(r"\b(?:requires|ensures)\b", contract)[0]
    parameters = re.findall(r"[<,]\s*([A-Z]\w*)\s*:", head)
    found, seen = [], set()
    for word in dict.fromkeys(re.findall(r"\b[A-Z]\w*", head)):
        place = place_of(crate, path, word) if word not in parameters else None
        if place:
            _, file, name = place
            texts = [declaration_of(file, name)[1]]
            for own in blocks(code_of(file), OWN % name):
                texts += [contract_at(own, begin.start()) for begin in re.finditer(r"^ *pub fn ", own, re.M)]
            found += uses_of(file, USE.sub("", "\n".join(texts))) + shown_by(place, seen)
    return found


@functools.cache
def declared_uses(module):
    """The definitions on which a type of src/ rests, by its module in `specs.declared`."""
    crate, _, _, *path = module.removesuffix(".TheVariants").split(".")
    if not (CRATES / crate).is_dir():
        return []
    source = (CRATES / crate / "src").joinpath(*(path[:-1] or ["lib"])).with_suffix(".rt")
    if not path or not source.is_file() or declaration_of(source, path[-1]) is None:
        raise Fault(2, f"can't find the type Rattle.{module} in crates/{crate}/src")
    return shown_by((crate, source, path[-1]), set())


def below(uses):
    """The definitions of our crates that these are, or on which declared types rest: each a file and a name."""
    found = []
    for module, name in uses:
        is_declared = module.split(".")[1:3] == ["specs", "declared"]
        for further, item in declared_uses(module) if is_declared else [(module, name)]:
            crate, *parts = further.split(".")
            if (CRATES / crate).is_dir() and parts[:2] != ["specs", "declared"]:
                found.append(((CRATES / crate).joinpath(*parts).with_suffix(".antt"), item))
    if missing := [path for path, _ in found if not path.is_file()]:
        raise Fault(2, f"{missing[0].relative_to(ROOT)} isn't there")
    return list(dict.fromkeys(found))


def roots(command="all", is_plain=True):
    """The definitions that the contract of `run`, and those of the laws that a command needs, name."""
    names = [("cudf_check", ENTRY), *[("cudf_referee", law) for law in LAWS if command in LAWS[law]]]
    contracts = [(crate, *contract_of(crate, name)) for crate, name in names + [("cudf_check", PLAIN)] * is_plain]
    return below(use for crate, path, contract in contracts
                 for use in uses_of(path, contract) + signature_uses(crate, path, contract))


def files_below(uses):
    """The files on which definitions rest: the highest crate first, and each file before those that it uses."""
    files, seen = [], set()

    def visit(path):
        if path not in seen:
            seen.add(path)
            for further, _ in reversed(below(uses_of(path))):
                visit(further)
            files.append(path)

    for path, _ in reversed(uses):
        visit(path)
    return sorted(reversed(files), key=lambda path: -ORDER.index(path.relative_to(CRATES).parts[0]))


@functools.cache
def definitions_in(path):
    """The definitions of a file, each with its lines and the comment above it, and the definition of each constructor."""
    lines, made, name, above = {}, {}, None, []
    for line in USE.sub("", path.read_text()).splitlines():
        if not line or line.startswith("--"):
            above = [*above, line] if line else []
            continue
        head, constructor = HEAD.match(line), CONSTRUCTOR.match(line)
        if head:
            name, is_data = head[1], " data " in f" {line}"
        elif name is None:
            raise Fault(2, f"{path.relative_to(ROOT)}: can't read `{line.strip()}`")
        elif constructor and is_data:
            made[constructor[1]] = name
        lines.setdefault(name, []).extend([*above, line])
        above = []
    return lines, made


def is_code(line):
    return not line.lstrip().startswith("--")


def said_of(path, name, jobs):
    """The lines of a definition without the equations of other jobs."""
    variants = {word: item for module, names in uses_in(path)[0] if module == JOBS for word, item in names.items()}
    found, is_said = [], True
    for line in definitions_in(path)[0][name]:
        if not line[0].isspace() and is_code(line):
            named = {variants[word] for word in WORD.findall(line.partition(" = ")[0]) if word in variants}
            is_said = not named or " = " not in line or not named.isdisjoint(jobs)
        if is_said:
            found.append(line)
    return tuple(found)


@functools.cache
def used_by(path, lines):
    """The definitions that these lines name."""
    (own, made), found = definitions_in(path), []
    code = re.sub(r'"(?:\\.|[^"\\])*"', "", COMMENTS[".antt"].sub("", "\n".join(lines)))
    for first, *rest in (word.split(".") for word in WORD.findall(code)):
        if first in own or first in made:
            found.append((path, made.get(first, first)))
        uses = [(module, names[first]) for module, names in uses_in(path)[0] if first in names]
        found += below((module, item if item != "self" else (rest or ["self"])[0]) for module, item in uses)
    return found


def needed(command, is_plain=False):
    """What a reader of the headline needs for a command, or for one without options: each definition's lines, by files."""
    jobs, left, found = COMMANDS[command], roots(command, is_plain), {}
    left_out = TEXTS | CALLS | ({STYLE} if is_plain else set()) | (MEANINGS if command not in MEANT else set())
    while left:
        path, name = left.pop()
        lines, made = definitions_in(path)
        if name == "self":
            left += [(path, every) for every in lines]
            continue
        name = made.get(name, name)
        if name not in lines:
            raise Fault(2, f"can't find `{name}` in {path.relative_to(ROOT)}")
        if name not in left_out and name not in found.setdefault(path, {}):
            found[path][name] = said_of(path, name, jobs)
            left += used_by(path, found[path][name])
    return {path: {name: found[path][name] for name in definitions_in(path)[0] if name in found[path]}
            for path in files_below(list(dict.fromkeys((path, "") for path in found))) if found.get(path)}


def lines_in(definitions):
    """How many lines of code these are."""
    return sum(sum(map(is_code, lines)) for names in definitions.values() for lines in names.values())


def differences(given, computed):
    """How the table of docs/PROOFS.md differs from the computed one, a line each."""
    found = [f"docs/PROOFS.md lacks `{line.strip()}`" for line in computed if line not in given]
    found += [f"docs/PROOFS.md has `{line.strip()}`, which isn't computed" for line in given if line not in computed]
    return found + ["the table isn't as computed: `tools/statement.py --write` writes it anew"] * (given != computed)


def main(arguments):
    command = arguments[0] if arguments and arguments[0] in COMMANDS else None
    if arguments not in ([], ["--write"], [command]):
        raise Fault(2, f"usage: statement.py [--write | {' | '.join(COMMANDS)}]")
    files = files_below(roots())
    check_entry()
    check_program()
    check_proofs_by_hand()
    working = [path for path in files if {"Working", "proofs"} & set(path.relative_to(CRATES).parts)]
    if working:
        raise Fault(1, f"the headline rests on {', '.join(str(path.relative_to(ROOT)) for path in working)}: for proofs alone")
    faults = []
    if command:
        definitions = needed(command)
        for path, names in definitions.items():
            print(f"-- {path.relative_to(ROOT)}\n", *("\n".join(lines) + "\n" for lines in names.values()), sep="\n")
        print(f"-- {lines_in(definitions)} lines")
    rows = [f"{lines_in(needed(one)):5} {lines_in(needed(one, True)):5}  {one}" for one in COMMANDS]
    computed = ["```", *rows, "```"]
    page = PROOFS.read_text()
    if len(TABLE.findall(page)) != 1:
        raise Fault(2, "docs/PROOFS.md needs the lines around its table once")
    if arguments == ["--write"]:
        PROOFS.write_text(TABLE.sub(lambda _: "".join(line + "\n" for line in computed), page))
    elif not command:
        faults += differences(TABLE.search(page)[0].splitlines(), computed)
        print(*(path.relative_to(ROOT) for path in files), *rows, sep="\n")
    for fault in faults:
        print(f"statement: {fault}", file=sys.stderr)
    return 1 if faults else 0


if __name__ == "__main__":
    try:
        sys.exit(main(sys.argv[1:]))
    except Fault as fault:
        status, message = fault.args
        print(f"statement: {message}", file=sys.stderr)
        sys.exit(status)
