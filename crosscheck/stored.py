#!/usr/bin/env python3
"""Compares rows and vectors worked out by hand with the second implementation and, if it is named, with the program.

usage: stored.py [PROGRAM]

Both are data of cudf_rows. Of the vectors the program is given the keys and the lists of criteria. Then shown.txt is
compared with the pages, the data and the tests.
"""
import os
import re
import sys
from collections import namedtuple

from common import EMPTY, ROOT, lines_of, read, run, section, sections, start, unescaped, write
from second import calls, documents, keys, reports

SHOWN = "crosscheck/shown.txt"
NAMED = "--with-filename"
COMMENT = b"\n#" + b"." * 2000
# the report is its lines
Row = namedtuple("Row", "name job problem solutions report status")


# ---- the data


def lines_below(path):
    """The head and the lines of each section, without a blank line at the end."""
    for head, text in sections(path):
        *lines, last = text.removesuffix("\n").split("\n")
        yield head, [*lines, last] if last else lines


def bytes_of(text):
    """The bytes of a text, in which `{0d}` is that byte."""
    return re.sub(rb"\{([0-9a-f]{2})\}", lambda found: bytes.fromhex(found[1].decode()), text.encode())


def document_of(lines, before):
    """The bytes of lines of data: `..` is the problem of the row before, and `{}` leaves out a line's end."""
    found = b""
    for line in lines:
        if pair := re.fullmatch(r"<(\S+) (\S+)>", line):
            found += f"package: {pair[1]}\nversion: {pair[2]}\ninstalled: true\n".encode()
        else:
            end = b"" if line.endswith("{}") else b"\n"
            found += before if line == ".." else bytes_of(line.removesuffix("{}")) + end
    return found


def stored_rows():
    """The rows of the data with their answers."""
    problem = b""
    *answers, _example = lines_below("crates/cudf_rows/stdout")
    for (head, lines), (answer, report) in zip(lines_below("crates/cudf_rows/stdin"), answers, strict=True):
        (name, job), (answered, status) = head.rsplit(": ", 1), answer.rsplit(": ", 1)
        if answered != name:
            raise ValueError(f"{name} is answered as {answered}")
        parts = [[]]
        for line in lines:
            if line == "--":
                parts.append([])
            else:
                parts[-1].append(line)
        problem, *solutions = [document_of(part, problem) for part in parts]
        yield Row(name, job, problem, tuple(solutions), report, int(status))


def stored_vectors():
    """The line, the call, the bytes and the answer of each, which are what is before the rows."""
    files = (read(f"crates/cudf_rows/{name}") for name in ("stdin", "stdout"))
    asked, answered = (text.partition("\n== ")[0].removesuffix("\n").split("\n") for text in files)
    for number, (line, answer) in enumerate(zip(asked, answered, strict=True), 1):
        if line and not line.startswith("#"):
            call, _, text = line.partition(" ")
            yield number, call, bytes_of(text.replace("¶", "\n")), answer
        elif line != answer:
            raise ValueError(f"line {number} of stdin is its own answer")


def every_vector():
    more = re.findall(r"(\w+) (.*) -> (.*)\n", section("vectors.txt", "vectors"))
    return *stored_vectors(), *((0, call, unescaped(text), answer) for call, text, answer in more)


# ---- what both answer


def second_answer(job, problem, solutions):
    command, *words = job.split()
    is_strict, explains = "--strict" in words, "--explain" in words
    given = dict(re.findall(r"--(after|limit|criteria)=(\S+)", job))
    if command == "lint":
        answer = reports.lint(problem, is_strict, explains)
    elif command == "rank":
        answer = reports.rank(given["criteria"], problem, solutions, is_strict)
    else:
        second = reports.Second(problem, *solutions, is_strict) if solutions else reports.joined(problem, is_strict)
        answer = second.score(given.get("criteria")) if command == "score" else second.check(**given, explains=explains)
    if NAMED not in words:
        return answer
    if solutions:
        return reports.named(answer, "P", *(f"S{place}" for place in range(1, len(solutions) + 1)))
    return reports.named_joined(answer, "P", problem)


def program_answer(trial, job, problem, solutions):
    """The problem is standard input, unless file names are printed."""
    command, *options = job.split()
    names, first, data = [f"S{place}" for place in range(1, len(solutions) + 1)], "-", problem
    if NAMED in options:
        first, data = "P", b""
    for name, text in zip(["P", *names], [problem, *solutions]):
        write(trial.folder, name, text)
    ran = run([trial.program, command, first, *names, *options], data, cwd=trial.folder)
    return lines_of(ran.output), ran.status


def answered_rows(trial):
    """Rows, if their job says so also with a long comment, by both implementations."""
    for row in stored_rows():
        job = re.sub(" --also-[a-z]+", "", row.job)
        for problem in [row.problem, row.problem + COMMENT] if "--also-long" in row.job else [row.problem]:
            yield f"second, {row.name}", second_answer(job, problem, row.solutions), (row.report, row.status)
            if trial.program:
                yield row.name, program_answer(trial, job, problem, row.solutions), (row.report, row.status)


def answered_vectors(_):
    last = None
    for number, call, data, wanted in every_vector():
        last = data if call == "problem" else last
        yield f"vector {number}: {call} {data}", calls.answer(call, data, last), wanted
    parsed = list(map(keys.parse, section("vectors.txt", "keys in order").split()))
    yield "keys in order", parsed, sorted(key for key in parsed if key)


def arguments(trial):
    """Keys and lists, by the program; a problem without packages violates nothing, and its counts are 0."""
    for _, call, data, answer in every_vector():
        if call in ("key", "criterion"):
            text, lines = data.decode(), []
            words = ["check", "-", "--after", text]
            if call == "criterion":
                words, lines = ["score", "-", f"--criteria={text}"], [f"{aim} 0" for aim in text.split(",")]
            wanted = ([], reports.USAGE) if answer.startswith("not a ") else ([*lines, "solution yes"], reports.YES)
            yield words, trial.answer(words, EMPTY), wanted


# ---- what is shown by which vectors, rows and tests


def value_pattern(row):
    """A call that reads one of these types, or asks whether a text is of it."""
    types = row.replace("[a,b]", "").replace(", ", "|")
    return rf"^({types.replace('vpkgformula', 'formula')}) |^fits ({types})\b"


def key_pattern(row):
    """A key of one of these forms, of which later ones may be only ends."""
    first, *others = row.split(", ")
    forms = [first] + [first.rsplit(".", 1)[0] + other if other.startswith(".") else other for other in others]
    patterns = [re.sub(r"\\\.[ik]\b", r"\\.[0-9]+", re.escape(form)).replace("N", "[0-9]+") for form in forms]
    return f"^key .* -> ({'|'.join(patterns)})$"


def property_pattern(row):
    """A document with a property of this name, or with a declaration."""
    name = "property" if row == "a declared name" else row
    return rf"^(strict_)?(fault|problem|solution) (.*\n)?{name}:"


def aim_pattern(row):
    return "^criterion .* -> " + ("not a list$" if row == "no list" else rf".*[-+]{row}\b")


DECLARATIONS = {
    "quotes and brackets": r'^declarations .*["[\]].* -> ', "a declaration": "^declarations ",
    "a default": "^declarations .*=.* -> ", "a name declared once": f"^(strict_)?fault .*{documents.KINDS[10]}$",
}
LINES = "docs/FORMAT.md: Lines"
# by section and row, what is found in a vector that shows it, written as CALL TEXT -> ANSWER
PATTERNS = {
    "calls": "^{} ".format, "docs/FORMAT.md: Values": value_pattern, "in words: Declarations": DECLARATIONS.get,
    "docs/FORMAT.md: Properties of packages": property_pattern, "docs/FORMAT.md: Keys": key_pattern,
    "docs/FORMAT.md: Errors": lambda row: f": {row} {documents.KINDS[int(row[1:])]}$",
    "in words: Lists of criteria": aim_pattern,
}


def is_shown(head, row, call, data, answer):
    """Whether a vector shows a row of a section: a text of UTF-8 shows the classes of its lines."""
    if head == LINES:
        classes = map(documents.line_class, documents.lines_of(data.decode("latin-1")))
        return call == "text" and not answer.endswith(documents.KINDS[1]) and row in classes
    return re.search(PATTERNS[head](row), f"{call} {data.decode('latin-1')} -> {answer}", re.DOTALL) is not None


def table_cells(page, heading):
    """The first cell of each line of the tables below a heading."""
    below = re.search(rf"^#+ {re.escape(heading)}\n(.*?)(?=^#|\Z)", read(page), re.MULTILINE | re.DOTALL)
    for block in re.findall(r"^\|.*\n\|[-| ]+\n((?:\|.*\n?)+)", below[1] if below else "", re.MULTILINE):
        yield from (line.split(" | ")[0].removeprefix("| ") for line in block.splitlines())


def is_test(text):
    """Whether `FILE NAME` is a test or what makes rows in a script, or `FILE NAME [ROWS]` a table of tests in use."""
    path, name, count = (text.split(" ") + ["", ""])[:3]
    source = read(path) if os.path.isfile(os.path.join(ROOT, path)) else ""
    if name.islower():
        return (f"def {name}(" if path.endswith(".py") else f"#[test]\nfn {name}(") in source
    found = re.search(rf"^const {name}: (?:\[.*; ([0-9]+)\]|&str) =", source, re.MULTILINE)
    return found is not None and len(re.findall(rf"\b{name}\b", source)) > 1 and count in ("", found[1])


def section_rows(head, lines, names, vectors):
    shown, (page, _, heading) = dict(line.split(" -> ") for line in lines), head.partition(": ")
    there = {"calls": [call for _, call, _, _ in vectors], "in words": shown}.get(page) or table_cells(page, heading)
    yield f"{SHOWN}, {head}", set(shown), set(there)
    for cell, text in shown.items():
        items = text.split("; ")
        if head in (LINES, *PATTERNS):
            count = sum(is_shown(head, cell.replace("`", ""), *vector[1:]) for vector in vectors)
            yield f"{SHOWN}, {head}: {cell}", items.pop(0), f"{count or 'more'} vectors"
        yield f"{head}, {cell}: no rows or tests", [it for it in items if it not in names and not is_test(it)], []


def shown(_):
    """The list beside the pages, the data and the tests."""
    names, vectors, found = [row.name for row in stored_rows()], list(stored_vectors()), dict(lines_below(SHOWN))
    yield "names of several rows", [name for name in names if names.count(name) > 1], []
    yield f"{SHOWN}, worked examples", [it for it in found.pop("worked examples") if it not in names and not is_test(it)], []
    yield f"sections that {SHOWN} lacks", {LINES, *PATTERNS} - found.keys(), set()
    for head, lines in found.items():
        yield from section_rows(head, lines, names, vectors)


if __name__ == "__main__":
    tests = (answered_rows, answered_vectors, shown)
    start(__doc__, *tests, *[arguments] * (len(sys.argv) == 2), counts=(0, 1))
