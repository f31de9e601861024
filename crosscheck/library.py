#!/usr/bin/env python3
"""Tries the library for C: by the callers in embedding/, and beside the program.

usage: library.py PROGRAM LIBRARY_FOLDER

LIBRARY_FOLDER has libcudf_check.a and libcudf_check.so.1.

- The examples in C, C++, Python and OCaml print embedding/expected.txt, and docs/EMBEDDING.md shows parts of them. Each
  caller reports wrong words, and documents that are too long.
- python.txt: the values that Python gives, its errors, and its forms of documents.
- 500 random problems with solutions and proofs, by all commands: through C and Python the status and the report or message
  are the program's, Python's values say the same, and for a wrong key or list Python raises the program's text.
- calls.txt: what no command line can ask for; null pointers; buffers of each length; each growth of memory refused.
- The header's numbers are its version's.
- A report of a million lines, which takes no memory; 10,000 calls by eight threads, also under sanitizers.

What needs a tool that isn't installed is left out. For Linux and glibc.
"""
import dataclasses
import doctest
import importlib
import os
import random
import re
import shutil
import sys

import common
from better import random_question
from calls import (
    BETTER, CALLS, DOCUMENTS, FAIL, FAULTY, GREATEST, MEMORY, NO, REFUSED, USAGE, YES, Request, answers, table,
)
from common import DONE, ROOT, contents, read, write
from common import run_alike as run
from inputs import Inputs
from memory import in_turn
from refutations import Small, spoilt
from shim import Shim
from second.cnf import Rules
from second.lrat import Prover

STATIC, SHARED = "libcudf_check.a", "libcudf_check.so.1"
EXAMPLE, MISUSED = contents("embedding/expected.txt"), b"4error:" * 3 + b"555"
WARNINGS = "-O1 -Wall -Wextra -pedantic -Werror"
OCAML = (
    "-w +a-4-9-40..42-70 -warn-error +a -ccopt -Wall -ccopt -Wextra -ccopt -Werror -I ocaml "
    "ocaml/cudf_check_stubs.c ocaml/cudf_check.mli ocaml/cudf_check.ml"
)
IN_C = {"c/example.c": EXAMPLE}
IN_CPP = {"cpp/example.cpp": EXAMPLE, "misuse.cpp": MISUSED}
IN_OCAML = {"ocaml/example.ml": EXAMPLE, "misuse.ml": MISUSED}
# compilers with their words for the archive and for the shared library, and programs with what they print
COMPILED = (
    ("gcc", f"{WARNINGS} -std=c99", f"{WARNINGS} -std=c2x", IN_C),
    ("clang", f"{WARNINGS} -std=c99", f"{WARNINGS} -std=c2x", IN_C),
    ("g++", f"{WARNINGS} -std=c++17", f"{WARNINGS} -std=c++20", IN_CPP),
    ("clang++", f"{WARNINGS} -std=c++17", f"{WARNINGS} -std=c++20", IN_CPP),
    ("ocamlopt", OCAML, OCAML, IN_OCAML),
    ("ocamlc", f"-custom {OCAML}", f"-custom {OCAML}", IN_OCAML),
)
CC = "gcc" if shutil.which("gcc") else "clang"
PAIRS, THREADS, TURNS, SOME, SMALL_STACK = 500, 8, 10_000, 60, 128 << 10
# sanitizers with what they print of wrong.c
SANITIZERS = {"address": b"LeakSanitizer: detected memory leaks", "thread": b"ThreadSanitizer: data race"}


def kinds(trial):
    """What links to each of the library's files."""
    (library,) = trial.more
    return ("static", [f"{library}/{STATIC}"]), ("shared", [f"{library}/{SHARED}", f"-Wl,-rpath,{library}"])


def compiled(trial):
    """The callers of compiled languages. OCaml's compilers write beside their sources, so all are copied."""
    folder = shutil.copytree(f"{ROOT}/embedding", trial.place("embedding"))
    for name in ("misuse.cpp", "misuse.ml"):
        shutil.copy(f"{ROOT}/crosscheck/{name}", folder)
    for compiler, *words, sources in COMPILED:
        if not trial.has("examples", compiler):
            continue
        for (kind, linked), options in zip(kinds(trial), words):
            if compiler.startswith("ocaml"):
                linked = [word for file in linked for word in ("-cclib", file)]
            for source, printed in sources.items():
                built = [compiler, *options.split(), source, *linked, "-o", "example"]
                yield f"{compiler} {source}, {kind}", run(built, folder, CPATH=f"{ROOT}/include:cpp"), DONE
                yield f"{source} by {compiler}, {kind}", run(["./example"], folder), (0, printed, b"")


def shown(trial):
    """The example in Python, which finds the library by its file or name; what docs/EMBEDDING.md shows; the version."""
    (library,) = trial.more
    numbers = re.findall(r"^#define CUDF_CHECK_VERSION\w* \"?([\d.]+)", read("include/cudf_check.h"), re.M)
    yield "the header's version", int(numbers[1]), int("".join(f"{int(part):02}" for part in numbers[0].split(".")))
    for how in ({"CUDF_CHECK_LIBRARY": f"{library}/{SHARED}"}, {"LD_LIBRARY_PATH": library}):
        printed = run([sys.executable, f"{ROOT}/embedding/python/example.py"], trial.folder, **how)
        yield f"example.py, {how}", printed, (0, EXAMPLE, b"")
    ends = {"c": "c", "cpp": "cpp", "python": "py", "ocaml": "ml"}
    blocks = re.findall(r"^```(\w+)\n((?:.*\n)*?)```$", read("docs/EMBEDDING.md"), re.M)
    yield "docs/EMBEDDING.md: languages", [language for language, _ in blocks], list(ends)
    for language, block in blocks:
        example = read(f"embedding/{language}/example.{ends[language]}")
        yield f"docs/EMBEDDING.md, {language}", block in example or block, True


def python_module(trial):
    """The module of embedding/python, which calls the library that is tried."""
    os.environ["CUDF_CHECK_LIBRARY"] = f"{trial.more[0]}/{SHARED}"
    sys.path.insert(0, f"{ROOT}/embedding/python")
    return importlib.import_module("cudf_check")


def python(trial):
    """The examples of python.txt."""
    module = python_module(trial)
    names = {**vars(module), **DOCUMENTS, "cudf_check": module, "contents": contents, "folder": trial.folder}
    runner = doctest.DocTestRunner(optionflags=doctest.ELLIPSIS)
    for example in doctest.DocTestParser().get_examples(read("crosscheck/python.txt")):
        wrong, test = [], doctest.DocTest([example], names, "python.txt", "python.txt", 0, None)
        runner.run(test, out=wrong.append, clear_globs=False)
        names = test.globs
        yield f"python.txt: {example.source}", "".join(wrong), ""


def arguments(words):
    """The words as a command line has them: a null pointer is an empty word."""
    return [b"" if isinstance(word, tuple) else word for word in words]


def asked(trial, request):
    """The request with the files as names, and the program's status and what it prints. A null pointer is an empty file."""
    texts = [text if isinstance(text, bytes) else b"" for text in request.texts]
    files = [write(trial.folder, f"text{at}", text) for at, text in enumerate(texts)]
    status, report, message = run([trial.program, *arguments(request.words(files))])
    names = tuple(map(str.encode, files)) if b"-H" in request.more else request.names
    return dataclasses.replace(request, names=names), status, message if status == USAGE else report


def refused(trial, request):
    """The program's message for the words that the library makes of a request, or None if one can't be an argument."""
    names = [*request.names, *[b""] * (len(request.texts) - len(request.names))]
    names = names[:-1] if request.is_better() else names
    words = [request.call] * bool(request.call) + request.options() + [b"--"] * bool(names) + names
    if any(b"\0" in word for word in words if isinstance(word, bytes)):
        return None
    # a message may have the name by which the program was called
    status, _, message = common.run(
        ["cudf_check", *arguments(words)], cwd=ROOT, env=common.ENVIRONMENT, executable=trial.program)
    return message if status == USAGE else b""


def random_requests(number):
    """What is asked of one random problem and its solutions, and of a small problem and a proof, whole or changed."""
    inputs, chance = Inputs(f"embedding/{number}"), random.Random(f"embedding/{number}")
    pairs = inputs.pairs()
    problem, solutions = inputs.problem(pairs), inputs.solutions(pairs)
    pair, strict = (problem, solutions[0]), inputs.now_and_then(0.5)
    key = (inputs.odd_key() if inputs.now_and_then(0.4) else inputs.key()).encode()
    limit, other_limit = inputs.pick((0, 1, 2, 3, GREATEST)), inputs.pick((1, 1, 2, 5))
    small = Small(chance).problem(5)
    rules = Rules(small.decode())
    proof = Prover(len(rules.packages), [clause for _, clause in rules.clauses]).text()
    proof = proof if chance.random() < 0.7 else spoilt(chance, proof or b"1 0 0\n")
    for call, texts, *more in (
        ("lint", (problem,)), ("check", pair), ("check", pair, b"", other_limit), ("check", pair, key, limit),
        ("refute", (problem, proof)), ("refute", (small, proof)),
    ):
        yield Request(call, texts, *more, strict=strict)
        yield Request(call, texts, *more, strict=strict, explain=True)
    # an empty list is none
    for call, texts, *more in (("lint", (problem,)), ("check", pair), ("score", pair), ("rank", pair, b"-new")):
        yield Request(call, texts, *more, strict=strict, more=(b"-H",))
    for call, texts, *more in (
        ("score", pair), ("score", pair, inputs.aims().encode()),
        ("rank", (problem, *solutions), inputs.aims().encode() or b"-new"), ("cnf", (problem,)), ("cnf", (small,)),
    ):
        yield Request(call, texts, *more, strict=strict)
    # what is better than one of these, and than a solution of another problem, with a proof if nothing is
    question = random_question(None, chance, 5)
    other, answer, aims = question.texts
    cases = [(pair, proof, inputs.aims().encode()), ((other, answer), inputs.proof(question), aims.encode())]
    for (given, answer), shown, listed in cases:
        for call, texts in (("cnf", (given, answer)), ("refute", (given, shown, answer))):
            yield Request(call, texts, listed, strict=strict, more=(BETTER + b"answer",))


def beside(trial):
    """Random calls: the library through Python and through C beside the program."""
    module, rows = python_module(trial), []
    for number in range(1, PAIRS + 1):
        for request in random_requests(number):
            rows.append((f"pair {number}: {request}", *asked(trial, request)))
            if not request.more or request.is_better():
                yield from through_python(module, *rows[-1])
    statuses = {status for *_, status, _ in rows}
    yield "statuses that never came", {YES, NO, FAULTY, FAIL, USAGE} - statuses, set()
    if trial.has("calls through C", CC):
        yield from through_drivers(trial, rows)


def through_python(module, name, request, status, report):
    """What Python gives; for a wrong key or list that is the program's error."""
    problem, *others = request.texts
    others = [others] if request.call == "rank" else others
    values = {**vars(request), "word": request.word.decode() or None, "limit": request.limit or None}
    better = {"better_than": others.pop(), "criteria": values["word"]} if request.is_better() else {}
    try:
        answer = getattr(module, request.call)(problem, *others, *(values[it] for it in CALLS[request.call]), **better)
        lines = "".join(f"{line}\n" for line in lines_of(request, answer))
    except ValueError as error:
        wanted = report.decode().partition("\n\nUsage: ")[0]
        yield f"Python, {name}", (type(error), f"error: {error}"), (ValueError, wanted)
    else:
        yield f"Python, {name}", (answer.status, answer.report.encode()), (status, report)
        yield f"Python's values, {name}", lines, report.decode()


def text_of(it):
    """The text of an error or a violation, with what is added to it."""
    return it.text if it.added is None else f"{it.text}; {it.added}"


def violation_of(it):
    """The line of a violation, or only its key if that isn't made of its parts."""
    key = ".".join([it.part, it.rule, str(it.place)] + [it.aspect] * bool(it.aspect))
    subject = f" {it.name} {it.version}" if it.name else ""
    return f"{key}{subject} line {it.line}: {text_of(it)}" if key == it.key else it.key


def lines_of(request, answer):
    """The lines of a report, made of the values that Python gives."""
    call, fault, proof_fault = request.call, answer.fault, getattr(answer, "proof_fault", None)
    if fault:
        whose = fault.whose if fault.place is None else f"{fault.whose} {fault.place}"
        yield f"{whose} line {fault.line}: {fault.kind} {text_of(fault)}"
    elif proof_fault:
        yield f"proof line {proof_fault.line}: {proof_fault.kind} {text_of(proof_fault)}"
    elif call == "lint":
        yield "problem ok"
    elif call in ("cnf", "refute") and answer.verdict:
        yield f"solution {answer.verdict}"
    elif call == "cnf":
        # the variables after the packages are all in clauses
        variables = max([len(answer.packages), *(abs(literal) for clause in answer.clauses for literal in clause)])
        yield from (f"c p{place} {name} {version}" for place, (name, version) in enumerate(answer.packages, 1))
        yield f"p cnf {variables} {len(answer.clauses)}"
        yield from (" ".join(map(str, (*clause, 0))) for clause in answer.clauses)
    elif call == "refute" and request.is_better():
        yield from [f"{aim} {count}" for aim, count in answer.counts] + ["no better solution exists"]
    elif call == "refute":
        yield from [violation_of(reason) for reason in answer.reasons] + ["no solution exists"]
    elif call == "rank":
        for it in answer.ranks:
            counts = "".join(f" {aim} {count}" for aim, count in it.counts)
            yield f"{it.rank} solution {it.place} {it.verdict}{counts}"
    elif call == "check":
        yield from map(violation_of, answer.violations)
        yield from [f"more after {answer.more_after}"] * bool(answer.more_after)
    elif request.word and answer.counts:
        yield from (f"{aim} {answer.counts[aim[1:]]}" for aim in request.word.decode().split(","))
    else:
        yield from (f"{name} {count}" for name, count in answer.counts.items())
        yield from (" ".join(map(str, (track, *numbers))) for track, numbers in answer.vectors.items())
    if not fault and call in ("check", "score"):
        yield f"solution {answer.verdict}"


def through_drivers(trial, rows):
    """The random calls and those of calls.txt through C."""
    drivers, random_rows = [], []
    for kind, words in kinds(trial):
        path = yield from driver(trial, kind, *words)
        drivers.append(path)
    for at, (name, request, status, report) in enumerate(rows):
        room = (len(report) + 100, len(report) + 1, len(report), max(0, len(report) - 1), len(report) // 2)[at % 5]
        random_rows.append((f"C, {name}", dataclasses.replace(request, room=room), status, report))
    null, usual = (
        [(name, *asked(trial, request)) for name, request in table(title)]
        for title in ("with null pointers", "with each buffer and each growth")
    )
    cut = [
        (f"{name}, cut at {room}", dataclasses.replace(request, room=max(room, 0), is_null=room < 0), status, report)
        for name, request, status, report in usual for room in range(-1, len(report) + 2)
    ]
    told = [
        (name, request, status, report or refused(trial, request) if status == USAGE else report)
        for name, request, status, report in table("with reports")
    ]
    yield from through_c(trial, drivers[0], random_rows)
    for path in drivers:
        yield from through_c(trial, path, [*told, *null, *cut])
    yield from without_room(trial, drivers[0])
    if trial.has("refused growths", "gcc"):
        yield from refused_growths(trial, drivers[0], usual)
    yield from at_once(trial, drivers[0], random_rows)


def driver(trial, name, *words):
    """Builds library.c with these words; returns its path."""
    path = trial.place(f"driver-{name}")
    built = [CC, "-std=c99", *WARNINGS.split(), "-pthread", "-Iinclude", "crosscheck/library.c", *words, "-o", path]
    yield f"building the driver, {name}", run(built), DONE
    return path


def requests_of(trial, rows):
    """A file of requests for the driver."""
    return write(trial.folder, "requests", b"".join(request.written() for _, request, *_ in rows))


def through_c(trial, path, rows):
    """Makes calls: rows of a name, a request, and the status and the report that are wanted."""
    status, output, errors = run([path, requests_of(trial, rows)])
    yield f"{path}: its end", (status, errors), (0, b"")
    given = list(answers(output))
    yield f"{path}: answers", len(given), len(rows)
    for (name, request, status, report), left in zip(rows, given):
        if report is None:
            yield name, left[0], status
        else:
            yield name, left, request.left(status, report)


def without_room(trial, path):
    """A report of a million lines that has room for 100 bytes or none takes no more memory than one of a line."""
    count, line = 1_000_000, b"p1.depends.%d a 1 line 1: needs b\n"
    problem = b"package: a\nversion: 1\ndepends: " + b", ".join([b"b"] * count) + b"\ninstalled: true\n\nrequest:\n"
    solution = b"package: a\nversion: 1\ninstalled: true\n"
    lines = b"".join(line % place for place in range(1, count + 1)) + b"solution no\n"
    page = line % 1 + b"more after p1.depends.1\nsolution no\n"
    used = []
    for limit, is_null, report in ((1, False, page), (0, False, lines), (0, True, lines)):
        request = Request("check", (problem, solution), limit=limit, room=100, is_null=is_null)
        status, output, most = run([path, requests_of(trial, [("", request)]), "peak"])
        used.append(int(most) if status == 0 else 0)
        yield f"a report of {len(report)} bytes", (status, list(answers(output))), (0, [request.left(NO, report)])
    yield f"memory for a long report, in KB: {used}", max(used) - used[0] < 1024, True


def refused_growths(trial, path, rows):
    """Each growth of memory in a call refused, alone and with all later ones: status 6, and nothing is written."""
    shim = Shim(trial.folder)
    for name, request, *report in rows:
        right, refused, in_call = request.left(*report), request.left(MEMORY, b""), 0
        words = [path, requests_of(trial, [(name, request)])]
        for growth, later, (status, output, _, marks) in in_turn(shim, words):
            is_refused = b"g" in marks
            if is_refused and status == REFUSED:
                continue
            in_call += is_refused
            left = list(answers(output))
            # where memory that was to be given back is refused, the report is right as well
            wanted = refused if is_refused or marks and left == [refused] else right
            yield f"{name}, growth {growth}, later {later}", (status, left), (0, [wanted])
        yield f"{name}: whether a growth in the call was refused", in_call > 0, True


def at_once(trial, path, rows):
    """Calls by threads give the answers of one thread: with small stacks, and under sanitizers, which print nothing."""
    drivers = [(path, SMALL_STACK)]
    for flag, message in SANITIZERS.items():
        words, wrong = ["-g", f"-fsanitize={flag}"], trial.place(f"wrong-{flag}")
        run([CC, *words, "-pthread", "crosscheck/wrong.c", "-o", wrong])
        if message in run([wrong])[2]:
            path = yield from driver(trial, flag, *words, *kinds(trial)[0][1])
            drivers.append((path, 0))
        else:
            print(f"left out: calls at once, -fsanitize={flag}: it doesn't report a wrong program here")
    requests = requests_of(trial, rows[:: len(rows) // SOME])
    for path, stack in drivers:
        given = run([path, requests, str(THREADS), str(TURNS), str(stack)])
        yield f"{TURNS} calls by {THREADS} threads, {path}", given, (0, b"0\n", b"")


if __name__ == "__main__":
    common.start(__doc__, compiled, shown, python, beside, counts=[2], files=2)
