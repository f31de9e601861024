#!/usr/bin/env python3
"""Runs the program with too little memory, and on large inputs.

usage: memory.py PROGRAM [TESTS]

- A device that never ends, for which 600 MB are enough; a stack of 128 KB; limits of memory from 4 MB to 512 MB, each a
  tenth above the one before: the answer, or status 6 and nothing.
- By shim.c each growth of memory (a call of malloc, calloc or realloc) is refused in turn, alone and with all later
  ones, in each command of refused.txt: status 6, nothing on standard output, no read after it, and the message that
  says if a file had been opened. The answer may be right if memory was to be given back, or if arguments are invalid.
  Once files are open there are at most as many growths as refused.txt says, and a tenth more: nothing is built twice,
  or in vain.
- The inputs of growth.txt, in a size and in twice that, with a stack of 128 KB: the whole answer. At most are wanted
  - growths: one for each byte of the input, and 500; for twice the input 2.2 times as many, and 500
  - bytes held at once: 64 for each byte of the input, or 4 after an error, and 1 MB; none at the end
  - reads: of a file one for each 65,536 bytes, of a pipe that gives a byte at a time one for each byte, and 8
  - processor time: for twice the input 3 times, where a square takes 4; the least of three runs of both in turn, and the
    middle of further rounds where that is too much
- Inputs of 268,435,456 bytes, with 3 bytes of memory for each byte and 1 MB; and of one byte more, which is too long.
- Each place in the sources that makes an AllocError, and doesn't pass one on, has a reason in MADE.
- TESTS is the executable of the tests of cudf_tests (`rt test` leaves it in out/). Its tests in `memory` make calls
  that take memory, and say where one answered that a growth was refused: each is refused as above. At their ends they
  hold no more blocks than `memory::none`, which takes no memory, and passes with every growth refused.

What was measured is printed. A row is also each run in which a growth was refused or none was left. Without gcc what
needs shim.c is left out. For Linux and glibc.
"""
import contextlib
import errno
import glob
import itertools
import os
import re
import resource
import shutil
import signal
import subprocess
import time

import made
import shim
from commands import GREATEST_INPUT, TABLE
from common import ROOT, Ran, limit, run, short, start
from refutations import SHOP, SHOP_CORE, SHOP_PROOF

MEGABYTE, GREATEST_MEMORY = 1 << 20, 600 << 20
SMALL_STACK = limit(resource.RLIMIT_STACK, 128 << 10)
INVALID_ARGUMENTS, UNREAD, NO_MEMORY = 4, 5, 6
NOT_LOADED = (127, -signal.SIGKILL, "OSError")
NO_ROOM, NO_ROOM_FOR_ARGUMENTS, UNMET = map(TABLE.said, ("{no room}", "{no room for words}", "{unmet}"))

# ---- where the sources say that a growth was refused

TESTS = f"{ROOT}/crates/cudf_tests/src/*.rt"
UNDONE = "a growth was refused; what was half added is taken out"
MANY_STEPS = "the clauses and steps are 4294967295; these take some 100 GB"
MADE = [
    ("cudf_better/src/constraint.rt", "a clause of a variable that isn't there: never"),
    ("cudf_better/src/items.rt", UNDONE),
    ("cudf_check/src/judging.rt", "a growth was refused; the error is of another type"),
    ("cudf_cnf/src/clauses.rt", UNDONE),
    ("cudf_command_line/src/usage.rt", "the parser said so"),
    ("cudf_lrat/src/checker.rt", MANY_STEPS),
    ("cudf_lrat/src/cnf.rt", UNDONE),
    ("cudf_lrat/src/cnf.rt", "the clauses are 4294967295; callers count them before"),
    ("cudf_lrat/src/steps.rt", MANY_STEPS),
]


def made_errors(trial):
    found = []
    for path in sorted(set(glob.glob(f"{ROOT}/crates/*/src/**/*.rt", recursive=True)).difference(glob.glob(TESTS))):
        with open(path, encoding="utf-8") as file:
            made_here = re.findall(r"(?:Err|ReadError::Memory)\(AllocError\)", file.read())
        found += [os.path.relpath(path, f"{ROOT}/crates")] * len(made_here)
    trial.same("where an AllocError is made", found, [path for path, _ in MADE])


# ---- growths that are refused

READING = "commands that read files"
NONE, IN_CALL = "memory::none", b"refused in the call"
# calls in the log; memory was asked for, or was to be given back
MARKS = {"open": "o", "read": "r", "grow": "g", "shrink": "b"}


def refuse(shimmed, words, number, later):
    """The status and both outputs where a growth is refused, and marks of the calls, which are none where none was."""
    refused = shim.rule("memory", "heap", -errno.ENOMEM, number, shim.EVER if later == "1" else number)
    ran, calls, _ = shimmed.run(words, refused, seconds=60)
    # of the files that are opened those of the command alone
    marks = "".join(MARKS.get(it.call, "") for it in calls if it.call != "open" or it.name in words)
    return (*ran, marks.encode() if "g" in marks or "b" in marks else b"")


def in_turn(shimmed, words):
    """The runs of a command: each growth, with `0` where it alone is refused, and last the run in which none is."""
    for number in itertools.count(1):
        for later in "01":
            ended = refuse(shimmed, words, number, later)
            yield number, later, ended
            if not ended[3]:
                return


def refuse_each(trial, name, words, is_refused, is_right):
    """Each run has to end as refused, or with the right answer. Returns the messages of those that were refused, and the
    number of growths once a file was open."""
    messages, growths = set(), 0
    for number, later, ended in in_turn(trial.shim, words):
        refused = bool(ended[3]) and is_refused(ended)
        messages |= {ended[2].decode()} if refused else set()
        growths += later == "0" and has_opened(ended[3])
        trial.same(f"{name}: growth {number}, later ones {later}", refused or is_right(ended, later) or ended, True)
    print(f"{name}: {number - 1} growths, {growths} once a file was open")
    return messages, growths


def has_opened(marks):
    """Whether a file was opened before the first growth that was refused."""
    return b"o" in re.split(b"[gb]", marks)[0]


def is_refused(ended, reads_files):
    """Whether a run ended as it has to where memory is refused."""
    status, output, errors, marks = ended
    messages = [NO_ROOM] * reads_files + [NO_ROOM_FOR_ARGUMENTS]
    if has_opened(marks):
        messages = [NO_ROOM]
    reads_on = b"r" in marks.partition(b"g")[2]
    return (status, output) == (NO_MEMORY, b"") and errors.decode() in messages and not reads_on


def is_right(ended, later, usual):
    """Whether a run gave its usual answer, and may."""
    # arguments are invalid whether or not words like them are found for the message
    is_needless = b"g" not in ended[3] or later == "0" and usual.status == INVALID_ARGUMENTS
    return is_needless and ended[:3] == usual


def refused_commands(trial, case):
    reads_files, inputs = case.name == READING, made.Made(case, case.size)
    for command in case.commands:
        words = [trial.program, *inputs.job(command).words]
        usual, calls, _ = trial.shim.run(words)
        has_read = any(it.call == "read" and it.name in words for it in calls)
        trial.same(f"{command.words}: with memory", (usual.status, has_read), (command.status, reads_files))
        messages, growths = refuse_each(
            trial, command.words, words, lambda ended: is_refused(ended, reads_files),
            lambda ended, later: is_right(ended, later, usual),
        )
        trial.same(f"{command.words}: messages", messages, {NO_ROOM_FOR_ARGUMENTS, *[NO_ROOM] * reads_files})
        most = 1.1 * int(inputs.text_of(command.report[0]))
        trial.same(f"{command.words}: at most {most:.0f} growths", growths <= most or growths, True)


def refused_calls(trial):
    """Growths in calls of the library, and the blocks that these hold at their end."""
    (tests,) = trial.more
    listed = run([tests, "--list"]).decoded().output.split()
    names = sorted({name.rstrip(":") for name in listed if name.startswith("memory::")})
    trial.same("there are tests", NONE in names and len(names) > 1, True)
    trial.same(f"{NONE} with every growth refused", refuse(trial.shim, [tests, NONE], 1, "1")[0], 0)
    least = trial.shim.run([tests, NONE])[2].blocks
    for name in names:
        ran, _, counts = trial.shim.run([tests, name])
        trial.same(f"{name}: status and blocks", (ran.status, max(counts.blocks, least)), (0, least))
        refuse_each(
            trial, name, [tests, name], lambda ended: IN_CALL in ended[2],
            lambda ended, later: ended[0] == 0 and b"g" not in ended[3],
        )


# ---- limits


def endless(trial):
    """A device that never ends is too long."""
    for words in ("lint /dev/zero", "check /dev/zero", "check S /dev/zero", "check /dev/zero S"):
        trial.same(words, trial.run(words), (UNREAD, "", TABLE.said("{too long: /dev/zero}")))
    most = 1024 * resource.getrusage(resource.RUSAGE_CHILDREN).ru_maxrss
    trial.same("memory of the greatest run", most < GREATEST_MEMORY or most, True)


def limits(trial):
    """Limits of the stack and of memory. A run under whose limit the program can't be loaded says nothing."""
    long = made.job("packages without what they need", 20_000)
    explained = made.job("packages without what they need, for some of which other ones would do", 10_000)
    for words, *wanted in (
        (long.words, *long.wanted[:2]), (explained.words, *explained.wanted[:2]), ("judge", INVALID_ARGUMENTS, ""),
        (["lint", long.words[1]], 0, "problem ok\n"), ("check car-and-wheel.cudf", 1, UNMET),
    ):
        trial.same(f"{words}: a small stack", [*trial.run(words, before=SMALL_STACK)[:2]], wanted)
        amount, has_answered = 4 * MEGABYTE, False
        while amount < 512 * MEGABYTE:
            status, output, _ = trial.run(words, before=limit(resource.RLIMIT_AS, amount))
            if output or status not in NOT_LOADED:
                given = wanted if status != NO_MEMORY else [NO_MEMORY, ""]
                trial.same(f"{words}: {amount} bytes of memory", [status, output], given)
            has_answered |= [status, output] == wanted
            amount += amount // 10
        trial.same(f"{words}: there is an answer", has_answered, True)


# ---- large inputs

CHUNK = 65_536
BYTES_PER_BYTE, GREATEST_BYTES_PER_BYTE, MORE_BYTES = 64, 3, MEGABYTE
MORE_GROWTHS, MORE_READS = 500, 8
GROWTHS_DOUBLED, TIME_DOUBLED = 2.2, 3.0
# other programs disturb measures: a ratio that is too great is measured again, after a pause twice as long each time
TURNS, ROUNDS, PAUSE = 3, 9, 0.1
# what the greatest input G begins and ends with, in a command with the small one S or the problem P, and the report
GREATEST = (
    ("lint G", "request:\n#", "", "problem ok\n"), ("check G", "request:\n#", "", "solution yes\n"),
    ("check G S", "request:\n#", "", "solution yes\n"), ("check S G", "request:\n#", "", "solution yes\n"),
    ("refute P G", "c ", "\n" + SHOP_PROOF, SHOP_CORE),
)


@contextlib.contextmanager
def standard_input(job):
    """What a job is given at standard input: nothing, or a pipe of which each read gives one byte."""
    if job.source is None:
        yield subprocess.DEVNULL
        return
    reader, writer = os.pipe2(os.O_DIRECT | os.O_CLOEXEC)
    giver = subprocess.Popen(["dd", "bs=1", "if=" + job.source], stdout=writer, stderr=subprocess.DEVNULL)
    os.close(writer)
    yield reader
    os.close(reader)
    giver.wait()


def seconds_of(trial, job):
    """The processor time of a run."""
    with standard_input(job) as source:
        before = resource.getrusage(resource.RUSAGE_CHILDREN)
        trial.run(job.words, stdin=source)
        after = resource.getrusage(resource.RUSAGE_CHILDREN)
    return after.ru_utime + after.ru_stime - before.ru_utime - before.ru_stime


def doubled(trial, jobs):
    """The middle of the ratios of the time for twice the input to that for the input, each of one round, and the least time."""
    ratios, least = [], float("inf")
    for turn in range(ROUNDS):
        times = zip(*[[seconds_of(trial, job) for job in jobs] for _ in range(TURNS)])
        one, two = map(min, times)
        ratios, least = sorted([*ratios, two / max(one, 1e-4)]), min(least, two)
        if ratios[len(ratios) // 2] <= TIME_DOUBLED:
            break
        time.sleep(PAUSE * 2**turn)
    return ratios[len(ratios) // 2], least


def excesses(counts, job, most):
    """What is too much, where each byte of the input may take so many bytes of memory."""
    size, given = sum(job.sizes), counts._asdict()
    reads = MORE_READS + (size if job.source else sum(one // CHUNK + 1 for one in job.sizes))
    bounds = {"growths": size + MORE_GROWTHS, "peak": most * size + MORE_BYTES, "blocks": 0, "reads": reads}
    errors = [f"{name} {given[name]}, at most {bound}" for name, bound in bounds.items() if given[name] > bound]
    return errors + [f"{counts.given} bytes read of {size}"] * (counts.given < size)


def try_jobs(trial, name, jobs, most):
    """A job, or one and the same with twice the input: prints what was measured of the last."""
    errors, counted, measured = [], [], ""
    for job in jobs:
        with standard_input(job) as source:
            ran, _, counts = trial.shim.run([trial.program, *job.words], stdin=source, before=SMALL_STACK)
        if ran.decoded() != job.wanted:
            errors.append(f"{short(ran)}, wanted {short(job.wanted)}")
        errors += excesses(counts, job, most)
        counted.append(counts)
    if len(jobs) == 2 and counts.growths > GROWTHS_DOUBLED * counted[0].growths + MORE_GROWTHS:
        errors.append(f"{counts.growths} growths for twice the input, {counted[0].growths} for the input")
    if len(jobs) == 2 and not errors:
        ratio, seconds = doubled(trial, jobs)
        errors += [f"{ratio:.2f} times the time for twice the input"] * (ratio > TIME_DOUBLED)
        measured = f", {1000 * seconds:.0f} ms, doubled {ratio:.2f}"
    size = sum(job.sizes)
    held = f"{counts.growths} growths, {counts.peak / size:.1f} times their memory, {counts.reads} reads"
    print(f"{name}: {size} bytes, {held}{measured}")
    trial.same(name, errors, [])


def large_inputs(trial, case):
    sizes = made.Made(case, case.size), made.Made(case, 2 * case.size)
    for command in case.commands:
        jobs = [inputs.job(command) for inputs in sizes]
        try_jobs(trial, f"{case.name}, {command.words}", jobs, int(case.most or BYTES_PER_BYTE))


def greatest_inputs(trial):
    """Inputs with a hole of zeros, which takes no room."""
    too_long = Ran(UNREAD, "", TABLE.said("{too long: G}"))
    for words, front, end, report in GREATEST:
        for size, wanted in ((GREATEST_INPUT, Ran(0, report, "")), (GREATEST_INPUT + 1, too_long)):
            with open("G", "wb") as file:
                file.write(front.encode())
                file.truncate(size - len(end))
                file.seek(0, os.SEEK_END)
                file.write(end.encode())
            try_jobs(trial, words, [made.Job(words.split(), None, [size], wanted)], GREATEST_BYTES_PER_BYTE)


def files(trial):
    trial.enter({"S": "request:\n#", "P": SHOP})
    shutil.copytree(f"{ROOT}/examples", trial.folder, dirs_exist_ok=True)


def under_shim(trial):
    for table, try_case in (("refused.txt", refused_commands), ("growth.txt", large_inputs)):
        for case in made.cases(table).values():
            try_case(trial, case)
    greatest_inputs(trial)
    if trial.more:
        refused_calls(trial)


if __name__ == "__main__":
    tests = (files, made_errors, endless, limits, *[under_shim] * bool(shutil.which("gcc")))
    start(__doc__, *tests, counts=(1, 2), files=2, make=shim.Trial)
