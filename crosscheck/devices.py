#!/usr/bin/env python3
"""Runs the program on files and descriptors that fail, are slow, end early or aren't there.

usage: devices.py PROGRAM

Under shim.c each open, read and write fails in turn; reads are interrupted, and reads and writes move few bytes; which
calls are made is compared with the arguments. Without shim.c are tried files that can't be opened or read, a pipe whose
writer is killed, a file that grows; a pipe whose reader leaves, a full device, a file that can't grow; each set of the
standard descriptors closed, and one descriptor left for two files. The functions below say what is wanted.

That comes from README.md, docs/FORMAT.md and the man page, and for the front of an input from the second
implementation. Without gcc what needs shim.c is left out. For Linux and glibc.
"""
import errno
import itertools
import os
import resource
import shutil
import signal
import subprocess

import made
import shim
from commands import GREATEST_INPUT, TABLE
from common import limit, split, start
from second import reports
from shim import EVER, rule

# those of commands.txt, and one with both documents
FILES = TABLE.files
PROBLEM, GOOD, BAD = (FILES[name] for name in ("p", "good", "bad"))
BOTH = FILES["both"] = PROBLEM.replace("2\n\nrequest:", "2\ninstalled: true\n\nrequest: r") + "\n" + BAD
# a problem that has no solution, and a proof of that
WISH = FILES["wish"] = PROBLEM + "install: car\n"
PROOF = FILES["proof"] = "3 0 2 1 0\n"
# a proof that no answer to `p` removes less than `good`
BEST = FILES["best"] = "4 0 1 2 3 0\n"
BETTER = "--criteria=-removed --better-than"
NEED = "p1.depends.1 car 1 line 1: needs wheel > 2"
OK, YES, UNMET = map(TABLE.said, ("problem ok", "solution yes", "{unmet}"))
# arguments, the status and the report
REPORTS = list(map(TABLE.report, (
    "lint p", "check p bad", "rank --criteria=-removed p bad good fail", "score p bad --criteria=-new", "lint faulty",
    "check p faulty", "score p good",
))) + [
    ("cnf p", 0, "c p1 car 1\nc p2 wheel 2\np cnf 2 1\n-1 0\n"), ("refute p bad", 1, "proof line 1: L1 not a step\n"),
    ("refute wish proof", 0, f"r.install.1 line 9: needs car\n{NEED}\nno solution exists\n"),
    (f"cnf p {BETTER} good", 0, "c p1 car 1\nc p2 wheel 2\np cnf 3 3\n-1 0\n1 3 0\n-3 0\n"),
    (f"refute p best {BETTER} good", 0, "-removed 1\nno better solution exists\n"),
]
FOUR_FILES = "rank --criteria=-removed p bad fail good"
HELP = ("--version", "--help", "lint --help", "check -h", "help score", "rank --help")
BYTES_A_READ, BYTES_A_WRITE, BYTES_OF_HELP_A_WRITE = 9, 7, 301
SMALL_FILE = 100 << 10

# 0 is a write that takes no byte
WRITE_ERRORS = (errno.EINTR, errno.ENOSPC, errno.EPIPE, 0)
READ_ERRORS = (errno.EIO, errno.EAGAIN, errno.ENOMEM, errno.ECONNRESET)
OPEN_ERRORS = (errno.ENOENT, errno.EACCES, errno.EMFILE, errno.ELOOP)
# the messages, and what follows the text of an error
HINTS = {
    errno.ENOENT: "; check the name, and run again",
    errno.EPIPE: "; what reads it ended, as head does: check --limit gives a shorter report",
}
UNOPENED = "cudf_check: {} can't be opened: {}\n"
UNREAD = "cudf_check: {} could not be read to its end: {}; check that it is a file that can be read, and run again\n"
UNWRITTEN = "cudf_check: the output could not be written to its end: {}\n"


def told(message, error):
    """The message with the system's words for an error. A write that takes no byte is no error of the system."""
    words = f"{os.strerror(error)} (os error {error}){HINTS.get(error, '')}"
    return message.format(words) if error else message.replace(": {}", "")


class Trial(shim.Trial):
    """Runs the program on FILES, and says which calls it made."""

    def __init__(self, *words):
        super().__init__(*words)
        self.enter(FILES)

    def calls(self, words, *rules, data=""):
        """The answer, and the calls on the files that the arguments name and on the standard descriptors."""
        words = split(words)
        ran, calls, _ = self.shim.run([self.program, *words], *rules, data=data.encode())
        return ran.decoded(), [it for it in calls if it.name in (*words, "0", "1", "2")]


def answers(calls, call, name):
    return [it.answer for it in calls if it[:2] == (call, name)]


def bytes_read(calls, name):
    return sum(answer for answer in answers(calls, "read", name) if answer > 0)


def each_fails(trial, words, kind, message, errors, few=(), report="", data="", first=1):
    """Each call of a kind, from the first one on, fails in turn by each error, where calls move few bytes.

    Wanted are status 5, a message, what was written before, and no further call but that which writes the message."""
    usual = trial.calls(words, *few, data=data)[1]
    places = [place for place, it in enumerate(usual) if it[:2] == kind]
    trial.same(f"{words}: there are calls of {kind}", len(places) >= first, True)
    for number, error in itertools.product(range(first, len(places) + 1), errors):
        ran, calls = trial.calls(words, rule(*kind, -error, number, number), *few, data=data)
        before, failed = usual[:places[number - 1]], usual[places[number - 1]]._replace(answer=-error)
        wanted = (5, report[: sum(answers(before, "write", "1"))], told(message, error))
        calls = [it for it in calls if it.name != "2"]
        trial.same(f"{words}: {kind} {number} fails, {error}", (ran, calls), (wanted, [*before, failed]))


def writes(trial):
    """The whole report comes in parts, or up to the write that fails. The texts of help are tried by another script."""
    rows = [(*row, UNWRITTEN, BYTES_A_WRITE) for row in REPORTS]
    rows += [(words, 0, trial.run(words).output, UNWRITTEN, BYTES_OF_HELP_A_WRITE) for words in HELP]
    for words, status, report, message, most in rows:
        few = [rule("write", "1", most)]
        ran, calls = trial.calls(words, *few)
        is_in_parts = len(answers(calls, "write", "1")) >= len(report) / most
        trial.same(f"{words}, by {most} bytes", (ran, is_in_parts), ((status, report, ""), True))
        each_fails(trial, words, ("write", "1"), message, WRITE_ERRORS, few, report)


def failing_messages(trial):
    """Where the message of an error can't be written, the status stays as it is."""
    for words, status in (("check none", 5), ("lint", 4), ("check - -", 4), ("lint .", 5)):
        for error in (errno.ENOSPC, errno.EPIPE):
            ran, _ = trial.calls(words, rule("write", "2", -error))
            trial.same(f"{words}: no message, {error}", ran, (status, "", ""))


def failing_reads(trial):
    """What an input gave before isn't judged, also where the last read fails, which would find the end."""
    # the first read of standard input tries whether it is open, and asks for no byte
    for words, name, data, first in (
        (FOUR_FILES, "p", "", 1), (FOUR_FILES, "bad", "", 1), (FOUR_FILES, "fail", "", 1), (FOUR_FILES, "good", "", 1),
        ("check - bad", "0", PROBLEM, 2), ("check p -", "0", BAD, 2),
        ("rank --criteria=-removed p good - bad", "0", BAD, 2), ("cnf p", "p", "", 1), ("cnf -", "0", PROBLEM, 2),
        ("refute wish proof", "wish", "", 1), ("refute wish proof", "proof", "", 1),
        ("refute - proof", "0", WISH, 2), ("refute wish -", "0", PROOF, 2), (f"cnf p {BETTER} good", "good", "", 1),
        (f"refute p best {BETTER} good", "best", "", 1), (f"refute p best {BETTER} -", "0", GOOD, 2),
    ):
        few = [rule("read", it, BYTES_A_READ) for it in (*words.split(), "0")]
        reads = len(answers(trial.calls(words, *few, data=data)[1], "read", name))
        size = len(data or FILES[name])
        trial.same(f"{words}: reads of {name}", reads, first + -(-size // BYTES_A_READ))
        message = UNREAD.format("standard input" if data else name, "{}")
        each_fails(trial, words, ("read", name), message, READ_ERRORS, few, data=data, first=first)


def failing_opens(trial):
    for words in (FOUR_FILES, "cnf p", "refute wish proof", f"refute p best {BETTER} good"):
        for name in (word for word in words.split() if word in FILES):
            each_fails(trial, words, ("open", name), UNOPENED.format(name, "{}"), OPEN_ERRORS)


def slow_reads(trial):
    """Inputs that give few bytes a call, after interrupted calls, are read to their ends."""
    for words, status, report in REPORTS:
        names = [word for word in words.split() if word in FILES]
        for most, interrupted in itertools.product((1, 7), ((1, 0, 1), (1, EVER, 2), (2, EVER, 3), (1, 50, 1))):
            rules = [rule("read", name, -errno.EINTR, *interrupted) for name in names]
            ran, calls = trial.calls(words, *rules, *(rule("read", name, most) for name in names))
            read = [bytes_read(calls, name) for name in names]
            wanted = ((status, report, ""), [len(FILES[name]) for name in names])
            trial.same(f"{words}, by {most} bytes, interrupted {interrupted}", (ran, read), wanted)


def long_reports(trial):
    """Two writes for each 64 KiB of a report: one for what waits, and one for what had no room there.

    No piece of a line is longer than 64 bytes, so each write of what waits but the last has at least 65472 bytes."""
    job = made.job("many clauses that aren't satisfied", 10_000)
    ran, calls = trial.calls(job.words)
    most, count = 2 * (len(job.wanted.output) // 65_472) + 1, len(answers(calls, "write", "1"))
    trial.same("a long report", (ran, min(count, most)), (job.wanted, count))
    for words in ("check p bad", "rank --criteria=-removed p bad good fail", "score p good", "rank --help"):
        trial.same(f"{words}: writes", len(answers(trial.calls(words)[1], "write", "1")), 1)


def too_long(trial):
    """After an input that is too long none is read."""
    with open("huge", "wb") as file:
        file.truncate(GREATEST_INPUT + 1)
    for words in ("check huge bad", "rank --criteria=-new huge good bad", "rank --criteria=-new p huge bad",
                  "cnf huge", "refute huge bad", "refute wish huge", f"cnf huge {BETTER} bad", f"cnf p {BETTER} huge",
                  f"refute p huge {BETTER} bad"):
        ran, calls = trial.calls(words)
        trial.same(words, (ran, answers(calls, "read", "bad")), ((5, "", TABLE.said("{too long: huge}")), []))


def orders(trial):
    """Standard input is tried by a read of no byte where it is named. Then the files are opened in the order of the
    arguments, and then all are read in this order. No other is opened, nor standard input read if it isn't named."""
    for words, data in (
        ("lint p", ""), ("check p bad", ""), ("check faulty fail", ""), ("score p good", ""), ("check - bad", PROBLEM),
        ("check p -", BAD), ("rank p good empty --criteria=-removed bad", ""), ("lint -", "?\n"),
        ("rank --criteria=-removed p bad - good --strict fail", GOOD), ("rank --criteria=-removed - bad good", PROBLEM),
        ("rank --criteria=-new p -- - --criteria", GOOD), (["check", "p", " "], ""), (["check", " p", " p "], ""),
        (["rank", "--criteria=-new", "p", " "], ""), ("cnf p", ""), ("cnf -", PROBLEM), ("refute p bad", ""),
        ("refute wish proof", ""), ("refute - proof", WISH), ("refute wish -", PROOF), ("refute faulty proof", ""),
        (f"cnf p {BETTER} good", ""), (f"refute p best {BETTER} -", GOOD), (f"refute p - {BETTER} good", BEST),
        (f"refute faulty best {BETTER} good", ""),
    ):
        ran, calls = trial.calls(words, data=data)
        inputs = ["0" if word == "-" else word for word in split(words) if word in FILES or word == "-"]
        tries = ["0"] * ("0" in inputs)
        wanted = [("read", name) for name in tries] + [("open", name) for name in inputs if name != "0"]
        wanted += [("read", name) for name in inputs] + [("write", "1")]
        trial.same(f"{words}: calls", (ran.errors, in_turn(it[:2] for it in calls)), ("", in_turn(wanted)))
        for name in inputs:
            trial.same(f"{words}: bytes of {name}", bytes_read(calls, name), len({**FILES, "0": data}[name]))
        sizes = [it.size for it in calls if it[:2] == ("read", "0")]
        trial.same(f"{words}: standard input is tried", sizes[:1], [0] * len(tries))


def in_turn(calls):
    """Calls of which equal ones in a row are one."""
    return [call for call, _ in itertools.groupby(calls)]


def unopened(trial):
    """Invalid arguments, help and the version open and read nothing."""
    for words in (
        "--help", "--version", "rank --help", "check - - --limit 0", "check p bad --after x", "score - -", "lint p bad",
        "rank p good", "rank --criteria +new p good", "judge p", "rank --criteria=-new p - -",
        "cnf", "cnf p bad", "refute p", "refute - -", "refute p bad bad", "cnf p --better-than good",
        "cnf p --criteria=-new", f"cnf - {BETTER} -", f"refute p best --explain {BETTER} good",
    ):
        trial.same(f"{words}: files", [it for it in trial.calls(words)[1] if it.call != "write"], [])


# ---- without shim.c


def unreadable_files(trial):
    """A folder, a file that is missing or below another one, and a descriptor for writing only."""
    for name in (".", "/", "missing", "both/x", ""):
        shown = name or "''"
        start = f"cudf_check: {shown} c"
        for words in (["lint", name], ["check", name], ["check", "both", name], ["check", name, "both"]):
            status, output, errors = trial.run(words)
            trial.same(words, (status, output, errors.startswith(start) or errors), (5, "", True))
    with open("written", "wb") as file:
        trial.same("a descriptor for writing only", trial.run("check -", stdin=file)[:2], (5, ""))


def unsteady_files(trial):
    """What a pipe gave is judged where its writer is killed. Each front of a file that grows has the same answer."""
    for length in range(0, len(BOTH) + 1, 11):
        killed = subprocess.Popen(["sh", "-c", f"head -c {length} both; kill -9 $$"], stdout=subprocess.PIPE)
        lines, status = reports.joined(BOTH[:length].encode()).check()
        wanted = (status, "".join(line + "\n" for line in lines), "")
        trial.same(f"a writer that is killed after {length} bytes", trial.run("check -", stdin=killed.stdout), wanted)
        killed.stdout.close()
        killed.wait()
    with open("growing", "wb") as file:
        file.write(b"request:\n" + b"#\n" * (1 << 20))
    writer = subprocess.Popen("yes '# more' | head -c 100000000 >>growing", shell=True)
    for words, report in (("lint growing", OK), ("check growing", YES), ("check p growing", YES)):
        trial.same(words, trial.run(words), (0, report, ""))
    writer.wait()


def unwritable_outputs(trial):
    """Pipes that are left, a full device, and a file that can't grow. Python ignores SIGPIPE and SIGXFSZ."""
    long = made.job("packages without what they need", 20_000)
    explained = made.job("packages without what they need, for some of which other ones would do", 10_000)
    for job, restores, taken in itertools.product((long, explained), (False, True), (0, 1, 100, 4096, 65_537, 500_000)):
        with open("taken", "w+b") as file:
            reader = subprocess.Popen(["head", "-c", str(taken)], stdin=subprocess.PIPE, stdout=file)
            status, _, errors = trial.run(job.words, stdout=reader.stdin, restore_signals=restores)
            reader.communicate()
            file.seek(0)
            ended = (-signal.SIGPIPE, "") if restores and status != 5 else (5, told(UNWRITTEN, errno.EPIPE))
            given, wanted = (status, errors, file.read().decode()), (*ended, job.wanted.output[:taken])
            trial.same(f"{job.words}: a pipe that is left, signals restored: {restores}", given, wanted)
    for words in (long.words, explained.words, "check both", ["lint", long.words[1]], "--help"):
        with open("/dev/full", "wb") as full:
            ran = trial.run(words, stdout=full)
        trial.same(f"{words}: a full device", ran, (5, "", told(UNWRITTEN, errno.ENOSPC)))
    with open("filled", "w+b") as file:
        ran = trial.run(long.words, stdout=file, before=limit(resource.RLIMIT_FSIZE, SMALL_FILE), restore_signals=False)
        file.seek(0)
        wanted = ((5, "", told(UNWRITTEN, errno.EFBIG)), long.wanted.output[:SMALL_FILE])
        trial.same("a file that can't grow", (ran, file.read().decode()), wanted)


def descriptors(trial):
    """Some standard ones are closed: files are read, and none of them is written to. One is left for two files."""
    rows = (("check p bad", 1, UNMET), ("lint p", 0, OK), ("judge", 4, ""), ("--help", 0, trial.run("--help").output))
    for closed in (some for size in (1, 2, 3) for some in itertools.combinations(range(3), size)):
        how = {("stdin", "stdout", "stderr")[number]: None for number in closed}
        how["before"] = lambda: [os.close(number) for number in closed]
        for words, status, report in rows:
            wanted = (5, "") if 1 in closed and report else (status, report)
            trial.same(f"{words}: closed {closed}", trial.run(words, **how)[:2], wanted)
        for words in ("lint -", "check -", "check p -", "check - bad", "score p -") if 0 in closed else ():
            trial.same(f"{words}: closed {closed}", trial.run(words, **how)[:2], (5, ""))
    for name in ("p", "bad"):
        with open(name, encoding="ascii") as file:
            trial.same(f"{name} as before", file.read(), FILES[name])
    for words, wanted in (("check both", (1, UNMET)), ("check both both", (5, ""))):
        trial.same(f"{words}: one is left", trial.run(words, before=limit(resource.RLIMIT_NOFILE, 4))[:2], wanted)


UNDER_SHIM = (
    writes, failing_messages, failing_reads, failing_opens, slow_reads, long_reports, too_long, orders, unopened,
)
PLAIN = (unreadable_files, unsteady_files, unwritable_outputs, descriptors)

if __name__ == "__main__":
    start(__doc__, *(UNDER_SHIM if shutil.which("gcc") else ()), *PLAIN, make=Trial)
