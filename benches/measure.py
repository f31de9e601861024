#!/usr/bin/env python3
"""Measures the program, and prints tables for docs/FIGURES.md.

usage: measure.py times [-k TIMES] [-n SITTINGS] [-s SHARE] [-b COMMAND] [-d FOLDER] PROGRAM PLAIN [GROUP..]
       measure.py instructions PROGRAM PLAIN
       measure.py calls PROGRAM LIBRARY_FOLDER
       measure.py minutes COMMAND [WORD..]

PLAIN is the command of another program with the same command line. Inputs are those of generate.py. For Linux, with a
C compiler; Python's standard library alone.

- times: the GROUPs of measured.txt, or some of them, SITTINGS (1) times. The least processor time of TIMES (7) runs
  counts, in turns with PLAIN, and the greatest memory. Sizes are multiplied by SHARE. With -b distributions are also
  given to COMMAND; {P} and {S} in it are the files. With -d inputs are kept in FOLDER. `doubled`: the time divided by
  that of half the size; `by lint`: by that of `lint`; `by input`: memory by size. Compare ratios of one sitting, never
  times of two.
- instructions: each job once under valgrind's callgrind, by stripped copies of the programs. Counts have no noise.
- calls: the least time of five for 1,000 calls of libcudf_check.a by a program in C, and 1,000 starts of the program.
- minutes: the time of a command that proves crates, and the processor minutes of each crate in its session. The last
  half second of each check is lost.
"""
import argparse
import collections
import os
import re
import shlex
import shutil
import subprocess
import sys
import tempfile
import time
from pathlib import Path

from generate import KINDS

HERE = os.path.dirname(os.path.abspath(__file__))
ROOT = os.path.dirname(HERE)


def refuse():
    print(__doc__, file=sys.stderr)
    sys.exit(2)


def show(*cells):
    print("| " + " | ".join(map(str, cells)) + " |", flush=True)


def heads(*cells):
    show(*cells)
    print("|---" + "|--:" * (len(cells) - 1) + "|", flush=True)


def generated(folder, kind, count):
    path = f"{folder}/{kind}-{count}"
    if not os.path.exists(path):
        with open(path + "-begun", "wb") as file:
            subprocess.run([sys.executable, f"{HERE}/generate.py", kind, str(count)], stdout=file, check=True)
        os.rename(path + "-begun", path)
    return path


def files_of(folder, kind, count):
    """The paths of a problem P and of its answer S, where it has one; or of an answer to a small problem."""
    if kind in ANSWERS:
        return {"P": generated(folder, "kept", 10), "S": generated(folder, kind, count)}
    answer, files = KINDS[kind][0].rpartition(": ")[2], {"P": generated(folder, kind, count)}
    return {**files, "S": generated(folder, answer, count)} if answer in KINDS else files


JOBS = {
    "lint": "lint {P}", "check": "check {P} {S}", "the first page of 20": "check {P} {S} --limit 20",
    "20 after the middle": "check {P} {S} --after p{middle}.depends.5 --limit 20",
}
# the inputs of each group: a name, the kind of a problem, its size, and whether docs/FIGURES.md shows it
GROUPS = collections.defaultdict(list)
for line in Path(HERE, "measured.txt").read_text().splitlines()[2:]:
    group, *of_input, sizes = line.split(" | ")
    GROUPS[group] += [(*of_input, int(size.rstrip("*")), size[-1] == "*") for size in sizes.split()]
# answers without a problem of their own
ANSWERS = ("unknown", "short-stanzas")
COLUMNS = ("size MB", "ms", "plain ms", "ratio", "doubled", "by lint", "beside by ours", "MB", "plain MB",
           "memory ratio", "by input", "status")


class Series:
    """The runs of one command: the least time in seconds, the greatest memory in bytes, the last status."""

    def __init__(self, *words):
        self.words, self.time, self.memory, self.status = words, float("inf"), 0, None

    def run(self):
        self.status, time, memory, _ = map(int, subprocess.check_output(self.words).split())
        self.time = min(self.time, time / 1e6)
        self.memory = max(self.memory, memory * 1024)


def compiled(folder, name, *more):
    """The path of a program of this folder in C."""
    words = ["-std=c99", "-O2", f"-I{ROOT}/include", f"{HERE}/{name}.c", *more, "-o", f"{folder}/{name}"]
    subprocess.run(["cc", *words], check=True)
    return words[-1]


def ratio(part, whole):
    return f"{part / whole:.2f}" if whole else "-"


def commands_of(options, kind, job, files, count):
    """The commands of a job on files, by the names ours, plain and beside."""
    words = [word.format(**files, middle=count // 2) for word in JOBS[job].split()]
    commands = {"ours": shlex.split(options.program) + words, "plain": shlex.split(options.plain) + words}
    if options.b and kind in ("tenth", "half", "all"):
        commands["beside"] = [word.format(**files) for word in shlex.split(options.b)]
    return commands


def measured(options, folder, kind, count, is_paged):
    """For each job on half and whole of an input, in the same turns, the size, the job and the columns."""
    half, whole = max(1, int(count * options.s) // 2), max(2, int(count * options.s))
    files, linted = {number: files_of(folder, kind, number) for number in (half, whole)}, {}
    jobs = ["lint"] * (kind not in ANSWERS) + ["check"] * ("S" in files[whole])
    for job in JOBS if is_paged else jobs:
        series = {(number, who): Series(options.runs, "1", *words) for number in files
                  for who, words in commands_of(options, kind, job, files[number], number).items()}
        order = list(series.values())
        for turn in range(options.k):
            for one in order[turn % len(order):] + order[:turn % len(order)]:
                one.run()
        for number, paths in files.items():
            ours, plain, beside = (series.get((number, who)) for who in ("ours", "plain", "beside"))
            size = sum(os.path.getsize(path) for name, path in paths.items() if name == "P" or job != "lint")
            linted[number] = ours.time if job == "lint" else linted.get(number)
            yield number, job, (
                f"{size / 1e6:.1f}", f"{ours.time * 1e3:.1f}", f"{plain.time * 1e3:.1f}", ratio(ours.time, plain.time),
                ratio(ours.time, series[half, "ours"].time if number == whole else 0), ratio(ours.time, linted[number]),
                ratio(beside.time, ours.time) if beside else "-", f"{ours.memory / 1e6:.0f}",
                f"{plain.memory / 1e6:.0f}", ratio(ours.memory, plain.memory), ratio(ours.memory, size),
                ours.status if ours.status == plain.status else f"{ours.status}, plain {plain.status}",
            )
    for path in set() if options.d else {path for paths in files.values() for path in paths.values()}:
        os.remove(path)


def sitting(options, folder, group, found):
    """Prints the rows of a group, and adds them to what was found."""
    heads(group, *COLUMNS)
    for name, kind, count, _ in GROUPS[group]:
        for number, job, cells in measured(options, folder, kind, count, group == "pages"):
            show(f"{name}, {number}: {job}", *cells)
            found[f"{name}, {number}", job].append(dict(zip(COLUMNS, cells)))
    print()


def times(*words):
    read = argparse.ArgumentParser(usage=__doc__)
    for letter, kind, default in (("k", int, 7), ("n", int, 1), ("s", float, 1), ("b", str, ""), ("d", str, "")):
        read.add_argument(f"-{letter}", type=kind, default=default)
    read.add_argument("program")
    read.add_argument("plain")
    read.add_argument("groups", nargs="*", default=list(GROUPS))
    options, found = read.parse_args(words), collections.defaultdict(list)
    if not GROUPS.keys() >= set(options.groups):
        refuse()
    with tempfile.TemporaryDirectory() as folder:
        options.runs = compiled(folder, "runs")
        for group in options.groups * options.n:
            sitting(options, options.d or folder, group, found)
    heads("Input", "MB", "`lint`", "`check`", "Doubled", "Memory")
    for name in (f"{name}, {size}" for rows in GROUPS.values() for name, _, size, is_shown in rows if is_shown):
        lint, check = found[name, "lint"], found[name, "check"]
        for last in (check or lint)[:1]:
            columns = (lint, "ratio"), (check, "ratio"), (check or lint, "doubled")
            figures = (", ".join(cells[column] for cells in rows) for rows, column in columns)
            show(name, last["size MB"], *figures, last["memory ratio"])


# each input with the jobs whose instructions are counted; PLAIN doesn't know the option
COUNTED = (
    ("a tenth installed", "tenth", 20_000, "lint", "lint --strict", "check", "check --strict"),
    ("all installed", "all", 20_000, "check"), ("lists on many lines", "commented", 20_000, "lint"),
    ("own entries and another's", "own-and-other", 5_000, "check"),
    ("own entries and another's", "own-and-other", 10_000, "check"),
)


def stripped(folder, command):
    """The words of a command, with a copy of its program that valgrind can read."""
    program, *words = shlex.split(command)
    copy = f"{folder}/program-{len(os.listdir(folder))}"
    shutil.copy(shutil.which(program), copy)
    subprocess.run(["strip", "-g", copy], check=True)
    return [copy, *words]


def counted(words):
    """The millions of instructions of a command."""
    words = ["valgrind", "--tool=callgrind", "--callgrind-out-file=/dev/null", *words]
    ran = subprocess.run(words, stdout=subprocess.DEVNULL, stderr=subprocess.PIPE, text=True, check=False)
    found = re.search(r"Collected : (\d+)", ran.stderr)
    return int(found[1]) / 1e6 if found else sys.exit(ran.stderr[-1000:])


def instructions(program, plain):
    heads("Millions of instructions", "`cudf_check`", "Plain", "By plain", "By byte")
    with tempfile.TemporaryDirectory() as folder:
        ours, other = stripped(folder, program), stripped(folder, plain)
        for name, kind, count, job in ((*row[:3], job) for row in COUNTED for job in row[3:]):
            files = list(files_of(folder, kind, count).values())[:2 if "check" in job else 1]
            words = job.split() + files
            own, beside = counted(ours + words), 0 if "--" in job else counted(other + words)
            ratios = [f"{beside:.1f}", ratio(own, beside)] if beside else ["", ""]
            by_byte = own * 1e6 / sum(map(os.path.getsize, files))
            show(f"`{job}`, {name}, {count}", f"{own:.1f}", *ratios, f"{by_byte:.0f}")


FILES = [f"{ROOT}/examples/car.{name}.cudf" for name in ("problem", "broken")]
CALLS, TURNS = 1_000, 5


def calls(program, library):
    """A start also reads its files, which a call doesn't."""
    turns = []
    with tempfile.TemporaryDirectory() as folder:
        caller, runs = compiled(folder, "calls", f"{library}/libcudf_check.a"), compiled(folder, "runs")
        for _ in range(TURNS):
            called = int(subprocess.check_output([caller, *FILES, str(CALLS)]))
            words = [runs, str(CALLS), os.path.abspath(program), "check", *FILES]
            status, *_, started = map(int, subprocess.check_output(words).split())
            turns.append((called / 1e6, started / 1e3))
    if status != 1:
        sys.exit(f"{program} doesn't answer `solution no`")
    called, started = map(min, zip(*turns))
    heads(f"{CALLS:,} times", "ms", "by calls")
    show("calls of the library", f"{called:.1f}", 1)
    show("starts of the program", f"{started:.1f}", f"{started / called:.0f}")


PARTS = "proofs", "tests", "mutants"
TICKS_A_MINUTE = 60 * os.sysconf("SC_CLK_TCK")


def checked(words, folder):
    """The crate that a process checks, and which part: outside of the crate's own folder these are mutants."""
    if os.path.basename(words[0]) != "rattle" or "--crate-name" not in words:
        return None
    crate = words[words.index("--crate-name") + 1]
    return crate, PARTS["--test" in words] if folder.endswith(f"/crates/{crate}") else PARTS[2]


def look_over(ticks):
    """Notes the ticks of each check in this session and of its ended children; a check's own child counts with it."""
    found = {}
    for it in Path("/proc").glob("[0-9]*"):
        try:
            stat = (it / "stat").read_text().rpartition(")")[2].split()
            part = checked((it / "cmdline").read_text(errors="replace").split("\0"), os.readlink(it / "cwd"))
            if int(stat[3]) == os.getsid(0):
                found[it.name] = stat[1], part, sum(map(int, stat[11:15]))
        except OSError:
            continue
    for number, (parent, part, used) in found.items():
        if part and not (parent in found and found[parent][1]):
            ticks[number, part] = used


def minutes(*command):
    began, ticks = time.monotonic(), collections.Counter()
    run = subprocess.Popen(command, stderr=subprocess.STDOUT)
    while run.poll() is None:
        look_over(ticks)
        time.sleep(0.5)
    spent, used = int(time.monotonic() - began), os.times()
    heads("Command", "Time", "Processor time")
    processor = (used.children_user + used.children_system) / 60
    show(f"`{' '.join(command)}`", f"{spent // 60}m{spent % 60:02}s", f"{processor:.1f} min")
    print()
    heads("Minutes", *PARTS)
    for crate in dict.fromkeys(crate for _, (crate, _) in ticks):
        sums = [sum(used for (_, part), used in ticks.items() if part == (crate, name)) for name in PARTS]
        show(crate, *(f"{used / TICKS_A_MINUTE:.1f}" for used in sums))
    return run.returncode


# each command with the numbers of arguments that it takes
COMMANDS = {"times": (times, range(2, 99)), "instructions": (instructions, [2]), "calls": (calls, [2]),
            "minutes": (minutes, range(1, 99))}

if __name__ == "__main__":
    name, *words = sys.argv[1:] or [""]
    if name not in COMMANDS or len(words) not in COMMANDS[name][1]:
        refuse()
    sys.exit(COMMANDS[name][0](*words))
