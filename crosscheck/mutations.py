#!/usr/bin/env python3
"""Compares the program with the second implementation on corrupted documents.

usage: mutations.py PROGRAM SEED COUNT [PROBLEM..]

These are each front of examples/car-and-wheel.cudf; COUNT mutations of problems and solutions (those of examples/,
generated ones, and each PROBLEM with the status that it has installed); and COUNT / 10 files of random bytes.
"""
import os
import random

from common import contents, start, write
from inputs import WORDS, Inputs
from second import reports
from second.documents import faults_of
from second.universe import Problem, installing

PAIRS = [("car", "car.good"), ("car", "car.broken"), ("car", "car.fail")] + [("producer", "producer.solution")] * 3
GENERATED = 40
ODD_BYTES = b"\n\n\n  \t\r:##,,||==<>![]\"\\0123+-aZ_\x00\x7f\x80\xc3\xa9\xff"


def example(name):
    return contents(f"examples/{name}.cudf")


def bases(seed, paths):
    """Pairs of a problem and a solution; of the problems in these files the solution that changes nothing."""
    pairs = [(example(problem + ".problem"), example(solution)) for problem, solution in PAIRS]
    for number in range(GENERATED):
        inputs = Inputs(f"{seed} base {number}")
        chosen = inputs.pairs()
        pairs.append((inputs.problem(chosen), inputs.solution(chosen)))
    for problem in map(contents, map(os.path.abspath, paths)):
        initial = [] if faults_of(problem, is_problem=True) else Problem(problem.decode()).initial
        pairs.append((problem, installing(*((it.name, it.version) for it in initial)).encode()))
    return pairs


def changed(chance, data):
    """A byte is changed, or a line is dropped or doubled."""
    lines = data.split(b"\n")
    at, place, way = chance.randrange(len(data) + 1), chance.randrange(len(lines)), chance.randrange(4)
    if way < 2:
        return data[:at] + bytes([chance.randrange(256) if way == 0 else chance.choice(ODD_BYTES)]) + data[at + 1:]
    return b"\n".join(lines[:place] + lines[place + 1:] if way == 2 else lines[:place + 1] + lines[place:])


def mutation(chance, pairs):
    """A problem and a solution: one is changed, or the problem is the front of one and the back of another document."""
    (problem, solution), way = chance.choice(pairs), chance.randrange(5)
    if way < 2:
        return changed(chance, problem), solution
    if way < 4:
        return problem, changed(chance, solution)
    back = chance.choice(chance.choice(pairs))
    return problem[:chance.randrange(len(problem) + 1)] + back[chance.randrange(len(back) + 1):], solution


def noise(chance):
    """Random bytes: any, odd ones, or words."""
    way, length = chance.randrange(3), chance.randrange(300)
    if way == 0:
        return chance.randbytes(length)
    if way == 1:
        return bytes(chance.choice(ODD_BYTES) for _ in range(length))
    return b"".join((chance.choice(WORDS.noise) + chance.choice(("", "\n", "\n"))).encode() for _ in range(length // 8))


def documents(seed, count, problems):
    """Pairs of a problem and a solution."""
    both, pairs = example("car-and-wheel"), bases(seed, problems)
    yield from ((both[:length], b"") for length in range(len(both) + 1))
    yield from (mutation(random.Random(f"{seed}/{number}"), pairs) for number in range(count))
    for number in range(count // 10):
        chance = random.Random(f"{seed} bytes {number}")
        yield noise(chance), noise(chance)


def runs(folder, problem, solution):
    """The jobs on a problem and a solution, in two files and in one input, and what is wanted."""
    words = [write(folder, "problem", problem), write(folder, "solution", solution)]
    second, both = reports.Second(problem, solution), reports.joined(problem + solution)
    for option in ([], ["--explain"]):
        explains = bool(option)
        yield ["lint", words[0], *option], b"", reports.lint(problem, explains=explains)
        yield ["check", *option, *words], b"", second.check(explains=explains)
        yield ["check", "-", *option], problem + solution, both.check(explains=explains)
    yield ["score", *words], b"", second.score()
    strict = reports.Second(problem, solution, is_strict=True)
    yield ["check", "--strict", "--explain", *words], b"", strict.check(explains=True)


def mutations(trial):
    seed, count, *problems = trial.more
    for pair in documents(seed, int(count), problems):
        for words, data, wanted in runs(trial.folder, *pair):
            yield (words[:2], pair), trial.answer(words, data), wanted


if __name__ == "__main__":
    start(__doc__, mutations, counts=range(3, 99))
