#!/usr/bin/env python3
"""Compares the program with the second implementation on random inputs.

usage: random_inputs.py PROGRAM SEED COUNT [WORKERS]

It is asked for all that it does with a problem and solutions, with all options at any place, valid and invalid
arguments, and files as standard input. More than half of the inputs have an error, one of seven has long lists, one of
a thousand is long. Prints how many lines of each kind were wanted. Input N of a seed is the same whatever COUNT and
WORKERS (processes) are.
"""
import collections
import multiprocessing
import re
import tempfile

import common
from common import write
from inputs import Inputs
from second import reports
from second.better import Better

BLOCK = 50
EXPLAIN = ["--explain"]
MORE = "more after "
RULES = "depends|conflicts|keep|install|remove|unsatisfied|many|lower|unknown"
KIND = re.compile(rf"^more|^p cnf|^no better|\b[EL]\d+|\b(?:{RULES}|yes|no|FAIL)\b")
# a line of a CNF that isn't counted
OF_CNF = re.compile(r"c p|[-\d ]+$")


class Input:
    """A random problem with solutions, and runs: words, the bytes of standard input, and what is wanted."""

    def __init__(self, seed, number, folder):
        self.inputs, self.folder = Inputs(f"{seed}/{number}"), folder
        pairs = self.inputs.pairs()
        self.problem, self.solution = self.inputs.problem(pairs), self.inputs.solution(pairs)
        self.solutions = self.inputs.solutions(pairs)
        # the solution of a long problem is read first
        self.problem += b"\n#" + b"." * 10 * len(self.solution) if self.inputs.now_and_then(0.5) else b""
        self.joined = self.problem + b"\n" * self.inputs.now_and_then(0.9) + self.solution
        self.files = [write(folder, "problem", self.problem), write(folder, "solution", self.solution)]
        self.is_strict = self.inputs.now_and_then(0.5)
        self.second = reports.Second(self.problem, self.solution, self.is_strict)
        self.one = reports.joined(self.joined, self.is_strict)

    def runs(self):
        for explains in (False, True):
            lint = reports.lint(self.problem, self.is_strict, explains)
            yield self.words("lint", self.files[:1], *[EXPLAIN] * explains), b"", lint
            answers = [it.check(explains=explains) for it in (self.second, self.one)]
            yield from self.both("check", answers, *[EXPLAIN] * explains)
        yield from self.with_names(self.inputs.now_and_then(0.5))
        yield from self.both("score", [self.second.score(), self.one.score()])
        aims = self.inputs.aims()
        yield from self.both("score", [self.second.score(aims), self.one.score(aims)], [f"--criteria={aims}"])
        for size in (1, 2, 3) if self.second.judged else (1,):
            yield from self.walk(size)
        for _ in range(2):
            yield self.page(self.inputs.key(), str(self.inputs.chance.randrange(1, 4)))
            yield self.page(**self.inputs.page())
        yield from self.ranks(self.inputs.aims())
        # its clauses take the second implementation long
        if not self.inputs.is_long:
            yield from self.betters(self.inputs.aims())

    def words(self, job, files, *options):
        """The words of a job, with options at any place after it."""
        words = [[name] for name in files]
        for option in options + ((["--strict"],) if self.is_strict else ()):
            words.insert(self.inputs.chance.randrange(len(words) + 1), option)
        return [job] + sum(words, [])

    def on_files(self, job, files, texts, wanted, *options):
        """A job on files, one of which may be standard input."""
        place = self.inputs.chance.randrange(len(files) + 1)
        names = ["-" if at == place else name for at, name in enumerate(files)]
        return self.words(job, names, *options), (*texts, b"")[place], wanted

    def both(self, job, answers, *options):
        """A job on two files, and on one input that holds both."""
        yield self.on_files(job, self.files, (self.problem, self.solution), answers[0], *options)
        yield self.words(job, ["-"], *options), self.joined, answers[1]

    def with_names(self, explains):
        options = [[self.inputs.pick(("-H", "--with-filename"))], *[EXPLAIN] * explains]
        lint, check = reports.lint(self.problem, self.is_strict, explains), self.second.check(explains=explains)
        yield self.words("lint", self.files[:1], *options), b"", reports.named(lint, *self.files)
        yield self.words("check", self.files, *options), b"", reports.named(check, *self.files)
        answers = {"check": self.one.check(explains=explains), "score": self.one.score()}
        for job, answer in answers.items():
            wanted = reports.named_joined(answer, reports.STANDARD, self.joined)
            yield self.words(job, ["-"], *options[:None if job == "check" else 1]), self.joined, wanted

    def ranks(self, aims):
        files = [self.files[0]] + [write(self.folder, f"answer{at}", text) for at, text in enumerate(self.solutions)]
        wanted = reports.rank(aims, self.problem, self.solutions, self.is_strict)
        yield self.on_files("rank", files, (self.problem, *self.solutions), wanted, [f"--criteria={aims}"])
        yield self.words("rank", files, ["-H"], [f"--criteria={aims}"]), b"", reports.named(wanted, *files)

    def betters(self, aims):
        """Clauses for a better answer, and a proof that there is none; then words that don't go together."""
        asked = Better(self.second, aims)
        proof = self.inputs.proof(asked)
        cases = (("cnf", [], asked.cnf()), ("refute", [proof], asked.refute(proof)))
        for job, proofs, wanted in cases:
            texts = [self.problem, *proofs, self.solution]
            files = [write(self.folder, f"file{at}", text) for at, text in enumerate(texts)]
            place = self.inputs.chance.randrange(len(files) + 1)
            *files, solution = ["-" if at == place else name for at, name in enumerate(files)]
            pair = [[f"--criteria={aims}"], self.option("better-than", solution)]
            yield self.words(job, files, *pair), (*texts, b"")[place], wanted
            wrong = [pair[:1], pair[1:], [*pair, EXPLAIN], [*pair, ["-H"]], [*pair, pair[1]]]
            wrong += [[["--criteria", aims], pair[1]], [pair[0], ["--better-than"], EXPLAIN]]
            yield self.words(job, files, *self.inputs.pick(wrong)), (*texts, b"")[place], ([], reports.USAGE)

    def option(self, name, value):
        """One word or two."""
        return [f"--{name}={value}"] if self.inputs.now_and_then(0.3) else [f"--{name}", value]

    def page(self, after=None, limit=None, explains=None):
        """One page, each of its options as one word or two."""
        explains = self.inputs.now_and_then(0.5) if explains is None else explains
        given = {"after": after, "limit": limit}
        options = [self.option(name, value) for name, value in given.items() if value is not None]
        words = self.words("check", self.files, *options, *[EXPLAIN] * explains)
        return words, b"", self.second.check(after, limit, explains)

    def walk(self, size):
        """The listing page by page; the pages together are the whole."""
        walked, keys, explains = [], [None], self.inputs.now_and_then(0.5)
        while keys:
            words, data, wanted = self.page(keys[0], str(size), explains)
            yield words, data, wanted
            keys = [line.removeprefix(MORE) for line in wanted[0] if line.startswith(MORE)]
            walked += wanted[0][:-1 - len(keys)]
        (*_, verdict), status = self.second.check(explains=explains)
        words = ["check", *self.files] + EXPLAIN * explains + ["--strict"] * self.is_strict
        yield words, b"", ([*walked, verdict], status)


def compare_block(job):
    """The numbers of rows and of wrong ones, and of inputs with an error and lines of each kind."""
    program, seed, numbers = job
    counts = collections.Counter()
    with tempfile.TemporaryDirectory() as folder:
        trial = common.Trial(folder, program)
        for number in numbers:
            it = Input(seed, number, folder)
            for words, data, wanted in it.runs():
                trial.same((number, words, data, it.problem, it.solution), trial.answer(words, data), wanted)
                lines = [line for line in wanted[0] if not OF_CNF.match(line)]
                counts.update((KIND.search(line) or re.match(r"\S+", line)).group() for line in lines)
            counts["inputs with an error"] += it.second.check()[1] == reports.FAULTY
    return trial.rows, trial.wrong, counts


def random_inputs(trial):
    seed, count, workers = *trial.more[:2], int((*trial.more, "1")[2])
    last, counts = int(count) + 1, collections.Counter()
    jobs = [(trial.program, seed, range(first, min(first + BLOCK, last))) for first in range(1, last, BLOCK)]
    with multiprocessing.Pool(workers) as pool:
        for rows, wrong, more in pool.imap(compare_block, jobs):
            trial.rows, trial.wrong = trial.rows + rows, trial.wrong + wrong
            counts.update(more)
    print(", ".join(f"{kind} {number}" for kind, number in sorted(counts.items())))


if __name__ == "__main__":
    common.start(__doc__, random_inputs, counts=(3, 4))
