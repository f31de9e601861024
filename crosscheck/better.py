#!/usr/bin/env python3
"""Compares `cnf` and `refute` with --better-than with rows worked out by hand and with the second implementation.

usage: better.py PROGRAM [SEED [COUNT]]

Of each of COUNT (100) random small problems a solution and a list are taken. The clauses can be satisfied beside a
status exactly if it is a solution that is better; `rank` says the same. If none is better, a proof is accepted; if one
is, no proof is. Then problems with up to 300 packages.
"""
import random
import re

import common
from common import sections, unescaped, write
from refutations import Mild, Small, spoilt
from second import reports
from second.better import Better
from second.cnf import Rules, extends, is_satisfied, statuses
from second.criteria import COUNTS, count, rank_of, read_list
from second.lrat import Prover
from second.universe import Problem, installing

ENDS = {"no better solution exists": reports.YES, "solution FAIL": reports.FAIL, "solution no": reports.NO}
SIZES = (31, 32, 33, 63, 64, 65, 66, 97, 130, 200, 300)


def table(kind):
    """The problems of the sections of a kind, each with the cells of a row."""
    for head, body in sections("crosscheck/better.txt"):
        problem, _, rows = body.partition("--\n")
        for row in rows.splitlines() if head.startswith(kind + " ") else ():
            if row and not row.startswith("#"):
                yield problem.encode(), [cell.strip(" ") for cell in row.split("|")]


def document(problem, status):
    """A solution that installs the packages at these places."""
    packages = Problem(problem.decode()).packages
    return installing(*((it.name, it.version) for it in packages if it.place in status)).encode()


def places(word):
    return frozenset(map(int, word.replace("-", "")))


class Question(Better):
    """A question of the program, and what is better, found by trying all statuses."""

    def __init__(self, trial, problem, solution, aims, is_strict=False):
        super().__init__(reports.Second(problem, solution, is_strict), aims)
        self.trial, self.problem, self.texts = trial, problem, (problem, solution, aims)
        self.options = [f"--criteria={aims}"] + ["--strict"] * is_strict

    def of(self, solution):
        """The same question about another solution."""
        return Question(self.trial, self.problem, solution, self.texts[2])

    def files(self):
        return [write(self.trial.folder, name, text) for name, text in zip(("problem", "solution"), self.texts)]

    def ask(self, job, *proofs):
        problem, solution = self.files()
        proofs = [write(self.trial.folder, "proof", proof) for proof in proofs]
        return self.trial.answer([job, *self.options, f"--better-than={solution}", problem, *proofs])

    def same(self, what, given, wanted):
        self.trial.same((what, *self.texts), given, wanted)

    def clauses_given(self):
        """The clauses that the program prints, which are those of the second implementation."""
        lines, status = self.ask("cnf")
        self.same("cnf", (lines, status), self.cnf())
        literals = [line.split()[:-1] for line in lines if status == reports.YES and line[:1] not in ("c", "p")]
        return [list(map(int, words)) for words in literals]

    def compare(self, proof, wanted=None):
        """The answers to a proof; returns whether it is accepted."""
        self.same(("refute", proof), self.ask("refute", proof), wanted or self.refute(proof))
        return self.refute(proof)[1] == reports.YES

    def ranked(self, known):
        """Of these statuses those that `rank` puts before the solution."""
        files = [write(self.trial.folder, f"status{at}", document(self.problem, it)) for at, it in enumerate(known)]
        lines, _ = self.trial.answer(["rank", *self.options, *self.files(), *files])
        order = [int(line.split(" ")[2]) - 2 for line in lines]
        return [known[at] for at in order[:order.index(-1)]]

    def found(self):
        """All that is better."""
        return {it for it in statuses(len(self.rules.packages)) if self.is_better(it)}

    def judge(self, wanted=None):
        """Compares all that is asked of a small problem; returns a proof, and whether it has to be accepted."""
        most, clauses, better = len(self.rules.packages), self.clauses_given(), self.found()
        known = list(statuses(most))
        self.same("better", better, better if wanted is None else set(wanted))
        self.same("models", {it for it in known if extends(clauses, most, it)}, better)
        self.same("ranked", set(self.ranked(known)), better)
        prover = Prover(most, clauses)
        self.same("refuted", prover.is_refuted, not better)
        return prover.text(), not better

    def judge_proofs(self, proof, is_best, chance, tries):
        """A proof is accepted if nothing is better; one that was changed never, if something is."""
        self.same("accepted", self.compare(proof), is_best)
        for _ in range(tries):
            self.spoil(proof, is_best, chance)

    def spoil(self, proof, is_best, chance):
        """Tries a proof that was changed; returns whether it is accepted."""
        changed = spoilt(chance, proof or b"1 0 0\n")
        is_accepted = self.compare(changed)
        self.same(("spoilt", changed), is_accepted and not is_best, False)
        return is_accepted


def hand_made(trial):
    for problem, (aims, status, better) in table("better"):
        asked = Question(trial, problem, document(problem, places(status)), aims)
        asked.judge_proofs(*asked.judge(map(places, better.split())), random.Random(aims), 3)
    for problem, (aims, status, variables, clauses) in table("clauses"):
        asked = Question(trial, problem, document(problem, places(status)), aims)
        lines = [f"{clause.strip()} 0".strip() for clause in clauses.split(",")]
        rules = asked.rules.dimacs()
        packages = len(asked.rules.packages)
        head = f"p cnf {variables} {len(rules) - packages - 1 + len(lines)}"
        wanted = [*rules[:packages], head, *rules[packages + 1:], *lines], reports.YES
        asked.same("second", asked.cnf(), wanted)
        asked.clauses_given()


def told(trial):
    for problem, (words, *texts) in table("told"):
        aims, _, strict = words.partition(" ")
        solution, proof, report = map(unescaped, texts)
        solution = re.sub(rb"<(\S+) (\d+)>", rb"package: \1\nversion: \2\ninstalled: true\n", solution)
        lines = report.decode().split("\n")
        is_fault = lines[0].startswith(("problem ", "solution line "))
        wanted = lines, reports.FAULTY if is_fault else ENDS.get(lines[-1], reports.NO)
        asked = Question(trial, problem, solution, aims, strict == "--strict")
        asked.same(("second", proof), asked.refute(proof), wanted)
        asked.compare(proof, wanted)
        asked.same("second, cnf", asked.cnf() == wanted, bool(asked.refused))
        asked.clauses_given()


def with_recommends(chance, problem):
    """The problem, in which packages recommend something."""
    def atoms(count):
        return chance.choices(("a", "b", "c", "f", "a > 1", "f = 2", "b < 2", "true!"), k=count)

    def formula():
        return ", ".join(" | ".join(atoms(chance.choice((1, 1, 2)))) for _ in range(chance.choice((1, 2, 3))))

    default = f" = [{formula()}]" if chance.random() < 0.4 else ""
    own = re.sub("^version: .*$", lambda found: found[0] + f"\nrecommends: {formula()}" * (chance.random() < 0.5),
                 problem.decode(), flags=re.M)
    return f"preamble:\nproperty: recommends: vpkgformula{default}\n\n{own}".encode()


def aims_of(chance):
    return ",".join(chance.choice("-+") + chance.choice(COUNTS) for _ in range(chance.choice((1, 1, 2, 2, 3, 4))))


def random_question(trial, chance, most):
    """A random problem with a list and a solution, often one that is optimal; now and then without any."""
    aims, problem, known = aims_of(chance), b"", []
    while not problem or not known and chance.random() < 0.9:
        problem = (Mild if chance.random() < 0.8 else Small)(chance).problem(most)
        problem = with_recommends(chance, problem) if chance.random() < 0.6 else problem
        rules = Rules(problem.decode())
        clauses = [clause for _, clause in rules.clauses]
        known = [it for it in statuses(len(rules.packages)) if all(is_satisfied(clause, it) for clause in clauses)]

    def rank(status):
        installed = [it for it in rules.packages if it.place in status]
        return rank_of(read_list(aims), count(rules.packages, rules.initial, installed))

    chance.shuffle(known)
    known = [min(known, key=rank)] if known and chance.random() < 0.4 else known
    return Question(trial, problem, document(problem, known[0] if known else frozenset()), aims)


def random_problems(trial):
    seed, count = (*trial.more, *("1", "100")[len(trial.more):])
    for number in range(int(count)):
        chance = random.Random(f"{seed}/{number}")
        asked = random_question(trial, chance, 5)
        if asked.refused:
            asked.clauses_given()
            asked.compare(b"x", asked.refused)
        else:
            asked.judge_proofs(*asked.judge(), chance, 3)


def long_problems(trial):
    """Many packages of a name or of many, of which a solution has some: it is better with one more or one less."""
    for size in SIZES:
        chance = random.Random(size)
        names = chance.choice((size, size // 2, 2))
        stanzas = (f"package: p{at % names}\nversion: {at + 1}\n" for at in range(size))
        stanzas = [text + "installed: true\n" * (at % 3 == 0) for at, text in enumerate(stanzas)]
        problem = "\n".join([*stanzas, "request:\n"]).encode()
        for bound in (0, 1, size // 3, size // 2, size):
            status = frozenset(chance.sample(range(1, size + 1), bound))
            asked = Question(trial, problem, document(problem, status), aims_of(chance))
            clauses = asked.clauses_given()
            for other in (status ^ {place} for place in chance.sample(range(1, size + 1), 4)):
                asked.same(("changed", other), extends(clauses, size, other), asked.is_better(other))


if __name__ == "__main__":
    common.start(__doc__, hand_made, told, random_problems, long_problems, counts=(1, 2, 3))
