#!/usr/bin/env python3
"""Compares `cnf` and `refute` with rows worked out by hand and with the second implementation on random problems.

usage: refutations.py PROGRAM [SEED [COUNT]]

Of each of COUNT (200) problems the clauses that a status falsifies are those of the rules that it violates, and if none
satisfies all, a proof is accepted. If a corrupted proof is accepted, each status violates a printed rule.
"""
import os
import random
import re

import common
from common import contents, read, section, sections, unescaped, write
from inputs import ODD_BYTES, WORDS, Inputs
from second.cnf import Rules, is_satisfied, statuses
from second.explained import with_cause
from second.judge import Judgement
from second.lrat import KINDS, Proof, Prover
from second.reasons import Reasons
from second.reports import error_answer
from second.universe import installing

SHOP, SHOP_PROOF = (read(f"examples/{name}") for name in ("shop.problem.cudf", "shop.lrat"))
SHOP_EXPLAINED = section("refutations.txt", "core").rstrip("\n") + "\n"
SHOP_CORE = re.sub("; .*", "", SHOP_EXPLAINED) + "no solution exists\n"
A = "package: a\nversion: 1\n"
ODD_NUMBERS = "007 3 0 6 3 1 0\n18446744073709551614 4 0 6 2 00\n18446744073709551615 0 7 18446744073709551614 4 0\n"


def table(kind):
    """The heads of the sections of a kind, and their parts."""
    found = [(*head.partition(" "), body) for head, body in sections("crosscheck/refutations.txt")]
    return [(about, body.removesuffix("\n").split("--\n")) for name, _, about, body in found if name == kind]


class Trial(common.Trial):
    def expect(self, command, wanted, *texts, options=()):
        """One run on files of these bytes."""
        files = [write(self.folder, f"file{at}", text) for at, text in enumerate(texts)]
        self.same((command, *options, *texts), self.answer([command, *files, *options]), wanted)

    def refute(self, problem, proof, wanted=(None, None)):
        """A proof, without and with `--explain`, by the second implementation and by the program."""
        for options, answer in zip(((), ("--explain",)), wanted):
            second = proof_answer(problem, proof, explains=bool(options))
            if answer:
                self.same(("second", problem, proof, options), second, answer)
            self.expect("refute", answer or second, problem, proof, options=options)


def cnf_answer(problem):
    return error_answer("problem", problem) or (Rules(problem.decode()).dimacs(), 0)


def proof_answer(problem, data, explains=False):
    if refused := error_answer("problem", problem, explains=explains):
        return refused
    rules = Rules(problem.decode())
    shown = Proof(len(rules.packages), [clause for _, clause in rules.clauses], data)
    if shown.fault:
        return [with_cause(error_line(*shown.fault), shown.cause() if explains else "")], 1
    return [*Reasons(rules, shown.core, explains).lines, "no solution exists"], 0


def error_line(line, kind):
    return f"proof line {line}: L{kind} {KINDS[kind]}"


def by_hand(wanted):
    """The answers without and with `--explain`: to a proof with an error, a problem with an error, or else a core."""
    if error := re.fullmatch(r"(\d) (\d)(?:; (.*))?\n", wanted):
        line = error_line(*map(int, error.groups()[:2]))
        return [([with_cause(line, cause)], 1) for cause in ("", error[3])]
    end, status = ([], 2) if wanted.startswith("problem") else (["no solution exists"], 0)
    return [(text.splitlines() + end, status) for text in (re.sub("; .*", "", wanted), wanted)]


def cnf_rows(trial):
    for clauses, problem in ((clauses, problem) for clauses, problems in table("cnf") for problem in problems):
        packages, listed = Rules(problem).packages, clauses.split(" | ") if clauses else []
        lines = [f"c p{package.place} {package.words()}" for package in packages]
        wanted = [*lines, f"p cnf {len(packages)} {len(listed)}", *listed], 0
        trial.same(("second", problem), cnf_answer(problem.encode()), wanted)
        trial.expect("cnf", wanted, problem.encode())


def proof_rows(trial):
    for wanted, proof in re.findall(r"(.*) \| ?(.*)\n", section("refutations.txt", "proofs")):
        trial.refute(SHOP.encode(), unescaped(proof), by_hand(SHOP_EXPLAINED if wanted == "ok" else wanted + "\n"))
    for problem, proof, wanted in (parts for _, parts in table("refute")):
        trial.refute(problem.encode(), proof.encode(), by_hand(wanted))
    # longer proofs, of which a cut may leave another number
    together = [contents(f"examples/{name}") for name in ("together.problem.cudf", "together.lrat")]
    for problem, proof in (together, (SHOP.encode(), ODD_NUMBERS.encode())):
        for end in range(len(proof)):
            trial.expect("refute", proof_answer(problem, proof[:end]), problem, proof[:end])
    for options in ((), ("--strict",)):
        for command, *proof in (("cnf",), ("refute", b"")):
            trial.expect(command, by_hand("problem line 2: E13 no request")[0], A.encode(), *proof, options=options)
    # files of no size
    shop, none, no_request = write(trial.folder, "shop", SHOP.encode()), os.devnull, "problem line 1: E13 no request"
    wanted = {("refute", shop, none): "1 8\n", ("refute", none, shop): no_request, ("cnf", none): no_request}
    for words, answer in wanted.items():
        trial.same(words, trial.answer(words), by_hand(answer)[0])


def spoilt(chance, data):
    """The proof with something changed."""
    lines = data.split(b"\n")
    at, way = chance.randrange(len(lines)), chance.randrange(9)
    words = lines[at].split(b" ")
    if way == 5:
        return data[:chance.randrange(len(data) + 1)]
    if way == 6:
        place = chance.choice((0, chance.randrange(len(data) + 1)))
        return data[:place] + chance.choice(ODD_BYTES) + data[place:]
    if way == 7:
        return b"\n".join([*lines[:at], chance.choice(WORDS.no_step).encode(), *lines[at + 1:]])
    if way == 8:
        # the literals alone, or what is passed over before a number that is not new
        alone = lines[at].partition(b" 0 ")[0] + b" 0"
        return b"\n".join([*lines[:at], *chance.choice(([alone], [b"c x", b"", b"1 d 1 0", b"1 " + alone + b" 1 0"]))])
    if way < 2:
        lines[at:at + 1] = [lines[chance.randrange(len(lines))], lines[at]] if way else []
        return b"\n".join(lines)
    if way == 2:
        place = chance.randrange(len(words))
        words[place] = str(chance.choice((-2, -1, 0, 1, 2, 3, 5, 8, 13))).encode()
    elif way == 3:
        words.insert(chance.randrange(len(words) + 1), str(chance.randrange(1, 12)).encode())
    else:
        del words[chance.randrange(len(words))]
    return b"\n".join([*lines[:at], b" ".join(words), *lines[at + 1:]])


class Small:
    """Random small problems without error."""

    def __init__(self, chance):
        self.chance, self.pick = chance, chance.choice

    def some(self, make, most):
        return ", ".join(make() for _ in range(self.chance.randrange(most + 1)))

    def vpkg(self):
        bounds = ("", "", " = 1", " = 2", " != 1", " > 1", " >= 2", " < 2", " < 1", " <= 1", " > 3")
        return self.pick("abcf") + self.pick(bounds)

    def clause(self):
        count = self.pick((1, 1, 2, 3))
        atoms = (self.vpkg() if self.chance.random() < 0.95 else self.pick(("true!", "false!")) for _ in range(count))
        return " | ".join(atoms)

    def provision(self):
        return self.pick("abff") + self.pick(("", " = 1", " = 2", " = 3"))

    def package(self, pair):
        lines = [f"package: {pair[0]}\nversion: {pair[1]}\ndepends: {self.some(self.clause, 2)}"]
        lines += [f"conflicts: {self.some(self.vpkg, 2)}", f"provides: {self.some(self.provision, 2)}"]
        if self.chance.random() < 0.5:
            lines += ["installed: true", f"keep: {self.pick(('version', 'package', 'feature', 'feature', 'none'))}"]
        return "\n".join(lines) + "\n\n"

    def problem(self, most):
        known = [(name, version) for name in "abcf" for version in (1, 2, 3)]
        pairs = self.chance.sample(known, self.chance.randrange(most + 1))
        wishes = "".join(f"{name}: {self.some(self.vpkg, 2)}\n" for name in ("install", "remove", "upgrade"))
        return ("".join(map(self.package, pairs)) + "request:\n" + wishes).encode()


class Mild(Small):
    """Problems of which more have a solution: most lists are empty."""

    def some(self, make, most):
        return super().some(make, most) if self.chance.random() < 0.4 else ""


class Encoded:
    """A problem without error, and of each status the keys of the clauses that it falsifies."""

    def __init__(self, problem):
        self.problem, self.rules = problem, Rules(problem.decode())
        self.falsified = {
            status: {key for key, clause in self.rules.clauses if not is_satisfied(clause, status)}
            for status in statuses(len(self.rules.packages))
        }

    def solution(self, status):
        """A document that installs these packages."""
        return installing(*((it.name, it.version) for it in self.rules.packages if it.place in status))

    def violated(self, status):
        """The keys of the instances that a status violates, by the second judge."""
        return {key for key, _, _ in Judgement(self.problem.decode(), self.solution(status)).instances}

    def is_core(self, lines):
        """Whether each status violates an instance of a printed line."""
        return all(keys_in(lines) & found for found in self.falsified.values())


def keys_in(lines):
    return {line.split(" ")[0] for line in lines[:-1]}


def random_problem(trial, seed):
    inputs, chance = Inputs(seed), random.Random(seed)
    odd, problem = inputs.problem(inputs.pairs()), Small(chance).problem(5)
    trial.refute(odd, b"")
    for data in (odd, problem):
        trial.expect("cnf", cnf_answer(data), data)
    encoded = Encoded(problem)
    for status, keys in encoded.falsified.items():
        trial.same(("keys", problem, sorted(status)), keys, encoded.violated(status))
    rules = encoded.rules
    prover = Prover(len(rules.packages), [clause for _, clause in rules.clauses])
    trial.same(("refuted", problem), prover.is_refuted, all(encoded.falsified.values()))
    proof = prover.text()
    for data in (proof, *(spoilt(chance, proof or b"1 0 0\n") for _ in range(3))):
        trial.refute(problem, data)
        lines, status = proof_answer(problem, data)
        if status == 0:
            trial.same(("core", problem, data), encoded.is_core(lines), True)


def random_problems(trial):
    seed, count = (*trial.more, *("1", "200")[len(trial.more):])
    for number in range(int(count)):
        random_problem(trial, f"{seed}/{number}")


if __name__ == "__main__":
    common.start(__doc__, cnf_rows, proof_rows, random_problems, counts=(1, 2, 3), make=Trial)
