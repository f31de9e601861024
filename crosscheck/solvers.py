#!/usr/bin/env python3
"""Compares the program with solvers and with libcudf, on random problems.

usage: solvers.py answers PROGRAM SEED COUNT [FILE..]
       solvers.py optima PROGRAM SEED COUNT
       solvers.py libcudf PROGRAM SEED COUNT
       solvers.py cadical PROGRAM SEED COUNT [SPOILT [CHECKED]]
       solvers.py optimal PROGRAM SEED COUNT

- answers: mccs, aspcud and packup, as far as they are installed, answer COUNT plain problems, COUNT others, as many of
  refutations.py, and the FILES. `check` judges each answer, and fail.sh of examples/competition each FAIL. An answer of
  mccs or aspcud to a plain problem is a solution or FAIL, and where FAIL is right, no answer is a solution. Prints what
  came of them for each solver, and each FILE with a FAIL.
- optima: mccs and aspcud answer COUNT problems for each of some lists of criteria. For answers to one list, `score` has
  the same counts in the order of the list, and the last one is the objective value that mccs writes; `rank` puts all
  solutions in the order of their counts, and an answer for its list has those of the first. By fail.sh, with cadical,
  nothing is better.
- libcudf: COUNT problems, each with three statuses: the initial one with few, some and many packages changed. `check`
  and `cudf-check` agree on what is a solution. Upgrades of features and `f < 1`, which they read differently, aren't in
  the problems.
- cadical: COUNT problems of up to 8 packages. For each status the keys of the clauses that it doesn't satisfy are those
  of the instances that it violates: by the second implementation, and for the first CHECKED (100) problems by `check`.
  `cnf` prints the CNF of the second implementation. A model that cadical finds is a solution, also by `check`; a proof
  is accepted by `refute`, with the lines of the second checker. It answers as that checker to SPOILT (500) proofs that
  are changed, or another problem's. Where a proof is accepted, every status violates an instance of a line.
- optimal: COUNT questions of better.py, of up to 8 packages. cadical finds a model of the clauses of `cnf --better-than`
  exactly if one of all statuses is a solution that is better. The packages of a model are, and `rank` puts them first;
  then it is asked what is better than these, until nothing is, and `refute` accepts the proof. It answers as the second
  checker to proofs that are changed or another question's, and accepts none where something is better.

Each part also prints how many there were of what. fail.sh and the last two need cadical 1.7 or later.
"""
import collections
import os
import random
import re
import shutil
import sys
import tempfile

from better import document, random_question
from common import contents, read, run, start, write
from docs import SCRIPTS, leave
from refutations import Encoded, Mild, Small, keys_in, proof_answer, spoilt
from second.universe import installing

NAMES, FEATURES = ["car", "wheel", "door", "engine", "glass", "tyre"], ["drive", "light"]
OPERATORS, KEEPS = ["=", "!=", ">=", ">", "<=", "<"], ["version", "package", "none", "feature"]
PREAMBLE = "preamble: \nproperty: recommends: vpkgformula = [true!]\n\n"
LISTS = (("removed",), ("new",), ("changed",), ("notuptodate",), ("unsat_recommends",), ("removed", "changed"),
         ("removed", "notuptodate", "unsat_recommends", "new"))
SATISFIABLE, REFUTED = 10, 20
COUNTED = ("FAILs", "right", "wrong", "not decided", "beside a solution", "solutions", "no solutions", "no answers")


def bound(dice):
    """An operator and a number, or nothing. Not `< 1`, which mccs and libcudf read in a way of their own."""
    operator = dice.choice(OPERATORS)
    return f" {operator} {dice.randint(2 if operator == '<' else 1, 4)}" if dice.random() < 0.4 else ""


def entry(dice):
    return dice.choice(NAMES + FEATURES) + bound(dice)


def entries(dice, most, separator=", "):
    return separator.join(entry(dice) for _ in range(dice.randint(1, most)))


def package(dice, name, version, is_plain):
    lines = [f"package: {name}", f"version: {version}"]
    if dice.random() < 0.5:
        lines.append("depends: " + ", ".join(entries(dice, 2, " | ") for _ in range(dice.randint(1, 2))))
    if dice.random() < 0.3:
        lines.append("conflicts: " + (name if dice.random() < 0.5 else entries(dice, 2)))
    if dice.random() < 0.3:
        version = f" = {dice.randint(1, 4)}" if is_plain or dice.random() < 0.5 else ""
        lines.append("provides: " + dice.choice(FEATURES if is_plain else FEATURES + NAMES[:1]) + version)
    if dice.random() < 0.4:
        lines.append("installed: true")
        if dice.random() < 0.3:
            lines.append("keep: " + dice.choice(KEEPS[:3] if is_plain else KEEPS))
    return "\n".join(lines) + "\n"


def problem(dice, is_plain):
    """A random problem. A plain one is without what solvers read in ways of their own: each provision has a version and
    isn't a package's name, and nothing is under `keep: feature`. Another one has no upgrade of features."""
    stanzas = []
    for name in NAMES:
        stanzas += [package(dice, name, version, is_plain) for version in dice.sample(range(1, 5), dice.randint(1, 3))]
    request = ["request: random"]
    for wish in ("install", "remove", "upgrade"):
        if dice.random() < 0.4:
            is_name = wish == "upgrade" and not is_plain
            request.append(f"{wish}: " + (dice.choice(NAMES[1:]) + bound(dice) if is_name else entry(dice)))
    return "\n".join(stanzas + ["\n".join(request) + "\n"])


def with_recommends(dice, text):
    """The problem with `recommends`. mccs doesn't count a conjunct that nothing satisfies: each has a known name."""
    def lines(found):
        count = dice.randint(1, 3)
        clauses = [" | ".join([dice.choice(NAMES)] + [entry(dice)] * (dice.random() < 0.5)) for _ in range(count)]
        return found[0] + (f"\nrecommends: {', '.join(clauses)}" if dice.random() < 0.4 else "")
    return PREAMBLE + re.sub(r"^version: .*$", lines, text, flags=re.M)


def counted_alike(text):
    """The problem without what mccs 1.1 and aspcud 1.9.6 count in ways of their own. aspcud counts packages, not names:
    each package conflicts with its name, and is the only installed one of it. mccs ignores an atom that the package
    itself satisfies, if it is the first of several: no package satisfies itself."""
    seen, stanzas = set(), text.split("\n\n")
    for at, stanza in enumerate(stanzas):
        if not stanza.startswith("package: "):
            continue
        name = stanza.split("\n")[0].removeprefix("package: ")
        own = "|".join([name, *re.findall(r"^provides: (\w+)", stanza, re.M)])
        stanza = re.sub(rf"\n(depends|recommends): .*\b({own})\b.*", "", stanza)
        stanza = stanza.replace("\nconflicts: ", f"\nconflicts: {name}, ")
        if "\nconflicts: " not in stanza:
            stanza = stanza.replace("\nversion: ", f"\nconflicts: {name}\nversion: ", 1)
        stanzas[at] = stanza.replace("\ninstalled: true", "") if name in seen else stanza
        seen |= {name} if "\ninstalled: true" in stanza else set()
    return "\n\n".join(stanzas)


def words_of(solver, given, answer, criteria=("removed", "changed")):
    """The command of a solver; packup needs a folder of its own."""
    named = ",".join("-" + name for name in criteria)
    counted = named.replace("unsat_recommends", "nunsat[recommends:,true]")
    return {
        "mccs": ["mccs", "-i", given, "-o", answer, f"-lexicographic[{counted}]"],
        "aspcud": ["aspcud", given, answer, named],
        "packup": ["packup", "--temporary-directory", os.path.dirname(answer), "-u", named, given, answer],
    }[solver]


def shown(trial, given, *better):
    """The status of fail.sh for a problem, or for an answer to it and a list."""
    with tempfile.TemporaryDirectory() as folder:
        os.symlink(trial.program, f"{folder}/cudf_check")
        environment = {**os.environ, "PATH": f"{folder}:{os.environ['PATH']}"}
        return run(["sh", f"{SCRIPTS}/fail.sh", given, f"{folder}/witness", *better], env=environment).status


def judged(trial, solvers, kind, given):
    """Counts what comes of the answers to a problem; yields the kind and the name of each."""
    found, verdict = {}, ""
    with tempfile.TemporaryDirectory() as folder:
        for solver in solvers:
            os.mkdir(f"{folder}/{solver}")
            answer = f"{folder}/{solver}/answer"
            ended = run(words_of(solver, given, answer), seconds=30).status
            is_there = ended != "TimeoutExpired" and os.path.isfile(answer)
            found[solver], report, _ = trial.run(["check", given, answer]) if is_there else (None, "", "")
            if kind == "plain" and solver != "packup" and ended == 0 and is_there:
                name = f"{read(given)}---- {solver} answered\n{read(answer)}---- judged\n{report}"
                trial.same(name, found[solver] in (0, 3), True)
        if 3 in found.values():
            verdict = {0: "right", 1: "wrong"}.get(shown(trial, given), "not decided")
    for solver, status in found.items():
        yield solver, {0: "solutions", 1: "no solutions", 3: "FAILs"}.get(status, "no answers")
        if status == 3:
            yield solver, verdict
            yield from [(solver, "beside a solution")] * (0 in found.values())
        if status == 3 and kind == "file":
            print(f"{given}: {solver} FAIL {verdict}", flush=True)
    trial.same(f"{kind}, FAIL is {verdict}: {found}", verdict == "right" and 0 in found.values(), False)


def answers(trial, seed, count, *files):
    dice, tally = random.Random(int(seed)), collections.Counter()
    solvers = [name for name in ("mccs", "aspcud", "packup") if trial.has("a solver", name)]
    makers = {"plain": lambda: problem(dice, True), "other": lambda: problem(dice, False),
              "small": lambda: Small(dice).problem(8).decode()}
    for kind in [kind for kind in makers for _ in range(count)]:
        leave(trial.place("problem"), makers[kind]())
        tally.update(judged(trial, solvers, kind, trial.place("problem")))
    for given in files:
        tally.update(judged(trial, solvers, "file", given))
    for solver in solvers:
        print(f"{solver}: " + ", ".join(f"{what} {tally[solver, what]}" for what in COUNTED))


class Answer:
    """A solver's answer for a list of criteria, and the program's counts of it."""

    def __init__(self, trial, solver, criteria):
        given, self.path = trial.place("problem"), trial.place("-".join([solver, *criteria]))
        self.solver, self.criteria = solver, criteria
        ended = run(words_of(solver, given, self.path, criteria)).status
        self.text = read(self.path) if ended == 0 else None
        lines = ["broken off"] if ended else trial.answer(["score", given, self.path])[0]
        self.verdict, self.counted = lines[-1], dict(line.split(" ", 1) for line in lines[:-1])
        self.counts = self.counts_by(criteria)
        # mccs writes the empty status where nothing bears on the last criterion; aspcud counts `changed` by packages
        self.is_compared = self.verdict == "solution yes" and (solver != "mccs" or "\npackage: " in self.text)
        self.is_optimal = self.is_compared and (solver == "mccs" or "changed" not in criteria)
        self.objective = re.findall(r"^# objective value = (-?[0-9.]+)\.$", self.text or "", re.M)

    def counts_by(self, criteria):
        return [int(self.counted[name]) for name in criteria] if self.counted else None


def differences(trial, every, criteria):
    """What is wrong with the counts of the answers for a list, and with the ranking of all answers by it."""
    mccs, aspcud = (answer for answer in every if answer.criteria == criteria)
    if mccs.is_compared and list(map(float, mccs.objective)) != mccs.counts[-1:]:
        yield f"mccs {mccs.counts}, its objective value {mccs.objective}"
    if mccs.is_optimal and aspcud.is_optimal and mccs.counts != aspcud.counts:
        yield f"mccs {mccs.counts}, aspcud {aspcud.counts}"
    given = [answer for answer in every if answer.text is not None]
    words = [f"--criteria={','.join('-' + name for name in criteria)}", trial.place("problem")]
    lines, _ = trial.answer(["rank", *words, *(answer.path for answer in given)])
    ranked = [line.split(" ") for line in lines if " yes " in line]
    found = [(given[int(line[2]) - 1], [int(count) for count in line[5::2]]) for line in ranked]
    solutions = [answer for answer in given if answer.verdict == "solution yes"]
    if [answer for answer, _ in found] != sorted(solutions, key=lambda answer: answer.counts_by(criteria)):
        yield f"ranked {[answer.path for answer, _ in found]}"
    for answer, counts in found:
        if counts != answer.counts_by(criteria):
            yield f"{answer.path} ranked with {counts}, scored {answer.counts_by(criteria)}"
        if answer.criteria == criteria and answer.is_optimal and counts != found[0][1]:
            yield f"{answer.path} {counts}, but the first has {found[0][1]}"


def optima(trial, seed, count):
    dice, tally = random.Random(int(seed)), collections.Counter()
    for _ in range(count):
        text = counted_alike(with_recommends(dice, problem(dice, True)))
        leave(trial.place("problem"), text)
        every = [Answer(trial, solver, criteria) for criteria in LISTS for solver in ("mccs", "aspcud")]
        tally.update(f"{answer.solver} {answer.verdict}" for answer in every)
        for criteria in LISTS:
            tally["compared"] += all(answer.is_compared for answer in every if answer.criteria == criteria)
            for answer in every:
                if answer.criteria == criteria and answer.is_optimal:
                    status = shown(trial, trial.place("problem"), answer.path, ",".join("-" + it for it in criteria))
                    tally[f"{answer.solver} optimal"] += status == 0
                    trial.same(f"{text}{criteria}: is this optimal?\n{answer.text}", status, 0)
            answered = "".join(f"---- {answer.path}\n{answer.text}" for answer in every)
            trial.same(f"{text}{criteria}\n{answered}", list(differences(trial, every, criteria)), [])
    print(", ".join(f"{key} {number}" for key, number in sorted(tally.items())))


def libcudf(trial, seed, count):
    dice, tally = random.Random(int(seed)), collections.Counter()
    given, answer = trial.place("problem"), trial.place("answer")
    for text in (problem(dice, False) for _ in range(count)):
        leave(given, text)
        known = re.findall(r"^package: (\S+)\nversion: (\d+)\n((?:.+\n)*)", text, re.M)
        for share in (0.05, 0.2, 0.5):
            pairs = [pair for *pair, rest in known if ("installed: true" in rest) != (dice.random() < share)]
            leave(answer, installing(*pairs))
            (*_, verdict), _ = trial.answer(["check", given, answer])
            theirs = "".join(run(["cudf-check", "-cudf", given, "-sol", answer]).decoded()[1:])
            tally[verdict] += 1
            found = re.findall(r"is_solution: (true|false)", theirs)
            wanted = {"solution yes": ["true"], "solution no": ["false"]}.get(verdict)
            trial.same(f"{text}---- answer\n{installing(*pairs)}---- ours: {verdict}, theirs\n{theirs}", found, wanted)
    trial.same("both verdicts came", len(tally), 2)
    print(", ".join(f"{verdict} {number}" for verdict, number in tally.items()))


def model_of(output):
    """The literals of a model that cadical prints."""
    return frozenset(int(word) for line in output.splitlines() if line[:1] == "v" for word in line.split()[1:])


class Asked(Encoded):
    """A random problem, of which the program and cadical are asked."""

    def __init__(self, problem, trial, tally):
        super().__init__(problem)
        self.trial, self.tally, self.file = trial, tally, write(trial.folder, "problem", problem)

    def ask(self, job, document):
        """The program's answer for the problem and another document."""
        return self.trial.answer([job, self.file, write(self.trial.folder, "document", document)])

    def compare(self, count, given, wanted, what=""):
        self.tally[count] += 1
        self.trial.same((count, what, self.problem), given, wanted)

    def judge(self, checks):
        """Each status, by the second implementation and, if it checks, by the program."""
        for status, keys in self.falsified.items():
            self.compare("statuses", self.violated(status), keys, status)
            if checks:
                lines, _ = self.ask("check", self.solution(status).encode())
                self.compare("statuses by check", keys_in(lines), keys, status)

    def solve(self):
        """What cadical finds; a proof is returned."""
        encoded, path = self.trial.run(["cnf", self.file]).output, self.trial.place("proof")
        self.compare("problems", encoded.splitlines(), self.rules.dimacs())
        cnf = write(self.trial.folder, "cnf", encoded.encode())
        ended = run(["cadical", "-q", "--lrat", "--no-binary", cnf, path]).decoded()
        self.compare("solved", ended.status, REFUTED if all(self.falsified.values()) else SATISFIABLE)
        if ended.status == SATISFIABLE:
            model = model_of(ended.output)
            self.compare("solutions", self.ask("check", self.solution(model).encode()), (["solution yes"], 0), model)
            return None
        proof = contents(path)
        self.tally.update({"steps": proof.count(b"\n"), "lines of cores": len(self.refuted("proofs", proof)) - 1})
        return proof

    def refuted(self, count, proof):
        """Compares the answers to a proof, which is cadical's own or changed; returns the lines of a core."""
        lines, status = proof_answer(self.problem, proof)
        self.compare(count, self.ask("refute", proof), (lines, status), proof)
        if status == 0 or count == "proofs":
            self.compare(f"{count}, accepted", (status, self.is_core(lines)), (0, True), proof)
        return lines

    def spoil(self, proof, chance):
        """Tries a proof that was changed, or that is another problem's."""
        for _ in range(chance.choice((1, 1, 2, 3))):
            proof = spoilt(chance, proof or b"1 0 0\n")
        self.refuted("spoilt", proof)


def cadical(trial, seed, count, most_spoilt="500", checked="100"):
    dice, before, tally = random.Random(seed), None, collections.Counter()
    for number in range(count):
        asked = Asked((Mild if number % 2 else Small)(dice).problem(8), trial, tally)
        asked.judge(number < int(checked))
        proof = asked.solve()
        # an empty proof is of an empty clause, and then no proof is read
        before = proof or before
        if tally["spoilt"] < int(most_spoilt) and before and (proof or dice.random() < 0.2):
            asked.spoil(before, dice)
    print(", ".join(f"{name} {number}" for name, number in tally.items()))


def solved(trial, question, tally):
    """The packages of a better solution that cadical finds, and a proof if there is none."""
    better, path = question.found(), trial.place("lrat")
    question.clauses_given()
    cnf = write(trial.folder, "cnf", "".join(f"{line}\n" for line in question.cnf()[0]).encode())
    ended = run(["cadical", "-q", "--lrat", "--no-binary", cnf, path]).decoded()
    question.same("solved", ended.status, SATISFIABLE if better else REFUTED)
    tally[["better", "nothing better", "an empty clause"][(not better) + ([] in question.clauses)]] += 1
    if not better:
        question.same("proof", question.compare(contents(path)), True)
        return None, contents(path)
    model = model_of(ended.output) & set(range(1, len(question.rules.packages) + 1))
    question.same(("model", model), (model in better, question.ranked([model])), (True, [model]))
    return model, None


def optimal(trial, seed, count):
    proof, tally = b"1 0 0\n", collections.Counter()
    for number in range(count):
        dice, before, other = random.Random(f"{seed}/{number}"), [], proof
        question = random_question(trial, dice, 8)
        if question.refused:
            tally["without a solution"] += 1
            question.compare(proof, question.refused)
            continue
        model, proof = solved(trial, question, tally)
        while model is not None:
            before.append(question)
            question = question.of(document(question.problem, model))
            model, proof = solved(trial, question, tally)
        # the last proof is wrong for what could be bettered, and so is each that is near it
        for asked in before:
            asked.same(("the last proof", proof), asked.compare(proof), False)
            asked.spoil(proof, False, dice)
            tally["spoilt, where something is better"] += 2
        if [] not in question.clauses:
            tally["spoilt, where nothing is"] += 1
            tally["of these accepted"] += question.spoil(dice.choice((proof, other)), True, dice)
    print(", ".join(f"{name} {number}" for name, number in tally.items()))


# the parts, each with the programs that it needs
PARTS = {"answers": (answers, []), "optima": (optima, ["mccs", "aspcud", "cadical"]), "libcudf": (libcudf, ["cudf-check"]),
         "cadical": (cadical, ["cadical"]), "optimal": (optimal, ["cadical"])}


def main(part):
    try_part, needed = PARTS.get(part, (None, []))
    if missing := [program for program in needed if not shutil.which(program)]:
        print(f"solvers.py {part} needs {' and '.join(missing)}", file=sys.stderr)
        sys.exit(2)
    tests = (lambda trial: try_part(trial, trial.more[0], int(trial.more[1]), *trial.more[2:]),)
    start(__doc__, *tests, counts=range(3, 99) if try_part else ())


if __name__ == "__main__":
    main(sys.argv.pop(1) if len(sys.argv) > 1 else "")
