#!/usr/bin/env python3
"""Runs the scripts of examples/competition that judge FAIL, and the best answers.

usage: fails.py PROGRAM

- fail.sh with a stand-in for cadical, which answers each CNF that it knows, by its checksum, with a proof or model:
  FAIL that is right, and wrong; malformed problems; wrong proofs and models; a solver that was stopped, that fails,
  that isn't there; wrong arguments; names with spaces. Some with cadical itself, if it is installed and writes LRAT.
- fail.sh with an answer and a list: an optimal one, one that isn't, others that are no solutions, wrong proofs and models.
- fails.sh and optimal.sh on a folder of answers, also with a solver that fails, and on the page's own.

dash and bash run the scripts where they are installed.
"""
import hashlib
import os
import shutil
import tempfile

from common import read, run, start
from docs import CARS, DOCUMENTS, NEW, OLD, PARANOID, SCRIPTS, SHELLS, Trial, competition, leave, table
from refutations import A, SHOP, SHOP_CORE, SHOP_PROOF
from second.better import Better
from second.cnf import Rules
from second.reports import Second
from second.universe import installing

# the last two arguments are the CNF and the proof; the status is $ENDS (0) where it has no answer
STAND_IN = """#!/bin/sh
while [ $# -gt 2 ]; do shift; done
answer=$ANSWERS/$(sha256sum < "$1" | cut -d ' ' -f 1)
[ -e "$answer.proof" ] && { cp "$answer.proof" "$2"; echo "s UNSATISFIABLE"; exit 20; }
[ -e "$answer.model" ] && { cat "$answer.model"; exit 10; }
exit ${ENDS:-0}
"""
# what fail.sh calls besides cudf_check and cadical
TOOLS = ("awk", "cat", "cp", "cut", "mktemp", "rm", "sha256sum", "sh")
NOTHING, FAULTY = "request:\n", "package: a\n\nrequest:\n"
# nothing in LACKING gives b, and server 1 alone is a solution on the page
TWO = A + "\npackage: b\nversion: 2\ndepends: a\n\nrequest: r\ninstall: b\n"
LACKING = A + "\nrequest: r\ninstall: a, b\n"
WITNESS = installing(("a", 1), ("b", 2)) + "\n"
SERVER = read("examples/competition/problems/server.cudf")
KNOWN = (
    (SHOP, "proof", SHOP_PROOF), (TWO, "model", "s SATISFIABLE\nv 1 2 0\n"), (LACKING, "proof", ""),
    (NOTHING, "model", "s SATISFIABLE\nv 0\n"), (SERVER, "model", "s SATISFIABLE\nv -1 -2 -3 -4 5 0\n"),
)
# what table.sh shows of the folder of answers: one FAIL is right, one wrong, one undecided; and with `plain=yes`
CELLS = [
    (PARANOID, "ash", "elm"), ("faulty", "unranked", "unranked"), ("more", "1", "missing"), ("open", "FAIL", "FAIL"), ("quiet", "1", "missing"),
    ("shop", "right", "right"), ("two", "wrong", "1"),
]
PLAIN = [tuple("FAIL" if cell in ("right", "wrong") else cell for cell in row) for row in CELLS]
YES, UNKNOWN = "solution yes\n", "not decided\n"
# of cadical before 1.7, which ends with 1, and of one that crashes or is killed
BROKEN, ENDS = "fail.sh: cadical failed; version 1.7 or later is needed\n", ("1", "2", "134", "137", "143")
# the problem's name and text, further arguments, the status, the output, and files that are left
ROWS = (
    ("right", SHOP, [], 0, SHOP_CORE, {}), ("wrong", TWO, [], 1, YES, {"witness": WITNESS}),
    ("empty clause", LACKING, [], 0, "r.install.2 line 4: needs b\nno solution exists\n", {}),
    ("no packages", NOTHING, [], 1, YES, {"witness": ""}),
    ("malformed", FAULTY, [], 2, "problem line 1: E12 no version\n", {}),
    ("named in two words", TWO, [], 1, YES, {"witness": WITNESS}), ("-dash", SHOP, [], 0, SHOP_CORE, {}),
    ("named in two words", TWO, ["its witness"], 1, YES, {"its witness": WITNESS}),
)
# Of CARS by LATEST variable 4 is true if car is outdated, 5 and 6 if car and bus are changed, 7 if one of them is and 8 if
# both are. NEW changes car alone, BOTH also installs bus.
BOTH, BUS, CUT = (DOCUMENTS[name] for name in ("BOTH", "BUS", "CUT"))
LATEST = "-notuptodate,-changed"
NEW_IS_OPTIMAL, NO_BUS = "12 0 11 8 4 5 2 3 0\n", "s SATISFIABLE\nv -1 2 -3 -4 5 -6 7 -8 0\n"
KNOWN_BETTER = (
    (CARS, "proof", NEW_IS_OPTIMAL, NEW, LATEST),
    (CARS, "model", "s SATISFIABLE\nv 1 -2 -3 4 5 -6 -7 0\n", NEW, "-changed"),
    # nothing is better than no change; TWO needs both of its packages; of BOTH `bus` isn't needed
    (CARS, "proof", "", OLD, PARANOID), (TWO, "proof", "9 0 2 1 3 4 7 8 0\n", WITNESS, PARANOID),
    (CARS, "model", NO_BUS, BOTH, PARANOID),
)
OPTIMAL = "-notuptodate 0\n-changed 1\nno better solution exists\n"
USAGE = "usage: fail.sh PROBLEM [WITNESS [ANSWER LIST]]\n"
# an answer to CARS and a list; the status, the output, and files that are left
BETTER_ROWS = (
    (NEW, LATEST, 0, OPTIMAL, {}), (NEW, "-changed", 1, "solution yes\n", {"witness": OLD + "\n"}),
    (BUS, LATEST, 4, "solution no\n", {}), ("FAIL\n", LATEST, 4, "solution FAIL\n", {}),
    (CUT, LATEST, 2, "solution line 3: E2 not a property, continuation, comment or blank line\n", {}),
)
# a model that isn't better, and a proof of less
WRONG_BETTER = (
    (CARS, "model", "s SATISFIABLE\nv -1 2 3 -4 5 6 7 8 0\n", BOTH, LATEST, "solution yes\n"),
    (CARS, "proof", "12 0 11 8 4 5 2 0\n", NEW, LATEST, "proof line 1: L7 hints without conflict\n"),
)
# what must not be believed: another's proof, one that was cut off, a model of less
WRONG = (
    (SHOP, "proof", "7 0 1 2 0\n", "proof line 1: L6 hint is not unit\n"),
    (SHOP, "proof", "7 3 0 6 3 1 0\n", "proof line 1: L8 proof ends early\n"),
    (TWO, "model", "s SATISFIABLE\nv -1 2 0\n", "p2.depends.1 b 2 line 4: needs a\nsolution no\n"),
    (TWO, "proof", "3 0 2 1 0\n", "proof line 1: L7 hints without conflict\n"),
)


def better_cnf(problem, answer, aims):
    return Better(Second(problem.encode(), answer.encode()), aims).cnf()[0]


class Setting:
    """Runs fail.sh and fails.sh by a shell, with a solver, the tools that they call, and stored answers."""

    def __init__(self, trial, shell, cadical=None):
        self.trial, self.shell, self.cadical = trial, shell, cadical or "the stand-in"
        self.tools, solver = self.folder(), os.path.dirname(cadical) if cadical else self.folder()
        for tool in (*TOOLS, "cudf_check"):
            os.symlink(shutil.which(tool), f"{self.tools}/{tool}")
        if not cadical:
            leave(f"{solver}/cadical", STAND_IN)
            os.chmod(f"{solver}/cadical", 0o755)
        self.path, self.known = f"{solver}:{self.tools}", self.stored(KNOWN + KNOWN_BETTER)

    def folder(self):
        return tempfile.mkdtemp(dir=self.trial.folder)

    def stored(self, answers):
        """A folder with answers of the stand-in to problems, by the CNFs of the second implementation."""
        folder = self.folder()
        for problem, kind, text, *asked in answers:
            lines = better_cnf(problem, *asked) if asked else Rules(problem).dimacs()
            cnf = "".join(line + "\n" for line in lines)
            leave(f"{folder}/{hashlib.sha256(cnf.encode()).hexdigest()}.{kind}", text)
        return folder

    def expect(self, words, problem, status, output, errors="", left=None, answer="", **more):
        """One run of fail.sh on a problem that the first word names, and what is left in its folder and elsewhere."""
        with tempfile.TemporaryDirectory() as folder, tempfile.TemporaryDirectory() as scratch:
            if problem is not None:
                leave(f"{folder}/{words[0] if words else 'p'}", problem)
            leave(f"{folder}/answer", answer)
            shutil.copy(f"{SCRIPTS}/fail.sh", folder)
            before = set(os.listdir(folder))
            script = [shutil.which(self.shell), "fail.sh", *words]
            more = {"PATH": self.path, "ANSWERS": self.known, "TMPDIR": scratch, **more}
            self.trial.expect(script, folder, self.shell, status, output, errors, **more)
            found = {name: read(folder, name) for name in set(os.listdir(folder)) - before}
            name = f"left by fail.sh {words}, {self.shell}, {self.cadical}: {problem}"
            self.trial.same(name, (found, os.listdir(scratch)), (left or {}, []))

    def judged(self):
        for name, problem, words, status, output, left in ROWS:
            self.expect([name, *words], problem, status, output, "", left)

        for answer, aims, status, output, left in BETTER_ROWS:
            self.expect(["p", "witness", "answer", aims], CARS, status, output, "", left, answer)

    def rejected(self):
        nothing = self.stored([])
        for *known, lines in WRONG_BETTER:
            words = ["p", "witness", "answer", known[-1]]
            self.expect(words, CARS, 3, lines + UNKNOWN, answer=known[3], ANSWERS=self.stored([known]))
        self.expect(["p", "witness", "answer", "changed"], CARS, 4, "", None, answer=NEW)
        self.expect(["p", "witness", "none", LATEST], CARS, 5, "", "none can't be opened")
        for *answer, lines in WRONG:
            self.expect(["p"], answer[0], 3, lines + UNKNOWN, ANSWERS=self.stored([answer]))
        self.expect(["p"], SHOP, 3, UNKNOWN, ANSWERS=nothing)
        for ends in ENDS:
            self.expect(["p"], SHOP, 5, "", BROKEN, ANSWERS=nothing, ENDS=ends)
        self.expect(["p"], None, 5, "", "p can't be opened")
        for words in ([], ["p", "q", "r"], ["p", "q", "r", "-new", "t"]):
            self.expect(words, SHOP, 4, "", USAGE)
        self.expect(["p", "none/witness"], TWO, 5, YES, None)
        self.expect(["p"], SHOP, 127, "", "fail.sh: cadical isn't installed\n", PATH=self.tools)

    def judge_all(self, folder, *wanted, script="fails.sh", **more):
        more = {"PATH": f"{self.path}:{os.environ['PATH']}", "ANSWERS": self.known, **more}
        self.trial.expect([shutil.which(self.shell), script], folder, self.shell, *wanted, **more)

    def judge_best(self, folder):
        """What optimal.sh says of the first places, and the page of it."""
        self.judge_all(folder, 5, "", "sh table.sh > table makes it", script="optimal.sh")
        leave(f"{folder}/table", table(CELLS))
        names, nothing = ("more", "quiet", "two"), self.stored([])
        undecided, broken = ("".join(f"{name}{text}" for name in names) for text in (" undecided\n", f": {BROKEN}"))
        self.judge_all(folder, 0, undecided, script="optimal.sh", ANSWERS=nothing)
        self.judge_all(folder, 5, "", broken, script="optimal.sh", ANSWERS=nothing, ENDS="1")
        found = "more better\nquiet optimal\ntwo optimal\n"
        self.judge_all(folder, 0, found, script="optimal.sh")
        better = read(folder, "better/more")
        self.trial.same(f"a better solution, {self.shell}", better, installing(("car", 2)) + "\n")
        leave(f"{folder}/optima", found)
        page = self.trial.script("sh page.sh T D", folder, self.shell, gnuplot="/nowhere")[1]
        # one more of the first two is in the legend, and two of the last are among the totals
        given = [page.count(f"class=is-{word}>") for word in ("optimal", "better", "-")]
        self.trial.same(f"the best on the page, {self.shell}", given, [3, 2, 5])

    def folder_of_answers(self):
        """FAIL to each problem but one; the second solver has a solution of `two`, which is judged all the same."""
        problems = {"shop": SHOP, "two": TWO, "faulty": FAULTY, "open": A + "\nrequest: r\ninstall: a\n"}
        files = {f"answers/{solver}/{name}": "FAIL\n" for solver in ("ash", "elm") for name in problems}
        files |= {f"problems/{name}": text for name, text in problems.items()} | {"answers/elm/two": WITNESS[:-1]}
        files |= {"problems/quiet": CARS, "answers/ash/quiet": OLD, "problems/more": CARS, "answers/ash/more": BOTH}
        with competition(files) as folder:
            # the stand-in doesn't know `open`, and FAIL to a malformed problem isn't status 3
            self.judge_all(folder, 5, "shop right\ntwo wrong\n", f"open: {BROKEN}", ENDS="1")
            self.judge_all(folder, 0, "open not decided\nshop right\ntwo wrong\n")
            self.trial.expect("sh table.sh", folder, self.shell, 0, table(CELLS))
            self.trial.expect("sh table.sh", folder, self.shell, 0, table(PLAIN), plain="yes")
            self.judge_best(folder)
            for script in ("fails.sh", "optimal.sh"):
                self.judge_all(folder, 127, "", "cudf_check", script=script, PATH="/nowhere")
            leave(f"{folder}/problems/a b", SHOP)
            self.judge_all(folder, 1, "", "problems/a b: a name has")
            os.remove(f"{folder}/problems/a b")
            self.trial.same(f"a report, {self.shell}", read(folder, "judged/shop"), SHOP_CORE)
            self.trial.same(f"a witness, {self.shell}", read(folder, "judged/two.witness"), WITNESS)
        # on the page oak answers FAIL to `server.cudf`
        with competition({}) as folder:
            shutil.copytree(SCRIPTS, folder, dirs_exist_ok=True)
            self.judge_all(folder, 0, "server.cudf wrong\n")
            witness = read(folder, "judged/server.cudf.witness")
            self.trial.same(f"the page's witness, {self.shell}", witness, installing(("server", 1)) + "\n")


def judge(trial):
    cadical = shutil.which("cadical")
    has_lrat = cadical and b"--lrat" in run([cadical, "--help"]).output
    for shell in SHELLS:
        setting = Setting(trial, shell)
        setting.judged()
        setting.rejected()
        setting.folder_of_answers()
        if has_lrat:
            Setting(trial, shell, cadical).judged()
    if not has_lrat:
        print(f"cadical {'is too old' if cadical else 'is not installed'} here: its stand-in alone was tried")


if __name__ == "__main__":
    start(__doc__, judge, make=Trial)
