#!/usr/bin/env python3
"""Runs the commands and scripts that the pages show, and tries their links.

usage: docs.py PROGRAM

- Each command after `$` on the pages for users, and each script with a block of output below it, prints what the page
  says; so do the examples in the tables of docs/DIFFERENCES.md; each link leads to a file or a heading.
- The scripts of docs/COMPETITION.md, which names them all, with worse names and files, solvers that end in many ways,
  and runs that are ended from outside; and the totals and the page that come of them.

dash and bash run the scripts, or else sh, and GNU parallel, gnuplot and the program time where they are installed.
"""
import contextlib
import html
import os
import re
import shutil
import tempfile
import time

import common
from common import ROOT, read, section, unescaped

SCRIPTS = f"{ROOT}/examples/competition"
COMPETITION, DIFFERENCES = "docs/COMPETITION.md", "docs/DIFFERENCES.md"
PAGES = ("README.md", "examples/README.md", COMPETITION, DIFFERENCES, "docs/MAINTAINERS.md", "docs/CI.md")
LINKED = {*PAGES, "CONTRIBUTING.md", "CHANGELOG.md", *(f"docs/{name}" for name in os.listdir(f"{ROOT}/docs"))}
SHELLS = [name for name in ("dash", "bash") if shutil.which(name)] or ["sh"]
# the lines of a block, and its end
BLOCK = r"((?:(?!```).*\n)*)```$"


class Trial(common.Trial):
    """Runs scripts, which call the program as cudf_check, and as sh the shell that runs them."""

    def __init__(self, *words):
        super().__init__(*words)
        for shell in {*SHELLS, "sh"}:
            os.mkdir(self.place(shell))
            os.symlink(shutil.which(shell), self.place(f"{shell}/sh"))
        os.symlink(self.program, self.place("cudf_check"))
        os.environ.update(PATH=f"{self.folder}:{os.environ['PATH']}", LC_ALL="C", grace="1", seconds="2")

    def script(self, script, folder, shell="sh", **more):
        """What a script gives, or the words of a command, in a folder."""
        words = [shell, "-c", script] if isinstance(script, str) else script
        environment = {**os.environ, "PATH": f"{self.place(shell)}:{os.environ['PATH']}", **more}
        return common.run(words, cwd=folder, env=environment).decoded()

    def expect(self, script, folder, shell, status, output, errors="", **more):
        """One run, with what is wanted of it. Errors that don't end a line are a part of all, and None is some text."""
        *given, printed = self.script(script, folder, shell, **more)
        is_part = printed if errors is None else errors and errors[-1] != "\n" and errors in printed
        self.same(f"{script}, {shell}, {more}", (*given, errors if is_part else printed), (status, output, errors))


def headings(text):
    """What links call the headings of a page."""
    found = re.findall(r"^#+ (.*)$", re.sub(rf"^```.*\n{BLOCK}", "", text, flags=re.M), re.M)
    return {re.sub(r"[^\w -]", "", heading.lower()).replace(" ", "-") for heading in found}


def links(trial):
    for name in sorted(LINKED):
        for target in re.findall(r"\]\(([^()\s]+)\)", read(name)):
            path, _, heading = target.partition("#")
            file = os.path.normpath(os.path.join(os.path.dirname(name), path)) if path else name
            leads = os.path.exists(f"{ROOT}/{file}") and (not heading or heading in headings(read(file)))
            trial.same(f"{name}: link to {target}", leads, True)
    named = set(re.findall(r"`(?:sh |sbatch )?(\w+\.sh)\b", read(COMPETITION)))
    trial.same(f"{COMPETITION}: scripts", named, {name for name in os.listdir(SCRIPTS) if name.endswith(".sh")})


def shown_in(text):
    """The commands of a page after `$`, each with what it prints, and its scripts with the block below them."""
    yield from re.findall(rf"^```sh\n{BLOCK}\n\n```\n{BLOCK}", text, re.M)
    for block in re.findall(rf"^```\n(?=\$ ){BLOCK}", text, re.M):
        yield "".join(re.findall(r"^\$ (.*\n)", block, re.M)), re.sub(r"^\$ .*\n", "", block, flags=re.M)


def shown(trial):
    """What a command writes stays out of the repository."""
    cases = [(name, shell, *case) for name in PAGES for case in shown_in(read(name)) for shell in SHELLS]
    for name, shell, commands, wanted in cases:
        with tempfile.TemporaryDirectory() as folder:
            shutil.copytree(f"{ROOT}/examples", f"{folder}/examples")
            trial.same(f"{name}, {shell}: {commands}", trial.script(commands, folder, shell)[1:], (wanted, ""))


def by_pages(trial):
    """The walk by pages of examples/README.md on a listing of thirteen lines: the pages without their last lines."""
    (walk,) = re.findall(rf"^```sh\n(?=page=){BLOCK}", read("examples/README.md"), re.M)
    with tempfile.TemporaryDirectory() as folder:
        os.symlink(f"{ROOT}/examples/rules.problem.cudf", f"{folder}/P")
        os.symlink(f"{ROOT}/examples/rules.answer.cudf", f"{folder}/S")
        whole = trial.script("cudf_check check P S", folder)[1].splitlines()
        for shell, limit in ((shell, limit) for shell in SHELLS for limit in (1, 5, 13, 1000)):
            lines = trial.script(walk.replace("1000", str(limit)), folder, shell)[1].splitlines()
            listed = [line for line in lines if not line.startswith(("more after", "solution"))]
            trial.same(f"walk by pages of {limit}, {shell}", [*listed, lines[-1]], whole)


def document(cell):
    """The text of an example: `¶` ends a line, `\\e` says that the last one has no end, `@a` is package a 1."""
    text = re.sub("@([a-z])", r"package: \1¶version: 1", cell.strip("`")).replace("¶", "\n") + "\n"
    for word, byte in ((r"\r", "\r"), (r"\t", "\t"), (r"\377", "\xff"), ("\\e\n", "")):
        text = text.replace(word, byte)
    return text


def problem(row):
    """The problem of a row; of one stanza, with package a 1 and a request that installs it around."""
    text = document(row.get("Problem") or row.get("Accepted") or row.get("Refused") or "request: r¶install: a")
    package, request = "package: a\nversion: 1\n\n", "request: r\ninstall: a\n"
    if "Problem" in row:
        return text
    if text.startswith("request"):
        return package + text
    return text + "\n" + ("" if text.startswith("package") else package) + request


def differences(trial):
    """The examples, by the columns that the head of each table names; `\\|` is a bar in a cell."""
    head = []
    for line in re.findall(r"^\| .*", read(DIFFERENCES), re.M):
        cells = [cell.strip().replace(r"\|", "|") for cell in re.split(r"(?<!\\)\|", line)[1:-1]]
        if cells[0] in ("Of a problem", "Of an answer", "What"):
            head = cells
            continue
        row = dict(zip(head, cells))
        with tempfile.TemporaryDirectory() as folder:
            leave(f"{folder}/P", problem(row))
            leave(f"{folder}/S", document(row.get("Answer", "")))
            given = trial.script("cudf_check check P S" if "Answer" in row else "cudf_check lint P", folder)[1]
        wanted = row.get("Here", "`problem ok`").strip("`").split("`, `")
        trial.same(f"{DIFFERENCES}: {cells[:2]}", given.splitlines(), wanted)


def rows(title):
    return [line.split() for line in section(TABLES, title).splitlines() if line]


def table(cells):
    """Rows in columns as wide as their widest cell, two spaces between them."""
    wide = [max(map(len, column)) for column in zip(*cells)]
    return "".join("  ".join(f"{cell:>{width}}" for cell, width in zip(row, wide)) + "\n" for row in cells)


TABLES = "competition.txt"
DOCUMENTS = {
    name: unescaped(text).decode("latin-1")
    for name, text in re.findall(r"(\S+) = ?(.*)\n", section(TABLES, "documents"))
}
CARS, OLD, NEW, QUIET = (DOCUMENTS[name] for name in ("CARS", "OLD", "NEW", "QUIET"))
# what a solver may leave that isn't a text: the first can be opened by every user, and fails at its first read
LINKS = {"UNREADABLE": "/proc/self/mem", "BROKEN_LINK": "/nowhere"}
SIZES = {"LONG": 300_000_000, "WIDE": 200_000_000}
SOLVERS = ("ash", "ash-2", "ash.1", "mccs", "mccs-lpsolve", "the_solver_whose_name_has_41_letters_in_i")
PROBLEMS = [line.split(" | ") for line in section(TABLES, "problems").splitlines() if line]
PARANOID = "-removed,-changed"
TRENDY = "-removed,-notuptodate,-unsat_recommends,-new"
TABLE = [(PARANOID, *SOLVERS), *([name, *cells.split()] for name, _, _, cells in PROBLEMS)]
TOTALS, ODD_TABLE, ODD_TOTALS = (rows(title) for title in ("totals", "a table with odd names", "its totals"))
# The stanza on line 1 has no version.
LINTED = "problems/faulty.cudf: problem line 1: E12 no version\n"
# Names that can't be in a line of words or in raw/.
BAD_NAMES = ("v l c.cudf", "-x", "a.err", "a&b", "two\nlines", "caf\u00e9", "*", "a\\cb")
KEEPS, CHANGES = f"printf '%s' '{OLD}' > \"$2\"", f"cat > \"$2\" << END\n{NEW}END\n"
# the solvers of competition.txt, each with its script, its status and its cell
RUNS = {
    name: (script.format(keeps=KEEPS, changes=CHANGES), int(status), cell)
    for name, status, cell, script in re.findall(r"(\S+) (\d+) (\S+) (.*)\n", section(TABLES, "solvers"))
}


def leave(place, answer):
    """What a solver left at this place: a text, or what a word of competition.txt says."""
    if answer == "FOLDER":
        os.mkdir(place)
    elif answer in LINKS:
        os.symlink(LINKS[answer], place)
    elif answer != "NONE":
        with open(place, "w", encoding="latin-1") as file:
            file.write("request:\n#" if answer in SIZES else answer)
            file.truncate(SIZES.get(answer))


@contextlib.contextmanager
def competition(files):
    """A folder with the scripts, and with these files by their names."""
    with tempfile.TemporaryDirectory() as folder:
        shutil.copytree(SCRIPTS, folder, ignore=shutil.ignore_patterns("problems", "answers"), dirs_exist_ok=True)
        for place, text in files.items():
            os.makedirs(os.path.dirname(f"{folder}/{place}"), exist_ok=True)
            leave(f"{folder}/{place}", text)
        yield folder


def odd_answers(trial):
    """The scripts with worse names and files than the page has."""
    files = {f"problems/{name}": DOCUMENTS[problem] for name, problem, _, _ in PROBLEMS}
    for name, _, left, _ in PROBLEMS:
        answers = (DOCUMENTS.get(word, word) for word in left.split())
        files |= {f"answers/{solver}/{name}": answer for solver, answer in zip(SOLVERS, answers)}
    csv = "".join(",".join(row) + "\n" for row in TOTALS)
    with competition(files) as folder:
        for shell in SHELLS:
            trial.expect("sh table.sh | tee table", folder, shell, 0, table(TABLE))
            trial.expect("sh lint.sh", folder, shell, 1, LINTED)
            trial.expect("sh totals.sh", folder, shell, 0, table(TOTALS))
            trial.expect("sh totals.sh --csv", folder, shell, 0, csv)
            trial.expect("sh totals.sh none", folder, shell, 5, "", "none can't be read")
            # a list that reads a greater count as the better one: BOTH changes two names
            trial.expect("sh table.sh +changed | grep cars | xargs", folder, shell, 0, "cars.cudf 1 5 3 3 FAIL 1\n")
            for name, by in (("paranoid", PARANOID), ("trendy", TRENDY)):
                trial.expect(f"sh table.sh {name} > t; sh table.sh {by} | cmp t -", folder, shell, 0, "")
                trial.same(f"list of {name}", read(folder, "t").split()[0], by)
            trial.expect("sh table.sh changed", folder, shell, 4, "", None)
            trial.expect("sh table.sh", folder, shell, 4, "", None, PATH="/usr/bin:/bin")
        lines = r"s/^cudf_check [0-9]\S*$/version/; s/^[0-9a-f]{64}  -$/sum/"
        trial.expect(f"sh judge.sh | sed -E '{lines}'", folder, "sh", 0, "version\nsum\n")


def judged(trial):
    """What fails.sh leaves, in cells, points, totals and on the page, and as it was without it."""
    cases = [line.split(" | ") for line in section(TABLES, "judged").splitlines() if line]
    solvers, files = SOLVERS[:4], {}
    for name, problem, report, left, _, _ in cases:
        files |= {f"problems/{name}": DOCUMENTS[problem], f"judged/{name}": DOCUMENTS.get(report, report)}
        files |= {f"answers/{s}/{name}": DOCUMENTS.get(word, word) for s, word in zip(solvers, left.split())}
    with competition(files) as folder:
        for shell, (plain, column) in ((shell, case) for shell in SHELLS for case in (("", 4), ("yes", 5))):
            cells = table([(PARANOID, *solvers), *([case[0], *case[column].split()] for case in cases)])
            trial.expect("sh table.sh | tee table", folder, shell, 0, cells, plain=plain)
            totals = rows("plain totals" if plain else "judged totals")
            trial.expect("sh totals.sh", folder, shell, 0, table(totals))
            if not plain:
                trial.expect("sh points.sh", folder, shell, 0, table(rows("points")))
            counts = [1, 1] if plain else [3, 3]
            # one more of each is in the legend
            page = trial.script("sh page.sh T D", folder, shell, gnuplot="/nowhere")[1]
            given = [page.count(f"class=is-{word}>") for word in ("right", "wrong")]
            trial.same(f"judged on the page, {shell}, {plain}", given, counts)


def little_memory(trial):
    """An answer and a problem with a line for which there is no memory."""
    lacking = "there is not enough memory"
    for problem, answer, cell, errors in ((QUIET, "WIDE", "unread", ""), ("WIDE", OLD, "unranked", lacking)):
        cells = table([(PARANOID, "ash"), ("p", cell)])
        with competition({"problems/p": problem, "answers/ash/p": answer}) as folder:
            for shell in SHELLS:
                trial.expect("ulimit -v 100000; sh table.sh", folder, shell, 0, cells, errors)


def bad_names(trial):
    """Refused are names of problems, solvers and folders of answers that would break a line of words; empty folders."""
    problem, solver, answer = {"problems/p": CARS}, {"solvers/ash": ""}, {"answers/ash/p": OLD}
    cases = [("jobs", problem, "names.sh: solvers is empty or isn't there\n")]
    cases.append(("jobs", solver, "names.sh: problems is empty or isn't there\n"))
    for name in BAD_NAMES:
        for path in (f"problems/{name}", f"solvers/{name}"):
            cases.append(("jobs", {**problem, **solver, **answer, path: CARS}, f"{path}: a name has"))
        cases.append(("table", {**problem, **answer, f"answers/{name}/p": CARS}, f"answers/{name}: a name has"))
    for script, files, errors in cases:
        with competition(files) as folder:
            for shell in SHELLS:
                trial.expect(f"sh {script}.sh", folder, shell, 1, "", errors)
                trial.same(f"jobs, {shell}, {errors}", os.path.exists(f"{folder}/jobs"), False)


def of_run(line, begun):
    """The words of a line of `ended` that are known before, and whether the others are as they should be."""
    solver, name, status, start, elapsed, *used = line.split(" ")
    is_measured = os.access("/usr/bin/time", os.X_OK) and status != "137"
    form = r"\d+\.\d\d \d+\.\d\d [1-9]\d*" if is_measured else "- - -"
    is_right = begun <= int(start) <= time.time() and float(elapsed) >= {"137": 3, "124": 2}.get(status, 0)
    return f"{solver} {name} {status}", is_right and re.fullmatch(form, " ".join(used)) is not None


def pending(trial, folder, shell, jobs, cells):
    """What pending.sh prints and table.sh shows."""
    trial.expect("sh pending.sh", folder, shell, 0, "".join(job + "\n" for job in jobs))
    trial.expect("sh table.sh", folder, shell, 0, table([(PARANOID, *cells), ("cars.cudf", *cells.values())]))


def many_runs(trial):
    """All runs by each of the page's ways; Slurm's tasks are started by hand, all at once, five lines a task or six."""
    task = "SLURM_ARRAY_TASK_ID=$k SLURM_ARRAY_TASK_COUNT=3 sh job.sh"
    ways = [("sh xargs.sh", shell) for shell in SHELLS] + [(f"for k in 1 2 3; do {task} & done; wait", "sh")]
    solvers = {f"solvers/{solver}": text for solver, (text, _, _) in RUNS.items()}
    for runs, shell in ways + [("sh parallel.sh", "sh")] * bool(shutil.which("parallel")):
        with competition({"problems/cars.cudf": CARS, **solvers}) as folder:
            solved(trial, folder, runs, shell)
            if "parallel" in runs:
                verdicts(trial, folder)


def solved(trial, folder, runs, shell):
    """How each run ended, its cell, what it wrote and printed, and what is pending before."""
    names, name = sorted(RUNS), f"{runs}, {shell}"
    trial.expect("sh jobs.sh", folder, shell, 0, "")
    pending(trial, folder, shell, [f"{solver} cars.cudf" for solver in names], dict.fromkeys(names, "pending"))
    begun = int(time.time())
    trial.same(name, trial.script(runs, folder, shell)[:2], (0, ""))
    ended = [of_run(line, begun) for line in sorted(read(folder, "ended").splitlines())]
    trial.same(f"{name}: ended", ended, [(f"{solver} cars.cudf {RUNS[solver][1]}", True) for solver in names])
    pending(trial, folder, shell, [], {solver: RUNS[solver][2] for solver in names})
    wanted = {**dict.fromkeys(("deaf", "slow", "crashes", "prints"), OLD), "at-last": NEW}
    trial.same(f"{name}: kept", {solver: read(folder, f"raw/{solver}/cars.cudf") for solver in wanted}, wanted)
    conditions = set(read(folder, "conditions").splitlines())
    form = r"TERM after 2 s, KILL 1 s later, ulimit -v \w+; \w+ \w+, \d+ processors, .*"
    trial.same(f"{name}: conditions", [bool(re.fullmatch(form, line)) for line in conditions], [True])
    printed = sorted(read(folder, "raw/prints/cars.cudf.err").splitlines())
    trial.same(f"{name}: printed", printed, ["on its errors", "on its output"])


def verdicts(trial, folder):
    """The column Exitval has each cell as a status; a file that isn't there can't be opened; a long report is cut."""
    trial.script("sh verdicts.sh", folder)
    lines = [line.split("\t") for line in read(folder, "verdicts").splitlines()[1:]]
    statuses = {"FAIL": "3", "missing": "5", "stopped": "5", "no": "1"}
    wanted = [(name, statuses.get(cell, "0")) for name, (_, _, cell) in sorted(RUNS.items())]
    trial.same("verdicts", sorted((line[8].split("/")[2], line[6]) for line in lines), wanted)
    report = read(folder, "reports/1/ghosts/2/cars.cudf/stdout").splitlines()
    trial.same("a long report", (len(report), report[-1]), (1002, "solution no"))


def other_runs(trial):
    """A run that is ended from outside, its rerun, a solver that answers when its time is over, and no program time."""
    solvers = {f"solvers/{solver}": RUNS[solver][0] for solver in ("at-last", "prints", "slow")}
    with competition({"problems/cars.cudf": CARS, **solvers}) as folder:
        trial.script("sh jobs.sh; sh run.sh prints cars.cudf", folder)
        # as Slurm ends a task, when its solver has written its answer
        wait = "until [ -e raw/slow/cars.cudf ]; do sleep 0.1; done"
        trial.script(f"setsid sh run.sh slow cars.cudf & {wait}; kill -s KILL -- -$!", folder)
        cells = {"at-last": "pending", "prints": "1", "slow": "pending"}
        pending(trial, folder, "sh", ["at-last cars.cudf", "slow cars.cudf"], cells)
        trial.script("sh pending.sh > rest; sh xargs.sh rest", folder, anytime="yes", timer="/nowhere")
        # the first may be late, and sleep ends by the signal
        pending(trial, folder, "sh", [], {"at-last": "2", "prints": "1", "slow": "stopped"})
        ended = {line.split(" ")[0]: line.split(" ")[2:] for line in read(folder, "ended").splitlines()}
        given = [(ended[name][0], int(ended[name][2]) >= 2, *ended[name][3:]) for name in ("at-last", "slow")]
        trial.same("without time", given, [("0", True, "-", "-", "-"), ("143", True, "-", "-", "-")])
        # the last of two lines counts
        trial.script("sh run.sh slow cars.cudf; echo 'prints cars.cudf 139 0 0 - - -' >> ended", folder)
        pending(trial, folder, "sh", [], {"at-last": "1", "prints": "stopped", "slow": "stopped"})
        for words in ("", "ash", "slow none", "none cars.cudf", "'' ''", ". ."):
            trial.expect(f"sh run.sh {words}", folder, "sh", 4, "", "run.sh: no solvers/")


TITLE, WARNING = "A & <script>alert(1)</script> \"\u00e9\"", "totals.sh: 2 runs are pending\n"
# elements without an end, and such as a page mustn't have
ALONE = ("meta", "path", "circle", "rect", "use", "feFlood", "feComposite", "polygon", "ellipse")
REFUSED = ("script", "link", "iframe", "img", "i", "?xml")
RUNNING_OR_LOADING = r"\s(on\w+|src|href)\s*=|(?<!\sxmlns)(?<!\sxmlns:xlink)=.\w+://"


def odd_in(text):
    """What is odd in a page: wrong nesting, and what could run or be loaded."""
    odd, open_tags = [], []
    for end, tag, attributes in re.findall(r"<(/?)([?A-Za-z][\w.]*)([^>]*)>", text):
        if tag in REFUSED or re.search(RUNNING_OR_LOADING, attributes):
            odd.append(tag + attributes)
        if end and (not open_tags or open_tags.pop() != tag):
            odd.append("/" + tag)
        if not end and tag not in ALONE:
            open_tags.append(tag)
    return odd + open_tags


def html_page(trial, folder, shell, gnuplot):
    """The page with plots or without."""
    status, output, errors = trial.script(f"sh page.sh '{TITLE}' '<2026>'", folder, shell, gnuplot=gnuplot)
    plain, ids = re.sub("<svg.*?</svg>", "", output, flags=re.S), re.findall(r"id=[\"']([^\"']*)", output)
    texts = [(tag, html.unescape(text)) for tag, text in re.findall(r"<(t[hd]|h1|title)\b[^>]*>([^<]*)<", plain)]
    plots = 2 * (gnuplot == "gnuplot")
    for what, given, wanted in (
        ("status and errors", (status, errors), (0, WARNING)),
        ("what is odd", (odd_in(output), tempfile.gettempdir() in output), ([], False)),
        ("heads", [text for tag, text in texts if tag in ("h1", "title")], [TITLE, TITLE]),
        ("date", "<p>&lt;2026&gt;</p>" in output, True),
        ("cells", [text for tag, text in texts if tag in ("th", "td")], sum(ODD_TOTALS + ODD_TABLE, [])),
        ("plots", (output.count("<svg"), "No plots: gnuplot" in output), (plots, not plots)),
        ("names twice", len(ids) - len(set(ids)), 0),
    ):
        trial.same(f"page.sh, {gnuplot}, {shell}: {what}", given, wanted)


def html_pages(trial):
    """The page of a table with odd names, with and without plots; the totals by time; and the scatter plot's axes."""
    plotters = ["gnuplot"] * bool(shutil.which("gnuplot"))
    ended = "".join(" ".join(row) + "\n" for row in rows("how its runs ended"))
    with competition({"table": table(ODD_TABLE), "ended": ended}) as folder:
        for shell in SHELLS:
            trial.expect("sh totals.sh", folder, shell, 0, table(ODD_TOTALS), WARNING)
            for gnuplot in ["/nowhere", *plotters]:
                html_page(trial, folder, shell, gnuplot)
            trial.expect("sh page.sh T", folder, shell, 4, "", None)
            trial.expect("sh page.sh T D none", folder, shell, 5, "", None)
            # it ends before it plots, so any program may be in gnuplot's place
            script = "mv ended e; sh page.sh T D | grep -o 'times are unknown'; mv e ended"
            trial.expect(script, folder, shell, 0, "times are unknown\n", None, gnuplot="sh")
    # both axes have two numbers at least, also if all times lie between two powers of ten
    ended = "".join(f"{run} - - -\n" for run in ("ash p 0 1 0.2", "ash q 0 1 0.2", "elm p 0 1 0.4", "elm q 0 1 0.4"))
    with competition({"table": "-new ash elm\np 1 1\nq 1 2\n", "ended": ended}) as folder:
        for shell in SHELLS * len(plotters):
            output = trial.script("sh page.sh T D", folder, shell)[1].partition("<title>scatter<")[2]
            trial.same(f"axes, {shell}", re.findall(r"<text> *([\d.]+)<", output), ["0.1", "1"] * 2)


if __name__ == "__main__":
    of_pages, of_scripts = (links, shown, by_pages, differences), (odd_answers, judged, little_memory, bad_names)
    common.start(__doc__, *of_pages, *of_scripts, many_runs, other_runs, html_pages, make=Trial)
