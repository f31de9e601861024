"""Reports, by docs/FORMAT.md. An answer is a report's lines and the exit status. Python's standard library alone."""
import re

from second import criteria, documents, explained, keys
from second.judge import Judgement
from second.values import read_posint

YES, NO, FAULTY, FAIL, USAGE, TROUBLE, NO_MEMORY = range(7)
GREATEST_INPUT = 268435456
STANDARD = "(standard input)"
# errors whose cause is another line of the document
OF_LINES = ("E6", "E7", "E11", "E15")


def error_answer(whose, data, is_strict=False, explains=False, others=()):
    """The answer to a document with an error, which is `problem` or begins with `solution`; None without one.

    `others` has what the problem of a solution declares, by name.
    """
    faults = documents.faults_of(data, whose == "problem", is_strict, others)
    if not faults:
        return None
    line, kind = min(faults)
    text = f"{whose} line {line}: E{kind} {documents.KINDS[kind]}"
    return [explained.with_cause(text, explained.error_cause(data, line, kind) if explains else "")], FAULTY


def lint(problem, is_strict=False, explains=False):
    if len(problem) > GREATEST_INPUT:
        return [], TROUBLE
    return error_answer("problem", problem, is_strict, explains) or (["problem ok"], YES)


class Second:
    """The answers to one problem and one solution, read and judged once."""

    def __init__(self, problem, solution, is_strict=False):
        self.asked = problem, solution, is_strict
        self.refused = self.refusal(explains=False)
        self.judged = None if self.refused else Judgement(problem.decode(), solution.decode())

    def refusal(self, explains):
        """The answer to documents that are not judged, or None."""
        problem, solution, is_strict = self.asked
        if max(len(problem), len(solution)) > GREATEST_INPUT:
            return [], TROUBLE
        if refused := error_answer("problem", problem, is_strict, explains):
            return refused
        if refused := error_answer("solution", solution, is_strict, explains, documents.declared_in(problem)):
            return refused
        return (["solution FAIL"], FAIL) if documents.says_fail(solution.decode()) else None

    def verdict(self, lines):
        return (lines + ["solution no"], NO) if self.judged.instances else (lines + ["solution yes"], YES)

    def check(self, after=None, limit=None, explains=False):
        """The page after a key, of as many lines as a limit says; both are arguments of the command line."""
        number = None if limit is None else read_posint(limit)
        if after is not None and keys.parse(after) is None or limit is not None and number is None:
            return [], USAGE
        if self.refused:
            return self.refusal(explains)
        return self.verdict(self.judged.page(after, number, explains))

    def score(self, aims=None):
        """The counts, or those of a list, which is an argument of the command line."""
        listed = [] if aims is None else criteria.read_list(aims)
        if listed is None:
            return [], USAGE
        if self.refused:
            return self.refused
        counts = self.judged.criteria
        return self.verdict(criteria.aim_lines(listed, counts) if listed else criteria.lines(counts))


def joined(data, is_strict=False):
    """The answers to one input that holds both documents."""
    if len(data) > GREATEST_INPUT:
        return Second(data, b"", is_strict)
    return Second(*documents.cut_joined(data), is_strict)


def rank(aims, problem, solutions, is_strict=False):
    """The answer to several solutions, by a list, which is an argument of the command line."""
    listed, standings = criteria.read_list(aims), []
    if listed is None:
        return [], USAGE
    if max(map(len, [problem, *solutions])) > GREATEST_INPUT:
        return [], TROUBLE
    if refused := error_answer("problem", problem, is_strict):
        return refused
    others = documents.declared_in(problem)
    for place, solution in enumerate(solutions, 1):
        if refused := error_answer(f"solution {place}", solution, is_strict, others=others):
            return refused
        second = Second(problem, solution, is_strict)
        (*counts, verdict), status = second.score(aims)
        order = criteria.rank_of(listed, second.judged.criteria) if status == YES else []
        line = [f"solution {place}", verdict.split(" ")[1], *(counts if status == YES else [])]
        standings.append((status, order, place, " ".join(line)))
    return [f"{at} {line}" for at, (*_, line) in enumerate(sorted(standings), 1)], min(standings)[0]


def moved(text, before, shift):
    """The text with what is counted in the number behind these words greater."""
    return re.sub(rf"(?<={before} )\d+", lambda found: str(int(found[0]) + shift), text)


def named_line(line, problem, solutions, before):
    """A line by the names of its files; `before` is how many lines of its file are before the solution."""
    if fault := re.match(r"(problem|solution)(?: (\d+))? line (\d+): (.*)", line):
        whose, place, number, text = fault.groups()
        file, shift = (problem, 0) if whose == "problem" else (solutions[int(place or 1) - 1], before)
        if text.split(" ")[0] in OF_LINES:
            text = moved(text, "stands on line", shift)
        return f"{explained.escaped(file)}:{int(number) + shift}: {whose}: {text}"
    if instance := re.match(r"(([prs])\S*\.\S+(?: \S+ \d+)?) line (\d+): (.*)", line):
        subject, part, number, text = instance.groups()
        file, shift = (solutions[0], before) if part == "s" else (problem, 0)
        text = moved(text, "not installed on line", before)
        return f"{explained.escaped(file)}:{int(number) + shift}: {subject}: {text}"
    if ranked := re.match(r"(\d+ solution )(\d+) (.*)", line):
        return f"{ranked[1]}{explained.escaped(solutions[int(ranked[2]) - 1])} {ranked[3]}"
    return line


def named(answer, problem, *solutions, before=0):
    """What `--with-filename` makes of an answer."""
    lines, status = answer
    return [named_line(line, problem, solutions, before) for line in lines], status


def named_joined(answer, name, data):
    """The same of the answer to one input that holds both documents."""
    return named(answer, name, name, before=documents.cut_joined(data)[0].count(b"\n"))
