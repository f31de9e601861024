"""A checker of LRAT proofs, by docs/FORMAT.md, and a small prover. Python's standard library alone.

A clause is a list of literals.
"""
import re

from second.documents import lines_of, utf8_error
from second.explained import format_of, shown
from second.values import GREATEST

KINDS = dict(enumerate((
    "not a step", "number is not new", "no such variable", "RAT is not accepted", "no such clause", "hint is not unit",
    "hints without conflict", "proof ends early",
), 1))


def number(word):
    """The number of a word, which may be below 0, or None; `-0` is none."""
    found = re.fullmatch("-?[0-9]+", word) and int(word)
    return None if found is None or abs(found) > GREATEST or found == 0 and "-" in word else found


def words_of(line):
    return list(filter(None, re.split("[ \t]", line)))


def step_of(line):
    """The number, literals and hints of a line; () if it is skipped, None if it is no step."""
    words = words_of(line)
    if not words or words[0] == "c":
        return ()
    is_deletion = words[1:2] == ["d"]
    name, *rest = [number(word) for word in (words[:1] + words[2:] if is_deletion else words)]
    if name is None or name < 0 or None in rest or rest[-1:] != [0]:
        return None
    if is_deletion:
        return () if rest.count(0) == 1 and min(rest) == 0 else None
    end = rest.index(0)
    return (name, rest[:end], rest[end + 1:-1]) if rest.count(0) == 2 else None


def line_cause(line):
    """What is said of a line that is no step."""
    data, numbers = line.encode("latin-1"), [number(word) for word in words_of(line)]
    if utf8_error(data) is not None or any(byte < 32 and byte not in b"\t\r" for byte in data):
        return "it is a binary proof"
    if None not in numbers and numbers[-1] == 0 and numbers.count(0) == 1:
        return "a step has a number and hints"
    return f"it is {shown(data.decode())}"


def used(literals, hints, clauses):
    """How many hints lead to a conflict, and None; or 0 and the kind of error."""
    known = {abs(literal): literal < 0 for literal in literals}
    for at, hint in enumerate(hints, 1):
        left = {literal for literal in clauses[hint] if known.get(abs(literal)) != (literal < 0)}
        if not left:
            return at, None
        if len(left) > 1:
            return 0, 6
        literal = left.pop()
        known[abs(literal)] = literal > 0
    return 0, 7


class Proof:
    """What a proof shows of a CNF: the numbers of a core, or the line and the kind of the first error."""

    def __init__(self, places, cnf, data):
        self.places, self.count, self.data = places, len(cnf), data
        self.clauses, self.sources = dict(enumerate(cnf, 1)), {}
        empty = [[name] for name, clause in self.clauses.items() if not clause]
        self.core, self.fault = (empty[0], None) if empty else self.read(lines_of(data.decode("latin-1")))

    def read(self, lines):
        last = self.count
        for at, line in enumerate(lines, 1):
            step = step_of(line)
            if step == ():
                continue
            kind = self.take(last, *step) if step else 1
            if kind:
                return None, (at, kind)
            last = step[0]
            if not step[1]:
                return self.needed(last), None
        return None, (max(1, len(lines)), 8)

    def cause(self):
        """What `--explain` adds to the error."""
        (at, kind), lines = self.fault, lines_of(self.data.decode("latin-1"))
        if kind == 2 and not any(map(step_of, lines[:at - 1])):
            return format_of(self.data) or f"the CNF has {self.count} clauses"
        return format_of(self.data) or (line_cause(lines[at - 1]) if kind == 1 else "")

    def take(self, last, name, literals, hints):
        """Takes a step, or returns the kind of its error."""
        if name <= last:
            return 2
        if any(abs(literal) > self.places for literal in literals):
            return 3
        if any(hint not in self.clauses for hint in hints):
            return 4 if min(hints) < 0 else 5
        count, kind = used(literals, hints, self.clauses)
        self.clauses[name], self.sources[name] = literals, hints[:count]
        return kind

    def needed(self, last):
        """The numbers of the clauses of the CNF that a step needs."""
        found, waiting = set(), [last]
        while waiting:
            name = waiting.pop()
            waiting += self.sources.get(name, []) if name not in found else []
            found.add(name)
        return sorted(name for name in found if name <= self.count)


class Prover:
    """Refutes small formulas by cases: whether the clauses are refuted, and the text of a proof."""

    def __init__(self, places, cnf):
        self.places, self.cnf, self.lines, self.last = places, list(enumerate(cnf, 1)), [], len(cnf)
        self.is_refuted = self.refute(()) is not None

    def step(self, literals, hints):
        self.last += 1
        self.lines.append(" ".join(map(str, [self.last, *literals, 0, *hints, 0])))
        return self.last

    def refute(self, taken):
        """The number of a step whose clause says that not all of these literals are true, or None."""
        negated, known, hints, is_new = [-literal for literal in taken], set(taken), [], True
        while is_new:
            is_new = False
            for name, clause in self.cnf:
                left = {literal for literal in clause if -literal not in known}
                if not left:
                    return self.step(negated, [*hints, name])
                if len(left) == 1 and not left <= known:
                    known |= left
                    hints.append(name)
                    is_new = True
        free = [place for place in range(1, self.places + 1) if not {place, -place} & known]
        one = self.refute((*taken, free[0])) if free else None
        other = self.refute((*taken, -free[0])) if one else None
        return self.step(negated, [one, other]) if other else None

    def text(self):
        return "".join(line + "\n" for line in self.lines).encode()
