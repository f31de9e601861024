"""The clauses that a solution compares better than another, by crates/cudf_better/specs, and answers with them.

A formula is a list of terms, which are lists of literals: true if all literals of a term are. Python's standard library
alone.
"""
from second import criteria, reports
from second.cnf import Rules, dimacs, is_satisfied
from second.lrat import KINDS, Proof

# lists of at most so many variables are merged by their sums
SHORT = 32


def opposite(literals):
    return [-literal for literal in literals]


def items(rules, name):
    """What is counted, by two lists: a literal of the first is true, and none of the second.

    For `removed` what is not counted.
    """
    own, had = {}, {it.name for it in rules.initial}
    for it in rules.packages:
        own.setdefault(it.name, []).append(it)
    changes = {it.place: -it.place if it.installed else it.place for it in rules.packages}
    here = {name: ([it.place for it in packages], []) for name, packages in own.items()}
    missed = [([it.place], rules.alone(*clause)) for it in rules.packages for clause in it.recommends]
    return {
        "removed": [here[name] for name in own if name in had],
        "new": [here[name] for name in own if name not in had],
        "changed": [([changes[place] for place in places], []) for places, _ in here.values()],
        "notuptodate": [outdated for outdated in map(by_age, own.values()) if outdated[0]],
        "unsat_recommends": [it for it in missed if it[0][0] not in it[1]],
        "touched": [([literal], []) for literal in changes.values()],
    }[name]


def by_age(packages):
    """The places of the outdated packages of a name, and those of its greatest version."""
    latest = max(it.version for it in packages)
    return tuple([it.place for it in packages if (it.version == latest) == is_latest] for is_latest in (False, True))


def constraint(rules, sign, name, count):
    """Formulas, and how many of them are true at most in what is not worse than this count."""
    counted = items(rules, name)
    if (name == "removed") == (sign == "-"):
        formulas = [[opposite(some), *([literal] for literal in none)] for some, none in counted]
    else:
        formulas = [[[literal, *opposite(none)] for literal in some] for some, none in counted]
    return formulas, count if sign == "-" else len(counted) - count


class Sorter:
    """A network that sorts formulas, by variables from a number on, with at most so many outputs."""

    def __init__(self, first, most):
        self.next, self.most, self.clauses = first, most, []

    def define(self, *terms):
        """A new variable that is true if a term is."""
        self.clauses += [[*opposite(term), self.next] for term in terms]
        self.next += 1
        return self.next - 1

    def compared(self, xs, ys):
        outputs = [self.define(*terms) for x, y in zip(xs, ys) for terms in (([x], [y]), ([x, y],))]
        return outputs + xs[len(ys):] + ys[len(xs):]

    def added(self, xs, ys):
        def terms(total):
            splits = ((at, total - at) for at in range(total + 1))
            return [xs[at - 1:at] * (at > 0) + ys[rest - 1:rest] * (rest > 0) for at, rest in splits
                    if at <= len(xs) and rest <= len(ys)]
        return [self.define(*terms(total)) for total in range(1, min(self.most, len(xs) + len(ys)) + 1)]

    def merged(self, xs, ys):
        if not xs or not ys:
            return xs + ys
        if max(len(xs), len(ys)) <= SHORT:
            return self.added(xs, ys)
        even, odd = self.merged(xs[::2], ys[::2]), self.merged(xs[1::2], ys[1::2])
        return even[:1] + self.compared(odd, even[1:])

    def sorted(self, formulas):
        if len(formulas) < 2:
            return [self.define(*formula) for formula in formulas]
        half = 1 << (len(formulas) - 1).bit_length() - 1
        left, right = self.sorted(formulas[:half]), self.sorted(formulas[half:])
        return self.merged(left, right)[:self.most]


def less(first, constraints):
    """The clauses that one constraint is strict and all before it hold, and the number of the last variable."""
    clauses, strict = [], []
    for formulas, bound in constraints:
        sorter = Sorter(first, bound + 1)
        outputs = sorter.sorted(formulas)
        clauses += sorter.clauses + [[*strict, -output] for output in outputs[bound:]]
        first = sorter.next
        if len(outputs) < bound:
            return clauses, first - 1
        strict += opposite(outputs[bound - 1:bound] if bound else [])
    return [*clauses, strict], first - 1


class Better:
    """The answers about what is better than a solution, by a list, which is an argument of the command line."""

    def __init__(self, second, aims):
        self.aims, self.judged, self.refused = criteria.read_list(aims), second.judged, second.refused
        if self.aims is None:
            self.refused = [], reports.USAGE
        elif self.judged and self.judged.instances:
            self.refused = ["solution no"], reports.NO
        if not self.refused:
            self.rules = Rules(second.asked[0].decode())
            constraints = [constraint(self.rules, *aim, self.judged.criteria[aim[1]]) for aim in self.aims]
            more, self.variables = less(len(self.rules.packages) + 1, constraints)
            self.clauses = [clause for _, clause in self.rules.clauses] + more

    def cnf(self):
        if self.refused:
            return self.refused
        return dimacs(self.rules.packages, self.variables, self.clauses), reports.YES

    def refute(self, proof):
        if self.aims is not None and len(proof) > reports.GREATEST_INPUT:
            return [], reports.TROUBLE
        if self.refused:
            return self.refused
        shown = Proof(self.variables, self.clauses, proof)
        if shown.fault:
            line, kind = shown.fault
            return [f"proof line {line}: L{kind} {KINDS[kind]}"], reports.NO
        counts = criteria.aim_lines(self.aims, self.judged.criteria)
        return [*counts, "no better solution exists"], reports.YES

    def is_better(self, status):
        """Whether the packages at these places are a solution that compares better."""
        installed = [it for it in self.rules.packages if it.place in status]
        counts = criteria.count(self.rules.packages, self.rules.initial, installed)
        ranks = [criteria.rank_of(self.aims, it) for it in (counts, self.judged.criteria)]
        return ranks[0] < ranks[1] and all(is_satisfied(clause, status) for _, clause in self.rules.clauses)
