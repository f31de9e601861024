"""The rules of a problem as a CNF, by docs/RULES.md. Python's standard library alone.

A clause is a list of places, negative if the package is not installed.
"""
from itertools import combinations

from second.universe import Problem, numbers, satisfies_clause


class Rules(Problem):
    """A problem with the clauses of its CNF, each with its key."""

    def __init__(self, text):
        super().__init__(text)
        self.clauses = [*self.of_packages(), *self.of_request()]

    def alone(self, *clause):
        """The places of the packages that alone satisfy a clause."""
        return [package.place for package in self.packages if satisfies_clause([package], clause)]

    def of_packages(self):
        for package in self.packages:
            own, key = package.place, f"p{package.place}"
            for at, clause in enumerate(package.depends, 1):
                would = self.alone(*clause)
                yield from [] if own in would else [(f"{key}.depends.{at}", [-own, *would])]
            for at, vpkg in enumerate(package.conflicts, 1):
                yield from ((f"{key}.conflicts.{at}", [-own, -place]) for place in self.alone(vpkg) if place != own)
            kept = {
                "version": [[own]], "package": [[other.place for other in self.packages if other.name == package.name]],
                "feature": [self.alone(vpkg) for vpkg in package.provides], "none": [],
            }
            clauses = kept[package.keep] if package.installed else []
            yield from ((f"{key}.keep.{at}", clause) for at, clause in enumerate(clauses, 1))

    def of_request(self):
        for at, vpkg in enumerate(self.request.wished["install"], 1):
            yield f"r.install.{at}", self.alone(vpkg)
        for at, vpkg in enumerate(self.request.wished["remove"], 1):
            yield from ((f"r.remove.{at}", [-place]) for place in self.alone(vpkg))
        for at, vpkg in enumerate(self.request.wished["upgrade"], 1):
            yield from ((f"r.upgrade.{at}.{aspect}", clause) for aspect, clause in self.of_upgrade(vpkg))

    def of_upgrade(self, vpkg):
        given = {package.place: numbers([package], vpkg[0]) for package in self.packages}
        before = numbers(self.initial, vpkg[0])
        yield "unsatisfied", self.alone(vpkg)
        for place, own in given.items():
            if len(own) > 1:
                yield "many", [-place]
            for other, others in given.items():
                if other > place and any(m != n for m in own for n in others):
                    yield "many", [-place, -other]
        for place, own in given.items():
            if any(number < earlier for number in own for earlier in before):
                yield "lower", [-place]

    def dimacs(self):
        """The lines that are printed."""
        return dimacs(self.packages, len(self.packages), [clause for _, clause in self.clauses])


def dimacs(packages, variables, clauses):
    lines = [f"c p{package.place} {package.words()}" for package in packages]
    lines.append(f"p cnf {variables} {len(clauses)}")
    return lines + [" ".join(map(str, [*clause, 0])) for clause in clauses]


def is_satisfied(clause, status):
    return any((place > 0) == (abs(place) in status) for place in clause)


def statuses(count):
    """All sets of places."""
    for size in range(count + 1):
        yield from map(frozenset, combinations(range(1, count + 1), size))


def extends(clauses, places, status):
    """Whether values of the variables behind these places satisfy the clauses beside a status.

    Those that unit propagation leaves open are false; None if this does not tell.
    """
    known, is_new = {place if place in status else -place for place in range(1, places + 1)}, True
    while is_new:
        is_new = False
        for clause in clauses:
            left = [literal for literal in clause if -literal not in known]
            if not left:
                return False
            if len(left) == 1 and left[0] not in known:
                known.add(left[0])
                is_new = True
    known |= {literal for clause in clauses for literal in clause if literal < 0 and -literal not in known}
    return all(known & set(clause) for clause in clauses) or None
