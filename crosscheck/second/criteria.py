"""The counts of an answer, and lists of criteria, by docs/RULES.md. Python's standard library alone."""
import re

from second.universe import satisfies_clause

COUNTS = ("removed", "new", "changed", "notuptodate", "unsat_recommends", "touched")
AIM = re.compile(rf"([-+])({'|'.join(COUNTS)})")
# the lines of a score without a list, each with its counts
LINES = {name: [name] for name in COUNTS[:-1]} | {
    "paranoid": ["removed", "changed"], "trendy": ["removed", "notuptodate", "unsat_recommends", "new"],
}


def versions(packages):
    """The versions of each name."""
    return {name: {it.version for it in packages if it.name == name} for name in {it.name for it in packages}}


def count(packages, initial, status):
    """The counts of a status, by name."""
    known, before, now = versions(packages), versions(initial), versions(status)
    wanted = [clause for package in status for clause in package.recommends]
    return {
        "removed": len(before.keys() - now.keys()),
        "new": len(now.keys() - before.keys()),
        "changed": sum(before.get(name) != now.get(name) for name in known),
        "notuptodate": sum(max(known[name]) not in installed for name, installed in now.items()),
        "unsat_recommends": sum(not satisfies_clause(status, clause) for clause in wanted),
        "touched": len({it.place for it in initial} ^ {it.place for it in status}),
    }


def lines(counts):
    """The lines of a score without a list."""
    return [" ".join([word, *(str(counts[name]) for name in names)]) for word, names in LINES.items()]


def read_list(text):
    """The aims of a list, each a sign and a count's name, or None if the text is no list."""
    aims = [AIM.fullmatch(piece) for piece in text.split(",")]
    return None if None in aims else [aim.groups() for aim in aims]


def aim_lines(aims, counts):
    return [f"{sign}{name} {counts[name]}" for sign, name in aims]


def rank_of(aims, counts):
    """Numbers that are less for the better of two answers."""
    return [counts[name] if sign == "-" else -counts[name] for sign, name in aims]
