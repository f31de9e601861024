"""Which rules an answer violates, by docs/RULES.md. Python's standard library alone.

A violation is its key, the package that meets an entry of conflicts or remove, or None, and for the others its cause.
"""
from second import criteria, explained, keys
from second.documents import read_stanzas
from second.universe import Problem, clause_text, meeting, numbers, satisfies, satisfies_clause

# the texts of violations, by rule or aspect: of the clause or vpkg, and of its name
TEXTS = {
    "depends": "needs {0}", "conflicts": "conflicts with {0}", "keep": "keep feature {0}", "install": "needs {0}",
    "remove": "must remove {0}", "unsatisfied": "upgrade needs {0}", "many": "upgrade {1} has several versions",
    "lower": "upgrade {1} is lower than before",
}


def clause_of(problem, key):
    """The clause that a key of a package or of the request names; an entry of a list is a clause of one vpkg."""
    part, rule, place = key.split(".")[:3]
    if part == "r":
        entries = problem.request.wished[rule]
    else:
        entries = getattr(problem.packages[int(part[1:]) - 1], "provides" if rule == "keep" else rule)
    return entries[int(place) - 1] if rule == "depends" else (entries[int(place) - 1],)


def line_of(problem, key):
    """The line of such a key, without what meets it."""
    part, rule, _, *aspect = key.split(".")
    package = problem.packages[int(part[1:]) - 1] if part != "r" else None
    if rule == "keep" and package.keep != "feature":
        text = f"keep {package.keep}"
    else:
        clause = clause_of(problem, key)
        text = TEXTS[[rule, *aspect][-1]].format(clause_text(clause), clause[0][0])
    whose = f"{package.words()} line {package.line}" if package else f"line {problem.request.line}"
    return f"{key} {whose}: {text}"


def violated_needs(package, status, explainer):
    others = [other for other in status if other.place != package.place]
    for place, clause in enumerate(package.depends, 1):
        if not satisfies_clause(status, clause):
            yield f"depends.{place}", None, explainer.clause(clause)
    for place, vpkg in enumerate(package.conflicts, 1):
        if satisfies(others, vpkg):
            yield f"conflicts.{place}", meeting(others, vpkg), ""


def violated_keep(package, status):
    is_lost = {
        "version": [package not in status], "package": [all(other.name != package.name for other in status)],
        "feature": [not satisfies(status, vpkg) for vpkg in package.provides], "none": [],
    }
    yield from ((f"keep.{place}", None, "") for place, is_so in enumerate(is_lost[package.keep], 1) if is_so)


def violated_packages(packages, status, explainer):
    for package in packages:
        found = [*violated_needs(package, status, explainer)] if package in status else []
        found += violated_keep(package, status) if package.installed else []
        yield from ((f"p{package.place}.{key}", met, cause) for key, met, cause in found)


def violated_request(request, initial, status, explainer):
    """The keys are without `r.`."""
    for place, vpkg in enumerate(request.wished["install"], 1):
        if not satisfies(status, vpkg):
            yield f"install.{place}", None, explainer.clause((vpkg,))
    for place, vpkg in enumerate(request.wished["remove"], 1):
        if satisfies(status, vpkg):
            yield f"remove.{place}", meeting(status, vpkg), ""
    for place, vpkg in enumerate(request.wished["upgrade"], 1):
        now, before = numbers(status, vpkg[0]), numbers(initial, vpkg[0])
        if not satisfies(status, vpkg):
            yield f"upgrade.{place}.unsatisfied", None, explainer.clause((vpkg,))
        if len(now) > 1:
            yield f"upgrade.{place}.many", None, f"{min(now)} and {max(now)} now"
        if now and before and min(now) < max(before):
            yield f"upgrade.{place}.lower", None, f"{min(now)} now, {max(before)} before"


def installed(problem, solution):
    """The packages that a solution installs, and the place, line, name and version of each unknown stanza."""
    stanzas = [(at, it) for at, it in enumerate(read_stanzas(solution)[0], 1) if it.mark() == "package"]
    chosen = {at: it for at, it in stanzas if it.value("installed") == "true"}
    pairs, known = {it.pair() for it in chosen.values()}, {(it.name, it.version) for it in problem.packages}
    status = [it for it in problem.packages if (it.name, it.version) in pairs]
    return status, [(at, it.line, *it.pair()) for at, it in chosen.items() if it.pair() not in known]


def first_lines(solution):
    """The line of the first stanza of each pair."""
    return {it.pair(): it.line for it in reversed(read_stanzas(solution)[0]) if it.mark() == "package"}


class Judgement:
    """The violations and counts of a solution. Both texts are without error, and the solution does not say FAIL."""

    def __init__(self, problem, solution):
        problem = Problem(problem)
        status, unknown = installed(problem, solution)
        explainer, found = explained.Explainer(problem.packages, first_lines(solution)), []
        violated = [*violated_packages(problem.packages, status, explainer)]
        asked = violated_request(problem.request, problem.initial, status, explainer)
        for key, met, cause in violated + [(f"r.{key}", met, cause) for key, met, cause in asked]:
            line = line_of(problem, key) + (f", met by {met.words()}" if met else "")
            found.append((key, line, explainer.needed(met, status) if met else cause))
        for place, line, name, version in unknown:
            key = f"s.unknown.{place}"
            found.append((key, f"{key} {name} {version} line {line}: not in the universe", explainer.name(name)))
        # keys, their lines, and what is added to these
        self.instances = sorted(found, key=lambda entry: keys.parse(entry[0]))
        self.criteria = criteria.count(problem.packages, problem.initial, status)

    def page(self, after, limit, explains=False):
        """The lines after a key, as many as the limit says, and then the key after which there are more."""
        rest = [entry for entry in self.instances if after is None or keys.parse(entry[0]) > keys.parse(after)]
        shown = rest if limit is None else rest[:limit]
        more = [f"more after {shown[-1][0]}"] if len(shown) < len(rest) else []
        return [explained.with_cause(line, cause if explains else "") for _, line, cause in shown] + more
