"""The core of a proof as lines, by docs/FORMAT.md. Python's standard library alone."""
from second import explained, keys
from second.judge import clause_of, line_of


class Reasons:
    """The violations whose clauses have these numbers: their keys and their lines, as they are printed."""

    def __init__(self, rules, numbers, explains=False):
        self.rules, self.literals = rules, {}
        for number in numbers:
            key, clause = rules.clauses[number - 1]
            self.literals.setdefault(key, set()).update(clause)
        self.order = sorted(self.literals, key=keys.parse)
        asked = [key for key in self.order if key.startswith("r.") and not self.places(key, -1)]
        self.told = asked + [key for key in self.order if ".keep." in key]
        for key in self.told:
            self.told += [other for place in self.places(key, 1) for other in self.brought(place) if other not in self.told]
        self.told += [key for key in self.order if key not in self.told]
        explainer = explained.Explainer(rules.packages)
        causes = [self.cause(key, explainer) if explains else "" for key in self.told]
        self.lines = [explained.with_cause(self.line(key), cause) for key, cause in zip(self.told, causes)]

    def places(self, key, sign):
        """The places of the literals of this sign."""
        return sorted(abs(literal) for literal in self.literals[key] if literal * sign > 0)

    def brought(self, place):
        """What the package at this place needs and conflicts with."""
        return [key for key in self.order if key.startswith((f"p{place}.depends.", f"p{place}.conflicts."))]

    def line(self, key):
        met = [self.rules.packages[place - 1] for place in self.places(key, -1) if not key.startswith(f"p{place}.")]
        return line_of(self.rules, key) + (f", met by {', '.join(it.words() for it in met)}" if met else "")

    def cause(self, key, explainer):
        rule, aspect = key.split(".")[1], key.split(".")[-1]
        has_cause = rule in ("depends", "install") or aspect == "unsatisfied"
        return explainer.clause(clause_of(self.rules, key)) if has_cause else ""
