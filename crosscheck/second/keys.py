"""Keys of violations and their order, by docs/FORMAT.md. Python's standard library alone."""
import re

from second.values import GREATEST

RULES = ("depends", "conflicts", "keep", "install", "remove", "upgrade", "unknown")
ASPECTS = ("unsatisfied", "many", "lower")
FORMS = (
    r"pN\.(depends|conflicts|keep)\.N", r"r\.(install|remove)\.N", r"r\.upgrade\.N\.(unsatisfied|many|lower)",
    r"s\.unknown\.N",
)
KEY = re.compile("|".join(FORMS).replace("N", "[1-9][0-9]*"))


def parse(text):
    """The key as a tuple that compares as keys do, or None if the text is no key."""
    if not KEY.fullmatch(text) or any(int(digits) > GREATEST for digits in re.findall("[0-9]+", text)):
        return None
    part, rule, place, *aspect = text.split(".")
    return "prs".index(part[0]), int(part[1:] or 0), RULES.index(rule), int(place), *map(ASPECTS.index, aspect)
