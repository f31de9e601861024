"""The packages and the request of a problem, and what satisfies a vpkg. Python's standard library alone."""
from collections import namedtuple

from second.documents import WISHES, declared_by, read_stanzas
from second.values import OPERATORS, read_formula, read_posint, read_veqpkglist, read_vpkglist

Request = namedtuple("Request", "line wished")


class Package(namedtuple("Package", "place line name version depends conflicts provides installed keep recommends")):
    def words(self):
        return f"{self.name} {self.version}"


def package_of(place, stanza, declaration):
    """`recommends` has the clauses of its own or of the default, if its declaration is that of a formula."""
    said, recommends = stanza.value, ""
    if declaration and declaration.type.word == "vpkgformula":
        recommends = declaration.default or "" if said("recommends") is None else said("recommends")
    return Package(
        place=place, line=stanza.line, name=said("package"), version=read_posint(said("version")),
        depends=read_formula(said("depends") or ""), conflicts=read_vpkglist(said("conflicts") or ""),
        provides=read_veqpkglist(said("provides") or ""), installed=said("installed") == "true",
        keep=said("keep") or "none", recommends=read_formula(recommends),
    )


class Problem:
    """A problem without errors: what it declares, its packages, those installed before, and its request."""

    def __init__(self, text):
        *stanzas, request = read_stanzas(text)[0]
        own, self.declared = [it for it in stanzas if it.mark() == "package"], declared_by(stanzas)
        recommends = self.declared.get("recommends")
        self.packages = [package_of(place, stanza, recommends) for place, stanza in enumerate(own, 1)]
        self.initial = [package for package in self.packages if package.installed]
        self.request = Request(request.line, {name: read_vpkglist(request.value(name) or "") for name in WISHES})


def installing(*pairs):
    """A solution that installs the packages of these names and versions."""
    return "\n".join(f"package: {name}\nversion: {version}\ninstalled: true\n" for name, version in pairs)


def numbers(status, name):
    """The numbers at which these packages provide a name."""
    own = {package.version for package in status if package.name == name}
    return own | {bound[1] for package in status for entry, bound in package.provides if entry == name and bound}


def meeting(status, vpkg):
    """The first package that alone satisfies a vpkg, or None."""
    name, bound = vpkg
    for package in status:
        is_met = any(bound is None or OPERATORS[bound[0]](number, bound[1]) for number in numbers([package], name))
        if is_met or bound != ("<", 1) and (name, None) in package.provides:
            return package
    return None


def satisfies(status, vpkg):
    return meeting(status, vpkg) is not None


def satisfies_clause(status, clause):
    return any(atom == "true!" or atom != "false!" and satisfies(status, atom) for atom in clause)


def vpkg_text(vpkg):
    name, bound = vpkg
    return name if bound is None else f"{name} {bound[0]} {bound[1]}"


def clause_text(clause):
    return " | ".join(atom if isinstance(atom, str) else vpkg_text(atom) for atom in clause)
