#!/usr/bin/env python3
"""Writes large CUDF documents for measuring, to standard output.

usage: generate.py KIND COUNT

The same arguments give the same bytes. COUNT counts packages, unless the kind says what else. After the last colon is
the kind of a problem's answer, of the same COUNT: a solution, unless a report is mentioned. Only the standard library.
"""
import random
import sys

REQUEST = "request: none\n"
# libcudf reads this form too: a space after the colon, one `property` line, an enum's default without quotes.
PREAMBLE = (
    "preamble: \n"
    'property: suite: enum[stable,unstable] = [stable], source: string = [""],\n'
    "  recommends: vpkgformula = [true!], replaces: vpkglist = [],\n"
    "  priority: int = [0], essential: bool = [false], architecture: string\n\n"
)
OPERATORS = (" = {}", " != {}", " >= {}", " > {}", " <= {}", " < {}", "")


def stanza(name, version, *lines):
    return "\n".join((f"package: {name}", f"version: {version}", *lines)) + "\n\n"


def installed(name, version=1):
    return stanza(name, version, "installed: true")


def version_of(number):
    return number % 8 + 1


def each(text_of, end=REQUEST):
    """A document with a text for each number from 1 to COUNT."""
    def document(count):
        yield from (text_of(number, count) for number in range(1, count + 1))
        yield end
    return document


def packages(*lines):
    """Packages for chosen-all with these lines, of which each is made of the number and the count."""
    return each(lambda number, count: stanza(
        f"lib-{number}", version_of(number), *(line.format(number=number, count=count) for line in lines)))


def chosen(is_chosen):
    return each(lambda number, _: installed(f"lib-{number}", version_of(number)) if is_chosen(number) else "", "")


def about(number, is_installed):
    """The last lines of a distribution's package."""
    lines = "recommends: true!", f"source: source of lib-{number}", f"priority: {number % 7 - 3}", "architecture: amd64"
    return [*lines, "installed: true"] if is_installed else lines


def distribution(count):
    chance = random.Random(1)
    yield PREAMBLE
    for number in range(1, count + 1):
        name, others = f"lib-{number}", [f"lib-{chance.randrange(1, count + 1)}" for _ in range(10)]
        clauses = [f"{others[0]} >= {chance.randrange(1, 5)}", f"{others[1]} | {others[2]}", *others[3:]]
        yield stanza(name, chance.randrange(1, 9), f"depends: {', '.join(clauses)}", f"conflicts: {name}",
                     f"provides: {name} = 1, feature-{number % 997}", *about(number, number % 20 == 0))
    yield REQUEST + "install: lib-1\n"


def installed_distribution(step):
    """Every step-th package is installed, and its dependencies are."""
    def document(count):
        chance = random.Random(1)
        yield PREAMBLE
        for number in range(1, count + 1):
            within = step if number % step == 0 else 1
            others = [chance.randrange(1, count // within + 1) * within for _ in range(10)]
            clauses = [f"lib-{others[0]} >= {version_of(others[0])}", f"missing | lib-{others[1]}"]
            clauses += [f"lib-{other}" for other in others[2:]]
            conflicts, provides = f"lib-{number}, missing-{number % 991}", f"lib-{number} = 9, feature-{number % 997}"
            yield stanza(f"lib-{number}", version_of(number), f"depends: {', '.join(clauses)}",
                         f"conflicts: {conflicts}", f"provides: {provides}", *about(number, number % step == 0))
        yield f"{REQUEST}install: lib-{step}\n"
    return document


def properties(count):
    yield "preamble:\nproperty: p-0: int" + "".join(f", p-{number}: int" for number in range(1, count))
    yield "\n\npackage: a\nversion: 1\n"
    yield from (f"p-{number}: {number}\n" for number in range(count))
    yield "\n" + REQUEST


def continuations(count):
    yield "package: a\nversion: 1\ndepends: b"
    yield from (f",\n  b >= {number % 9 + 1}" for number in range(count))
    yield "\n\n" + REQUEST


def commented(number, count):
    entries = ",\n# between\n\t".join(f"lib-{number * place % count + 1}" for place in range(1, 11))
    return f"package: lib-{number}\n# within\nversion: 1\ndepends: {entries}\n\n"


def enum(count):
    yield "preamble:\nproperty: colour: enum[" + ", ".join(f"c{number}" for number in range(count)) + "] = [c0]\n\n"
    yield from (stanza(f"lib-{number}", 1, f"colour: c{number}") for number in range(count))
    yield REQUEST


def comment(letters):
    def document(megabytes):
        yield REQUEST + "#"
        yield from [letters * 1000] * (megabytes * 1_000_000 // (len(letters.encode()) * 1000))
        yield "\n"
    return document


def broken(number, count):
    clauses = [f"lib-{number * place % count + 1}, missing-{number % 991 + place - 1}" for place in range(1, 6)]
    return stanza(f"lib-{number}", version_of(number), "depends: " + ", ".join(clauses))


def versions(arranged):
    """One name in all versions, in an order."""
    def document(count):
        numbers = list(range(1, count + 1))
        arranged(numbers)
        for number in numbers:
            yield stanza("same", number, f"depends: same >= {number}, same != {number}", "installed: true")
        yield f"{REQUEST}remove: same > {count}\n"
    return document


def own(entry, conflict=None, other=None):
    """A package that provides each entry, and conflicts with each or those of `conflict`; and a second provider."""
    def document(count):
        provides, conflicts = (", ".join(map(text_of, range(1, count + 1))) for text_of in (entry, conflict or entry))
        yield stanza("own", 1, f"provides: {provides}", f"conflicts: {conflicts}")
        yield stanza("other", 1, f"provides: feature = {other(count)}") if other else ""
        yield REQUEST
    return document


KINDS = {
    # problems for reading
    "distribution": ("as a distribution's, ten dependencies a package, every twentieth installed", distribution),
    "alike-names": ("names that share 120 letters, with dependencies on such names", each(lambda number, _: stanza(
        "b" * 120 + str(number), 1, "depends: {0}{1}, {0}{2} = 1".format("b" * 120, number // 2 + 1, number)))),
    "properties": ("so many properties declared, and set in one package", properties),
    "continuations": ("so many continuations of one value", continuations),
    "commented": ("lists on many lines with comments between", each(commented)),
    "enum": ("so many idents of an enum, and a package with each", enum),
    "comment": ("megabytes of one comment line of ASCII", comment("abcd efg ")),
    "comment-other": ("megabytes of one comment line of other letters", comment("\u00e9\u20ac\U0001f600")),
    # problems for judging
    "tenth": ("a distribution with a tenth installed: chosen-tenth", installed_distribution(10)),
    "half": ("a distribution with a half installed: chosen-half", installed_distribution(2)),
    "all": ("a distribution with all installed: chosen-all", installed_distribution(1)),
    "broken": ("five missing dependencies a package, a line of report each: chosen-all", each(broken)),
    "ascending": ("one name in ascending versions: versions", versions(list.sort)),
    "descending": ("one name in descending versions: versions", versions(list.reverse)),
    "shuffled": ("one name in shuffled versions: versions", versions(lambda order: random.Random(1).shuffle(order))),
    "one-feature": ("packages that provide one feature and conflict with it, a line of report each: chosen-all",
                    packages("provides: feature", "conflicts: feature")),
    "last-entry": ("each conflicts with a number that only the last one provides, lines of report: chosen-all",
                   packages("provides: feature = {number}", "conflicts: feature = {count}")),
    "own-entries": ("so many versions of a feature, and a conflict with each: own", own("feature = {}".format)),
    "own-names": ("so many features, and a conflict with each: own", own("feature-{}".format)),
    "own-and-other": ("own-entries, and a second provider: own-two",
                      own("feature = {}".format, other=lambda count: count + 1)),
    "own-bounds": ("the same with all operators in conflicts, each eighth entry at all versions, for a report: own-two",
                   own(lambda number: f"feature = {number}" if number % 8 else "feature",
                       lambda number: "feature" + OPERATORS[number % 7].format(number), lambda count: count // 2)),
    "kept": ("packages with keep: package: chosen-all", packages("keep: package", "installed: true")),
    # answers
    "chosen-tenth": ("each tenth package", chosen(lambda number: number % 10 == 0)),
    "chosen-half": ("each second package", chosen(lambda number: number % 2 == 0)),
    "chosen-all": ("all packages", chosen(lambda number: True)),
    "versions": ("one name in all versions", each(lambda number, _: installed("same", number), "")),
    "own": ("the package of own-entries and own-names", lambda _: [installed("own")[:-1]]),
    "own-two": ("the packages of own-and-other and own-bounds", lambda _: [installed("own"), installed("other")[:-1]]),
    "unknown": ("so many stanzas that no problem has, a line of report each", each(
        lambda number, _: installed(f"ghost-{number}"), "")),
    "short-stanzas": ("so many stanzas of one short property, none of a package", each(lambda *_: "request:\n\n", "")),
}


if __name__ == "__main__":
    if len(sys.argv) != 3 or sys.argv[1] not in KINDS or not sys.argv[2].isdigit():
        print(__doc__, *(f"    {name:14} {what}" for name, (what, _) in KINDS.items()), sep="\n", file=sys.stderr)
        sys.exit(2)
    with open(sys.stdout.fileno(), "w", encoding="utf-8", newline="\n", buffering=1 << 20) as out:
        out.writelines(KINDS[sys.argv[1]][1](int(sys.argv[2])))
