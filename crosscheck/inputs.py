"""Random problems, solutions and arguments; errors are put in on purpose. Python's standard library alone."""
import random
import re
import types

from common import read, unescaped
from second.criteria import COUNTS
from second.documents import WISHES
from second.keys import ASPECTS
from second.lrat import Prover
from second.values import BLANKS, ENTRIES, OPERATORS, PROPERTIES, RESERVED

FAILS = (b"FAIL", b"# c\n FAIL\r\nx")
# a byte order mark and what files of other formats begin with stand last
ODD_BYTES = (
    b"\xff", b"\xc3", b"\x80", b"\r", b"\n", b" ", b"#", b":",
    b"\xef\xbb\xbf", b"\x1f\x8b", b"BZh", b"\xff\xfe",
)
ODD_SOLUTIONS = (*FAILS, b"\nFAIL\t\n\xff", b"FAIL x\n", b"fail\n")
BUILT_IN = {name: kind.word for name, kind in PROPERTIES.items() if name not in ("package", "was-installed")}


def words_by_name():
    """The texts of inputs.txt, by their names and their kinds."""
    text, found = read("crosscheck/inputs.txt").replace("\n¦", "¦"), {}
    for name, kind, line in re.findall(r"^([a-z_]+)(?:, (.+?))? = (.*)$", text, re.M):
        texts = tuple(unescaped(part).decode() for part in line.split("¦"))
        found[name] = {**found.get(name, {}), kind: texts} if kind else texts
    return types.SimpleNamespace(**found)


WORDS = words_by_name()


class Faults:
    """Puts an error into the stanzas of a document, each a list of lines, so that each kind comes with each cause."""

    def __init__(self, seed):
        self.chance = random.Random(seed)
        self.pick = self.chance.choice

    def put_in_problem(self, stanzas):
        ways = [self.begins_otherwise, self.follows, self.repeats, self.undeclared, self.wrong_value, self.wrong_value]
        ways += [self.wrong_wish, *[self.declared_value] * 3, *[self.bad_declaration] * 3, self.repeats_package]
        self.pick(ways + [self.out_of_place] * 2)(stanzas)

    def put_in_solution(self, stanzas):
        ways = [self.begins_otherwise, self.repeats, self.undeclared, self.wrong_value, self.wrong_name]
        self.pick([*ways, self.out_of_place])(stanzas)

    def of_kind(self, stanzas, kind):
        """A stanza with this postmark; one is added if there is none."""
        found = [stanza for stanza in stanzas if stanza[0].startswith(kind + ":")]
        if found:
            return self.pick(found)
        is_package = kind == "package"
        stanza = [f"{kind}: q"] + ["version: 7"] * is_package
        stanzas.insert(0 if kind == "preamble" else len(stanzas) - (is_package and bool(stanzas)), stanza)
        return stanza

    def put(self, stanza, *lines):
        """Lines at any place after the postmark."""
        at = self.chance.randrange(1, len(stanza) + 1)
        stanza[at:at] = lines

    def begins_otherwise(self, stanzas):
        stanza = self.of_kind(stanzas, "package")
        stanza[:1] = [self.pick(WORDS.first)] * self.pick((0, 1))
        if not stanza or stanza[0].startswith("package:"):
            stanza.insert(0, self.pick(WORDS.first))

    def follows(self, stanzas):
        """One or two stanzas after the request."""
        self.of_kind(stanzas, "request")
        late = [["request:"], ["package: a", "version: 1"], ["package: z", "size: 3"], ["preamble:"]]
        stanzas += self.chance.sample(late + [[self.pick(WORDS.first)]], self.pick((1, 1, 2)))

    def repeats(self, stanzas):
        stanza = self.pick(stanzas or [self.of_kind(stanzas, "package")])
        mark = stanza[0].split(":")[0]
        if self.pick((False, True)) and mark in WORDS.ignored:
            stanza += [self.pick(WORDS.ignored[mark])] * 2
            return
        line = self.pick(stanza)
        if ":" in line:
            self.put(stanza, line if self.pick((False, True)) else line.split(":")[0] + ":")

    def undeclared(self, stanzas):
        self.put(self.of_kind(stanzas, "package"), self.pick(WORDS.undeclared))

    def says_more(self, stanzas):
        """More properties in the packages of a solution, and mostly a preamble that may declare them."""
        for _ in range(self.pick((1, 1, 2, 4))):
            self.put(self.of_kind(stanzas, "package"), self.pick(WORDS.said))
        if self.pick((False, True, True)):
            values = [self.chance.sample(WORDS.declarations, self.pick((0, 1, 2))) for _ in range(self.pick((1, 2)))]
            at = self.pick((0, 0, 0, self.chance.randrange(len(stanzas) + 1)))
            stanzas.insert(at, ["preamble:", *(f"property: {', '.join(value)}" for value in values)])

    def out_of_place(self, stanzas):
        """A name in a preamble or a request that mostly has no meaning there."""
        self.put(self.of_kind(stanzas, self.pick(("preamble", "request"))), self.pick(WORDS.stray))

    def repeats_package(self, stanzas):
        """A package again, its version written in another way."""
        stanza = self.of_kind(stanzas, "package")
        version = next((line for line in stanza if line.startswith("version:")), "version: 1").split(":")[1]
        again = [stanza[0], "version: " + self.pick(WORDS.repeated_versions).format(version.strip(BLANKS).lstrip("+"))]
        self.put(again, "installed: false")
        stanzas.insert(self.chance.randrange(stanzas.index(stanza) + 1, len(stanzas) + 1), again)

    def property_lines(self, name, pieces):
        """The lines of a property, none of them blank; a list is now and then on several lines."""
        text = f"{name}: {pieces[0]}"
        for piece in pieces[1:]:
            text += self.pick((", ", ",", " ,\t", ",\n ", "\n ,", ",\n# between\n\t")) + piece
        return [line if line.strip(BLANKS) else "#" for line in text.split("\n")]

    def wrong(self, word):
        """A value that is not of the type, as pieces of a list."""
        piece = self.pick(WORDS.wrong[word])
        if word not in ENTRIES:
            return [piece]
        pieces = [self.pick(("a", "b = 2", "f", "c=1")) for _ in range(self.chance.randrange(6))]
        pieces.insert(self.chance.randrange(len(pieces) + 1), piece)
        if self.pick((False, False, True)):
            pieces.insert(self.chance.randrange(len(pieces) + 1), self.pick(WORDS.wrong[word]))
        # the empty text is a list
        return pieces + ["a"] * (pieces == [""])

    def set_wrong(self, stanza, name, word):
        """An invalid value in place of that of this name."""
        lines = self.property_lines(name, self.wrong(word))
        at = next((at for at, line in enumerate(stanza) if line.startswith(name + ":")), None)
        if at is None:
            self.put(stanza, *lines)
        else:
            stanza[at:at + 1] = lines

    def word(self, words):
        """One of the words of types, more often of a list."""
        return self.pick([word for word in words for _ in range(3 if word in ENTRIES else 1)])

    def wrong_value(self, stanzas):
        word = self.word(BUILT_IN.values())
        name = self.pick([name for name in BUILT_IN if BUILT_IN[name] == word])
        self.set_wrong(self.of_kind(stanzas, "package"), name, word)

    def wrong_name(self, stanzas):
        self.of_kind(stanzas, "package")[0] = "package: " + self.pick(WORDS.wrong["pkgname"])

    def wrong_wish(self, stanzas):
        self.set_wrong(self.of_kind(stanzas, "request"), self.pick(WISHES), "vpkglist")

    def declared_value(self, stanzas):
        """A value that is not of the declared type."""
        name, word = self.pick(WORDS.declared), self.word(WORDS.wrong)
        preamble = self.of_kind(stanzas, "preamble")
        text = name + self.pick((": ", ":")) + word + ("[red, green]" if word == "enum" else "")
        earlier = [self.pick(("k1: int = 1", "k2: nat"))] * self.pick((0, 1))
        preamble += self.property_lines("property", earlier + [text])
        self.set_wrong(self.of_kind(stanzas, "package"), name, word)

    def declarations(self, most, first):
        """Valid ones, whose names have numbers from the first on."""
        numbers = range(first, first + self.chance.randrange(most))
        return [self.pick(WORDS.good_declarations).format(number) for number in numbers]

    def bad_declaration(self, stanzas):
        """An invalid piece at any place of a value, which may come after others."""
        preamble, first = self.of_kind(stanzas, "preamble"), 1
        for _ in range(self.chance.randrange(3)):
            earlier = self.declarations(4, first)
            first += len(earlier)
            preamble += self.property_lines("property", earlier or [""])
        pieces = self.declarations(6, first)
        at = self.chance.randrange(len(pieces) + 1)
        known = [f"k{number}" for number in range(1, first + at)] or ["k1"]
        pieces.insert(at, self.pick((
            self.pick(WORDS.wrong_declarations), self.pick(WORDS.wrong_declarations), self.pick(RESERVED) + ": int",
            self.pick(known) + ": nat", self.pick(known) + ": string", self.pick(WORDS.broken),
        )))
        pieces += [self.pick(WORDS.wrong_declarations)] * self.pick((0, 0, 1))
        preamble += self.property_lines("property", pieces)


class Inputs(Faults):
    """Random problems and solutions. The same seed gives the same ones."""

    def __init__(self, seed):
        super().__init__(seed)
        self.recommends = self.pick(WORDS.recommends) if self.now_and_then(0.3) else None
        # a long input has no error, so that its listing is long; in a wide one packages provide 62 entries and more
        self.is_long = self.now_and_then(0.001)
        self.is_wide = not self.is_long and self.now_and_then(0.15)
        # names declared without a default, how often a package lacks one, and how often a solution repeats a pair
        self.needed = self.chance.sample(list(WORDS.needed), self.pick((1, 1, 2, 4))) if self.now_and_then(0.25) else []
        self.gap = 0 if self.is_long else self.pick((0, 0, 0.1, 0.5))
        self.again = 0 if self.is_long else self.pick((0, 0, 0.4))

    def now_and_then(self, share):
        return self.chance.random() < share

    def oddly(self, share):
        return self.now_and_then(share) and not (self.is_long or self.is_wide)

    def name(self):
        return self.pick(WORDS.odd_names if self.oddly(0.03) else WORDS.names)

    def number(self):
        return self.pick(WORDS.odd_numbers if self.oddly(0.03) else "123")

    def vpkg(self):
        if self.now_and_then(0.5):
            return self.name()
        operator = self.name() + self.pick(("", " ", "\t")) + self.pick(list(OPERATORS))
        return operator + self.pick(("", " ")) + self.number()

    def veqpkg(self):
        return self.name() + (self.pick((" = ", "=")) + self.number() if self.now_and_then(0.5) else "")

    def clause(self):
        # single versions are seldom installed, so clauses of them are often violated
        if self.now_and_then(0.2):
            return " | ".join(f"{self.pick(WORDS.names)} = {self.pick('123')}" for _ in range(self.pick((2, 3))))
        separator, count = self.pick((" | ", "|")), self.pick((1, 1, 1, 2, 3))
        atoms = (self.pick(("true!", "false!")) if self.now_and_then(0.2) else self.vpkg() for _ in range(count))
        return separator.join(atoms)

    def entries(self, entry, most=3):
        return self.pick((", ", ",", " ,\t")).join(entry() for _ in range(self.chance.randrange(most + 1)))

    def provisions(self):
        if self.is_wide and self.now_and_then(0.7):
            return self.pick((", ", ",")).join(self.veqpkg() for _ in range(self.chance.randrange(62, 80)))
        return self.entries(self.veqpkg)

    def package(self, name, version):
        lines, given = [f"version: {version}"], 0.8 if self.is_wide else 0.4
        lines += [f"depends: {self.entries(self.clause)}"] * self.now_and_then(0.4)
        lines += [f"conflicts: {self.entries(self.vpkg)}"] * self.now_and_then(0.4)
        lines += [f"provides: {self.provisions()}"] * self.now_and_then(given)
        lines += ["keep: " + self.pick(("version", "package", "feature", "none"))] * self.now_and_then(0.4)
        lines += ["installed: " + self.pick(("true", "true", "false"))] * self.now_and_then(0.6)
        lines += ["was-installed: x"] * self.now_and_then(0.05)
        lines += [self.pick(WORDS.needed[declared]) for declared in self.needed if not self.now_and_then(self.gap)]
        if self.recommends and self.now_and_then(0.5 if "=" in self.recommends else 1 - self.gap):
            lines.append("recommends: " + self.entries(self.vpkg if "list" in self.recommends else self.clause))
        lines += [self.pick(("x: 1", "e: red", "recommends: a | b", "note: any"))] * self.oddly(0.05)
        self.chance.shuffle(lines)
        return [f"package: {name}", *lines]

    def preamble(self):
        kept = range(self.chance.randrange(3))
        kept = [f"property: {self.entries(lambda: self.pick(WORDS.declarations), 2)}" for _ in kept]
        declared = self.needed + ([self.recommends] if self.recommends else [])
        if declared or self.is_long:
            together = [", ".join(declared)] if self.now_and_then(0.5) else declared
            kept = [f"property: {text}" for text in together] + kept * self.oddly(0.1)
        return ["preamble: ", *kept]

    def request(self):
        wished = [f"{name}: {self.entries(self.vpkg, 2)}" for name in WISHES if self.now_and_then(0.35)]
        return ["request: ", *wished] + ["note: x"] * self.now_and_then(0.1)

    def repetition(self, name, version):
        """A stanza of a solution that may repeat a pair."""
        lines = [f"version: {self.pick(WORDS.repeated_versions).format(version)}"]
        lines += self.pick((["installed: true"], ["installed: false"], []))
        self.chance.shuffle(lines)
        return [f"package: {name}", *lines]

    def listing(self, name, version):
        """A stanza of a solution that doesn't install the pair."""
        written = "version: " + self.pick(WORDS.repeated_versions).format(version)
        return [f"package: {name}", *self.pick(([written], [written, "installed: false"], ["installed: false", written]))]

    def pairs(self):
        """Names and versions of packages."""
        known = [(name, version) for name in WORDS.names for version in range(1, 500 if self.is_long else 4)]
        wanted = self.chance.randrange(300, 2000) if self.is_long else self.chance.randrange(7)
        pairs = self.chance.sample(known, min(wanted, len(known)))
        return pairs + pairs[:1] * self.oddly(0.03) + [("a", self.pick(WORDS.odd_numbers))] * self.oddly(0.03)

    def problem(self, pairs):
        stanzas = [self.preamble()] if self.recommends or self.needed or self.now_and_then(0.2) else []
        stanzas += [self.package(name, version) for name, version in pairs]
        stanzas += [] if self.oddly(0.03) else [self.request()]
        if self.oddly(0.25):
            self.put_in_problem(stanzas)
        return self.document(stanzas)

    def solution(self, pairs):
        if self.oddly(0.04):
            return self.pick(ODD_SOLUTIONS)
        # few packages violate more rules; of an unknown pair the name may be known
        share = self.pick((0.6, 0.6, 0.25))
        chosen = [pair for pair in pairs if self.now_and_then(share)]
        chosen += [(self.pick("acfz"), 4)] * self.now_and_then(0.15)
        stanzas = [[f"package: {name}", f"version: {version}", "installed: true"] for name, version in chosen]
        listed = self.pick((0, 0, 0.4))
        stanzas += [self.listing(*pair) for pair in pairs if pair not in chosen and self.now_and_then(listed)]
        if self.now_and_then(self.again):
            pair = self.pick(chosen + pairs + [("z", 1)])
            stanzas += [self.repetition(*pair) for _ in range(self.pick((1, 1, 2)))]
        self.chance.shuffle(stanzas)
        stanzas += [["request: ", "install: ,"]] * self.now_and_then(0.05)
        if self.oddly(0.12):
            self.says_more(stanzas)
        if self.oddly(0.08):
            self.put_in_solution(stanzas)
        return self.document(stanzas)

    def solutions(self, pairs):
        """One to six solutions, of which some are equal; of a long input one or two."""
        found = [self.solution(pairs)]
        for _ in range(self.chance.randrange(2 if self.is_long else 6)):
            found.append(self.pick(found) if self.now_and_then(0.2) else self.solution(pairs))
            found[-1] = self.pick(FAILS) if self.now_and_then(0.1) else found[-1]
        return found

    def document(self, stanzas):
        """The stanzas as bytes, now and then in another order, with odd lines or bytes, or cut off."""
        if self.oddly(0.03):
            self.chance.shuffle(stanzas)
        lines = [line for stanza in stanzas for line in stanza + [""] * self.pick((1, 1, 1, 2))]
        lines = list(self.odd_lines(lines)) if self.oddly(0.3) else lines
        end = self.pick(("\n", "\n", "\n", "\r\n"))
        data = (end.join(lines) + end * self.now_and_then(0.8)).encode()
        if self.oddly(0.02):
            data = data[:self.chance.randrange(len(data) + 1)]
        if self.oddly(0.03):
            at = self.pick((0, self.chance.randrange(len(data) + 1)))
            data = data[:at] + self.pick(ODD_BYTES) + data[at:]
        return self.pick((b"", b"\n")) if self.oddly(0.01) else data

    def odd_lines(self, lines):
        """The lines with odd ones among them, and lists on two lines; some are missing or doubled."""
        for line in lines:
            if self.now_and_then(0.02):
                yield self.pick(self.pick((WORDS.odd_lines, WORDS.odd_lines, WORDS.junk)))
            if ", " in line and self.now_and_then(0.1):
                front, back = line.split(", ", 1)
                yield from [front + ","] + ["# between"] * self.now_and_then(0.5)
                yield self.pick((" ", "\t", "  ")) + back
            elif not self.now_and_then(0.01):
                yield from [line] * (1 + self.now_and_then(0.01))

    def aims(self):
        """A list of criteria, in which a count may have both signs or come twice; now and then no list."""
        if self.now_and_then(0.1):
            return self.pick(WORDS.odd_lists)
        return ",".join(self.pick("-+") + self.pick(COUNTS) for _ in range(self.pick((1, 1, 2, 2, 3, 4, 9))))

    def proof(self, asked):
        """A proof that nothing is better, or of something else; now and then of another form."""
        if not asked.refused and self.now_and_then(0.7):
            proof = Prover(len(asked.rules.packages), asked.clauses).text()
            return proof if self.now_and_then(0.7) else proof[:self.chance.randrange(len(proof) + 1)]
        return self.pick((b"", b"1 0 0\n", b"99 1 0 1 2 0\n", self.pick(WORDS.no_step).encode(), self.pick(ODD_BYTES)))

    def key(self):
        """A key, of a violation or not."""
        place, number, part = self.pick((1, 1, 2, 3, 9, 2**64 - 1)), self.chance.randrange(1, 8), self.pick("ppprrs")
        if part == "s":
            return f"s.unknown.{place}"
        if part == "p":
            return f"p{number}.{self.pick(('depends', 'conflicts', 'keep'))}.{place}"
        wish = self.pick(WISHES)
        return f"r.{wish}.{place}" + (f".{self.pick(ASPECTS)}" if wish == "upgrade" else "")

    def odd_key(self):
        """A key with one thing changed; it may still be a key."""
        text = self.key()
        at = self.chance.randrange(len(text))
        front, back = text[:at], text[at:]
        return self.pick((
            text + self.pick(WORDS.odd_ends), front + back[1:], front + self.pick("0p.rsA-+ 1") + back, text.upper(),
            front, text.replace(".", self.pick(("..", ":", "-"))), self.pick(WORDS.odd_ends) + text,
        ))

    def page(self):
        """The options of a page, valid and invalid ones, by name."""
        words = {}
        if self.now_and_then(0.8):
            words["after"] = self.odd_key() if self.now_and_then(0.4) else self.key()
        if self.now_and_then(0.5):
            words["limit"] = self.pick(WORDS.odd_limits) if self.now_and_then(0.3) else str(self.chance.randrange(1, 6))
        return words
