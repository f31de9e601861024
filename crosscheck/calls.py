"""Calls of the library for C: the table calls.txt, and how library.c reads calls and writes what they leave."""
import dataclasses
import itertools
import re
import struct

from common import contents, section, unescaped

# the commands, each with its arguments after the documents as Python's functions have them
CALLS = {
    "lint": ("strict", "explain"), "check": ("word", "limit", "strict", "explain"), "score": ("word", "strict"),
    "rank": ("word", "strict"), "cnf": ("strict",), "refute": ("strict", "explain"),
}
# in a call a word that begins so has any end: the last text stands for its file
BETTER = b"--better-than="
YES, NO, FAULTY, FAIL, USAGE, UNREAD, MEMORY = range(7)
LONGEST, GREATEST = 268_435_456, 2**64 - 1
# as library.c has them
KINDS, GUARD, PATTERN, REFUSED = ("written", "zeroes", "null", "claimed", "unreadable"), 64, b"\xa5", 70
LONG = f"zeroes:{LONGEST + 1}|unreadable:{LONGEST + 1}|claimed:{LONGEST + 1}|claimed:{GREATEST}"


NAME = b"a" * 90
DOCUMENTS = {
    # its CNF is longer than all static memory of the driver
    "many": b"".join(b"package: %s\nversion: %d\n\n" % (NAME, number) for number in range(1, 10_001)) + b"request:\n",
    # a value of many lines, of which the last entry is empty
    "mistyped": b"package: car\nversion: 1\ndepends: wheel" + b",\n wheel" * 69 + b",\n\nrequest:\n",
    **{name: unescaped(text) for name, text in re.findall(r"(\S+) = ?(.*)\n", section("calls.txt", "documents"))},
}


@dataclasses.dataclass(frozen=True)
class Request:
    """A call: the texts are the problem and the solutions or the proof, the word is a key or a list.

    A text is bytes, or one of the other kinds with a length; so are the words in `more`. If the buffer is null it has no
    room. Texts beyond the last name have none.
    """

    call: str
    texts: tuple
    word: bytes = b""
    limit: int = 0
    strict: bool = False
    explain: bool = False
    more: tuple = ()
    names: tuple = ()
    room: int = 1024
    is_null: bool = False

    def options(self):
        """The words after the command."""
        words = [(b"--after=" if self.call == "check" else b"--criteria=") + self.word] if self.word else []
        words += [b"--limit=%d" % self.limit] * bool(self.limit)
        return [*words, *[b"--strict"] * self.strict, *[b"--explain"] * self.explain, *self.more]

    def is_better(self):
        """Whether the last text is an answer that is to be bettered."""
        return any(isinstance(word, bytes) and word.startswith(BETTER) for word in self.more)

    def words(self, files):
        """The program's arguments for the same, with these files."""
        if not self.is_better():
            return [self.call, *files, *self.options()]
        *files, last = files
        named = BETTER + last.encode()
        return [self.call, *files, *(named if word[:len(BETTER)] == BETTER else word for word in self.options())]

    def written(self):
        """The request as the driver reads it."""
        words = [self.call.encode()] * bool(self.call) + self.options()
        names = (*self.names, *[b""] * (len(self.texts) - len(self.names)))
        written = struct.pack("4Q", self.is_null, self.room, len(words), len(self.texts))
        for text in (*words, *self.texts, *names):
            kind, length = ("written", len(text)) if isinstance(text, bytes) else text
            written += struct.pack("2Q", KINDS.index(kind), length) + (text if kind == "written" else b"")
        return written

    def left(self, status, report):
        """What the call leaves of a report: the status, its length, and the buffer with the guard after it."""
        buffer = b"" if self.is_null else report[: self.room].ljust(self.room + GUARD, PATTERN)
        return status, len(report), buffer


def answers(output):
    """What the driver wrote: of each request the status, the length and the buffer."""
    at = 0
    while at + 24 <= len(output):
        status, length, size = struct.unpack_from("3Q", output, at)
        at += 24 + size
        yield status, length, output[at - size: at]


def request_of(call, *words):
    """The request of the words of a call in the table."""
    texts, names, line, more = [], [], [], {}
    for word in words:
        option, _, value = word.rpartition("=")
        kind, _, number = value.partition(":")
        text = (kind, int(number)) if kind in KINDS else None
        if option == "--room" and text:
            more.update(room=text[1], is_null=True)
        elif option == "--room":
            more["room"] = int(value)
        elif option in ("--name", "--word"):
            (names if option == "--name" else line).append(text or unescaped(value))
        elif word.startswith("-"):
            line.append(unescaped(word))
        else:
            texts.append(text or (DOCUMENTS[value] if value in DOCUMENTS else contents("examples", value)))
    return Request(call.replace("none", ""), tuple(texts), more=tuple(line), names=tuple(names), **more)


def table(title):
    """The rows of a section: a name, a request, and the status and the report that are wanted, if there are any."""
    text = section("calls.txt", title).replace("LONG", LONG)
    for calls, status, report in re.findall(r"((?:^\w.*\n)+)(?:^  (\d)\n((?:^  .*\n)*))?", text, re.M):
        wanted = (int(status), re.sub("^  ", "", report, flags=re.M).encode()) if status else ()
        for call in calls.splitlines():
            for words in itertools.product(*(word.split("|") for word in call.split())):
                yield (" ".join(words), request_of(*words), *wanted)
