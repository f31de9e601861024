#!/usr/bin/env python3
"""Runs the program by many command lines, and compares its exit status and its output with what is wanted.

usage: commands.py PROGRAM

The rows are in commands.txt, whose head says how one is written. The texts of help are in help.txt. Rows that need more
than a command line are here: limits of the system, a closed pipe, a thousand solutions.

What is wanted was worked out by hand from README.md, docs/FORMAT.md, docs/DECISIONS.md and the man page.
"""
import contextlib
import itertools
import os
import re
import resource
import shlex
import socket
import sys
from dataclasses import dataclass

import common
from common import limit, sections, write

MEGABYTE, GREATEST_INPUT = 1 << 20, 1 << 28
# from this exit status on, an error is wanted and no report
FIRST_ERROR = 4
# what the program is started as, by the head of a section: None is a path of `cudf_check`
NAMES = {
    "by its own name": (None, "cudf_check"),
    "by each name": (None, "cudf_check", "--", "--criteria", "", "-", "lint"),
}
REDIRECTIONS = ("<", "<<", "<<<", "<!", "<&-", ">")


# ---- the table


@dataclass(frozen=True)
class Row:
    """A command line, the status and the text that are wanted, the value of `@`, and what the program is started as."""

    line: str
    status: int
    wanted: str
    value: str = ""
    name: str | None = None

    def __str__(self):
        line = self.line.replace("@", self.value)[:100]
        return line if self.name is None else f"{line} (started as '{self.name}')"


def lines_of(body):
    """The lines of a section without comments, each joined with those that continue it."""
    lines = re.sub(r"\n +", " ", body).split("\n")
    return [line for line in lines if line and not line.startswith("#")]


def rows_of(body, names):
    """The rows of a section, each once for each name and value."""
    values = [""]
    for line in lines_of(body):
        row = re.fullmatch(r"(.*?) ?\| (\d) \| ?(.*)", line)
        if line.startswith("@ = "):
            values = [unescaped(word) for word in shlex.split(line)[2:]]
        elif row:
            commands, status, wanted = row.groups()
            tried = values if "@" in line else [""]
            for command, value, name in itertools.product(commands.split("; "), tried, names):
                yield Row(command, int(status), wanted, value, name)
        else:
            sys.exit(f"commands.txt: this is no row: {line}")


def unescaped(text):
    """The text with the bytes of its escapes."""
    return os.fsdecode(common.unescaped(text))


class Table:
    """The files and the texts by their names, the rows, and the names of the texts that no row has used yet."""

    def __init__(self):
        self.files, self.rows = {}, []
        self.texts = {head: body.removesuffix("\n") for head, body in sections("crosscheck/help.txt", "$ ")}
        for head, body in sections("crosscheck/commands.txt"):
            body = body.strip("\n")
            if head.startswith("file "):
                text = body + "\n" if body else ""
                self.files.update((unescaped(name), text) for name in shlex.split(head)[1:])
            elif head == "texts":
                self.texts.update(line.split(" = ", 1) for line in lines_of(body))
            else:
                self.rows += rows_of(body, NAMES.get(head.partition(": ")[0], [None]))
        self.unused = set(self.texts)

    def named(self, found):
        """The text for a name in braces, without its last line end, and with the argument in place of `{}`."""
        name, argument = found.groups("")
        self.unused.discard(name)
        text = self.texts[name] if name in self.texts else self.files[name].removesuffix("\n")
        return self.replaced(text.replace("{}", argument))

    def replaced(self, text):
        """The text with what is named in it."""
        return re.sub(r"\{([a-z][\w -]*)(?:: ([^{}]*))?\}", self.named, text)

    def said(self, text, line_end="\n"):
        """What is printed of a text."""
        return unescaped(self.replaced(text)) + line_end

    def report(self, line):
        """A command line with its status and its whole report."""
        row = next(row for row in self.rows if row.line == line and "..." not in row.wanted)
        return line, row.status, self.said(row.wanted)

    def text(self, text, row):
        """The text as it is meant in the row."""
        return self.said(text, "").replace("@", row.value)

    def command(self, row):
        """The words of the row, the mark of its redirection, and what comes after the mark."""
        parts = [self.text(part, row) for part in shlex.split(row.line)]
        at = next((place for place, part in enumerate(parts) if part in REDIRECTIONS), len(parts))
        mark, target = (parts[at:] + ["", ""])[:2]
        return parts[:at], mark, target

    def usage(self, words):
        """What follows the reason of a usage error: the usage of the command, and where its help is."""
        asked = " ".join(["cudf_check", *words[:1], "--help"])
        asked = asked if asked in self.texts else "cudf_check --help"
        usage = re.search(r"^Usage: .*", self.texts[asked], re.MULTILINE)[0]
        return f"\n\n{usage}\n\nFor more information, try '{asked}'.\n"

    def outputs(self, row, words):
        """What is wanted on both outputs: pieces of text, with something between each two."""
        pieces = [self.text(piece, row) for piece in row.wanted.split("...")]
        if row.wanted:
            pieces[-1] += self.usage(words) if pieces[0].startswith("error: ") else "\n"
        return ([""], pieces) if row.status >= FIRST_ERROR else (pieces, [""])


TABLE = Table()

# ---- redirections


def held(text):
    """A pipe that holds the text."""
    reader, writer = os.pipe()
    os.write(writer, os.fsencode(text))
    os.close(writer)
    return reader


def failing(text):
    """A socket that gives the text and then fails (ECONNRESET), since its other side was closed with bytes unread."""
    ours, other = socket.socketpair()
    with other:
        other.sendall(os.fsencode(text))
        ours.sendall(b"unread")
    return ours.detach()


def opened(mark, target, files):
    """The descriptor of a redirection."""
    if mark in ("<", ">"):
        return os.open(target, os.O_RDONLY if mark == "<" else os.O_WRONLY)
    if mark == "<!":
        return failing(files[target])
    return held(files[target] if mark == "<<" else target)


@contextlib.contextmanager
def redirected(mark, target, files):
    """The arguments of `common.run` for a redirection."""
    if not mark:
        yield {}
    elif mark == "<&-":
        yield {"stdin": None, "before": lambda: os.close(0)}
    else:
        descriptor = opened(mark, target, files)
        try:
            yield {"stdout" if mark == ">" else "stdin": descriptor}
        finally:
            os.close(descriptor)


# ---- runs of the program


class Trial(common.Trial):
    """Runs the program, whose help names it by the last part of what it is started as."""

    def __init__(self, *words):
        super().__init__(*words)
        self.installed = os.path.join(os.path.dirname(self.program), "cudf_check")
        self.enter(TABLE.files)

    def started(self, words, name=None, **how):
        """The exit status and both outputs, where the program is started by this name or by a path."""
        return common.run([self.installed if name is None else name, *words], executable=self.program, **how).decoded()

    def expect(self, row, **how):
        """Runs a row, with these arguments for `common.run` too."""
        words, mark, target = TABLE.command(row)
        with redirected(mark, target, TABLE.files) as redirection:
            given = self.started(words, row.name, **redirection, **how)
        outputs = TABLE.outputs(row, words)
        is_right = given.status == row.status and all(map(is_made_of, given[1:], outputs))
        wanted = (row.status, *map("...".join, outputs))
        self.same(str(row), given, given if is_right else wanted)


def is_made_of(text, pieces):
    """Whether the text is these pieces in their order, with something between each two."""
    return re.fullmatch(".+".join(map(re.escape, pieces)), text, re.DOTALL) is not None


# ---- the rows


def rows_of_table(trial):
    with open("long", "wb") as file:
        file.truncate(GREATEST_INPUT + 1)
    for row in TABLE.rows:
        trial.expect(row)


def too_many_files(trial):
    """More files than may be open: the error names the first that is too many."""
    wanted = "cudf_check: good can't be opened: Too many open files (os error 24)"
    row = Row("rank --criteria=-new p" + " good" * 20, 5, wanted)
    trial.expect(row, before=limit(resource.RLIMIT_NOFILE, 20))


def closed_pipe(trial):
    """A report that nobody reads any more, as after head."""
    reader, writer = os.pipe()
    os.close(reader)
    trial.expect(Row("check p bad", 5, "{left}"), stdout=writer)
    os.close(writer)


def many_solutions(trial):
    """A thousand solutions in one command, of four kinds in turn; then the last of them is missing, or is invalid."""
    kinds = dict(zip(range(1, 1001), itertools.cycle(("empty", "bad", "fail", "good"))))
    for place, kind in kinds.items():
        write("", f"s{place}", TABLE.files[kind].encode())
    shown = {"good": "yes +new 1", "empty": "yes +new 0", "bad": "no", "fail": "FAIL"}
    best_first = [place for kind in shown for place in kinds if kinds[place] == kind]
    report = "\n".join(f"{rank} solution {place} {shown[kinds[place]]}" for rank, place in enumerate(best_first, 1))
    *files, last = (f"s{place}" for place in kinds)
    line = "rank --criteria=+new p " + " ".join(files)
    trial.expect(Row(f"{line} {last}", 0, report))
    trial.expect(Row(f"{line} none", 5, "{missing: none}"))
    trial.expect(Row(f"{line} faulty", 2, "solution 1000 line 1: {no property}"))


def too_little_memory(trial):
    """Too little memory for a line of 200 megabytes."""
    write("", "wide", b"request:\n" + b"#" * (200 * MEGABYTE))
    for line in (
        "lint wide", "check wide", "check p wide", "score wide p", "rank --criteria=-new wide good",
        "rank --criteria=-new p good wide",
    ):
        trial.expect(Row(line, 6, "{no room}"), before=limit(resource.RLIMIT_AS, 100 * MEGABYTE))


def too_many_words(trial):
    """Too little memory for the words: enough for a few of them, and not for as many as need some ten megabytes."""
    sizes = range(2 * MEGABYTE, 200 * MEGABYTE, MEGABYTE)
    fits = (size for size in sizes if trial.run("--version", before=limit(resource.RLIMIT_AS, size)).status == 0)
    little = limit(resource.RLIMIT_AS, next(fits, 0) + 3 * MEGABYTE)
    line = "rank --criteria=-new p"
    trial.expect(Row(line + " good" * 100_000, 6, "{no room for words}"), before=little)
    trial.expect(Row(line + " good", 0, "1 solution 1 yes -new 1"), before=little)


def unused(trial):
    trial.same("texts that no row uses", TABLE.unused, set())


if __name__ == "__main__":
    tests = (rows_of_table, too_many_files, closed_pipe, many_solutions, too_little_memory, too_many_words, unused)
    common.start(__doc__, *tests, make=Trial)
