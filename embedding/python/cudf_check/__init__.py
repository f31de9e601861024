"""cudf_check for Python: checks answers to CUDF 2.0 upgrade problems, through the library for C.

`lint`, `check`, `score`, `rank`, `cnf` and `refute` return the report of the program's command of that name, its status,
and what it says as values; `run` takes any words of the command line. docs/FORMAT.md and docs/RULES.md of cudf_check
describe the reports.

A document is a text or a file. Texts are `str`, encoded as UTF-8, or buffers: `bytes`, `bytearray`, `memoryview`, `mmap`. A
buffer isn't copied unless it is read-only and not `bytes`; it must not change during the call. An `os.PathLike`, such as
`pathlib.Path`, is a file, which is opened and read.

Errors of documents are reported. An exception means that there is no report:

- `ValueError`: the key, the limit or the list of criteria is invalid, or what is asked for doesn't go together. The text
  is the first line of the program's.
- `TooLong`, a `ValueError`: a document is longer than 256 MiB, or the CNF has more than 4294967295 clauses or
  2147483647 variables.
- `MemoryError`: out of memory.
- `UnicodeEncodeError`, a `ValueError`: a `str` can't be encoded.
- `OSError`: a file can't be read. `TypeError`: not a document.

Where a document is malformed, a `str` that is the name of a file brings a warning: it wasn't opened.

The library is the file named by the environment variable CUDF_CHECK_LIBRARY, or otherwise `libcudf_check.so.1`. For
Python 3.8 and later, with only the standard library.
"""
from __future__ import annotations

import ctypes
import enum
import mmap
import os
import re
import warnings
from dataclasses import dataclass
from typing import Dict, Iterable, List, Optional, Tuple, Union

__version__ = "1.0.0"

Document = Union[str, bytes, bytearray, memoryview, mmap.mmap, "os.PathLike[str]", "os.PathLike[bytes]"]


class TooLong(ValueError):
    """A document is longer than 256 MiB, or a CNF has more than 4294967295 clauses or 2147483647 variables."""


class Status(enum.IntEnum):
    """The exit statuses of the program with a report."""

    YES = 0
    NO = 1
    FAULTY = 2
    FAIL = 3


@dataclass(frozen=True)
class Fault:
    """The first error of a document: of `whose`, `problem` or `solution`; in a ranking `place` is the solution's.

    `added` is what an explained error says after its text, or None.
    """

    whose: str
    line: int
    kind: str
    text: str
    place: Optional[int] = None
    added: Optional[str] = None


@dataclass(frozen=True)
class Violation:
    """A violation. Its key has a part (such as `p1`, `r`, `s`), a rule, a place and, for `upgrade`, an aspect.

    `name` and `version` are those of the package or the unknown stanza, or None for the request; `added` is what an
    explained line says after its text, or None.
    """

    key: str
    part: str
    rule: str
    place: int
    aspect: Optional[str]
    name: Optional[str]
    version: Optional[int]
    line: int
    text: str
    added: Optional[str] = None


@dataclass(frozen=True)
class Rank:
    """What a ranking says of the solution at `place`: `verdict` is `yes`, `no` or `FAIL`; `counts` are by aim."""

    rank: int
    place: int
    verdict: str
    counts: Tuple[Tuple[str, int], ...]


@dataclass(frozen=True)
class Linted:
    status: Status
    report: str
    fault: Optional[Fault]


@dataclass(frozen=True)
class Checked:
    """`more_after` is the key after which the next page begins; `verdict` is `yes`, `no`, `FAIL`, or None with an error."""

    status: Status
    report: str
    fault: Optional[Fault]
    violations: List[Violation]
    more_after: Optional[str]
    verdict: Optional[str]


@dataclass(frozen=True)
class Scored:
    """`counts` by name; `vectors` by track, if no list was given; `verdict` as in `Checked`."""

    status: Status
    report: str
    fault: Optional[Fault]
    counts: Dict[str, int]
    vectors: Dict[str, Tuple[int, ...]]
    verdict: Optional[str]


@dataclass(frozen=True)
class Ranked:
    """`ranks` are in the order of the ranking."""

    status: Status
    report: str
    fault: Optional[Fault]
    ranks: List[Rank]


@dataclass(frozen=True)
class Encoded:
    """The report is a CNF in DIMACS, or has the first error.

    `verdict` is `no` or `FAIL` if the answer that is to be bettered is no solution.
    """

    status: Status
    report: str
    fault: Optional[Fault]
    verdict: Optional[str] = None

    @property
    def packages(self) -> List[Tuple[str, int]]:
        """The name and version of each package; variable 1 means that the first one is installed.

        Variables beyond the packages only serve the clauses of a CNF for better solutions.
        """
        told = [line.split(" ") for line in _lines(self.report) if line.startswith(_PACKAGE)]
        return [(name, int(number)) for _, _, name, number in told]

    @property
    def clauses(self) -> List[Tuple[int, ...]]:
        """The literals of each clause: a negative number means that the package isn't installed."""
        lines = [] if self.fault or self.verdict else _lines(self.report)
        told = [line for line in lines if not line.startswith((_PACKAGE, _HEADER))]
        return [tuple(map(int, line.split(" ")[:-1])) for line in told]


@dataclass(frozen=True)
class ProofFault:
    """The first error of a proof; `added` is what an explained error says after its text, or None."""

    line: int
    kind: str
    text: str
    added: Optional[str] = None


@dataclass(frozen=True)
class Refuted:
    """`fault` is that of the problem or of the answer that is to be bettered, `proof_fault` the proof's.

    Every answer violates one of the `reasons`. Of the answer that can't be bettered there are `counts` by aim; `verdict` is
    `no` or `FAIL` if it is no solution.
    """

    status: Status
    report: str
    fault: Optional[Fault]
    proof_fault: Optional[ProofFault]
    reasons: List[Violation]
    counts: Tuple[Tuple[str, int], ...] = ()
    verdict: Optional[str] = None


# ---- the calls


def run(words: Iterable[str], documents: Iterable[Document] = (), names: Iterable[str] = ()) -> Tuple[int, str]:
    """What the program does for these words, such as `["check", "--explain"]`, with the documents in place of its files:
    its exit status, and its report, or with status 4 its message. The last document stands for the file of
    `--better-than=NAME`, if that is one of the words. Lines begin with the documents' names if `-H` is given."""
    line = [(word, len(word)) for word in (str(it).encode() for it in words)]
    held = [_sized(document) for document in documents]
    texts = [(it if isinstance(it, bytes) else ctypes.addressof(it), length) for it, length in held]
    named = [(name, len(name)) for name in (str(it).encode() for it in names)]
    given = zip(texts, named + [(b"", 0)] * (len(texts) - len(named)))
    return _call((_Text * len(line))(*line), len(line), (_Document * len(texts))(*given), len(texts))


def lint(problem: Document, strict: bool = False, explain: bool = False) -> Linted:
    """Whether a problem is valid, or its first error."""
    status, report = _asked(["lint"], [problem], strict, explain)
    return Linted(status, report, _fault(report))


def check(
    problem: Document, solution: Document, after: Optional[str] = None, limit: Optional[int] = None, strict: bool = False,
    explain: bool = False,
) -> Checked:
    """What is wrong with a solution: the violations after the key `after`, at most `limit` of them, and the verdict."""
    page = [] if after is None else [f"--after={after}"]
    page += [] if limit is None else [f"--limit={limit}"]
    status, report = _asked(["check", *page], [problem, solution], strict, explain)
    fault, lines = _fault(report), _lines(report)
    more = [line[len(_MORE):] for line in lines if line.startswith(_MORE)]
    violations = [] if fault else [_violation(line) for line in lines if not line.startswith((_MORE, _VERDICT))]
    return Checked(status, report, fault, violations, more[0] if more else None, _VERDICTS.get(status))


def score(problem: Document, solution: Document, criteria: Optional[str] = None, strict: bool = False) -> Scored:
    """What a solution changes and lacks: the counts of a list, such as `-removed,-changed`, or of the MISC competition."""
    listed = [] if criteria is None else [f"--criteria={criteria}"]
    status, report = _asked(["score", *listed], [problem, solution], strict)
    fault = _fault(report)
    lines = [] if fault else [line.split(" ") for line in _lines(report) if not line.startswith(_VERDICT)]
    vectors = {name: tuple(map(int, numbers)) for name, *numbers in lines if name in _TRACKS}
    counts = {name.lstrip("-+"): int(numbers[0]) for name, *numbers in lines if name not in _TRACKS}
    return Scored(status, report, fault, counts, vectors, _VERDICTS.get(status))


def rank(problem: Document, solutions: Iterable[Document], criteria: str, strict: bool = False) -> Ranked:
    """Ranks solutions, of which there is at least one, by a list, the best first."""
    if isinstance(solutions, (str, bytes, bytearray, memoryview, mmap.mmap, os.PathLike)):
        raise TypeError("solutions is one document, and has to be a list of documents")
    status, report = _asked(["rank", f"--criteria={criteria}"], [problem, *solutions], strict)
    fault = _fault(report)
    return Ranked(status, report, fault, [] if fault else [_rank(line) for line in _lines(report)])


def cnf(
    problem: Document, strict: bool = False, better_than: Optional[Document] = None, criteria: Optional[str] = None,
) -> Encoded:
    """The rules of a problem as a CNF, for a SAT solver: its models are the solutions.

    With an answer and a list of criteria they are the solutions that are better than that answer by the list.
    """
    words, answers = _bettered(better_than, criteria)
    status, report = _asked(["cnf", *words], [problem, *answers], strict)
    return Encoded(status, report, _fault(report), _verdict(report))


def refute(
    problem: Document, proof: Document, strict: bool = False, explain: bool = False,
    better_than: Optional[Document] = None, criteria: Optional[str] = None,
) -> Refuted:
    """Whether a proof, in LRAT's text form, shows that a problem has no solution, and why it has none.

    With an answer and a list of criteria: whether it shows that no solution is better than that answer by the list.
    """
    words, answers = _bettered(better_than, criteria)
    status, report = _asked(["refute", *words], [problem, proof, *answers], strict, explain)
    lines = _lines(report)[:-1] if status == Status.YES else []
    reasons = [] if answers else [_violation(line) for line in lines]
    counts = _counts(" ".join(lines)) if answers else ()
    return Refuted(status, report, _fault(report), _proof_fault(report), reasons, counts, _verdict(report))


def version() -> str:
    """The library's version."""
    return run(["--version"])[1].split()[1]


# ---- the lines of a report, as in docs/FORMAT.md

_MORE, _VERDICT, _TRACKS = "more after ", "solution ", ("paranoid", "trendy")
_PACKAGE, _HEADER = "c ", "p cnf "
# a text, and after `; ` what is added to it; no text has a `;`
_SAID = r"([^;\n]*)(?:; (.*))?"
_FAULT_LINE = re.compile(rf"(problem|solution)(?: (\d+))? line (\d+): (E\d+) {_SAID}\n")
_VIOLATION_LINE = re.compile(
    rf"((p\d+|r|s)\.([a-z]+)\.(\d+)(?:\.([a-z]+))?) (?:(\S+) (\d+) )?line (\d+): {_SAID}"
)
_PROOF_LINE = re.compile(rf"proof line (\d+): (L\d+) {_SAID}\n")
_RANK_LINE = re.compile(r"(\d+) solution (\d+) (yes|no|FAIL)(.*)")
_VERDICTS = {Status.YES: "yes", Status.NO: "no", Status.FAIL: "FAIL"}


def _lines(report: str) -> List[str]:
    return report.split("\n")[:-1]


def _matched(form: re.Pattern, line: str) -> re.Match:
    found = form.fullmatch(line)
    if found is None:
        raise ValueError(f"a line that is unknown to this version: {line!r}")
    return found


def _fault(report: str) -> Optional[Fault]:
    found = _FAULT_LINE.fullmatch(report)
    if found is None:
        return None
    whose, place, line, kind, text, added = found.groups()
    return Fault(whose, int(line), kind, text, int(place) if place else None, added)


def _proof_fault(report: str) -> Optional[ProofFault]:
    found = _PROOF_LINE.fullmatch(report)
    return ProofFault(int(found[1]), *found.groups()[1:]) if found else None


def _violation(line: str) -> Violation:
    key, part, rule, place, aspect, name, version_told, number, text, added = _matched(_VIOLATION_LINE, line).groups()
    told = int(version_told) if version_told else None
    return Violation(key, part, rule, int(place), aspect, name, told, int(number), text, added)


def _verdict(report: str) -> Optional[str]:
    """What a report says of an answer that is no solution, where that is all that it says."""
    return {_VERDICT + verdict + "\n": verdict for verdict in ("no", "FAIL")}.get(report)


def _counts(told: str) -> Tuple[Tuple[str, int], ...]:
    words = told.split()
    return tuple((aim, int(count)) for aim, count in zip(words[::2], words[1::2]))


def _rank(line: str) -> Rank:
    at, place, verdict, told = _matched(_RANK_LINE, line).groups()
    return Rank(int(at), int(place), verdict, _counts(told))


# ---- the library


class _Text(ctypes.Structure):
    _fields_ = [("bytes", ctypes.c_char_p), ("length", ctypes.c_size_t)]


class _Document(ctypes.Structure):
    _fields_ = [("text", _Text), ("name", _Text)]


_ROOM, _LONGEST = 1 << 16, 268435456
_USAGE, _UNREAD, _MEMORY = 4, 5, 6


def _opened(name: str) -> ctypes.CDLL:
    try:
        library = ctypes.CDLL(name)
    except OSError as error:
        raise OSError(f"{error}; the variable CUDF_CHECK_LIBRARY can name the library's file") from None
    given = [kind for it in (_Text, _Document) for kind in (ctypes.POINTER(it), ctypes.c_size_t)]
    library.cudf_check_run.argtypes = [*given, ctypes.c_void_p, ctypes.c_size_t, ctypes.POINTER(ctypes.c_size_t)]
    library.cudf_check_run.restype = ctypes.c_uint8
    return library


_library = _opened(os.environ.get("CUDF_CHECK_LIBRARY", "libcudf_check.so.1"))


def _sized(document: Document) -> Tuple[Union[bytes, ctypes.Array], int]:
    """A text, as `bytes` or as an array over the buffer, and its length. ctypes gives a pointer to it that isn't null."""
    if isinstance(document, os.PathLike):
        with open(os.fspath(document), "rb") as file:
            document = file.read(_LONGEST + 1)
    if isinstance(document, str):
        document = document.encode()
    if isinstance(document, bytes):
        return document, len(document)
    try:
        view = memoryview(document)
    except TypeError:
        raise TypeError(f"neither a text nor a file: {document!r}") from None
    try:
        text = (ctypes.c_char * view.nbytes).from_buffer(view) if view.nbytes else b""
    except TypeError:  # it is read-only, or in pieces
        text = view.tobytes()
    return text, view.nbytes


def _bettered(better_than: Optional[Document], criteria: Optional[str]) -> Tuple[List[str], List[Document]]:
    """The words for solutions that are better than an answer, and the documents behind those of the command."""
    words = [] if criteria is None else [f"--criteria={criteria}"]
    return (words, []) if better_than is None else (["--better-than=answer", *words], [better_than])


def _call(*arguments) -> Tuple[int, str]:
    """Makes a call with a buffer for its report, and again with a larger one if that was too small."""
    room, length = _ROOM, ctypes.c_size_t()
    while True:
        report = ctypes.create_string_buffer(room)
        status = _library.cudf_check_run(*arguments, report, room, ctypes.byref(length))
        if length.value <= room:
            return status, ctypes.string_at(report, length.value).decode()
        room = length.value


def _asked(words: List[str], documents: List[Document], strict: bool, explain: bool = False) -> Tuple[Status, str]:
    """The status and the report of a command.

    Exceptions are raised where no array over a buffer is left: they would keep it, and an `mmap` couldn't be closed.
    """
    code, text = run([*words, *["--strict"] * strict, *["--explain"] * explain], documents)
    if code == _USAGE:
        raise ValueError(text.split("\n\nUsage: ")[0][len("error: "):])
    if code == _UNREAD:
        raise TooLong(
            f"a document is longer than {_LONGEST} bytes, or a CNF has more than 4294967295 clauses or 2147483647 variables"
        )
    if code == _MEMORY:
        raise MemoryError("there is not enough memory")
    for document in documents if code == Status.FAULTY else ():
        if isinstance(document, str) and "\n" not in document and os.path.isfile(document):
            warnings.warn(f"{document!r} is a document's text; pathlib.Path({document!r}) would be the file", stacklevel=3)
    return Status(code), text
