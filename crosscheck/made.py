"""Made inputs: documents and commands of tables such as growth.txt, which describes them."""
import collections
import os
import re

from common import HERE, Ran

# the bound of memory is as it is written, or None
Case = collections.namedtuple("Case", "name size most documents commands")
Command = collections.namedtuple("Command", "words status report")
# a text, and the first and the last k as they are written, or None
Piece = collections.namedtuple("Piece", "text first last", defaults=(None, None))
# the arguments, a file that is given at standard input or None, the sizes of the documents, and what is wanted
Job = collections.namedtuple("Job", "words source sizes wanted")
# the message with status 5, which a case has where the CNF of its problem is too large
TOO_LARGE = "cudf_check: the CNF of {} would have more than 4294967295 clauses or 2147483647 variables\n"


def cases(table):
    """The cases of a table by their names."""
    common, found, pieces = {}, {}, None
    with open(os.path.join(HERE, table), encoding="ascii") as file:
        lines = [line.rstrip("\n") for line in file if line[0] not in "#\n"]
    for line in lines:
        if line.startswith("== "):
            name, size, *most = line[3:].split(" | ")
            case = found[name] = Case(name, int(size), *most or [None], {key: [*it] for key, it in common.items()}, [])
        elif line.startswith("$ "):
            words, status, *text = line[2:].split(" | ", 2)
            pieces = [Piece("".join(text))]
            case.commands.append(Command(words, int(status), pieces))
        elif line.startswith("| "):
            pieces[-1] = pieces[-1]._replace(text=pieces[-1].text + line[2:])
        else:
            name, first, last, text = re.fullmatch(r"(>|[A-Z][A-Z0-9]*)(?: (\S+)\.\.(\S+))? \| ?(.*)", line).groups()
            if name != ">":
                pieces = (case.documents if found else common).setdefault(name, [])
            pieces.append(Piece(text, first, last))
    return found


class Made:
    """A case of one size. Its documents are made, and written into files, where they are first asked for."""

    def __init__(self, case, size):
        self.case, self.names = case, {"n": size}

    def text_of(self, piece):
        """The text of a piece, which is written as an f-string, for each of its k."""
        for name in re.findall(r"\{([A-Z][A-Z0-9]*)\}", piece.text):
            self.document(name)
        text = eval(f"lambda k: f'''{piece.text}'''", self.names)
        if piece.first is None:
            return text(None)
        first, last = eval(piece.first, self.names), eval(piece.last, self.names)
        return "".join(map(text, range(first, last + 1) if first <= last else range(first, last - 1, -1)))

    def document(self, name):
        """The file of a document."""
        path = f"{name}-{self.names['n']}"
        if name not in self.names:
            self.names[name] = "".join(map(self.text_of, self.case.documents[name]))
            with open(path, "w", encoding="ascii") as file:
                file.write(self.names[name])
        return path

    def job(self, command):
        words = self.text_of(Piece(command.words)).split()
        files = {word: self.document(word) for word in words if word in self.case.documents}
        words = [files.get(word, word) for word in words]
        words, source = (words[:-2], words[-1]) if "<" in words else (words, None)
        errors = TOO_LARGE.format(words[1]) if command.status == 5 else ""
        wanted = Ran(command.status, "".join(map(self.text_of, command.report)), errors)
        return Job(words, source, [os.path.getsize(file) for file in files.values()], wanted)


def job(name, size):
    """The first command of a case of growth.txt."""
    case = cases("growth.txt")[name]
    return Made(case, size).job(case.commands[0])
