"""What the scripts share: they run commands, read tables, and count the rows that aren't as wanted.

A script prints each wrong row, and last how many rows there were. Its status is 1 if one is wrong, and 2 if arguments
are wrong or a file is missing. For Linux; Python's standard library alone.
"""
import collections
import os
import re
import resource
import select
import shutil
import signal
import subprocess
import sys
import tempfile

HERE = os.path.dirname(os.path.abspath(__file__))
ROOT = os.path.dirname(HERE)
LIMIT_SECONDS = 120
ENVIRONMENT = {
    "PATH": os.environ["PATH"] + ":/usr/sbin:/sbin", "HOME": os.path.expanduser("~"), "LC_ALL": "C",
    "PYTHONDONTWRITEBYTECODE": "1",
}
# what a command gives that succeeds and prints nothing
DONE = (0, b"", b"")
EMPTY = b"request:\n"
QUIET = (os.POSIX_SPAWN_OPEN, 2, os.devnull, os.O_WRONLY, 0)


# ---- commands


def split(words):
    return words.split() if isinstance(words, str) else words


class Ran(collections.namedtuple("Ran", "status output errors")):
    """The status, and what came on standard output and standard error: bytes, or text."""

    def decoded(self):
        return Ran(self.status, os.fsdecode(self.output), os.fsdecode(self.errors))


def run(words, data=b"", seconds=LIMIT_SECONDS, before=None, **how):
    """Runs a command; `before` is called in the child. Its input and outputs are files, which don't make it wait."""
    with tempfile.TemporaryFile() as source, tempfile.TemporaryFile() as output, tempfile.TemporaryFile() as errors:
        source.write(data)
        source.seek(0)
        how = {"stdin": source, "stdout": output, "stderr": errors, **how}
        try:
            status = subprocess.run(words, timeout=seconds, preexec_fn=before, check=False, **how).returncode
        except (subprocess.TimeoutExpired, OSError) as error:
            status = type(error).__name__
        output.seek(0)
        errors.seek(0)
        return Ran(status, output.read(), errors.read())


def run_alike(words, folder=ROOT, **more):
    """Runs a command in the same environment on every machine, with `more` in it."""
    return run(words, cwd=folder, env={**ENVIRONMENT, **more})


def output_of(*words, **more):
    """The text that a command prints."""
    return run_alike(words, **more).decoded().output


def limit(kind, amount):
    """What a child calls to have a limit."""
    return lambda: resource.setrlimit(kind, (amount, amount))


def answer(words, data=b""):
    """The lines that a command prints, and its status. It runs often: its input and output are files in memory."""
    source, sink = os.memfd_create("source"), os.memfd_create("sink")
    try:
        os.write(source, data)
        os.lseek(source, 0, os.SEEK_SET)
        places = [(os.POSIX_SPAWN_DUP2, source, 0), (os.POSIX_SPAWN_DUP2, sink, 1), QUIET]
        status = ended(os.posix_spawn(words[0], words, os.environ, file_actions=places))
        return lines_of(os.pread(sink, os.fstat(sink).st_size, 0)), status
    finally:
        os.close(source)
        os.close(sink)


def ended(child):
    """The exit status of a child, or that of a signal if it is killed at the limit."""
    handle = os.pidfd_open(child)
    if not select.select([handle], [], [], LIMIT_SECONDS)[0]:
        os.kill(child, signal.SIGKILL)
    os.close(handle)
    return os.waitstatus_to_exitcode(os.waitpid(child, 0)[1])


def lines_of(output):
    """The lines of an output; a last one without a line end has a mark."""
    text = os.fsdecode(output)
    return (text if text.endswith("\n") or not text else text + "(no line end)\n").split("\n")[:-1]


# ---- files


def write(folder, name, data):
    """The path of a new file."""
    path = os.path.join(folder, name)
    with open(path, "wb") as file:
        file.write(data)
    return path


def contents(*names):
    """The bytes of a file; a relative path is one of the repository."""
    with open(os.path.join(ROOT, *names), "rb") as file:
        return file.read()


def read(*names):
    """The text of a file; a relative path is one of the repository."""
    return contents(*names).decode()


def unescaped(text):
    """The bytes of a text with Python's escapes."""
    return text.encode().decode("unicode_escape").encode("latin-1")


def sections(path, mark="== "):
    """The titles of a table's sections, each after a mark, with what is below."""
    found = re.split(rf"^{re.escape(mark)}", read(path), flags=re.M)[1:]
    return [section.partition("\n")[::2] for section in found]


def section(table, title):
    """What is below a title in a table of this folder, without comments."""
    return re.sub(r"^#.*\n", "", dict(sections(f"crosscheck/{table}"))[title], flags=re.M)


# ---- rows


def short(value):
    """What is printed of a value: its front and its end."""
    text = value if isinstance(value, str) else repr(value)
    return text if len(text) < 10_000 else f"{text[:5000]} .. {text[-5000:]}"


class Trial:
    """The program that is tried, the other arguments, a folder for what is made, and the numbers of rows."""

    def __init__(self, folder, program=None, *more):
        self.folder, self.program, self.more, self.rows, self.wrong = folder, program, more, 0, 0

    def place(self, name):
        return os.path.join(self.folder, name)

    def enter(self, files):
        """Makes the folder the current one, with these files."""
        os.chdir(self.folder)
        for name, text in files.items():
            write("", name, text.encode())

    def has(self, what, *tools):
        """Whether these tools are installed. If one isn't, then `what` is left out."""
        missing = [tool for tool in tools if not shutil.which(tool, path=ENVIRONMENT["PATH"])]
        for tool in missing:
            print(f"left out: {what}: {tool} isn't installed")
        return not missing

    def run(self, words, **how):
        """What the program gives, as text."""
        return run([self.program, *split(words)], **how).decoded()

    def answer(self, words, data=b""):
        return answer([self.program, *words], data)

    def same(self, name, given, wanted):
        self.rows += 1
        if given != wanted:
            self.wrong += 1
            print(f"WRONG: {short(name)}:\n  {short(given)}, wanted\n  {short(wanted)}", flush=True)


def start(usage, *tests, counts=(1,), files=1, make=Trial):
    """Runs the tests of a script, which get a trial, and may yield rows of a name, a value, and what is wanted.

    `counts` are the numbers of arguments that there may be. So many of them are files, of which the first is a program.
    """
    words = sys.argv[1:]
    if len(words) not in counts:
        print(usage, file=sys.stderr)
        sys.exit(2)
    for path in words[:files]:
        if not os.path.exists(path) or path == words[0] and not os.access(path, os.X_OK):
            print(f"{path} isn't there: rt ci leaves what it built where it has passed", file=sys.stderr)
            sys.exit(2)
    sys.stdout.reconfigure(errors="backslashreplace")
    with tempfile.TemporaryDirectory() as folder:
        trial = make(folder, *map(os.path.abspath, words[:files]), *words[files:])
        for test in tests:
            for row in test(trial) or ():
                trial.same(*row)
    print(f"{trial.rows} rows, {trial.wrong} wrong")
    sys.exit(1 if trial.wrong else 0)
