"""Tests of the completions for bash, zsh and fish, which packages.py runs: by their texts, and as the shells complete.

They offer the commands, options and counts that the program knows, and nothing else.
"""
import contextlib
import os
import pty
import re
import select
import shlex

from common import ENVIRONMENT, ROOT, output_of, read, write
from common import run_alike as run

WAIT_SECONDS = 10
# the completions, with how a shell is started in a terminal and reads them
SHELLS = {
    "bash": ("completions/cudf_check.bash", "bash --norc --noprofile -i", ". {file}; bind 'set bell-style none'"),
    "zsh": (
        "completions/_cudf_check", "zsh -f -i",
        "fpath=({folder} $fpath); autoload -Uz compinit; compinit -D -u; bindkey -e; "
        "unsetopt beep prompt_cr prompt_sp; unset zle_bracketed_paste; "
        "zstyle ':completion:all-matches::::' completer _all_matches _complete; "
        "zstyle ':completion:all-matches:*' insert true; zle -C all-matches complete-word _generic; "
        "bindkey '\\e*' all-matches",
    ),
    "fish": ("completions/cudf_check.fish",),
}
# keys that are typed after cudf_check, and the words that it then gets
TYPED = {
    "che\tan\t--st\t": ["check", "answer.cudf", "--strict"], "lint a\\ \t": ["lint", "a b.cudf"],
    "score --cri\t-rem\t,+to\t an\t": ["score", "--criteria=-removed,+touched", "answer.cudf"],
    "check --limit 3 an\tan\t": ["check", "--limit", "3", "answer.cudf", "answer.cudf"],
    "cnf an\t--be\tan\t": ["cnf", "answer.cudf", "--better-than=answer.cudf"],
}
OPTION = re.compile(r"(?<![\w-])(?:-\w|--\w[\w-]*)\b")


def known_to(program):
    """The program's commands, the options of each and of none, and its counts, by its help and its error for a list."""
    text = output_of(program, "--help")
    commands = re.findall(r"^  (\w+) ", re.search(r"^Commands:\n((?:  .*\n)+)", text, re.M)[1], re.M)
    options = {"help": set()}
    for command in ["", *commands]:
        if command != "help":
            text = output_of(program, *command.split(), "--help")
            lines = re.search(r"^Options:\n((?: .*\n|\n)+)", text, re.M)[1]
            named = re.findall(r"^ +((?:-\w, )?--[\w-]+)", lines, re.M)
            options[command] = {word for words in named for word in words.split(", ")}
    listed = re.search(r" of (\w+(?:, \w+)* and \w+)", run([program, "score", "-", "--criteria=?"])[2].decode())[1]
    return commands, options, listed.replace(" and ", ", ").split(", ")


def named_in_zsh(text):
    """The commands, and the options of each, by the text of its arm and of the lists that the arm names."""
    lists = dict(re.findall(r"local -a (common|judging|explaining|naming)=\((.*)\)$", text, re.M))
    lists["judging"] = lists["judging"].replace("$common", lists["common"])
    text = re.sub(r"\$(common|judging|explaining|naming)", lambda found: lists[found[1]], text)
    text = re.sub(r"_arguments( -\w)*", "", text)
    arms = {"": re.search(r"^     (.*'1:command:.*)", text, re.M)[1]}
    arms.update(re.findall(r"^        (\w+)\)((?:.*\n)*?.*;;)$", text, re.M))
    return re.findall(r"^        '(\w+):", text, re.M), {name: set(OPTION.findall(arm)) for name, arm in arms.items()}


def named_in_fish(text):
    """The commands, and the options of each, by the conditions of the lines."""
    commands = re.findall(r"-n __fish_use_subcommand -f -a (\w+)", text)
    options = {name: set() for name in ["", *commands]}
    for condition, short, name in re.findall(r"-n ('.*?'|\w+)(?: -[fx])*( -s \w)? (?:-[fx] )?-l ([\w-]+)", text):
        seen = set(re.findall(r"\w+", condition.partition("from")[2])) or {""}
        for command in set(options) - seen if condition.startswith("'not") else seen:
            options[command] |= {f"--{name}", *short.replace(" -s ", "-").split()}
    return commands, options


class Terminal:
    """A shell in a terminal, where `cudf_check` keeps its words. The shell is ready when its prompt ends its output."""

    READY = b"<ready>"
    KEPT = "cudf_check() { printf '%s\\0' \"$@\" > kept; mv kept words; }; PS1='<rea''dy>'\n"

    def __init__(self, shell, file, folder):
        _, words, begin = SHELLS[shell]
        self.words = os.path.join(folder, "words")
        environment = {"PATH": ENVIRONMENT["PATH"], "TERM": "dumb", "HOME": folder, "INPUTRC": "/dev/null", "PS1": ""}
        self.child, self.screen = pty.fork()
        if self.child == 0:
            os.chdir(folder)
            os.execvpe(words.split()[0], words.split(), environment)
        self.typed(begin.format(file=shlex.quote(file), folder=shlex.quote(os.path.dirname(file))) + "; " + self.KEPT)

    def typed(self, keys, made=""):
        """Types keys, and waits until the shell is ready again and has made a file; returns what it printed."""
        printed = b""
        with contextlib.suppress(OSError):
            os.write(self.screen, keys.encode())
            while not (printed.endswith(self.READY) and (not made or os.path.exists(made))):
                if not select.select([self.screen], [], [], WAIT_SECONDS)[0]:
                    break
                printed += os.read(self.screen, 4096)
        return printed.decode(errors="replace")

    def given(self, keys):
        """The words that the command gets if these keys are typed after its name."""
        printed = self.typed(f"cudf_check {keys}\n", self.words)
        if not os.path.exists(self.words):
            return ["no words", printed]
        given = read(self.words).split("\0")[:-1]
        os.remove(self.words)
        return given

    def offered(self, line):
        """What is offered for the last word of a line: by ESC * the shell inserts all of it."""
        *before, last = line.split(" ")
        offered = self.given(line + "\x1b*")[len(before):]
        return [] if offered == [last] else offered

    def end(self):
        os.close(self.screen)
        os.waitpid(self.child, 0)


def offers(commands, options, counts):
    """Lines, and what is offered for their last words: of an option its name, and of a list its last aim."""
    aims = {sign + count for sign in "-+" for count in counts}
    return {
        "": set(commands), "help ": set(commands), "help lint ": set(), "s": {"score"},
        **{f"{command} -".lstrip(): of_command for command, of_command in options.items()},
        "check P --limit 3 --a": {"--after"}, "check --after ": set(), "check P S --limit ": set(),
        "check --after=": set(), "rank -- --": set(),
        "lint --strict -": options["lint"] - {"--strict"}, "lint --criteria=": set(),
        "score P --criteria=": aims, "rank --criteria=-": {aim for aim in aims if aim[0] == "-"},
        "rank --criteria=-removed,+new,": aims - {"-removed", "+removed", "-new", "+new"},
        "cnf P --criteria=+": {aim for aim in aims if aim[0] == "+"}, "refute P F --b": {"--better-than"},
        "score --criteria=-new,+n": {"+notuptodate"}, "score --criteria=-size,-to": {"-touched"},
    }


def completed(shell, folder, known):
    """What a shell offers; and what it makes of keys, if it has a terminal. fish says what it offers without one."""
    file = os.path.join(ROOT, SHELLS[shell][0])
    terminal = None if shell == "fish" else Terminal(shell, file, folder)
    for line, wanted in offers(*known).items():
        if terminal:
            offered = terminal.offered(line)
        elif line in ("lint --strict -", "lint --criteria="):
            # fish offers an option twice, and files after any other word with a =
            continue
        else:
            command = f"source {file}; complete -C 'cudf_check {line}'"
            lines = output_of("fish", "--no-config", "-c", command, folder=folder).splitlines()
            offered = [offer.split("\t")[0] for offer in lines]
        offered = {re.split("[=,]", word.removesuffix("="))[-1] for word in offered}
        yield f"{shell}, offered for {line!r}", offered, wanted
    if terminal:
        for keys, wanted in TYPED.items():
            yield f"{shell}, typed {keys!r}", terminal.given(keys), wanted
        terminal.end()


def completions(trial):
    """The texts for zsh and fish, and what the shells that are installed offer and insert."""
    known = known_to(trial.program)
    yield "number of counts", len(known[2]), 6
    for shell, named_in in (("zsh", named_in_zsh), ("fish", named_in_fish)):
        text = read(SHELLS[shell][0])
        commands, options = named_in(text)
        yield f"commands of {shell}", commands, known[0]
        yield f"options of {shell}", options, known[1]
        yield f"counts of {shell}", re.search(r"\bremoved [\w ]+", text)[0].split(), known[2]
    folder = trial.place("typed")
    os.mkdir(folder)
    for name in ("answer.cudf", "a b.cudf"):
        write(folder, name, b"")
    for shell in SHELLS:
        if trial.has("completion", shell):
            yield from completed(shell, folder, known)
