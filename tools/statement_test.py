#!/usr/bin/env python3
"""Runs statement.py on a copy of the sources, each time with a fault of statement_test.txt that it has to find."""
import re
import subprocess
import sys
import tempfile
from pathlib import Path

ROOT = Path(__file__).resolve().parent.parent
COPIED = ("crates/*/src/**/*.rt", "crates/*/specs/**/*.antt", "crates/*/proofs/**/Proof.antt", "crates.txt",
          "docs/PROOFS.md", "tools/statement.py")
BY_HAND = (ROOT / "crates/cudf_index/proofs/steps/mark/GhostNumber/new/Proof.antt").read_text()
LIB = (ROOT / "crates/cudf_check/src/lib.rt").read_text()
# `run` without its name, up to what comes after it
ENTRY = LIB.partition("pub fn run<")[2].partition("/// What a source gave,")[0]


def rows():
    """The status, a part of what is printed, and the changes."""
    text = re.sub(r"^#.*\n", "", (ROOT / "tools/statement_test.txt").read_text(), flags=re.M)
    for status, message, changes in re.findall(r"^(\d) (.*)\n((?:  .*\n)*)", text, re.M):
        yield int(status), message, list(map(change_of, changes.splitlines()))


def change_of(line):
    """A file, a text that it has once, and another; or "" and the text of a file that is made, None if it is removed."""
    file, *texts = line[2:].split(" | ")
    if not texts:
        return file[:-2], "", BY_HAND if file[-1] == "+" else None
    old, new = (text.encode().decode("unicode_escape") for text in texts)
    return file, old, new.replace("@OLD@", old).replace("@ENTRY@", ENTRY)


def write(path, text):
    if text is None:
        path.unlink()
    else:
        path.parent.mkdir(parents=True, exist_ok=True)
        path.write_text(text)


def ran(root, changes):
    """One run of the script on the copy with these changes, which are undone."""
    before = {}
    for file, old, new in changes:
        path = root / file
        text = path.read_text() if path.is_file() else None
        before.setdefault(path, text)
        if old and text.count(old) != 1:
            sys.exit(f"{file} has {text.count(old)} times {old!r}")
        write(path, text.replace(old, new) if old else new)
    script = [sys.executable, root / "tools/statement.py"]
    done = subprocess.run(script, capture_output=True, text=True, timeout=60, check=False)
    for path, text in before.items():
        write(path, text)
    return done


def main():
    given, wrong = list(rows()), 0
    with tempfile.TemporaryDirectory() as folder:
        for source in (path for pattern in COPIED for path in ROOT.glob(pattern)):
            write(Path(folder) / source.relative_to(ROOT), source.read_text())
        for status, message, changes in given:
            done = ran(Path(folder), changes)
            where = done.stderr if status or done.stderr else done.stdout
            if done.returncode != status or message not in where:
                wrong += 1
                print(f"WRONG: {changes}: {done.returncode}, wanted {status} {message}\n{done.stderr}", flush=True)
    print(f"{len(given)} rows, {wrong} wrong")
    return 1 if wrong else 0


if __name__ == "__main__":
    sys.exit(main())
