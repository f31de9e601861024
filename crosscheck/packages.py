#!/usr/bin/env python3
"""Tries the library as it is linked, the completions, and what is installed and packed.

usage: packages.py PROGRAM ARCHIVE

PROGRAM and ARCHIVE are what rt built of crates/cudf_program and crates/cudf_c. Nothing is proved or built again.

- The version is the same in all places. completions.py: the completions offer what the program knows.
- packages.txt: the library exports only the functions of its header and needs only the C library. The tarball, Debian's
  package and `make install` bring the wanted files, which work in a root with only the C library, and are gone after
  removal. The callers work as they are installed.
- Both packages have the same bytes if they are made in another folder, with other modes, time zone and language.
  Owners, times and modes are right, and no path of this machine is in them.

What needs a tool that isn't installed is left out.
"""
import gzip
import io
import os
import re
import subprocess
import sys
import tarfile

import common
from common import ROOT, contents, output_of, read, section, write
from common import run_alike as run
from completions import Terminal, completions

VERSION = re.search(r'#define CUDF_CHECK_VERSION "(.*)"', read("include/cudf_check.h"))[1]
# the packages, what they have as it is in the source, a link to the callers, and what else they are made of
TARBALL, DEBIAN = f"cudf_check-{VERSION}-x86_64-linux", "cudf-check-proved"
PACKED, LINK = ("README.md", "examples"), "embedding"
MADE_OF = ("embedding", "CHANGELOG.md", "Makefile", "completions", "cudf_check.1", "docs", "include", "packaging")
# where Debian has what is elsewhere below another prefix
MOVED = {
    "lib/": "lib/x86_64-linux-gnu/", "share/man/man1/cudf_check.1": "share/man/man1/cudf_check.1.gz",
    "share/zsh/site-functions": "share/zsh/vendor-completions", "share/doc/cudf_check/examples": f"share/doc/{DEBIAN}/examples",
    "share/doc/cudf_check": f"share/doc/{DEBIAN}/docs",
}
# a path that no file of the system's own has
OF_A_BUILD = re.compile(rb"/(?:home|root|work|tmp|build|opt|mnt|srv)/[\w.-]+")


def commands(trial, title, **variables):
    """Rows of the commands in a section of packages.txt, each with its status and what it prints on both outputs."""
    variables = {
        "PROGRAM": trial.program, "ARCHIVE": trial.more[0], "LIBRARY": trial.place("lib"), "DIST": trial.place("dist"),
        "WORK": trial.folder, "version": VERSION, "BASE": "", "CHROOT": "", **variables,
    }
    if os.geteuid():
        variables["BASE"] = variables.get("TREE", "")
    else:
        variables["CHROOT"] = f"/usr/sbin/chroot {variables.get('TREE')}"
    for block in section("packages.txt", title).split("\n\n"):
        needed = re.match("needs (.*)", block)
        if needed and not trial.has(title, *(variables.get(tool, tool) for tool in needed[1].split())):
            continue
        for command, wanted in re.findall(r"^\$ (.*)\n?((?:(?!\$ ).+\n?)*)", block, re.M):
            status, output, errors = run(["sh", "-c", command], **variables)
            wanted = wanted.rstrip("\n").replace("$version", VERSION)
            yield f"{title}: {command}", (status, (output + errors).decode(errors="replace").rstrip("\n")), (0, wanted)


def sources(*places):
    """The files below these places that git knows, or all if it knows none."""
    listed = output_of("git", "ls-files", "-z", *places) or output_of("find", *places, "!", "-type", "d", "-print0")
    return set(listed.split("\0")[:-1])


def files(trial):
    """What the program and the library bring below a prefix, and what Debian's package has."""
    program, library, pages = (
        set(section("packages.txt", f"files of the {what}").split()) for what in ("program", "library", "pages")
    )
    scripts = [os.path.basename(name) for name in sources("examples/competition") if name.endswith(".sh")]
    pages |= {f"share/doc/cudf_check/{name}" for name in sources("examples")}
    program |= pages | {f"share/cudf_check/competition/{name}" for name in scripts}
    library |= pages | {f"share/cudf_check/{name}" for name in sources("embedding")}
    debian = {f"usr/share/doc/{DEBIAN}/{name}" for name in sources(*PACKED) | {LINK, "copyright", "changelog.gz"}}
    for name in program | library:
        old = next((it for it in MOVED if name.startswith(it)), "")
        debian.add("usr/" + MOVED.get(old, "") + name.removeprefix(old))
    both = program | library
    # for the commands of packages.txt
    for title, names in (("program", program), ("library", library), ("both", both), ("deb", debian)):
        write(trial.folder, f"{title}.files", "".join(f"{name}\n" for name in sorted(names)).encode())
    return both, debian


def versions(trial):
    """The version of the header in all places: each number of three parts, or what the pattern of a place finds."""
    for place in section("packages.txt", "versions").strip().splitlines():
        name, _, pattern = place.partition(" ")
        found = re.findall(pattern or r"\b\d+\.\d+\.\d+\b", read(name))
        yield f"version in {name}", set(found), {VERSION}
    yield "version of the program", output_of(trial.program, "--version"), f"cudf_check {VERSION}\n"


def packages(trial):
    """The library, and both packages of it, made here and at another place under other circumstances."""
    yield from commands(trial, "the library as it is linked")
    known = output_of("git", "log", "-1", "--format=%ct").strip()
    # where git knows no time, one that isn't over
    time = known or "2000000000"
    os.mkdir(trial.place("a copy"))
    run(["cp", "-dp", "--parents", *sources(*PACKED, *MADE_OF), trial.place("a copy")])
    yield from commands(trial, "packages made here", **({} if known else {"SOURCE_DATE_EPOCH": time}))
    there = {"SOURCE_DATE_EPOCH": time, "TZ": "Asia/Tokyo", "LC_ALL": "C.UTF-8", "HOME": "/"}
    there.update(DIST=trial.place("another dist"), LIBRARY=trial.place("another lib"))
    yield from commands(trial, "packages made elsewhere", **there)
    both, debian = files(trial)
    yield from tarball(trial, trial.place(f"dist/{TARBALL}.tar.gz"), int(time), both)
    if trial.has("Debian's package", "dpkg", "dpkg-deb"):
        yield from package(trial, trial.place(f"dist/{DEBIAN}_{VERSION}_amd64.deb"), int(time), debian)


def entries(trial, name, tar, time):
    """Rows of owners, times and modes, and of paths of this machine; returns the names of the files.

    Bytes 3 to 7 of what gzip packed say whether it has a name, and its time.
    """
    ours = [place.encode() for place in (ROOT, trial.folder, *map(os.path.dirname, (trial.program, *trial.more)))]
    names, odd, machine = set(), [], []
    for entry in tar:
        if (entry.uid, entry.gid, entry.mtime) != (0, 0, time) or not (entry.issym() or entry.mode in (0o755, 0o644)):
            odd.append((entry.name, entry.uid, entry.gid, entry.mtime, oct(entry.mode)))
        if not entry.isdir():
            names.add(entry.name.removeprefix("./"))
        data = tar.extractfile(entry).read() if entry.isfile() else b""
        if entry.name.endswith(".gz"):
            odd += [entry.name] * (data[3:8] != bytes(5))
            data = gzip.decompress(data)
        found = [place for place in ours if re.search(rb"(?<![\w.])" + re.escape(place), data)]
        found += OF_A_BUILD.findall(data) if b"\0" in data else []
        machine += [(entry.name, place) for place in found]
    yield f"{name}: owners, times and modes", odd, []
    yield f"{name}: paths of this machine", machine, []
    return names


def tarball(trial, path, time, wanted):
    """What is in the tarball; and it works where it is unpacked."""
    with tarfile.open(path) as tar:
        names = yield from entries(trial, "the tarball", tar, time)
        ordered = [name.split("/") for name in tar.getnames()]
    yield "the tarball's order, name and time", (ordered, contents(path)[3:8]), (sorted(ordered), bytes(5))
    wanted = {name.replace("share/doc/cudf_check/examples", "examples").replace("share/doc/cudf_check", "docs") for name in wanted} | sources(*PACKED) | {LINK}
    yield "the tarball's files", names, {f"{TARBALL}/{name}" for name in wanted}
    tree = {"TREE": trial.place("root"), "BIN": f"{TARBALL}/bin/cudf_check", "DOC": TARBALL}
    tree.update(SO=f"{TARBALL}/lib/libcudf_check.so.1", PKG_CONFIG_PATH=trial.place(f"root/{TARBALL}/lib/pkgconfig"))
    for title in ("the tarball unpacked", "a root with only the C library", "a caller in C"):
        yield from commands(trial, title, **tree)


def package(trial, path, time, wanted):
    """What is in Debian's package; and that it comes, works and goes, with its completion."""
    with tarfile.open(fileobj=io.BytesIO(subprocess.check_output(["dpkg-deb", "--fsys-tarfile", path]))) as tar:
        names = yield from entries(trial, "the package", tar, time)
    yield "the package's files", names, wanted
    root = trial.place("debian")
    dpkg = f"--root={root} --log={root}.log --path-include=* --force-not-root --force-depends"
    yield from commands(trial, "Debian's package", DEB=path, DPKG=dpkg, TREE=root)
    tree = {"TREE": f"{root}.beside", "BIN": "usr/bin/cudf_check", "DOC": f"usr/share/doc/{DEBIAN}"}
    tree["SO"] = "usr/lib/x86_64-linux-gnu/libcudf_check.so.1"
    yield from commands(trial, "a root with only the C library", **tree)
    if trial.has("the completion of Debian's package", "bash"):
        shell = Terminal("bash", f"{root}/usr/share/bash-completion/completions/cudf_check", trial.place("typed"))
        yield "its completion", shell.given("sc\t an\t --cri\t+ne\t"), ["score", "answer.cudf", "--criteria=+new"]
        shell.end()
    yield from commands(trial, "Debian's package removed", DPKG=dpkg, TREE=root)


def installs(trial):
    """make install and make uninstall, below names with blanks; and where there is nothing to install."""
    files(trial)
    below = {"DESTDIR": trial.place("a b"), "PREFIX": "/x y", "TREE": trial.place("a b/x y")}
    yield from commands(trial, "make install and make uninstall", **below)
    needed = ["-c", "import setuptools, wheel, pip"]
    pythons = [it for it in (sys.executable, "/usr/bin/python3") if run([it, *needed])[0] == 0]
    below["PYTHON"] = (pythons or ["a python3 with pip, setuptools and wheel"])[0]
    top = trial.place("c d/x y")
    below.update(DESTDIR=trial.place("c d"), TREE=top, CPATH=f"{top}/include")
    below.update(LIBRARY_PATH=f"{top}/lib", LD_LIBRARY_PATH=f"{top}/lib")
    yield from commands(trial, "what is installed, with another mask of modes", **below)
    yield from commands(trial, "files of others stay", **below)
    never = {"DESTDIR": trial.place("never"), "PROGRAM": "/nowhere/p", "LIBRARY": "/nowhere/l"}
    yield from commands(trial, "where nothing was built", **never)


if __name__ == "__main__":
    common.start(__doc__, versions, completions, packages, installs, counts=[2], files=2)
