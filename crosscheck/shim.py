"""Runs a program under shim.c. For Linux and glibc; Python's standard library alone."""
import collections
import fcntl
import os
import struct
import subprocess

import common

SOURCE = os.path.join(common.HERE, "shim.c")
EVER = 10**9

# a line of the log, and the counts, as shim.c describes them
Call = collections.namedtuple("Call", "call name size answer")
Counts = collections.namedtuple("Counts", "growths blocks bytes peak reads given")


def rule(call, name, answer, first=1, last=EVER, step=1):
    """A line of SHIM_RULES."""
    return "\t".join(map(str, (call, name, first, last, step, answer)))


class Shim:
    """shim.c, built in a folder."""

    def __init__(self, folder):
        self.library = os.path.join(folder, "shim.so")
        subprocess.run(["gcc", "-O2", "-fno-builtin", "-shared", "-fPIC", "-o", self.library, SOURCE], check=True)
        # above all descriptors that a program opens
        self.log, self.counts = (fcntl.fcntl(os.memfd_create(name), fcntl.F_DUPFD, 90) for name in ("log", "counts"))

    def run(self, words, *rules, **how):
        """What the run gave, the calls in its log, and its counts."""
        os.ftruncate(self.log, 0)
        os.lseek(self.log, 0, os.SEEK_SET)
        os.pwrite(self.counts, bytes(struct.calcsize("6l")), 0)
        files = {"LD_PRELOAD": self.library, "SHIM_LOG": str(self.log), "SHIM_COUNTS": str(self.counts)}
        environment = {**os.environ, **files, "SHIM_RULES": "\n".join(rules)}
        ran = common.run(words, env=environment, pass_fds=(self.log, self.counts), **how)
        lines = [line.split("\t") for line in os.pread(self.log, os.fstat(self.log).st_size, 0).decode().splitlines()]
        calls = [Call(call, name, int(size), int(answer)) for call, name, size, answer in lines]
        return ran, calls, Counts(*struct.unpack("6l", os.pread(self.counts, struct.calcsize("6l"), 0)))


class Trial(common.Trial):
    """Runs the program, plainly and, where gcc is there, under shim.c."""

    def __init__(self, *words):
        super().__init__(*words)
        self.shim = Shim(self.folder) if self.has("what needs shim.c", "gcc") else None
