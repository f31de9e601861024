#!/usr/bin/env python3
"""Builds the archive of the library for C after rt ci, from the libraries that rt ci proved.

    archive.py

The archive is crates/cudf_c/out/libcudf_c.a. `rt lib` proves the libraries below first; this script takes those that rt ci
left in out/rlib, and so only proves cudf_c again. It uses `crates_below`, `lock` and `Crate.build_static` of the command rt.
The exit status is the build's.
"""
import sys

from toolchain import ROOT, rt


def main():
    crate = next(it for it in rt.rtlib.crates_below(ROOT) if it.name == "cudf_c")
    crate.held = rt.rtlib.lock([*crate.below(), crate])
    sys.exit(crate.build_static(["--jobs", "4"]))


if __name__ == "__main__":
    main()
