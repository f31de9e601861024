#!/bin/sh
# run.sh PROGRAM ARCHIVE: tries the program and the library for C as rt ci built them.
set -e
# the program: command lines, devices, refused memory and large inputs
python3 crosscheck/commands.py "$1"
python3 crosscheck/devices.py "$1"
python3 crosscheck/memory.py "$1" >build/memory.log || { cat build/memory.log >&2; exit 1; }
tail -n 1 build/memory.log
# the stored rows, and proofs that there is no solution, or no better one
python3 crosscheck/stored.py "$1"
python3 crosscheck/refutations.py "$1"
python3 crosscheck/better.py "$1"
# what the pages show, and the scripts that judge FAIL
python3 crosscheck/docs.py "$1"
python3 crosscheck/fails.py "$1"
# the library with its callers, and the packages
python3 tools/archive.py >build/archive.log || { cat build/archive.log >&2; exit 1; }
make -s linked ARCHIVE="$2" LIBRARY=build/lib
python3 crosscheck/library.py "$1" build/lib
python3 crosscheck/packages.py "$1" "$2"
