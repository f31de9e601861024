# shellcheck shell=sh disable=SC2034
# What tarball.sh and debian.sh begin with; they read it in.
set -eu
umask 022
for file in "$PROGRAM" "$LIBRARY/libcudf_check.so.1"; do
    test -f "$file" || {
        echo "$file is not there: run make run and make library first" >&2
        exit 2
    }
done
# the time that all files get
time=${SOURCE_DATE_EPOCH:-$(git log -1 --format=%ct)} || {
    echo "git doesn't know of which commit this is: set SOURCE_DATE_EPOCH" >&2
    exit 2
}
scratch=$(mktemp -d)
trap 'rm -rf "$scratch"' EXIT
strip -o "$scratch/cudf_check" "$PROGRAM"
PROGRAM=$scratch/cudf_check
mkdir -p "$DIST"

# Copies what these files and folders have in the source, and nothing that was built there.
copy_sources() {
    to=$1
    shift
    { git ls-files -- "$@" 2> /dev/null || find "$@" -type f; } | tar -cf - -T - | tar -xf - -C "$to"
}
