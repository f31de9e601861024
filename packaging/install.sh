#!/bin/sh
# Puts what was built into its places, or takes it away from there.
#
# usage: install.sh install | uninstall, at the top of the source, with these in the environment:
#   DESTDIR, PREFIX   below these all places are; programs look for the files below PREFIX
#   LIBDIR            where libraries are, below PREFIX
#   PAGES             the pages for users, of docs/
#   PROGRAM, LIBRARY  the program and the folder of the library; what isn't there isn't installed
#   VERSION
set -eu
to=$DESTDIR$PREFIX
doc=share/doc/cudf_check
competition=share/cudf_check/competition
callers=share/cudf_check/embedding
case $1 in
    install) place() { install -D -m "$1" "$2" "$to/$3"; } ;;
    uninstall) place() { rm -f "$to/$3"; } ;;
    *) exit 4 ;;
esac

place_program() {
    place 755 "$PROGRAM" bin/cudf_check
    place 644 cudf_check.1 share/man/man1/cudf_check.1
    place 644 completions/cudf_check.bash share/bash-completion/completions/cudf_check
    place 644 completions/_cudf_check share/zsh/site-functions/_cudf_check
    place 644 completions/cudf_check.fish share/fish/vendor_completions.d/cudf_check.fish
    for script in examples/competition/*.sh; do
        place 644 "$script" "$competition/${script##*/}"
    done
}

place_library() {
    place 644 include/cudf_check.h include/cudf_check.h
    for name in libcudf_check.a libcudf_check.so.1 libcudf_check.so pkgconfig/cudf_check.pc; do
        place 644 "$LIBRARY/$name" "$LIBDIR/$name"
    done
    for name in expected.txt c/example.c cpp/cudf_check.hpp cpp/example.cpp ocaml/cudf_check.ml ocaml/cudf_check.mli \
        ocaml/cudf_check_stubs.c ocaml/dune ocaml/dune-project ocaml/example.ml python/cudf_check/__init__.py \
        python/cudf_check/py.typed python/example.py python/pyproject.toml; do
        place 644 "embedding/$name" "$callers/$name"
    done
}

place_pages() {
    for name in $PAGES; do
        place 644 "docs/$name.md" "$doc/$name.md"
    done
    # what the pages try; built.sh says why git is asked
    for name in $(git ls-files -- examples 2> /dev/null || find examples -type f); do
        place 644 "$name" "$doc/$name"
    done
}

if [ "$1" = uninstall ]; then
    place_program
    place_library
    rm -rf "${to:?}/$doc" "${to:?}/$competition" "${to:?}/$callers"
    rmdir "$to/${competition%/*}" 2> /dev/null || true
    exit
fi
if [ ! -x "$PROGRAM" ] && [ ! -f "$LIBRARY/libcudf_check.a" ]; then
    echo "neither $PROGRAM nor $LIBRARY is there: run make run or make library first" >&2
    exit 2
fi
if [ -x "$PROGRAM" ]; then
    place_program
fi
if [ -f "$LIBRARY/libcudf_check.a" ]; then
    place_library
    # what place copied of these two is right for the source alone
    ln -sf libcudf_check.so.1 "$to/$LIBDIR/libcudf_check.so"
    packaging/pkgconfig.sh "$PREFIX" "$LIBDIR" > "$to/$LIBDIR/pkgconfig/cudf_check.pc"
fi
place_pages
