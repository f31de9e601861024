#!/bin/sh
# Links the library for C from the archive that rt lib built.
#
# usage: library.sh ARCHIVE, at the top of the source, with LIBRARY, the folder that is made, and VERSION in the environment
#
# The toolchain's own C part is taken into it, so that nothing but the C library is needed beside it. Only the names of
# `exports` stay global: others would meet those of a program that is linked with it.
set -eu
archive=$1
compiler=$(command -v rt) || {
    echo "rt is not on the PATH: the C part of the library lies beside it" >&2
    exit 2
}
part=$(dirname "$(realpath "$compiler")")/../c/liblibc_c.a
for file in "$archive" "$part"; do
    test -f "$file" || {
        echo "$file is not there: the library for C is linked from it" >&2
        exit 2
    }
done
scratch=$(mktemp -d)
trap 'rm -rf "$scratch"' EXIT
grep '^[^#]' packaging/exports > "$scratch/exports"
{ echo '{ global:'; sed 's/$/;/' "$scratch/exports"; echo 'local: *; };'; } > "$scratch/exports.map"
ld -r -o "$scratch/whole.o" --whole-archive "$archive" --no-whole-archive "$part"
objcopy --strip-debug --keep-global-symbols="$scratch/exports" "$scratch/whole.o" "$scratch/cudf_check.o"
mkdir -p "$LIBRARY/pkgconfig"
rm -f "$LIBRARY/libcudf_check.a"
ar rcD "$LIBRARY/libcudf_check.a" "$scratch/cudf_check.o"
${CC:-cc} -shared -o "$LIBRARY/libcudf_check.so.1" "$scratch/cudf_check.o" -Wl,-soname,libcudf_check.so.1 \
    -Wl,--version-script="$scratch/exports.map" -Wl,-z,defs -Wl,-z,relro -Wl,-z,now -Wl,-z,noexecstack -Wl,--strip-all
ln -sf libcudf_check.so.1 "$LIBRARY/libcudf_check.so"
# right where the folder include lies beside this one, as in the source
packaging/pkgconfig.sh "\${pcfiledir}/../.." lib > "$LIBRARY/pkgconfig/cudf_check.pc"
echo "the library is in $LIBRARY"
