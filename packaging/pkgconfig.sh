#!/bin/sh
# Prints what pkg-config has to know of the library.
#
# usage: pkgconfig.sh PREFIX LIBDIR, with VERSION in the environment; LIBDIR is below PREFIX
set -eu
# a blank would end a flag
prefix=$(printf '%s' "$1" | sed 's/ /\\ /g')
cat << END
prefix=$prefix
libdir=\${prefix}/$2
includedir=\${prefix}/include

Name: cudf_check
Description: checks solutions of CUDF 2.0 problems
Version: $VERSION
Libs: -L\${libdir} -lcudf_check
Cflags: -I\${includedir}
END
