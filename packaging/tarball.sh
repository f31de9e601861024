#!/bin/sh
# Makes a tarball of what was built and of what users read.
#
# usage: tarball.sh, at the top of the source, with DIST, the folder for it, and what install.sh needs in the environment
#
# In it README.md, docs, examples and embedding, which is a link, lie as in the source, so that what the pages show works
# there; bin, include, lib and share are as they would be below a PREFIX.
. packaging/built.sh
name=cudf_check-$VERSION-x86_64-linux
top=$scratch/$name
DESTDIR=$scratch/ PREFIX=$name LIBDIR=lib packaging/install.sh install
mv "$top/share/doc/cudf_check" "$top/docs"
rmdir "$top/share/doc"
mv "$top/docs/examples" "$top"
# finds the library wherever this is unpacked
cp "$LIBRARY/pkgconfig/cudf_check.pc" "$top/lib/pkgconfig"
copy_sources "$top" README.md
ln -s share/cudf_check/embedding "$top/embedding"
tar -cf - -C "$scratch" --format=ustar --sort=name --mtime="@$time" --owner=0 --group=0 --numeric-owner \
    --mode=u=rwX,go=rX "$name" | gzip -9n > "$DIST/$name.tar.gz"
echo "the tarball is $DIST/$name.tar.gz"
