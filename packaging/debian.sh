#!/bin/sh
# Makes a package for Debian of what was built.
#
# usage: debian.sh, at the top of the source, with DIST, the folder for it, and what install.sh needs in the environment
. packaging/built.sh
package=$(sed -n 's/^Package: //p' packaging/control)
root=$scratch/root
doc=$root/usr/share/doc/$package
DESTDIR=$root PREFIX=/usr LIBDIR=lib/x86_64-linux-gnu packaging/install.sh install
install -d "$doc"
# where README links to them
mv "$root/usr/share/doc/cudf_check" "$doc/docs"
mv "$doc/docs/examples" "$doc"
# where Debian's zsh looks for what packages bring
mv "$root/usr/share/zsh/site-functions" "$root/usr/share/zsh/vendor-completions"
gzip -9n "$root/usr/share/man/man1/cudf_check.1"
gzip -9nc CHANGELOG.md > "$doc/changelog.gz"
install -m 644 packaging/copyright "$doc/copyright"
copy_sources "$doc" README.md
ln -s ../../cudf_check/embedding "$doc/embedding"

# the least version of the C library that has all that is called
libc=$(objdump -T "$PROGRAM" "$LIBRARY/libcudf_check.so.1" | sed -n 's/.*GLIBC_\([0-9.]*\).*/\1/p' | sort -Vu | tail -n 1)
size=$(find "$root" -type f -printf '%s\n' | awk '{ kibibytes += int(($1 + 1023) / 1024) } END { print kibibytes }')
install -d "$root/DEBIAN"
(cd "$root" && find usr -type f | LC_ALL=C sort | xargs md5sum > DEBIAN/md5sums)
sed "s/@version@/$VERSION/; s/@libc@/$libc/; s/@size@/$size/" packaging/control > "$root/DEBIAN/control"
echo "libcudf_check 1 $package (>= $VERSION)" > "$root/DEBIAN/shlibs"
echo activate-noawait ldconfig > "$root/DEBIAN/triggers"
chmod -R u=rwX,go=rX "$root"
find "$root" -exec touch -h -d "@$time" {} +
SOURCE_DATE_EPOCH=$time dpkg-deb --build --root-owner-group -Zxz "$root" "$DIST/${package}_${VERSION}_amd64.deb"
