#!/bin/sh
# Makes a Debian package of what `make` built, with dpkg-deb.
#
# Usage: MAINTAINER='NAME <ADDRESS>' make_deb.sh FOLDER PROCESSOR [CROSS]
#
# CROSS is what the names of the processor's tools begin with, if they are a cross compiler's.
set -eu
cd "$(dirname "$0")/.."
processor=$2
cross=${3-}
case $processor in
    x86_64) architecture=amd64 ;;
    aarch64) architecture=arm64 ;;
esac
release=$(cat VERSION)
version=$release-1
package=$(realpath "$1")/fmtcanon_${version}_$architecture.deb
# The time of every file in the package. The files of the tree have the time of their checkout.
SOURCE_DATE_EPOCH=${SOURCE_DATE_EPOCH:-1767225600}
export SOURCE_DATE_EPOCH

if [ -z "${MAINTAINER-}" ]; then
    echo "MAINTAINER is missing: who makes the package, as in make deb MAINTAINER='Name <address>'" >&2
    exit 1
fi
for tool in dpkg-deb:dpkg "${cross}strip:binutils${cross:+-${cross%-}}" readelf:binutils gzip:gzip make:make python3:python3; do
    command -v "${tool%:*}" > /dev/null || { echo "${tool%:*} is missing: the package ${tool#*:} has it" >&2; exit 1; }
done
umask 022
stage=$(mktemp -d)
trap 'rm -rf "$stage"' EXIT
chmod 755 "$stage"
libraries=/usr/lib/$processor-linux-gnu
program=$stage/usr/bin/fmtcanon
documents=$stage/usr/share/doc/fmtcanon
make -s install TARGET="$processor" DESTDIR="$stage" PREFIX=/usr LIBDIR="$libraries" PYTHON=/usr/bin/python3 \
    PYTHONDIR=/usr/lib/python3/dist-packages ZSHDIR=/usr/share/zsh/vendor-completions

contents='a C library and a Python module'
if [ -e "$program" ]; then
    contents='the program, a C library and a Python module'
    "${cross}strip" --strip-all --remove-section=.comment --remove-section=.note "$program"
else
    program=
fi
shared=$stage$libraries/libfmtcanon.so.$release
"${cross}strip" --strip-unneeded --remove-section=.comment --remove-section=.note "$shared"
"${cross}strip" --strip-debug --remove-section=.comment --enable-deterministic-archives "$stage$libraries/libfmtcanon.a"
gzip -9n "$stage"/usr/share/man/man*/*

# Debian has the license and the changes under names of its own.
{
    printf '%s\n' 'Format: https://www.debian.org/doc/packaging-manuals/copyright-format/1.0/' ''
    printf '%s\n' 'Files: *' "Copyright: $(sed -n 's/^Copyright (c) //p' LICENSE)" 'License: MIT'
    sed '1,/^Copyright/d; s/^$/./; s/^/ /' LICENSE | sed '1d'
} > "$documents/copyright"
rm "$documents/LICENSE" "$documents/folders"
mv "$documents/CHANGELOG.md" "$documents/changelog"
printf '%s\n' "fmtcanon ($version) unstable; urgency=low" '' '  * The file changelog lists the changes.' '' \
    " -- $MAINTAINER  $(LC_ALL=C date -R -u -d "@$SOURCE_DATE_EPOCH")" \
    > "$documents/changelog.Debian"
gzip -9n "$documents/changelog" "$documents/changelog.Debian"

# What lintian says of this package, and why it is meant so.
overrides=$stage/usr/share/lintian/overrides
mkdir -p "$overrides"
cat > "$overrides/fmtcanon" << 'OVERRIDES'
# The package is not intended for Debian, so no request for it is closed.
fmtcanon: initial-upload-closes-no-bugs
# Program, library and header have one version and come in one small package, so it has the link to build with.
fmtcanon: link-to-shared-library-in-wrong-package
# The package is named after the program. Programs that are linked with the library depend on it by its shlibs file.
fmtcanon: package-name-doesnt-match-sonames
OVERRIDES

mkdir "$stage/DEBIAN"
cat > "$stage/DEBIAN/control" << CONTROL
Package: fmtcanon
Version: $version
Architecture: $architecture
Maintainer: $MAINTAINER
Installed-Size: $(find "$stage/usr" -printf '%y %s\n' | awk '{ k += $1 == "f" ? int(($2 + 1023) / 1024) : 1 } END { print k }')
Depends: libc6 (>= $(python3 packaging/needed_glibc.py "$shared" ${program:+"$program"})), python3 (>= 3.8)
Recommends: python3-clang
Section: devel
Priority: optional
Description: canonical texts of printf formats
 It brings the format strings of the C function printf to one canonical
 spelling, and decides whether two are interchangeable: the same arguments,
 and the same bytes printed.
 The package contains $contents.
 fmtcanon-po checks message catalogs, fmtcanon-diff says what a change of C
 source does to its formats, fmtcanon-check whether they fit their calls on
 every platform, fmtcanon-explain what a format does, and fmtcanon-replace
 replaces formats. fmtcanon-lsp says in an editor what formats do.
CONTROL
echo "libfmtcanon ${release%%.*} fmtcanon (>= $release)" > "$stage/DEBIAN/shlibs"
# Python's compiled modules come and go with the package.
cat > "$stage/DEBIAN/postinst" << 'SCRIPT'
#!/bin/sh
set -e
if [ "$1" = configure ] && command -v py3compile > /dev/null; then py3compile -p fmtcanon; fi
SCRIPT
cat > "$stage/DEBIAN/prerm" << 'SCRIPT'
#!/bin/sh
set -e
if command -v py3clean > /dev/null; then py3clean -p fmtcanon; fi
SCRIPT
chmod 755 "$stage/DEBIAN/postinst" "$stage/DEBIAN/prerm"
echo 'activate-noawait ldconfig' > "$stage/DEBIAN/triggers"
(cd "$stage" && find usr -type f | LC_ALL=C sort | xargs md5sum) > "$stage/DEBIAN/md5sums"
find "$stage" -exec touch --no-dereference --date="@$SOURCE_DATE_EPOCH" {} +
dpkg-deb --build --root-owner-group "$stage" "$package" > /dev/null
echo "$package"
