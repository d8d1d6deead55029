#!/bin/sh
# Makes two packages for Debian: libflutejoin0 of the library, as library/build.sh leaves it, and
# python3-flutejoin of the package for Python over it: deb_library.sh LIBRARY FOLDER
set -eu
library=$(realpath "$1")/libflutejoin.so.0
mkdir -p "$2"
out=$(realpath "$2")
cd "$(dirname "$0")/.."
work=$(mktemp -d)
trap 'rm -rf "$work"' EXIT
umask 022

version=$(sed -n 's/^version = "\(.*\)"$/\1/p' python/pyproject.toml)
root=$work/libflutejoin0
place=$root/usr/lib/$("${CC:-cc}" -print-multiarch)
install -d "$root/DEBIAN" "$place"
install -m 644 "$library" "$place"
strip --strip-unneeded --remove-section=.comment --remove-section=.note "$place/libflutejoin.so.0"
echo "libflutejoin 0 libflutejoin0 (>= $version)" > "$root/DEBIAN/shlibs"
echo "activate-noawait ldconfig" > "$root/DEBIAN/triggers"
packaging/pack.sh "$root" libflutejoin0 "$version" "$out" << END
Source: flutejoin
Architecture: $(dpkg --print-architecture)
Multi-Arch: same
Section: libs
Depends: libc6
Description: reception store for files sent by FLUTE (RFC 6726), library
 FLUTE sends files by multicast to receivers that cannot reply. This library
 reads packets, joins what stations received as journals, lists what is
 missing, and gives the bytes of a file once it is whole, all in memory.
END

root=$work/python3-flutejoin
place=$root/usr/lib/python3/dist-packages/flutejoin
install -d "$root/DEBIAN" "$place"
install -m 644 python/flutejoin/*.py python/flutejoin/py.typed "$place"
for script in postinst prerm; do
    install -m 755 "packaging/python3-flutejoin.$script" "$root/DEBIAN/$script"
done
packaging/pack.sh "$root" python3-flutejoin "$version" "$out" << END
Source: flutejoin
Architecture: all
Section: python
Depends: libflutejoin0 (>= $version), python3 (>= 3.9)
Description: reception store for files sent by FLUTE (RFC 6726), for Python
 FLUTE sends files by multicast to receivers that cannot reply. The package
 flutejoin for Python 3 calls libflutejoin: it reads packets, joins what
 stations received as journals, lists what is missing, and gives the bytes of a
 file once it is whole.
END
