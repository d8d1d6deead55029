#!/bin/sh
# Makes a package for Debian of the files of a folder: pack.sh ROOT PACKAGE VERSION FOLDER
#
# Its other fields are read from standard input. Two builds of the same files are equal byte for
# byte: no time is in it but that of the changelog.
set -eu
root=$1 package=$2 version=$3 folder=$4
pages=$root/usr/share/doc/$package
SOURCE_DATE_EPOCH=$(date -d "$(sed -n 's/^ -- .*>  //p' packaging/changelog | head -n 1)" +%s)
export SOURCE_DATE_EPOCH
install -d "$root/DEBIAN" "$pages"
install -m 644 packaging/copyright "$pages"
sed "1s/(.*)/($version)/" packaging/changelog | gzip -9n > "$pages/changelog.gz"
(cd "$root" && find * -path DEBIAN -prune -o -type f -print0 | LC_ALL=C sort -z | xargs -0 md5sum) \
    > "$root/DEBIAN/md5sums"
# In KiB, each file rounded up, as Debian counts it
size=$(find "$root" -path "$root/DEBIAN" -prune -o -type f -printf '%s\n' |
    awk '{ n += int(($1 + 1023) / 1024) } END { print n }')
{
    cat << END
Package: $package
Version: $version
Maintainer: flutejoin maintainers <maintainers@flutejoin.example>
Priority: optional
Installed-Size: $size
END
    cat
} > "$root/DEBIAN/control"
find "$root" -exec touch -h -d "@$SOURCE_DATE_EPOCH" {} +
dpkg-deb --build --root-owner-group "$root" "$folder"
