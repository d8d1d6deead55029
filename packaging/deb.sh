#!/bin/sh
# Makes a package for Debian of what `make install` copies, and of the pages: deb.sh PROGRAM FOLDER
set -eu
program=$(realpath "$1")
mkdir -p "$2"
out=$(realpath "$2")
cd "$(dirname "$0")/.."
root=$(mktemp -d)
trap 'rm -rf "$root"' EXIT
chmod 755 "$root"
umask 022

version=$("$program" --version | sed -n 's/^flutejoin //p')
pages=$root/usr/share/doc/flutejoin
make --no-print-directory -s install PROGRAM="$program" DESTDIR="$root" PREFIX=/usr
# `make` has the program, which people debug; the package is what people run.
if command -v strip > /dev/null; then
    strip --strip-all --remove-section=.comment --remove-section=.note "$root/usr/bin/flutejoin"
fi
gzip -9n "$root"/usr/share/man/man1/*.1
install -d "$root/etc/flutejoin" "$root/usr/lib/sysctl.d" "$root/usr/lib/sysusers.d" \
    "$root/usr/share/lintian/overrides" "$root/DEBIAN" "$pages/docs/pictures" "$pages/tools"
install -m 644 packaging/example.toml "$root/etc/flutejoin/example.toml"
install -m 644 packaging/sysctl.conf "$root/usr/lib/sysctl.d/50-flutejoin.conf"
install -m 644 packaging/sysusers.conf "$root/usr/lib/sysusers.d/flutejoin.conf"
install -m 644 packaging/lintian "$root/usr/share/lintian/overrides/flutejoin"
install -m 644 README.md CHANGELOG.md "$pages"
install -m 644 docs/*.md "$pages/docs"
install -m 644 docs/pictures/*.svg "$pages/docs/pictures"
install -m 644 tools/README.md "$pages/tools"
echo /etc/flutejoin/example.toml > "$root/DEBIAN/conffiles"
install -m 755 packaging/postinst packaging/postrm packaging/prerm "$root/DEBIAN"
packaging/pack.sh "$root" flutejoin "$version" "$out" << END
Architecture: $(dpkg --print-architecture)
Section: net
Depends: libc6, python3 (>= 3.11)
Suggests: openssh-client, python3-flutejoin, rsync
Description: reception store for files sent by FLUTE (RFC 6726)
 FLUTE sends files by multicast to receivers that cannot reply. flutejoin keeps
 what each station received as a journal, joins journals in any order, lists
 what is missing, and writes a file once it is whole. Its tools receive
 datagrams, run stations by themselves, and draw what is missing.
END
