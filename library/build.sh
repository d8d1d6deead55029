#!/bin/sh
# Proves what changed, and builds the library for C: build.sh FOLDER gets libflutejoin.a,
# libflutejoin.so and flutejoin.pc. The output of the tools goes to FOLDER/build.log.
#
# STATIC=FILE is the proved static library: if it is there, nothing is proved. CC is the compiler,
# and CFLAGS are more options of it.
set -eu
mkdir -p "$1"
out=$(cd "$1" && pwd)
cd "$(dirname "$0")/.."
if ! command -v rt > /dev/null; then
    echo "flutejoin: the command 'rt' of the Rattle kit is not on the PATH," \
        "and the library cannot be built without it" >&2
    exit 1
fi
crate=crates/flutejoin_c
proved=$crate/out/libflutejoin_c.a
if [ -f "${STATIC:-}" ]; then
    proved=$STATIC
else
    echo "flutejoin: proving and building the library (log: $out/build.log)" >&2
    if ! (cd "$crate" && rt lib) > "$out/build.log" 2>&1; then
        tail -n 20 "$out/build.log" >&2
        exit 1
    fi
fi
# What takes and frees memory for it
memory=$(dirname "$(rt doc)")/c/liblibc_c.a
compiler=${CC:-cc}
work=$(mktemp -d)
trap 'rm -rf "$work"' EXIT
# shellcheck disable=SC2086 # they are several words
"$compiler" -std=c99 -Wall -Wextra -pedantic -Werror -O2 -fPIC ${CFLAGS:-} -Iinclude \
    -c library/flutejoin.c -o "$work/calls.o"

# One object, of which others see what flutejoin.h declares alone
"$compiler" -r -nostdlib -o "$work/flutejoin.o" "$work/calls.o" \
    -Wl,--whole-archive "$proved" "$memory" -Wl,--no-whole-archive
sed -n 's/^uint32_t \(flutejoin_[a-z]*\)(.*/\1/p' include/flutejoin.h > "$work/names"
objcopy --keep-global-symbols="$work/names" "$work/flutejoin.o"

rm -f "$out/libflutejoin.a"
ar rcs "$out/libflutejoin.a" "$work/flutejoin.o"
# shellcheck disable=SC2086
"$compiler" ${CFLAGS:-} -shared -Wl,-soname,libflutejoin.so.0 -Wl,-z,defs -Wl,-z,relro -Wl,-z,now \
    -o "$out/libflutejoin.so.0" "$work/flutejoin.o"
ln -sf libflutejoin.so.0 "$out/libflutejoin.so"
version=$(sed -n 's/^version = "\(.*\)"$/\1/p' python/pyproject.toml)
sed "s|@version@|$version|" library/flutejoin.pc > "$out/flutejoin.pc"
echo "flutejoin: built $out/libflutejoin.so" >&2
