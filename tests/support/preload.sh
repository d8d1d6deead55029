#!/bin/sh
# Compiles NAME.c of this folder, which is to be loaded before a program, to LIBRARY, by cc or else
# by the clang of Rattle's toolchain.
#
# usage: tests/support/preload.sh NAME LIBRARY
set -eu
source=$(dirname "$0")/$1.c
options='-shared -fPIC -O2 -ffreestanding -nostdlib'
if command -v cc > /dev/null; then
    exec cc $options -o "$2" "$source"
fi
# The toolchain is beside `rt`.
exec "$(dirname "$(rt doc)")/toolchain/bin/clang" $options -fuse-ld=lld -o "$2" "$source"
