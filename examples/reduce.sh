#!/bin/sh
# Joins any number of inputs, in groups of 64, their journals again, and so on:
#
#   reduce.sh LIST OUT COMMAND..
#
# LIST has the name of one input on each line. COMMAND reads lines of commands and runs them in any
# order, on any machine that has this folder and flutejoin on its PATH; it fails if one does,
# and then OUT stays what it was. On this machine, on four processors:
#
#   reduce.sh list all xargs -d '\n' -n 1 -P 4 sh -c
#
# A line that is run twice, also at once, does no harm. OUT has only letters, digits and . _ / -
set -eu
list=$1 out=$2
shift 2
stop() {
    echo "reduce.sh: $*" >&2
    exit 1
}
case $out in *[!A-Za-z0-9._/-]* | -*) stop 'OUT has other characters than these' ;; esac
[ -s "$list" ] || stop "there are no inputs in $list"
parts=$(mktemp -d "$out.parts.XXXXXX")
trap 'rm -rf "$parts"' EXIT
sed "s|^-|./-|" "$list" > "$parts/list"
depth=0
while [ $depth = 0 ] || [ "$(wc -l < "$parts/list")" -gt 1 ]; do
    split -d -l 64 -a 5 "$parts/list" "$parts/$depth."
    for group in "$parts/$depth".?????; do
        new="$group.\$(hostname).\$\$"
        join="xargs -x -n 64 -d '\\n' -a $group flutejoin join --any-size"
        join="$join -o $new > $group.told"
        printf '%s\n' "$join && mv $new $group.journal"
    done > "$parts/lines"
    "$@" < "$parts/lines" || stop "a group failed, and nothing was made of the others"
    for group in "$parts/$depth".?????; do
        [ -e "$group.journal" ] || stop "a group was not joined"
        echo "$group.journal"
    done > "$parts/list"
    depth=$((depth + 1))
done
mv "$(cat "$parts/list")" "$out"
