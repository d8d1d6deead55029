#!/bin/sh
# Adds an input to a store that grows for a long time, in levels: levels.sh STORE INPUT [WORD..]
#
# STORE is a folder of levels, each a folder of at most seven journals. With the eighth they
# are joined into one of the next level: so each entry is written again once for each level, and not
# with each input. WORDs are options for the join of INPUT, as --source 0a000001.
#
#   flutejoin join --any-size -o - STORE/*/*[0-9] | flutejoin gaps --any-size -
#                                                             finds the gaps of all inputs
#
# A join that would be in conflict, as where a sender started again, is not done: flutejoin-gather
# takes its inputs into STORE/apart, by what agrees, and the status is 1.
#
# A kill may leave journals twice, which changes no result, and a .partial file, which the next run
# removes: give it the same INPUT again. Two runs in one STORE wait for one another (flock).
set -eu
program=${FLUTEJOIN:-flutejoin}
store=$1 input=$2
shift 2
case $input in -?*) input=./$input ;; esac # it is a name, and no option
level=0 status=0

# agrees JOURNAL: whether nothing in it is in conflict
agrees() {
    "$program" gaps --any-size --check --conflicts --summary "$1" > /dev/null 2>&1
}

# keep JOURNAL LEVEL
keep() {
    mv "$1" "$store/$2/$name"
    sync "$store/$2/$name" "$store/$2"
}

# set_apart INPUT..: compares them before they are joined
set_apart() {
    echo "levels.sh: what differs is kept apart in $store/apart" >&2
    flutejoin-gather --flutejoin "$program" -o "$store/apart" "$@" > /dev/null
    status=1
}

mkdir -p "$store/0"
exec 9< "$store"
flock 9
rm -f "$store"/*/*.partial
name=$(date +%s%N)
new=$store/0/$name.partial
"$program" join --any-size "$@" -o "$new" "$input" > /dev/null
if agrees "$new"; then
    keep "$new" 0
else
    rm "$new"
    set_apart "$@" "$input"
fi
while
    set -- "$store/$level"/*
    [ $# -ge 8 ]
do
    mkdir -p "$store/$((level + 1))"
    new=$store/$level/$name.partial
    "$program" join --any-size -o "$new" "$@" > /dev/null
    if agrees "$new"; then
        keep "$new" $((level + 1))
    else
        rm "$new"
        set_apart "$@"
    fi
    rm -- "$@"
    level=$((level + 1))
done
exit $status
