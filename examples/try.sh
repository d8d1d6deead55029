#!/bin/sh
# A first session, with the program as it is and nothing proved: try.sh
#
# Two stations receive parts of a file (first_session.py); their datagram files are joined into
# journals, the journals are joined, and the file is extracted. `rt try` builds the program once,
# with checks at run time, and runs each command in a folder of its own; so the words are paths.
set -eu
here=$(dirname "$(realpath "$0")")
work=$(mktemp -d)
trap 'rm -rf "$work"' EXIT
python3 "$here/first_session.py" "$work"
echo "flutejoin: building the program before any proof; this takes a minute or two" >&2
cd "$here/../crates/flutejoin_cli"
# What `rt try` prints of a run begins with `== NAME` and ends with `case=NAME ..`.
rt try --seconds 300 --cases "$work/cases" 2>&1 | awk -v work="$work" '
    /^== [0-9]+$/ {
        command = "flutejoin"
        while ((getline word < (work "/cases/" $2 ".args")) > 0) {
            sub(work "/", "", word)
            command = command " " word
        }
        print "$ " command
        next
    }
    /^case=.* run=ended status=0 / { next }
    { print }'
cmp "$work/file" "$work/out"
echo "file and out are equal; nothing was proved ('make example' proves)"
