#!/bin/sh
# One session, received at three stations: session.sh PROGRAM
#
# A file is sent as datagrams. Each station loses other datagrams, and keeps what it received as a
# journal. The journals are joined, the gaps shrink, and the file is extracted whole.
set -eu
program=$(realpath "$1")
here=$(dirname "$(realpath "$0")")
work=$(mktemp -d)
trap 'rm -rf "$work"' EXIT
cd "$work"

say() { printf '\n# %s\n' "$*"; }
run() {
    echo "\$ flutejoin $*"
    "$program" "$@"
}

# 40,000 bytes: the same each time.
awk 'BEGIN { for (i = 1; i <= 5000; i++) printf "%07d\n", i }' > file

say "The sender cuts the file into 40 datagrams: session 7, object 1, symbols of 1,000 bytes," \
    "blocks of at most 16"
run carousel -o sent --tsi 7 --toi 1 --symbol 1000 --block 16 file

say "Three stations lose about a third of the datagrams, each other ones"
for station in 1 2 3; do
    python3 "$here/lose.py" sent "received$station" 35 "$station"
    run join -o "station$station" "received$station"
done

say "What the first station misses"
run gaps station1

say "What is missing once two stations are joined, as streams in constant memory"
run merge -o two station1 station2
run gaps two

say "And once all three are"
run merge -o all two station3
run gaps all

say "In another order and grouping the journal is the same, byte for byte"
run join -o other station3 received2 station1 received3
cmp all other && echo "all and other are equal"

say "The file comes out whole"
run extract -o out --tsi 7 --toi 1 all
cmp file out && echo "file and out are equal"

say "Another sender, 10.0.0.2, has a session 7 and an object 1 too: named by its address," \
    "it is another object"
awk 'BEGIN { for (i = 5000; i >= 1; i--) printf "%07d\n", i }' > other_file
run carousel -o other_sent --tsi 7 --toi 1 --symbol 1000 --block 16 other_file
run join -o of_second --source 0a000002 other_sent
run merge -o of_both all of_second
run gaps of_both
run extract -o other_out --source 0a000002 --tsi 7 --toi 1 of_both
cmp other_file other_out && echo "other_file and other_out are equal"
run extract -o out --tsi 7 --toi 1 of_both
cmp file out && echo "file and out are equal"
