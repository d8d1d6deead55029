#!/bin/sh
# Proves what changed, builds the program and leaves it at bin/flutejoin. The output of the tools
# goes to bin/build.log.
set -eu
cd "$(dirname "$0")/../.."
if ! command -v rt > /dev/null; then
    echo "flutejoin: the command 'rt' of the Rattle kit is not on the PATH," \
        "and nothing can be built without it" >&2
    exit 1
fi
mkdir -p bin
echo "flutejoin: proving and building the program;" \
    "the first time this takes 30 to 50 minutes (log: bin/build.log)" >&2

# The crates of the program, the lowest first: in this order each is read once, and no pass over all
# sources comes before.
libraries='flute_join flute_parts flute_calls flute_wire flute_store flute_journal flute_streams'
libraries="$libraries flute_output flute_asides flutejoin flutejoin_line flutejoin_commands"

# Two jobs for each processor, since one job often waits for a proof of another. rattle itself takes
# fewer where memory is short.
jobs=$(($(nproc) * 2))
[ "$jobs" -le 8 ] || jobs=8

# build CRATE WORD..: builds a crate by these words of rt.
build() {
    crate=$1
    shift
    step=$((step + 1))
    echo "flutejoin: $crate ($step of 14)" >&2
    (cd "crates/$crate" && exec rt "$@") >> bin/build.log 2>&1 &
    running=$!
    if ! wait "$running"; then
        tail -n 20 bin/build.log >&2
        echo "flutejoin: the build failed; bin/build.log has all of it" >&2
        exit 1
    fi
}

# build_beside CRATE [nice -n N]: builds a library in a copy of the crates, at that priority, while
# others are built here: often one of them has work for a single processor. rt takes there the
# libraries below it from here, and here the library from there.
build_beside() {
    crate=$1
    shift
    (cd "bin/beside/crates/$crate" && exec "$@" rt lib --jobs 1) >> bin/beside.log 2>&1 &
    beside="$beside $!"
}

step=0
running=
beside=
: > bin/build.log
: > bin/beside.log
trap 'kill $running $beside 2> /dev/null || true; rm -rf bin/beside' EXIT
trap 'exit 130' INT
trap 'exit 143' TERM
rm -rf bin/beside
mkdir bin/beside
tar -cf - --exclude=out crates.txt HANDLES crates | tar -xf - -C bin/beside
for library in $libraries; do
    build "$library" lib --jobs "$jobs"
    case $library in
    # Nothing needs it before flutejoin_commands: it has the time that others leave.
    flute_calls) build_beside flute_output nice -n 19 ;;
    esac
done
# Its two functions are proved one after the other: a second job would only load all anew.
build flutejoin_run lib --jobs 1
build flutejoin_cli run --jobs "$jobs" -- --version
cp crates/flutejoin_cli/out/flutejoin_cli bin/flutejoin.new
mv bin/flutejoin.new bin/flutejoin
echo "flutejoin: built bin/flutejoin" >&2
