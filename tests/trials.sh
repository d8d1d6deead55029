#!/bin/sh
# Runs the tests of trials/, which are not proved, with checks at run time: in a copy of the
# repository where they are a crate. Failures are shown with their messages. (rt ci requires each
# .rt file to be proved, so the files of trials/ have another ending, and get .rt in the copy.)
set -u
cd "$(dirname "$0")/.." || exit 1
room=$(mktemp -d)
trap 'rm -rf "$room"' EXIT
trap 'exit 1' HUP INT TERM

for part in crates/*/*; do
    if [ "$(basename "$part")" != out ]; then
        mkdir -p "$room/$(dirname "$part")" && cp -R "$part" "$room/$part" || exit 1
    fi
done
crate=$room/crates/flutejoin_trials
mkdir "$crate" && cp -R trials "$crate/src" && cp crates.txt "$room" || exit 1
find "$crate/src" -name '*.trial' | while read -r file; do
    mv "$file" "${file%.trial}.rt"
done
libraries='flute_join flute_parts flute_calls flute_output flute_asides flute_wire flute_store'
libraries="$libraries flute_journal flute_streams flutejoin flutejoin_line flutejoin_replicas"
libraries="$libraries flutejoin_commands flutejoin_run flutejoin_memory flute_memory"
echo "flutejoin_trials: $libraries test_vectors" >> "$room/crates.txt"

(cd "$crate" && rt try --test --seconds 7200) > "$room/told" 2> "$room/faults"
status=$?
passed=$(sed -n 's/^test result: .* \([0-9][0-9]*\) passed; .*/\1/p' "$room/told")
failed=$(sed -n 's/^test result: .* \([0-9][0-9]*\) failed; .*/\1/p' "$room/told")
if [ "$status" = 0 ] && [ "${passed:-0}" -gt 0 ] && [ "${failed:-1}" = 0 ]; then
    echo "trials: $passed passed, 0 failed"
    exit 0
fi
grep -v ' \.\.\. ok$' "$room/told"
cat "$room/faults"
[ "${failed:-0}" -gt 0 ] || failed=1
echo "trials: ${passed:-0} passed, $failed failed"
exit 1
