#!/bin/sh
# Sends what a station received since the last push to a centre: push.sh STATION TARGET COMMAND..
#
#   push.sh /var/lib/flutejoin/news journals/north ssh centre
#
# STATION is the folder of a flutejoin-station with --outbox. TARGET is a folder at the centre; each
# sender gets a journal there, and FDT Instances are in its folder fdt. COMMAND runs a line of
# commands there, its last word: ssh does, and `sh -c` does on this machine. flutejoin is on the PATH
# of both, and flutejoin-gather on that of the centre.
#
# STATUS in the environment is the file that the station's --status writes: it is sent too, as
# status.json in TARGET.
#
# A journal leaves the outbox once the centre has it on its disk. What a kill or a lost connection
# leaves is sent again by the next run, and what arrives twice counts once.
set -eu
unset CDPATH # with it cd prints where it goes
LC_ALL=C # so that [a-z] has no other letters
outbox=$1/outbox documents=$1/fdt target=$2
[ -x "$1" ] || [ ! -e "$1" ] || {
    echo "push.sh: $1 is not open to this user" >&2
    exit 3
}
shift 2
case $target in *[!A-Za-z0-9._/-]* | '' | -*)
    echo 'push.sh: TARGET has letters, digits and . _ / - alone' >&2
    exit 2
    ;;
esac
[ -d "$outbox" ] || {
    echo "push.sh: there is no $outbox: the station runs without --outbox" >&2
    exit 3
}
# One push at a time: if two joins into one journal overlapped, one could lose what the other adds.
exec 9< "$outbox"
flock -n 9 || {
    echo "push.sh: another push of $outbox is under way" >&2
    exit 1
}

# is_name NAME: whether it is an address, a time and .journal. It becomes part of a command there,
# so one that somebody else put into the outbox may say nothing else.
is_name() {
    case $1 in
    *[!a-z0-9.-]*) false ;;
    *[0-9a-f].[0-9]*.journal | *--.[0-9]*.journal) true ;;
    *) false ;;
    esac
}

# senders: those whose journals wait
senders() {
    for path in "$outbox"/*.journal; do
        name=${path##*/}
        name=${name%.journal}
        ! is_name "$name.journal" || echo "${name%.*}"
    done | sort -u
}

# push JOURNAL COMMAND..: flutejoin-gather there joins what agrees with what is there, and keeps the
# rest apart. A join that fails here sends no whole journal, so that there fails too.
push() {
    new=./$1
    shift
    (cd "$outbox" && flutejoin join --any-size -o - "$new" 2> /dev/null) |
        "$@" "mkdir -p $target && flutejoin-gather -o $target - > /dev/null" &&
        (cd "$outbox" && rm -f "$new")
}

# push_documents COMMAND..: sends the FDT Instances that are new since the last push.
push_documents() {
    [ -d "$documents" ] || return 0
    : > "$documents/.pushing"
    [ -e "$documents/.pushed" ] && since="-cnewer .pushed" || since=
    # shellcheck disable=SC2086
    found=$(cd "$documents" && find . -type f $since \( -name '*.xml' -o -name '*.fldg' -o -name '*.journal' \) |
        grep -v '[^]A-Za-z0-9.%_/-]' || true)
    [ -z "$found" ] ||
        (cd "$documents" && echo "$found" | tar -T - -cf -) |
        "$@" "mkdir -p $target/fdt && tar -C $target/fdt --keep-newer-files \
            --warning=no-ignore-newer -xf -" || return 1
    mv "$documents/.pushing" "$documents/.pushed"
}

# push_status COMMAND..: sends the station's status, which appears there in one step.
push_status() {
    [ -n "${STATUS:-}" ] && [ -e "$STATUS" ] || return 0
    "$@" "mkdir -p $target && cat > $target/status.json.partial &&
        mv $target/status.json.partial $target/status.json" < "$STATUS"
}

status=0
for path in "$outbox"/*.journal; do
    [ ! -e "$path" ] || is_name "${path##*/}" || {
        echo "push.sh: a name in $outbox is no sender's with a time, and stays there" >&2
        status=1
        break
    }
done
for sender in $(senders); do
    for path in "$outbox/$sender".[0-9]*.journal; do
        # The station may have joined it with others meanwhile.
        [ ! -e "$path" ] || push "${path##*/}" "$@" || {
            echo "push.sh: $sender is not pushed, and stays in $outbox" >&2
            status=1
            break
        }
    done
done
push_documents "$@" || {
    echo "push.sh: the FDT Instances in $documents are not pushed" >&2
    status=1
}
push_status "$@" || {
    echo "push.sh: $STATUS is not pushed" >&2
    status=1
}
exit $status
