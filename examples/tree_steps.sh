#!/bin/sh
# The two steps of tree.mk.
#
# tree_steps.sh plan INPUTS LIST PATTERN OUT TREE FANIN SOURCE
#     puts the inputs into groups, writes the list of each join where it changed, and TREE/plan.mk
# tree_steps.sh join PROGRAM OUTPUT LIST
#     joins the inputs of a list, and names the input that is at fault
#
# A line of a list is a stamp, a space and a name. The stamp of a station's file changes when the
# file does. It begins with the sender's address, in 32 digits, if that is known, and a colon.
set -eu
LC_ALL=C
export LC_ALL

stop() {
    echo "tree.mk: $*" >&2
    exit 1
}

# plain WHAT TEXT: stops unless the text can be used in make's rules
plain() {
    case $2 in
    '' | -* | *[!A-Za-z0-9._+,@/-]*)
        stop "$1 may have letters, digits and . _ + , @ / - alone," \
            "and may not begin with -: '$2'"
        ;;
    esac
}

# within FOLDER PATH: whether the path lies in the folder
within() {
    case $(realpath -m -- "$2")/ in
    "$(realpath -m -- "$1")"/*) true ;;
    *) false ;;
    esac
}

# named INPUTS LIST PATTERN OUT TREE: the names of the inputs, each ended by a line feed
named() {
    if [ -n "$2" ]; then
        [ -z "$1" ] || stop 'INPUTS and LIST are given, and one is taken'
        [ -r "$2" ] || stop "LIST cannot be read: '$2'"
        cat -- "$2"
    else
        [ -d "$1" ] || stop "INPUTS is no folder: '$1'"
        ! within "$1" "$4" || stop 'OUT lies in INPUTS, and would be an input'
        ! within "$1" "$5" || stop 'TREE lies in INPUTS, and would be an input'
        # A line feed in a name becomes a byte that is refused below.
        find -L "$1" -type f -name "$3" ! -name '*.partial' -print0 | tr '\n\0' '\001\n' | sort
    fi
}

# stamped NAMES: prints a stamp and the name for each
stamped() {
    tr '\n' '\0' < "$1" | xargs -0 -r stat -L --printf '%d:%i:%s:%.9Y:%.9Z %n\n' --
}

# sourced STAMPED SOURCE: the same, with the sender before each stamp: SOURCE, or for a datagram
# file the sender in the name that flutejoin-receive and flutejoin-capture gave it
sourced() {
    awk -v source="$2" '
        function stop(text) {
            print "tree.mk: " text > "/dev/stderr"
            exit 1
        }
        function ipv4(words,   i, digits) {
            digits = "00000000000000000000ffff"
            for (i = 1; i <= 4; i++) {
                if (words[i] !~ /^(0|[1-9][0-9]*)$/ || words[i] + 0 > 255) return ""
                digits = digits sprintf("%02x", words[i])
            }
            return digits
        }
        function part(text, digits,   words, count, i) {
            count = text == "" ? 0 : split(text, words, "-")
            for (i = 1; i <= count; i++) {
                if (words[i] !~ /^[0-9a-f]+$/ || length(words[i]) > 4) return "x"
                digits = digits substr("0000" words[i], length(words[i]) + 1)
            }
            return digits
        }
        function ipv6(text,   at, front, back) {
            at = index(text, "--")
            front = part(at ? substr(text, 1, at - 1) : text)
            back = at ? part(substr(text, at + 2)) : ""
            while (at && length(front back) < 32) front = front "0"
            return front back ~ /^[0-9a-f]*$/ && length(front back) == 32 ? front back : ""
        }
        # address TEXT: its 32 digits. IPv6 may have hyphens as its colons. What follows is put into
        # `rest`
        function address(text,   words, count, i) {
            count = split(text, words, ".")
            rest = ""
            for (i = count >= 4 && words[4] ~ /^[0-9]+$/ ? 5 : 2; i <= count; i++)
                rest = rest "." words[i]
            return count >= 4 && words[4] ~ /^[0-9]+$/ ? ipv4(words) : ipv6(words[1])
        }
        # sender NAME: the address in the name; its epoch is put into `epoch`
        function sender(name,   digits) {
            sub(/.*\//, "", name)
            if (!sub(/\.(fldg|journal)$/, "", name)) return ""
            digits = address(name)
            if (rest !~ /^(\.e[1-9][0-9]*)?(\.[1-9][0-9]*)?$/) return ""
            epoch = rest ~ /^\.e/ ? substr(rest, 3) + 0 : 1
            return digits
        }
        BEGIN {
            named = source
            source = tolower(source)
            if (source ~ /^[0-9a-f]+$/ && length(source) == 8)
                source = "00000000000000000000ffff" source
            else if (source != "" && !(source ~ /^[0-9a-f]+$/ && length(source) == 32)) {
                gsub(/:/, "-", source)
                source = address(source)
                if (source == "" || rest != "") stop("SOURCE is no address: " named)
            }
        }
        {
            name = substr($0, length($1) + 2)
            of = sender(name)
            if (of != "") {
                folder = name
                sub(/[^\/]*$/, "", folder)
                run = folder SUBSEP of
                if ((run in epochs) && epochs[run] != epoch)
                    stop("two runs of one sender, whose datagrams conflict: " names[run] " and " \
                        name "; PATTERN or LIST names those of one")
                epochs[run] = epoch
                names[run] = name
            }
            if (name !~ /\.fldg$/) of = ""
            if (of != "" && source != "" && of != source)
                stop("of another sender than SOURCE: " name)
            print (of != "" ? of : source) ":" $0
        }' "$1"
}

# check NAMES: stops at a name that cannot be passed on
check() {
    [ -s "$1" ] || stop 'there are no inputs'
    if grep -q "$(printf '\001')" "$1"; then
        stop "a name has a line feed or the byte 1:" \
            "$(grep -m 1 "$(printf '\001')" "$1" | cat -v)"
    fi
    iconv -f UTF-8 -t UTF-8 < "$1" > /dev/null 2>&1 ||
        stop 'a name is not UTF-8, and flutejoin takes text alone'
}

plan() {
    plain OUT "$4"
    plain TREE "$5"
    case $6 in '' | *[!0-9]* | ???*) stop "FANIN is a number from 2 to 64: '$6'" ;; esac
    [ "$6" -ge 2 ] && [ "$6" -le 64 ] || stop "FANIN is a number from 2 to 64: '$6'"
    mkdir -p -- "$5"
    work=$(mktemp -d -- "$5/plan.XXXXXX")
    trap 'rm -rf -- "$work"' EXIT
    named "$1" "$2" "$3" "$4" "$5" > "$work/all"
    # No name is an option or standard input, and each occurs once.
    sed -e '/^$/d' -e 's|^-|./-|' "$work/all" | awk '!seen[$0]++' > "$work/names"
    check "$work/names"
    stamped "$work/names" > "$work/unsourced" || stop 'an input is not there'
    sourced "$work/unsourced" "$7" > "$work/stamped" || exit 1
    : > "$work/kept"
    for list in "$5"/1-*.list; do
        [ ! -e "$list" ] || sed "s|^|$(basename "$list" .list) |" "$list" >> "$work/kept"
    done
    groups "$work" "$6"
    nodes "$work" "$4" "$5" "$6"
    replace "$work" "$5"
}

# groups WORK FANIN: a group for each name, all of one sender. A name stays in its group; a new one
# fills a free place.
groups() {
    awk -v fanin="$2" -v kept="$1/kept" '
        {
            stamp = $1
            name = substr($0, length($1) + 2)
            names[++count] = name
            stamps[name] = stamp
            senders[name] = substr(stamp, 1, index(stamp, ":") - 1)
        }
        # fits NAME GROUP: whether the group has a free place and the same sender
        function fits(name, group) {
            return sizes[group] < fanin && (!(group in sender) || sender[group] == senders[name])
        }
        function put(name, group) {
            of[name] = group
            sizes[group]++
            sender[group] = senders[name]
        }
        END {
            while ((getline line < kept) > 0) {
                split(line, words, " ")
                name = substr(line, length(words[1]) + length(words[2]) + 3)
                group = substr(words[1], 3) + 0
                if ((name in stamps) && !(name in of) && fits(name, group)) put(name, group)
            }
            for (i = 1; i <= count; i++) {
                if (!(names[i] in of)) {
                    group = free[senders[names[i]]] + 0
                    while (!fits(names[i], group)) group++
                    free[senders[names[i]]] = group
                    put(names[i], group)
                }
                print of[names[i]], stamps[names[i]], names[i]
            }
        }' "$1/stamped" | sort -s -n -k 1,1 > "$1/grouped"
}

# nodes WORK OUT TREE FANIN: the list of each join, and the rules. Node N of a level is an input of
# node N / FANIN of the next.
nodes() {
    awk -v work="$1" -v out="$2" -v tree="$3" -v fanin="$4" '
        function add(level, node, line,   key) {
            key = level "-" node
            if (!(key in inputs)) {
                order[level, ++nodes[level]] = node
                inputs[key] = ""
                if (node > last[level]) last[level] = node
            }
            print line > (work "/" key ".list")
        }
        {
            if ($1 != now) {
                if (NR > 1) close(work "/1-" now ".list")
                now = $1
            }
            add(1, $1, substr($0, length($1) + 2))
        }
        END {
            close(work "/1-" now ".list")
            rules = work "/plan.mk"
            for (level = 1; last[level] + 1 > fanin; level++)
                for (i = 1; i <= nodes[level]; i++) {
                    node = order[level, i]
                    parent = int(node / fanin)
                    file = tree "/" level "-" node ".journal"
                    if (i > 1 && parent != before) close(work "/" (level + 1) "-" before ".list")
                    before = parent
                    add(level + 1, parent, "node " file)
                    print tree "/" (level + 1) "-" parent ".journal: " file > rules
                }
            for (i = 1; i <= nodes[level]; i++) {
                file = tree "/" level "-" order[level, i] ".journal"
                print "node " file > (work "/out.list")
                print out ": " file > rules
            }
        }' "$1/grouped"
}

# replace WORK TREE: replaces the lists that changed, and removes those, and the journals, of joins
# that are gone
replace() {
    for new in "$1"/*.list "$1/plan.mk"; do
        old=$2/${new##*/}
        cmp -s "$new" "$old" || mv -f -- "$new" "$old"
        touch "$1/${new##*/}.known"
    done
    for old in "$2"/*-*.list; do
        [ -e "$1/${old##*/}.known" ] || rm -f -- "${old%.list}.journal" "$old"
    done
}

# join PROGRAM OUTPUT LIST
join() {
    [ "$(wc -l < "$3")" -le 64 ] || stop "$3 names more than 64 inputs"
    sender=$(head -n 1 "$3" | sed -n 's/^\([0-9a-f]*\):.*/\1/p')
    # With -x xargs stops if the names are too long for one command, so a list is joined in one
    # command or not at all.
    if told=$(cut -d ' ' -f 2- "$3" | tr '\n' '\0' |
        xargs -0 -x -n 64 "$1" join --any-size -o "$2" ${sender:+"--source=$sender"} 2>&1); then
        entries=$(echo "$told" | sed -n 's/^entries //p')
        echo "$2: $(wc -l < "$3" | tr -d ' ') inputs, $entries entries"
        return
    fi
    at=$(echo "$told" | sed -n 's/.*input \([0-9]*\).*/\1/p' | head -n 1)
    [ -z "$at" ] ||
        stop "$2 is not joined: $told, which is $(cut -d ' ' -f 2- "$3" | sed -n "${at}p")"
    stop "$2 is not joined: $told"
}

step=$1
shift
case $step in
plan) plan "$@" ;;
join) join "$@" ;;
*) stop "no such step: $step" ;;
esac
