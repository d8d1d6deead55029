# Completion for bash of flutejoin and its tools. Files are completed where a file is read or
# written.

# Files whose names begin with the word
_flutejoin_files() {
    mapfile -t COMPREPLY < <(compgen -f -- "$1")
    compopt -o filenames 2> /dev/null
}

_flutejoin_folders() {
    mapfile -t COMPREPLY < <(compgen -d -- "$1")
    compopt -o filenames 2> /dev/null
}

# Those of the words in $2 that begin with the word $1
_flutejoin_words() {
    mapfile -t COMPREPLY < <(compgen -W "$2" -- "$1")
}

# The options of a command, or of a tool
_flutejoin_options() {
    case $1 in
        packet) echo '--json --help' ;;
        show)
            echo '--any-size --list --sums --json --conflicts --source --tsi --toi --fdt' \
                '--help'
            ;;
        gaps)
            echo '--any-size --list --check --summary --conflicts --ranges --json --source --tsi' \
                '--toi --fdt --help'
            ;;
        compare) echo '--any-size --check --summary --json --source --tsi --toi --fdt --help' ;;
        extract) echo '-o --all --any-size --force --list --source --tsi --toi --fdt --help' ;;
        info)
            echo '-o --any-size --force --list --source --tsi --toi --fdt --length --symbol' \
                '--block --help'
            ;;
        join)
            echo '-o --any-size --memory --force --source --tsi --toi --fdt --no-fdt --without' \
                '--reasons --help'
            ;;
        merge | minus) echo '-o --any-size --force --help' ;;
        fill) echo '-o --any-size --force --gaps --only --help' ;;
        forget)
            echo '-o --any-size --force --list --conflicts --source --tsi --toi --fdt --symbol' \
                '--info --help'
            ;;
        carousel) echo '-o --force --tsi --toi --fdt --symbol --block --help' ;;
        flutejoin) echo '--help --version' ;;
        flutejoin-capture)
            echo '--port --group --from -o --split --any-checksum --as-received --help'
            ;;
        flutejoin-centre)
            echo '--config --folder --once --page-only --check --stations --missing --shares' \
                '--file --json --help'
            ;;
        flutejoin-files)
            echo '--list -o --source --tsi --fdt --most --any-size --json --delivered --resolve' \
                '--from --flutejoin --help'
            ;;
        flutejoin-gather) echo '-o --source --as --delivered --flutejoin --help' ;;
        flutejoin-receive)
            echo '--group --port --from --interface --sdp -o --senders --split --most' \
                '--keep-free --buffer --as-received --status --count --seconds --config --help'
            ;;
        flutejoin-repair)
            echo '-o --base --allow --symbols --source --tsi --fdt --after --spread --most' \
                '--seconds --json --flutejoin --help'
            ;;
        flutejoin-station)
            echo '-o --config --group --port --from --interface --sdp --senders --buffer' \
                '--keep-free --as-received --tsi --same --every --window --keep-raw --most' \
                '--nightly --outbox --deliver --on-file --answer --status --seconds --flutejoin' \
                '--help'
            ;;
        flutejoin-map) echo '-o --text --source --tsi --toi --fdt --flutejoin --help' ;;
        flutejoin-mend) echo '-o --help' ;;
        flutejoin-values) echo '--source --tsi --toi --fdt --symbol --without -o --help' ;;
    esac
}

_flutejoin_interfaces() {
    local interfaces=(/sys/class/net/*)
    echo "${interfaces[*]##*/}"
}

_flutejoin() {
    local word=${COMP_WORDS[COMP_CWORD]} before=${COMP_WORDS[COMP_CWORD - 1]} tool=${1##*/} command
    local commands='packet show gaps compare extract info join merge minus fill forget carousel help'
    COMPREPLY=()
    command=$tool
    if [ "$tool" = flutejoin ] && [ "$COMP_CWORD" -gt 1 ]; then
        command=${COMP_WORDS[1]}
    fi
    case $before in
        -o)
            case $tool in
                flutejoin-capture | flutejoin-files | flutejoin-gather | flutejoin-receive | \
                    flutejoin-station)
                    _flutejoin_folders "$word"
                    ;;
                *) _flutejoin_files "$word" ;;
            esac
            return ;;
        --deliver | --folder | --answer) _flutejoin_folders "$word"; return ;;
        --delivered | --flutejoin | --config | --status | --on-file | --gaps | --sdp)
            _flutejoin_files "$word"
            return ;;
        --list)
            # Of flutejoin-files it has no value.
            if [ "$tool" = flutejoin ]; then
                _flutejoin_files "$word"
                return
            fi ;;
        --fdt | --from)
            case $tool in
                flutejoin-files | flutejoin-repair) _flutejoin_files "$word" ;;
            esac
            return ;;
        --interface) _flutejoin_words "$word" "$(_flutejoin_interfaces)"; return ;;
        --source | --tsi | --toi | --length | --symbol | --block | --without | --memory | --as | --same)
            return ;;
        --port | --group | --count | --seconds | --senders | --split | --most | --buffer)
            return ;;
        --every | --window | --keep-raw | --keep-free | --nightly | --file) return ;;
        --base | --allow | --after | --spread) return ;;
    esac
    case $command in
        help) [ "$COMP_CWORD" -gt 2 ] || _flutejoin_words "$word" "$commands"; return ;;
        flutejoin)
            case $word in
                -*) _flutejoin_words "$word" "$(_flutejoin_options flutejoin)" ;;
                *) _flutejoin_words "$word" "$commands" ;;
            esac
            return ;;
    esac
    case $word in
        -?*) _flutejoin_words "$word" "$(_flutejoin_options "$command")"; return ;;
        -) _flutejoin_words "$word" "- $(_flutejoin_options "$command")"; return ;;
    esac
    case $command in
        packet | flutejoin-centre | flutejoin-receive | flutejoin-station)
            _flutejoin_words "$word" "$(_flutejoin_options "$command")"
            ;;
        show | gaps | compare | extract | info | join | merge | minus | fill | forget | carousel | \
            flutejoin-*)
            _flutejoin_files "$word"
            ;;
    esac
}

complete -F _flutejoin flutejoin flutejoin-capture flutejoin-centre flutejoin-files \
    flutejoin-gather flutejoin-map flutejoin-mend flutejoin-receive flutejoin-repair \
    flutejoin-station flutejoin-values
