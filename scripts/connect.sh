# A client of a broker on a connection of its own: bash opens it, by its /dev/tcp, or socat where it is TLS, a socket of the
# file system, or has options. ./mqtt5 and tests/live set `me`, their name, and then read this file.
# shellcheck shell=bash
# shellcheck disable=SC2034,SC2154

# The words of the connection, as `take_connection` found them; `rest` has the others. `named` is the first that is of use
# with a broker alone.
host='' port='' socket='' tls=0 insecure=0 secure=() plain=() rest=() named=''
# Whether help is asked for, what is shown goes to a file, which word says what the content is, which of the words in `rest`
# is the message, whether the content is parted into lines, and what of standard input is published: all of it, or each line.
asks_help=0 shows_itself=0 content='' message_at='' by_lines=0 from_input=''
# The keep alive in seconds, the limit on the time, whether a connection that is lost is made again, whether the session is kept
# in a file, whether the client identifier has the number of the process, and which of the words in `rest` is the count of messages.
keep_alive='' limit='' retries=0 stores=0 prefixes=0 count_at=''

# Refuses a word's value.
refuse_value() {
    echo "$me: $1: $2" >&2
    return 2
}

# A name or an address, without what socat, a URL or bash's /dev/tcp takes for more than that.
is_host() { [[ $1 =~ ^[A-Za-z0-9_.:%-]+$ ]]; }
is_address() { [[ $1 == *:* || $1 =~ ^[0-9.]+$ ]]; }
is_port() { [[ $1 =~ ^[1-9][0-9]{0,4}$ ]] && [ "$1" -le 65535 ]; }
# A file's name without the marks that part or quote the options of socat's addresses.
is_path() { [ -n "$1" ] && [[ $1 != *[]\[\(\)\{\}\'\"\\,:\!]* ]]; }

# mqtt(s)://[NAME[:PASSWORD]@]HOST[:PORT][/TOPIC], where HOST may be an address of IPv6 in brackets.
take_url() {
    local left=$1 login=''
    case $left in
        mqtts://*) tls=1 ;;
        mqtt://*) ;;
        *)
            refuse_value -L "no URL of a broker: '$1'"
            return
            ;;
    esac
    left=${left#*://}
    case $left in */?*) rest+=(-t "${left#*/}") ;; esac
    left=${left%%/*}
    case $left in
        *@*)
            login=${left%@*} left=${left##*@}
            rest+=(-u "${login%%:*}")
            case $login in *:*) rest+=(-P "${login#*:}") ;; esac
            ;;
    esac
    host=''
    if [[ $left =~ ^\[([^]]+)\](:(.+))?$ || $left =~ ^([^:]+)(:(.+))?$ ]]; then
        host=${BASH_REMATCH[1]}
        port=${BASH_REMATCH[3]:-$port}
    fi
    if ! is_host "$host" || ! is_port "${port:-1}"; then refuse_value -L "no URL of a broker: '$1'"; fi
}

# One word of the connection with its value.
take_option() {
    named=${named:-$1}
    case $1 in
        -h | --host)
            is_host "$2" || refuse_value "$1" "no host: '$2'" || return
            host=$2
            ;;
        -p | --port)
            is_port "$2" || refuse_value "$1" "no port: '$2'" || return
            port=$2
            ;;
        -L | --url) take_url "$2" ;;
        -I | --id-prefix) prefixes=1 rest+=(-i "$2$$") ;;
        -A)
            is_host "$2" || refuse_value "$1" "no address: '$2'" || return
            plain+=("bind=$(in_brackets "$2")")
            ;;
        --unix)
            is_path "$2" || refuse_path "$1" "$2" || return
            socket=$2 host=$2
            ;;
        --cafile | --capath | --cert | --key)
            is_path "$2" || refuse_path "$1" "$2" || return
            tls=1 secure+=("${1#--}=$2")
            ;;
        -k | --keepalive)
            is_seconds "$2" && [ "$2" -le 65535 ] || refuse_value "$1" "no keep alive, 0 to 65535 seconds: '$2'" || return
            keep_alive=$2
            ;;
        -W)
            is_seconds "$2" && [ "$2" -gt 0 ] || refuse_value "$1" "no number of seconds: '$2'" || return
            limit=$2
            ;;
    esac
}
is_seconds() { [[ $1 =~ ^[0-9]{1,9}$ ]]; }

# A property: `-D COMMAND PROPERTY VALUE`, or for a user property `-D COMMAND user-property NAME VALUE`. The program takes four
# words each time.
take_property() {
    if [ $# -lt 4 ] || { [ "$3" = user-property ] && [ $# -lt 5 ]; }; then
        refuse_value "$1" 'it takes a command, a property and a value, and of a user-property its name and its value'
    elif [ "$3" = user-property ]; then
        rest+=(-D "$2" "$3" "$4" "$5")
    else
        rest+=(-D "$2" "$3" "$4" '')
    fi
}
refuse_path() { refuse_value "$1" "socat takes no name with a comma, a colon, a quote, a bracket, a backslash or '!': '$2'"; }

# An address of IPv6 stands in brackets where a port may follow.
in_brackets() { case $1 in *:*) echo "[$1]" ;; *) echo "$1" ;; esac; }

# Takes the words of the connection out of a client's words: those that are left are in `rest`. A word behind an option
# with a value is that value, whatever it looks like.
take_connection() {
    host='' port='' socket='' tls=0 insecure=0 secure=() plain=() rest=() named=''
    asks_help=0 shows_itself=0 content='' message_at='' by_lines=0 from_input=''
    keep_alive='' limit='' retries=0 stores=0 prefixes=0 count_at=''
    while [ $# -gt 0 ]; do
        case $1 in
            -h | --host | -p | --port | -L | --url | -I | --id-prefix | -A | --unix | --cafile | --capath | --cert | --key | \
                -k | --keepalive | -W)
                if [ $# = 1 ]; then
                    [ "$1" = -h ] || refuse_value "$1" 'its value lacks' || return
                    asks_help=1
                    return
                fi
                take_option "$1" "$2" || return
                shift
                ;;
            --host=* | --port=* | --url=* | --id-prefix=* | --unix=* | --cafile=* | --capath=* | --cert=* | --key=* | --keepalive=*)
                take_option "${1%%=*}" "${1#*=}" || return
                ;;
            --tls) tls=1 named=${named:-$1} ;;
            --insecure) tls=1 insecure=1 named=${named:-$1} ;;
            --nodelay) plain+=(nodelay) named=${named:-$1} ;;
            --retry) retries=1 named=${named:-$1} ;;
            -D | --property)
                take_property "$@" || return
                [ "$3" != user-property ] || shift
                shift 3
                ;;
            -s | --stdin-file) from_input=all named=${named:-$1} ;;
            -l | --lines | --stdin-line)
                by_lines=1 from_input=${from_input:-lines}
                rest+=(-l)
                ;;
            -i | --id | -u | --username | -P | --pw | -x | --session-expiry-interval | --will-topic | --will-payload | --will-qos | \
                -t | --topic | -m | --message | -f | --file | -q | --qos | -M | --max-inflight | -C | -o | --output | \
                -U | --unsubscribe | -T | --filter-out | -F | --store)
                case $1 in
                    -o | --output) shows_itself=1 ;;
                    --store) stores=1 ;;
                    -m | --message) content=$1 message_at=$((${#rest[@]} + 1)) ;;
                    -f | --file) content=$1 ;;
                    -C) count_at=$((${#rest[@]} + 1)) ;;
                esac
                rest+=("$1")
                [ $# = 1 ] || rest+=("$2") && shift
                ;;
            -C?*)
                count_at=$((${#rest[@]} + 1))
                rest+=(-C "${1#-C}")
                ;;
            --output=* | -o*)
                shows_itself=1
                rest+=("$1")
                ;;
            --store=*)
                stores=1
                rest+=("$1")
                ;;
            --message=* | -m*)
                content=${1%%=*} message_at=$((${#rest[@]} + 1))
                case $1 in -m*) rest+=(-m "${1#-m}") ;; *) rest+=(-m "${1#*=}") ;; esac
                ;;
            --file=* | -f* | -n | --null-message)
                content=${1%%=*}
                rest+=("$1")
                ;;
            --help) asks_help=1 ;;
            --)
                rest+=("$@")
                return
                ;;
            *) rest+=("$1") ;;
        esac
        [ $# = 0 ] || shift
    done
}

# Refuses words of pub or sub that contradict each other, and those that name no broker where they need one.
check_connection() {
    if [ "$from_input" = all ] && [ "$1" != pub ]; then
        refuse_value -s 'only pub takes it'
    elif [ "$from_input" = all ] && [ -n "$content" ]; then
        refuse_value -s "standard input is the message, and so is what $content says: give one of them"
    elif [ "$from_input" = all ] && [ "$by_lines" = 1 ]; then
        refuse_value -s 'standard input is one message, and with -l each line is one: give one of them'
    elif [ "$1" != sub ] && [ -n "$limit" ]; then
        refuse_value -W 'only sub takes it'
    elif [ "$1" != sub ] && [ "$retries" = 1 ]; then
        refuse_value --retry 'only sub takes it'
    elif [ "$retries" = 1 ] && [ "$shows_itself" = 1 ]; then
        refuse_value --retry 'each connection makes the file of -o anew: leave that out, and turn standard output into the file'
    elif [ "$stores" = 1 ] && [ "$shows_itself" = 1 ]; then
        refuse_value --store 'each start makes the file of -o anew: leave that out, and add standard output to the file, without -h standard error'
    elif [ "$stores" = 1 ] && [ "$prefixes" = 1 ]; then
        refuse_value --store 'with -I each start has another client identifier: give it one by -i'
    elif [ "$by_lines" = 1 ] && [ "${keep_alive:-0}" != 0 ]; then
        refuse_value -k 'with -l there is none, since no ping is sent while a line is waited for'
    elif [ -n "$socket" ] && [ "$tls" = 1 ]; then
        refuse_value --unix 'it has no TLS'
    elif [ -n "$socket" ] && [ ${#plain[@]} != 0 ]; then
        refuse_value --unix 'neither -A nor --nodelay stands beside it'
    elif [ -z "$host" ] && [ -n "$named" ]; then
        refuse_value "$named" 'it needs a broker: name its host by -h HOST, -L URL or --unix PATH'
    elif [ -z "$host" ] && [ -t 1 ]; then
        echo "$me: $1 needs a broker: name its host by -h HOST (without it standard output goes to the broker, and here it is a terminal)" >&2
        return 2
    fi
}

# Whether a word is UTF-8, as the words of a program are; so it is said to be where nothing can tell.
is_text() {
    ! command -v iconv > /dev/null 2>&1 || printf %s "$1" | iconv -f UTF-8 -t UTF-8 > /dev/null 2>&1
}

# The words joined by commas, each behind one.
listed() {
    local word
    for word in "$@"; do printf ',%s' "$word"; done
}

# Opens the connection: `from` is the descriptor that the broker's bytes come by, `to` the one that goes to it.
open_connection() {
    local address
    if [ "$tls" = 0 ] && [ -z "$socket" ] && [ ${#plain[@]} = 0 ]; then
        port=${port:-1883}
        if ! { exec {from}<> "/dev/tcp/$host/$port"; } 2> /dev/null; then
            echo "$me: no connection to $(in_brackets "$host"):$port" >&2
            return 3
        fi
        to=$from
        return
    fi
    if ! command -v socat > /dev/null 2>&1; then
        echo "$me: TLS, --unix, -A and --nodelay need socat, which isn't on the path" >&2
        return 2
    fi
    if [ -n "$socket" ]; then
        address=UNIX-CONNECT:$socket
    elif [ "$tls" = 1 ]; then
        # The certificate's name is looked at, unless an empty one is said to be enough; who signed it is looked at in any case.
        # (what is said of the name to the server is a host's name, never an address)
        [ "$insecure" = 0 ] || secure+=(commonname=)
        if is_address "$host"; then secure+=(no-sni=1); else secure+=("snihost=$host"); fi
        address=OPENSSL:$(in_brackets "$host"):${port:-8883}$(listed "${secure[@]}" "${plain[@]}")
    else
        address=TCP:$(in_brackets "$host"):${port:-1883}$(listed "${plain[@]}")
    fi
    coproc socat { exec socat - "$address"; }
    joining=$socat_PID
    # (a program in the background has none of a coproc's own)
    local reads=${socat[0]} writes=${socat[1]}
    exec {from}<&"$reads" {to}>&"$writes" {reads}<&- {writes}>&-
}

# A signal that came while the program ran.
caught=''
end_running() {
    caught=$1
    kill -TERM "$running" 2> /dev/null || true
}

# Writes what the broker sends to standard output in the chunks that the program's relay makes of it, and a chunk of no bytes
# each second.
send_chunks() {
    tick 2> /dev/null &
    exec "$1" relay <&"$from"
}
tick() {
    local never=''
    exec < /dev/null {from}<&-
    [ "$to" = "$from" ] || exec {to}>&-
    exec {never}<> <(:)
    while :; do
        read -r -t 1 -u "$never" || true
        printf '\0\0' || exit
    done
}

# The program's own words for the time: where there is a keep alive or a limit, it reads chunks.
take_time() {
    [ "$1" = pub ] || keep_alive=${keep_alive:-60}
    timing=()
    if [ "${keep_alive:-0}" != 0 ] || [ -n "$limit" ]; then
        timing=(--chunks -k "${keep_alive:-0}")
        [ -z "$limit" ] || timing+=(-W "$limit")
    fi
}

# Opens a connection, runs the program on it with the first of its words and those in `rest`, and ends with its status.
run_once() {
    local program=$1 word=$2 from='' to='' chunks='' shown='' showing='' relaying='' joining='' running='' status=0 signal
    local words=("${timing[@]}" "${counting[@]}")
    open_connection || return
    if [ ${#timing[@]} != 0 ]; then
        exec {chunks}< <(send_chunks "$program")
        relaying=$!
    fi
    if [ "$word" = sub ] && [ "$shows_itself" = 0 ]; then
        exec {shown}> >(exec cat)
        showing=$!
        words+=(-o "/dev/fd/$shown")
    fi
    words+=("${rest[@]}")
    caught=''
    # shellcheck disable=SC2064
    for signal in TERM INT HUP; do trap "end_running $signal" "$signal"; done
    "$program" "$word" "${words[@]}" <&"${chunks:-$from}" >&"$to" &
    running=$!
    [ -z "$caught" ] || kill -TERM "$running"
    wait "$running" || status=$?
    [ -z "$caught" ] || wait "$running" 2> /dev/null || true
    trap - TERM INT HUP
    [ "$to" = "$from" ] || exec {to}>&-
    exec {from}>&-
    if [ -n "$relaying" ]; then
        exec {chunks}<&-
        kill "$relaying" 2> /dev/null || true
    fi
    if [ -n "$joining" ] && [ "$retries" = 1 ]; then
        kill "$joining" 2> /dev/null || true
        wait "$joining" 2> /dev/null || true
    fi
    if [ -n "$shown" ]; then
        exec {shown}>&-
        wait "$showing" || status=1
    fi
    [ -z "$caught" ] || kill -"$caught" "$BASHPID"
    return "$status"
}

# What the program told of the count of messages: 0 where none is left.
take_left() {
    local left=''
    read -r -t 1 -u "$1" left || return 0
    [ "$left" != 0 ] || return
    rest[count_at]=$left
}

# Runs it again and again, with pauses that grow from one second to 30, while the connection is lost.
run_again() {
    local pause=1 since status tells=''
    if [ -n "$count_at" ]; then
        exec {tells}<> <(:)
        counting=(--left "/dev/fd/$tells")
    fi
    while :; do
        since=$SECONDS status=0
        run_once "$@" || status=$?
        [ "$status" = 3 ] || return "$status"
        [ -z "$tells" ] || take_left "$tells" || return 3
        [ $((SECONDS - since)) -lt 60 ] || pause=1
        if [ -n "$limit" ] && [ $((limit - (SECONDS - since))) -le "$pause" ]; then return 27; fi
        echo "$me: connects again in $pause s" >&2
        sleep "$pause"
        pause=$((pause < 16 ? pause * 2 : 30))
        [ -z "$limit" ] || limit=$((limit - (SECONDS - since)))
        take_time "$2"
        timing+=(--again)
    done
}

# Runs a program with the first of its words, pub or sub, and those in `rest` on a connection that it has for itself, and
# ends with its status. What sub shows goes to standard output as it came, unless the words name a file; what pub publishes
# may be standard input, and a message that isn't UTF-8, which a program can't take as a word, is a file to it. At TERM, INT
# and HUP the program ends too, and the connection with it; then this ends by that signal.
run_connected() {
    local given='' message='' timing=() counting=()
    exec {given}<&0
    take_time "$2"
    if [ "$2" = pub ] && [ -n "$message_at" ] && ! is_text "${rest[message_at]-}"; then
        exec {message}< <(printf %s "${rest[message_at]}")
        rest[message_at - 1]=-f
        rest[message_at]=/dev/fd/$message
    fi
    case $2:$from_input:$content in
        pub:all:* | pub:lines:) rest=(-f "/dev/fd/$given" "${rest[@]}") ;;
    esac
    if [ "$retries" = 1 ]; then run_again "$@"; else run_once "$@"; fi
}
