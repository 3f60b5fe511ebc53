# The programs by their words, what each is called with, and the help. ./mqtt5 and what ./mqtt5 dist makes read this file, and
# connect.sh before; `say_words`, which names all words, is theirs.
# shellcheck shell=bash
# shellcheck disable=SC2154

# shellcheck disable=SC2034
programs=(mqtt5_program mqtt5_player mqtt5_network_player mqtt5_show mqtt5_pubsub)

say_programs() {
    cat << 'END'
mqtt5 drive LIMIT     runs a script of bytes and requests on a client of so many packet identifiers
mqtt5 world LIMIT     plays a script of a client and its broker, with packets between them
mqtt5 bytes LIMIT     the same over two streams of bytes
mqtt5 network         plays a script of a broker and its clients, from publishers to subscribers
mqtt5 bench           tries the vectors
mqtt5 show OPTIONS    prints each packet of a capture, one direction's bytes, as a line
mqtt5 pub OPTIONS     publishes to a broker; mqtt5 pub --help has the options
mqtt5 sub OPTIONS     subscribes at a broker; mqtt5 sub --help has the options
mqtt5 broker OPTIONS  is a broker on this machine; mqtt5 broker --help has the options
END
}

# Which program a word is for.
program_of() {
    case $1 in
        pub | sub) echo mqtt5_pubsub ;;
        world | bytes) echo mqtt5_player ;;
        network) echo mqtt5_network_player ;;
        show) echo mqtt5_show ;;
        broker) echo mqtt5_broker ;;
        *) echo mqtt5_program ;;
    esac
}

# How a word is called.
usage_of() {
    case $1 in
        drive | world | bytes) echo "usage: mqtt5 $1 LIMIT (a number of 1 to 65535)" ;;
        show) echo 'usage: mqtt5 show [--hex] [--json] [--limit N]' ;;
        pub) echo 'usage: mqtt5 pub -h HOST -t TOPIC -m MESSAGE (mqtt5 pub --help has all options)' ;;
        sub) echo 'usage: mqtt5 sub -h HOST FILTER.. (mqtt5 sub --help has all options)' ;;
        *) echo "usage: mqtt5 $1" ;;
    esac
}

say_pub() {
    cat << 'END'
usage: mqtt5 pub -h HOST -t TOPIC -m MESSAGE
Publishes to a broker.

  -t, --topic TOPIC       the topic
  -m, --message MESSAGE   the message
  -f, --file FILE         a file that is the message
  -s, --stdin-file        standard input is the message
  -l, --lines, --stdin-line
                          each line of standard input is a message, or each line of the file of -f
  -n, --null-message      an empty message
  -M, --max-inflight COUNT
                          of lines at QoS 1 and 2, how many are sent ahead of their acks, else 20
  -q, --qos QOS           the quality of service: 0, which it is without, 1 or 2
  -r, --retain            the broker retains the message
END
    say_options
}

say_sub() {
    cat << 'END'
usage: mqtt5 sub -h HOST FILTER..
Subscribes at a broker, and shows what comes, a line each.

  -t, --topic FILTER      a topic filter; may be given often, and beside others without -t
  -q, --qos QOS           the greatest quality of service of what comes: 0, which it is without, 1 or 2
  -U, --unsubscribe FILTER
                          a filter whose subscription ends; may be given often
  -C COUNT                ends after so many messages
  -W SECONDS              ends after this time, with status 27
  -E                      ends once it is subscribed, and shows nothing
  -R                      shows no message that the broker had retained
  -T, --filter-out FILTER
                          shows no message whose topic matches this; may be given often
  -v, --verbose           the topic and a space before each message
  -o, --output FILE       messages go to this file, which is made anew
  -N, --no-newline        no newline behind a message there
  -F FORMAT               messages by a format, as of mosquitto_sub: %t the topic, %p the message ..
  --pretty                JSON of a format in several lines
  --escape                messages as text, other bytes escaped, wherever they go
END
    say_options
}

# The options of both.
say_options() {
    cat << 'END'

  -h, --host HOST         the broker's host; without it, -L and --unix, standard input and output are the broker's
  -p, --port PORT         its port, else 1883, with TLS 8883
  -L, --url URL           mqtt://[NAME[:PASSWORD]@]HOST[:PORT][/TOPIC], or mqtts:// with TLS
  --unix PATH             a socket of the file system in place of a host
  -A ADDRESS              the address to connect from
  --nodelay               nothing is held back to be sent together
  --tls                   TLS, also by each of the next five
  --cafile FILE, --capath FOLDER
                          which certificates are trusted, else those that the system trusts
  --cert FILE, --key FILE
                          the client's own certificate and key
  --insecure              the broker's certificate may have any name
  -k, --keepalive SECONDS the longest time without a packet of the client: of sub 60, which 0 turns off, and of pub 0
  --retry                 sub: connects again where the connection is lost, with growing pauses

  -i, --id ID             the client identifier; without it the broker gives one
  -I, --id-prefix PREFIX  it is this and the number of the process
  -u, --username NAME     the user name
  -P, --pw PASSWORD       the password
  -c, --disable-clean-session
                          goes on with the broker's session of this client, which the broker keeps
  -x, --session-expiry-interval SECONDS
                          how long the broker keeps the session
  --store FILE            with -c: keeps the client's session in this file over the end of the process, and goes on with it
  --will-topic TOPIC      the topic of what the broker publishes once the connection is lost
  --will-payload MESSAGE  its message, else empty
  --will-qos QOS          its quality of service, else 0
  --will-retain           the broker retains it
  -D, --property COMMAND PROPERTY VALUE
                          a property of connect, will, publish, subscribe or unsubscribe, by its name in MQTT 5.0 in small
                          letters, as message-expiry-interval; of a user-property its name and its value; often
  --help                  this text

docs/PROGRAM.md of the sources says more of each.
END
}

# Whether `show` takes these words: each of its options at most once.
is_show() {
    local given=' '
    while [ $# -gt 0 ]; do
        [[ $1 =~ ^--(hex|json|limit)$ && $given != *" $1 "* ]] || return
        given="$given$1 "
        if [ "$1" = --limit ]; then
            [[ ${2-} =~ ^[0-9]+$ ]] || return
            shift
        fi
        shift
    done
}

# Whether a program takes these words; of a client's own words it says so itself.
is_called_well() {
    case $1 in
        drive | world | bytes) [ $# = 2 ] && [[ $2 =~ ^0*[1-9][0-9]{0,4}$ ]] && [ "$((10#$2))" -le 65535 ] ;;
        network | bench) [ $# = 1 ] ;;
        show) shift && is_show "$@" ;;
        *) [ $# -gt 1 ] ;;
    esac
}

# Ends where the words ask for help, and where nothing takes them: so with nothing built.
answer_words() {
    case ${1-} in
        --help | -h | help)
            say_words
            exit
            ;;
        drive | world | bytes | network | bench | show | pub | sub) ;;
        # (its own program says so)
        broker) return ;;
        *)
            [ -z "${1-}" ] || echo "$me: no word '$1'" >&2
            say_words >&2
            exit 2
            ;;
    esac
    case $1:${2-} in
        pub:* | sub:*) ;;
        *:--help | *:-h)
            usage_of "$1"
            exit
            ;;
    esac
    if ! is_called_well "$@"; then
        usage_of "$1" >&2
        exit 2
    fi
    case $1 in pub | sub) answer_client "$@" ;; esac
}

# The same for the words of a client, whose connection `take_connection` then has.
answer_client() {
    take_connection "${@:2}" || exit
    if [ "$asks_help" = 1 ]; then
        "say_$1"
        exit
    fi
    check_connection "$1" || exit
}

# Runs a program that is built on the words that `answer_words` let pass, and ends with its status: a client by itself where
# the words name a broker's host.
run_program() {
    local program=$1
    shift
    case ${1-} in
        pub | sub)
            if [ -n "$host" ]; then
                run_connected "$program" "$1" && exit || exit
            fi
            exec "$program" "$1" "${rest[@]}"
            ;;
        broker) exec "$program" "${@:2}" ;;
    esac
    exec "$program" "$@"
}
