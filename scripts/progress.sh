# Lines on standard error that tell how far the proving is: which crate of how many, and never a minute without a line.
# ./mqtt5 and ./check set `me`, their name, and `here`, the top of the repository, and then read this file.
# shellcheck shell=bash
# shellcheck disable=SC2154

# After so many seconds without a line there comes one.
quiet=50
due=0

tell() {
    echo "$me: $1" >&2
    due=$((SECONDS + quiet))
}

# How long ago a moment of SECONDS is.
since() {
    local seconds=$((SECONDS - $1))
    if [ "$seconds" -lt 120 ]; then
        echo "$seconds seconds so far"
    else
        echo "$((seconds / 60)) minutes so far"
    fi
}

# Hands each line of standard input to the one command, and calls the other when nothing was told for a while.
follow() {
    local line part='' status
    due=$((SECONDS + quiet))
    while true; do
        status=0
        IFS= read -r -t $((due > SECONDS ? due - SECONDS : 1)) line || status=$?
        part+=$line
        if [ "$status" = 0 ]; then
            "$1" "$part"
            part=''
        elif [ "$status" -le 128 ]; then
            break
        fi
        [ "$SECONDS" -lt "$due" ] || "$2"
    done
    [ -z "$part" ] || "$1" "$part"
}

# Each crate's libraries among the crates, and the crates in the order of crates.txt.
declare -A libraries=()
crates=()

read_crates() {
    local name rest
    crates=()
    while IFS=: read -r name rest; do
        name=${name%% *}
        case $name in '' | '#'*) continue ;; esac
        crates+=("$name")
        libraries[$name]=$rest
    done < "$here/crates.txt"
}

# The crates that one stands on, each after its own, and that one: the order in which they are proved.
order=()

put_in_order() {
    local library
    [[ " ${order[*]} " != *" $1 "* ]] || return 0
    for library in ${libraries[$1]}; do
        [ -z "${libraries[$library]+known}" ] || put_in_order "$library"
    done
    order+=("$1")
}

# The crates of `order`, those side by side that stand on the same number of others above one another, lowest first.
levels() {
    local name library
    local -A level=()
    for name in "${order[@]}"; do
        level[$name]=0
        for library in ${libraries[$name]}; do
            [ -z "${level[$library]+known}" ] || [ "${level[$library]}" -lt "${level[$name]}" ] || level[$name]=$((level[$library] + 1))
        done
        echo "${level[$name]} $name"
    done | sort -s -n -k 1,1 | awk '$1 != at { if (NR > 1) print ""; at = $1 } { printf "%s ", $2 } END { print "" }'
}

# What a first build takes, which comes first, and what answers sooner.
tell_first() {
    tell "proving ${#order[@]} crates${1:+ takes $1 here}, once${2:+; $2 answers in a minute or two, unproved}"
}

# ---- The lines of `rt lib`, crate by crate, which begin each with a line `library NAME`. ----

at='' began=0

# "proving NAME, 1 of 14".
place_of() {
    local number=0 name
    for name in "${order[@]}"; do
        number=$((number + 1))
        [ "$name" != "$1" ] || break
    done
    echo "proving $1, $number of ${#order[@]}"
}

begin() {
    at=$1 began=$SECONDS
    tell "$at"
}

hear_library() {
    printf '%s\n' "$1" >&3
    case $1 in
        'library '*': modules loaded='*) ;;
        'library '*) begin "$(place_of "${1#library }")" ;;
        'rt: '*waiting*) tell "${1#rt: }" ;;
    esac
}

still_library() { tell "${at:-looking at what changed}: $(since "$began")"; }

# Reads what a build says into a log.
tell_library() {
    exec 3> "$1"
    follow hear_library still_library
}

# Tells every so often that something goes on, until it is killed.
keep_telling() {
    began=$SECONDS
    # (a sleep that outlives this one keeps nothing open)
    while sleep "$quiet" > /dev/null 2>&1; do tell "$1: $(since "$began")"; done
}

# ---- The lines of `rt ci`, which proves `crates` side by side and tells where one is done. ----

declare -A done_with=()
proved=0 failed=0 stage=proofs after_proofs='proving tests, and trying wrong bodies'

# The crates whose libraries are all proved, and that aren't done.
next_crates() {
    local name library names=''
    for name in "${crates[@]}"; do
        [ -z "${done_with[$name]:-}" ] || continue
        for library in ${libraries[$name]}; do
            if [ -n "${libraries[$library]+known}" ] && [ "${done_with[$library]:-}" != proved ]; then
                continue 2
            fi
        done
        names+="${names:+, }$name"
    done
    echo "$names"
}

where_ci() {
    local names count="$proved of ${#crates[@]} crates proved"
    [ "$failed" = 0 ] || count+=", $failed not proved"
    names=$(next_crates)
    case $stage:$names in
        runs:*) echo "$count; running the programs and the tests" ;;
        *:) if [ "$failed" = 0 ]; then echo "$count; $after_proofs"; else echo "$count"; fi ;;
        *) echo "proving $names; $count" ;;
    esac
}

end_crate() {
    if [ -n "${libraries[$1]+known}" ] && [ -z "${done_with[$1]:-}" ]; then
        done_with[$1]=$2
        if [ "$2" = proved ]; then
            proved=$((proved + 1))
        else
            failed=$((failed + 1))
        fi
        tell "$(where_ci)"
    fi
}

hear_ci() {
    local line=${1#rt: }
    printf '%s\n' "$1" >&3
    case $1 in
        'rt: '*': its tests are NOT PROVED') tell "$line" ;;
        'rt: '*' NOT PROVED'*) end_crate "${line%% *}" failed ;;
        'rt: '*' proved' | 'rt: '*' is kept: '*) end_crate "${line%% *}" proved ;;
        'rt: '*': trying its must-fail edits ('*) tell "trying wrong bodies of ${line%%:*}${line##*edits}" ;;
        'rt: must-fail '* | 'rt: '*' ran, and wrote '*)
            [ "$stage" = runs ] || { stage=runs && tell "$(where_ci)"; }
            ;;
        'rt: note: '* | 'rt: warning: '* | 'rt: '*waiting*) tell "$line" ;;
    esac
}

still_ci() { tell "$(where_ci): $(since 0)"; }

# Reads what `rt ci` says into a log.
tell_ci() {
    tell "$(where_ci)"
    exec 3> "$1"
    follow hear_ci still_ci
}

# ---- A test, until there is the file of its end. ----

await_test() {
    at="running tests/$1" began=$SECONDS due=$((SECONDS + quiet))
    until [ -s "$2" ]; do
        sleep 0.2
        [ "$SECONDS" -lt "$due" ] || tell "$at: $(since "$began")"
    done
}
