# What a check takes, as a table: the whole of it, each test, the functions that rt ci tells of, and where that is wanted each
# crate, by `rt ci NAME` from nothing. And what a first build of ./mqtt5 takes, by those that were timed.
# ./mqtt5 and ./check set `here`, the top of the repository, and then read this file, with needs.sh and progress.sh.
# shellcheck shell=bash
# shellcheck disable=SC2154

times_page=$here/docs/TIMES.md

processor_name() { sed -n 's/^model name[^:]*: //p' /proc/cpuinfo 2> /dev/null | head -n 1; }

# The seconds of the processor that what `times` printed adds up to.
seconds_in() {
    awk '{ for (i = 1; i <= NF; i++) { split($i, part, "m"); all += 60 * part[1] + part[2] } } END { printf "%.0f\n", all }' "$1"
}

# ---- The table. ----

# The functions of a crate that rt told of, `-` where it took them from an earlier run.
functions_of() {
    awk -v crate="$2" '
        /^== / { ours = $2 == crate && NF == 2 }
        ours && match($0, /^logic=proved functions=[0-9]+/) { found = substr($0, 24, RLENGTH - 23) }
        END { print found == "" ? "-" : found }' "$1"
}

# Prints the rows of the crates by what rt ci said, with lines `NAME SECONDS PROCESSOR` of those that were timed alone.
print_crates() {
    local name
    echo '| | Functions | Seconds alone | of the processor |'
    echo '|---|---|---|---|'
    for name in "${crates[@]}"; do
        echo "$name $(functions_of "$1" "$name") $(grep "^$name " "$2" 2> /dev/null)"
    done | awk '
        { printf "| `%s` | %s | %s | %s |\n", $1, $2, $4 == "" ? "-" : $4, $5 == "" ? "-" : $5; all += $2; alone += $4; spent += $5 }
        END { printf "| all crates | %d | %s | %s |\n", all, alone ? alone : "-", spent ? spent : "-" }'
}

# Prints the rows of what ran beside the proofs and after them, by lines of a name and its seconds.
print_tests() {
    echo '| | Seconds of the processor |'
    echo '|---|---|'
    sed 's/^\(.*\) \([^ ]*\)$/| \1 | \2 |/' "$1"
}

# ---- Each crate alone. ----

# Copies the crates into a folder, each root file with a line of its own, so that rt takes nothing of them from an earlier run.
copy_anew() {
    local name root part mark
    mark="// $(date +%s%N)"
    mkdir -p "$1/crates" && cp "$here/crates.txt" "$here/HANDLES" "$1" || return
    for name in "${crates[@]}"; do
        mkdir "$1/crates/$name" || return
        for part in "$here/crates/$name"/*; do
            [ "${part##*/}" = out ] || cp -R "$part" "$1/crates/$name" || return
        done
        for root in "$1/crates/$name"/src/lib.rt "$1/crates/$name"/src/main.rt; do
            [ ! -f "$root" ] || echo "$mark" >> "$root"
        done
    done
}

# Has rt prove and try each crate alone, lowest first, over those below it, and prints `NAME SECONDS PROCESSOR` of each. What rt
# says goes to a file.
time_crates() {
    local folder=$1 log=$2 name at=0 telling spent TIMEFORMAT='%0R %0U %0S' status=0
    order=()
    for name in "${crates[@]}"; do put_in_order "$name"; done
    copy_anew "$folder" || return
    for name in "${order[@]}"; do
        at=$((at + 1))
        tell "timing $name, $at of ${#order[@]}"
        keep_telling "timing $name, $at of ${#order[@]}" &
        telling=$!
        spent=$({ time (cd "$folder" && rt ci "$name" < /dev/null >> "$log" 2>&1); } 2>&1) || status=1
        kill "$telling"
        awk -v name="$name" -v spent="$spent" 'BEGIN { split(spent, s, " "); print name, s[1], s[2] + s[3] }'
    done
    return "$status"
}

# ---- What a first build takes. ----

# The functions of crates, by docs/TIMES.md; nothing where it lacks one.
functions_in() {
    local name found all=0
    for name in "$@"; do
        found=$(sed -n "s/^| \`$name\` | \([0-9][0-9]*\) |.*/\1/p" "$times_page" 2> /dev/null)
        [ -n "$found" ] || return 0
        all=$((all + found))
    done
    echo "$all"
}

# "some 20 minutes" or "10 to 40 minutes": what a program takes that is built of nothing by so many jobs, where scripts/first_builds
# has it timed whole on this processor, or else on any; timed more than once, from the least to the most. What wasn't timed as
# this is built is a wider range: another program, by how many functions it has beside the one that was timed, other jobs,
# another processor, and a checkout in which something was built, of which rt may have kept much.
first_build_time() {
    local program=$1 jobs=$2 tree=$3 timed its_jobs=0 processor low=0 high=0 minutes found on ours theirs name
    local -a wanted
    order=()
    put_in_order "$program"
    wanted=("${order[@]}")
    timed=$(grep -o "^$program " "$here/scripts/first_builds" || grep -v -e '^#' "$here/scripts/first_builds")
    timed=${timed%% *}
    [ -n "$timed" ] || return 0
    processor=$(processor_name)
    grep -q "^$timed [0-9]* [0-9]* $processor\$" "$here/scripts/first_builds" || processor=''
    while read -r _ found minutes on; do
        [ "${processor:-$on}" = "$on" ] || continue
        its_jobs=$found
        [ "$low" != 0 ] && [ "$low" -le $((minutes * 60)) ] || low=$((minutes * 60))
        [ "$high" -ge $((minutes * 60)) ] || high=$((minutes * 60))
    done < <(grep "^$timed " "$here/scripts/first_builds")
    if [ "$timed" != "$program" ]; then
        [ -n "${libraries[$timed]+known}" ] || return 0
        order=()
        put_in_order "$timed"
        ours=$(functions_in "${wanted[@]}") theirs=$(functions_in "${order[@]}")
        order=("${wanted[@]}")
        [ -n "$ours" ] && [ "${theirs:-0}" -gt 0 ] || return 0
        low=$((low * ours * 2 / theirs / 3)) high=$((high * ours * 4 / theirs / 3))
    fi
    if [ "$jobs" -lt "$its_jobs" ]; then high=$((high * its_jobs / jobs)); else low=$((low * its_jobs / jobs)); fi
    if [ -z "$processor" ]; then low=$((low / 2)) high=$((high * 2)); fi
    for name in "$tree"/crates/*/out; do
        [ ! -d "$name" ] || low=0
    done
    if [ "$low" = "$high" ]; then
        echo "some $((low / 60)) minutes"
    else
        echo "$((low / 60 > 0 ? low / 60 : 1)) to $((high / 60 + 1)) minutes"
    fi
}
