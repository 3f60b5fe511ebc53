# What ./mqtt5 and ./check need. What isn't there is told in one line on standard error with what to do: as an error where
# nothing can be proved without it, else as a warning. Both set `me`, their name, and `here`, the top of the repository,
# and then read this file.
# shellcheck shell=bash
# shellcheck disable=SC2154

# In kilobytes: the most memory that proving took, with four jobs; what the out/ folders take; and what can't be enough
# disk, since the four lowest libraries alone take more.
memory_taken=8700000
disk_taken=4200000
disk_least=1000000

lacking=0

warn() { echo "$me: warning: $1" >&2; }

lack() {
    echo "$me: $1" >&2
    lacking=1
}

# Ends the command where something is lacking.
stop_if_lacking() { [ "$lacking" = 0 ] || exit 2; }

gigabytes() { echo "$(($1 / 1000000)).$(($1 / 100000 % 10)) GB"; }

need_rt() {
    command -v rt > /dev/null 2>&1 ||
        lack "Rattle's command rt is not on the path: install the kit that README.md names, and put its rt there"
}

# Compares the kit's line with the README's.
warn_of_kit() {
    local wanted found
    # shellcheck disable=SC2016
    wanted=$(sed -n 's/.*`\(rattle-kit-[^`]*\)`.*/\1/p' "$here/README.md" | head -n 1)
    found=$(rt version < /dev/null 2> /dev/null | head -n 1)
    [ "$found" = "$wanted" ] ||
        warn "rt is of '$found', and this is proved with '$wanted': take that kit if a proof fails here"
}

# A compiler that compiles what tests/refused_memory needs, which is hours later. tests/c needs it too, and its sanitizer, and
# is skipped without.
need_cc() {
    local cc=${CC:-cc} made
    if ! command -v "$cc" > /dev/null 2>&1; then
        lack "the C compiler $cc is not on the path, and ${1:-tests/refused_memory} needs one: install gcc or clang, or name one in CC"
        return
    fi
    made=$(mktemp 2> /dev/null) || return 0
    "$cc" -O2 -shared -fPIC -o "$made" "$here/tests/refuse.c" > /dev/null 2>&1 ||
        lack "the C compiler $cc doesn't compile tests/refuse.c: install the C library's headers, or name another compiler in CC"
    rm -f "$made"
}

# Each crate's out/ is written, or made, and temporary files.
need_to_write() {
    local crate place
    for crate in "$here"/crates/*; do
        place=$crate
        [ ! -d "$crate/out" ] || place=$crate/out
        if ! [ -w "$place" ]; then
            lack "no right to write in $place, where what is built goes: get that right, or clone into a folder of your own"
            break
        fi
    done
    [ -w "${TMPDIR:-/tmp}" ] ||
        lack "no right to write in ${TMPDIR:-/tmp}, where temporary files go: name another folder in TMPDIR"
}

# In kilobytes, the least of what the machine has free, what a control group allows, and what the shell does.
free_memory() {
    {
        awk '/^MemAvailable:/ { print $2 }' /proc/meminfo
        awk '/^[0-9]+$/ { printf "%.0f\n", $1 / 1024 }' /sys/fs/cgroup/memory.max
        awk '{ printf "%.0f\n", $1 / 1024 }' /sys/fs/cgroup/memory/memory.limit_in_bytes
        ulimit -v | grep -x '[0-9]*'
    } 2> /dev/null | sort -n | head -n 1
}

# No error: the kit takes fewer jobs where memory is short.
warn_of_memory() {
    local free
    free=$(free_memory)
    [ "${free:-$memory_taken}" -ge "$memory_taken" ] ||
        warn "$(gigabytes "$free") of memory are free, and proving took up to $(gigabytes $memory_taken): with less it takes longer, or a job is killed; end other programs, and if it was killed run this again, which goes on from there"
}

# The processors that this may run on, or fewer by the quota of its control group.
processors() {
    local found quota period
    found=$(nproc)
    if read -r quota period 2> /dev/null < /sys/fs/cgroup/cpu.max && [ "$quota" != max ]; then
        quota=$((quota > period ? quota / period : 1))
        [ "$found" -le "$quota" ] || found=$quota
    fi
    echo "$found"
}

# How many jobs that take so many kilobytes each fit, beside something else that takes so many: one for each processor, and
# fewer where memory is short.
jobs_that_fit() {
    local most free
    most=$(processors)
    free=$(free_memory)
    if [ -n "$free" ] && [ "$(((free - ${2:-0}) / $1))" -lt "$most" ]; then most=$(((free - ${2:-0}) / $1)); fi
    echo $((most > 1 ? most : 1))
}

# `rt ci` plans so many proofs side by side as its own guess of their memory allows, and gives one that nothing else waits for
# several jobs. Where that guess holds processors back, this says how many there may be, each with one job, beside something
# else that takes so many kilobytes.
plan_jobs() {
    local free
    free=$(free_memory)
    if [ -n "$free" ] && [ "$free" -lt $(($1 + 4500000 * $(processors) * 100 / 85)) ]; then
        RT_JOBS=${RT_JOBS:-$(jobs_that_fit 3000000 "$1")}
        export RT_JOBS
    fi
}

free_disk() { df -Pk "$here" 2> /dev/null | sed -n '$s/.* \([0-9][0-9]*\)  *[0-9][0-9]*% .*/\1/p'; }

# What the out/ folders hold already, in kilobytes.
built_disk() { du -sk "$here"/crates/*/out 2> /dev/null | awk '{ all += $1 } END { print all + 0 }'; }

# Takes what is there already of what is built. An error only where the disk can't be enough.
need_disk() {
    local free wanted=$((disk_taken - $1)) least=$((disk_least - $1)) told
    free=$(free_disk)
    if [ "${free:-$wanted}" -ge "$wanted" ]; then
        return
    fi
    told="$(gigabytes "$free") are free on the disk of $here, and what is built takes $(gigabytes "$wanted")"
    if [ "$free" -lt "$least" ]; then
        lack "$told: make room, or clone to another disk"
    else
        warn "$told: the disk may fill, and the proving then fails; make room, or clone to another disk"
    fi
}
