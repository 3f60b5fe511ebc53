# The libraries for C, which are the client and the broker: where they are built, how they are installed, and what the packages over
# the client need; and the server over the broker. ./mqtt5, ./check and the tests of these read this file.
# shellcheck shell=bash

library_version=0.1.0

# ---- Where they are built: the one place from which all take the archives. ----

# The libraries of a repository, by their crates.
library_names() {
    local name
    for name in mqtt5_c mqtt5_broker_c; do
        [ ! -d "$1/crates/$name" ] || echo "$name"
    done
}

# The folder of a repository's libraries: beside the checkout, or among the temporary files where that may not be written. It
# has a copy of the crates that they stand on, since rt lib takes no library that rt ci left in a crate's out/. It
# can't stand in the checkout, also where git ignores it: rt ci takes no other copy of its crates below it.
library_folder() {
    if [ -d "$1.c_library" ] || [ -w "$(dirname "$1")" ]; then
        echo "$1.c_library"
    else
        echo "${TMPDIR:-/tmp}/c_library-$(id -u)${1//\//-}"
    fi
}

# The archive of a library: the repository, and its crate, else the client's.
library_archive() {
    local name=${2:-mqtt5_c}
    echo "$(library_folder "$1")/crates/$name/out/lib$name.a"
}

# The crates that a library stands on, and its own.
library_crates() {
    local name
    for name in $(sed -n "s/^$2 staticlib: //p" "$1/crates.txt") "$2"; do
        [ ! -d "$1/crates/$name" ] || echo "$name"
    done
}

# Brings the copy to what the repository has. What didn't change stays as it is, with what was built of it.
lay_library() {
    local top=$1 folder name part crates
    folder=$(library_folder "$top")
    crates=$(for name in $(library_names "$top"); do library_crates "$top" "$name"; done | sort -u)
    mkdir -p "$folder/crates" || return
    if [ ! -O "$folder" ]; then
        echo "$folder is someone else's" >&2
        return 1
    fi
    for name in $crates; do
        mkdir -p "$folder/crates/$name" || return
        for part in src specs proofs; do
            ! diff -r "$top/crates/$name/$part" "$folder/crates/$name/$part" > /dev/null 2>&1 || continue
            rm -rf "${folder:?}/crates/$name/$part"
            [ ! -d "$top/crates/$name/$part" ] || cp -R "$top/crates/$name/$part" "$folder/crates/$name" || return
        done
    done
    cp "$top/HANDLES" "$folder" || return
    grep -E "^($(tr '\n' '|' <<< "$crates" | sed 's/|*$//'))( staticlib)?:" "$top/crates.txt" > "$folder/crates.txt"
}

# What a library is built of: the copy's files, and the kit.
library_sum() {
    local crates
    crates=$(library_crates "$1" "$2")
    {
        rt version < /dev/null
        cd "$(library_folder "$1")" && cat HANDLES && grep -E "^($(tr '\n' '|' <<< "$crates" | sed 's/|*$//'))( staticlib)?:" crates.txt
        # shellcheck disable=SC2086
        cd crates && find $crates -name out -prune -o -type f -print0 | LC_ALL=C sort -z | xargs -0 sha256sum
    } 2> /dev/null | sha256sum
}

is_library_built() {
    [ -f "$(library_archive "$1" "$2")" ] && [ "$(cat "$(library_folder "$1")/$2.sum" 2> /dev/null)" = "$(library_sum "$1" "$2")" ]
}

# Proves and builds the libraries, or the one that is named, with so many jobs, where they aren't there. rt waits where another run
# builds one.
build_library() {
    local top=$1 jobs=$2 name folder status=0
    folder=$(library_folder "$top")
    lay_library "$top" || return
    for name in ${3:-$(library_names "$top")}; do
        ! is_library_built "$top" "$name" || continue
        (cd "$folder/crates/$name" && exec rt lib --jobs "$jobs" < /dev/null) &
        # shellcheck disable=SC2064
        trap "kill $! 2> /dev/null" TERM INT
        wait $! || status=$?
        trap - TERM INT
        [ "$status" = 0 ] || return "$status"
        library_sum "$top" "$name" > "$folder/$name.sum"
    done
}

# ---- The server over the broker. ----

server_of() { echo "$(library_folder "$1")/mqtt5_broker"; }

# Compiles it, where what it is made of is newer.
build_server() {
    local archive made file
    archive=$(library_archive "$1" mqtt5_broker_c)
    made=$(server_of "$1")
    for file in "$archive" "$1"/c/broker*.[ch] "$1/c/mqtt5_broker.h"; do
        if [ ! "$made" -nt "$file" ]; then
            crypt=$(crypt_words) link_server "$1" "$archive" "$made.new" -O2 && mv "$made.new" "$made"
            return
        fi
    done
}

# libcrypt for the linker: within the program where the archive is there, since other systems have it under another number. (The
# address sanitizer only knows the one that isn't.)
crypt_words() {
    local archive
    archive=$("${CC:-cc}" -print-file-name=libcrypt.a)
    if [ -f "$archive" ]; then echo "$archive"; else echo -lcrypt; fi
}

# Whether the compiler has it.
has_crypt() {
    local made status=0
    made=$(mktemp)
    printf '#include <crypt.h>\nstruct crypt_data d;\nint main(void) { return !crypt_r("", "", &d); }\n' |
        "${CC:-cc}" -D_GNU_SOURCE -x c -o "$made" - -x none "$(crypt_words)" > /dev/null 2>&1 || status=$?
    rm -f "$made"
    return "$status"
}

# Compiles it: the repository, the archive, the program, and more words of the compiler.
link_server() {
    "${CC:-cc}" -std=c11 -Wall -Wextra "${@:4}" -o "$3" "$1"/c/broker*.c "$2" "$(dirname "$(rt doc)")/c/liblibc_c.a" "${crypt:--lcrypt}"
}

# Its help, and whether it has these options: their values it judges itself.
server_help() { sed -n '/^static const char help/,/;$/s/^ *"\(.*\)\\n";*$/\1/p' "$1/c/broker_options.c"; }
is_server() {
    while [ $# -gt 0 ]; do
        case $1 in
            -q | --quiet | --discard-oldest) ;;
            -p | --port | --bind | --users | --acl-file | --wait | --max-connections | --max-packet-size | --max-inflight | --max-sessions | \
                --max-subscriptions | --max-shared | --max-retained | --max-queued-messages | --max-queued-bytes | --max-topic-alias | \
                --max-keepalive)
                [ $# -gt 1 ] || return
                shift
                ;;
            *) return 1 ;;
        esac
        shift
    done
}

# ---- How they are installed. ----

# Puts what is built below a folder: of each library the headers, a pkg-config file, and the archive as a static and as a shared
# library. The kit's C part, which calls malloc, realloc and free, is in both, so a program names one file. The words: the
# repository, the folder.
install_library() {
    local name
    mkdir -p "$2/include" "$2/lib/pkgconfig" || return
    for name in $(library_names "$1"); do
        [ -f "$(library_archive "$1" "$name")" ] || continue
        # (the broker's isn't built here: one of other crates is left out)
        [ "$name" = mqtt5_c ] || is_library_built "$1" "$name" || continue
        install_one "$1" "$2" "$name" || return
    done
}

install_one() {
    local top=$1 prefix=$2 name=$3 kit made status=0
    local cc=${CC:-cc} ar=${AR:-ar}
    kit=$(dirname "$(rt doc)")/c
    made=$(mktemp -d) || return
    # (an archive of objects, so that both are one)
    (cd "$made" && "$ar" x "$(library_archive "$top" "$name")" && "$ar" x "$kit/liblibc_c.a" &&
        "$ar" rcsD "lib$name.a" ./*.o &&
        "$cc" -shared -o "lib$name.so" -Wl,-soname,"lib$name.so" -Wl,--whole-archive "lib$name.a" -Wl,--no-whole-archive) &&
        cp --remove-destination "$made/lib$name.a" "$made/lib$name.so" "$prefix/lib" &&
        print_pkgconfig "$prefix" "$name" > "$prefix/lib/pkgconfig/$name.pc" || status=$?
    rm -rf "$made"
    case $name in
        mqtt5_c) cp "$top/c/mqtt5.h" "$top/c/mqtt5_names.h" "$prefix/include" || return ;;
        *) cp "$top/c/mqtt5_broker.h" "$prefix/include" || return ;;
    esac
    return "$status"
}

print_pkgconfig() {
    local what='Clients without sockets'
    [ "$2" = mqtt5_c ] || what='A broker without sockets'
    cat << END
prefix=$1
Name: $2
Description: $what of MQTT 5.0, proved
Version: $library_version
Libs: -L\${prefix}/lib -l$2
Cflags: -I\${prefix}/include
END
}

# ---- What the packages over the client need. ----

# Whether there is a cargo that compiles the Rust package over it, which wants 1.74.
has_cargo() {
    local version major minor
    version=$(cargo --version 2> /dev/null) || return
    IFS='. ' read -r _ major minor _ <<< "$version"
    [ "$major" -gt 1 ] || [ "$minor" -ge 74 ]
}

# Whether there is a Python that runs the Python package.
has_python() { python3 -c 'import sys, ctypes, ssl; sys.exit(sys.version_info < (3, 11))' > /dev/null 2>&1; }
