# Where the wrong bodies stand, and whether each still fits the text that it changes. ./strength and ./check set `here`, the
# top of the repository, and then read this file.
# shellcheck shell=bash
# shellcheck disable=SC2154

# The folders of a crate's edits that stand there: those that ./check leaves out, and unless the second word is rest also
# those that it tries.
edit_folders() {
    local folder
    for folder in "$here/wrong-bodies/$1" "$here/crates/$1/must-fail"; do
        [ ! -d "$folder" ] || echo "$folder"
        [ "$2" != rest ] || break
    done
}

crates_with_edits() {
    local folder
    for folder in "$here"/crates/*; do
        [ -z "$(edit_folders "${folder##*/}" all)" ] || echo "${folder##*/}"
    done
}

# Whether an edit fits: the text that each of its pairs changes stands once in the file, as the pairs above left it.
fits() {
    local line file='' old='' rest pairs=0
    local -A texts=()
    while IFS= read -r line || [ -n "$line" ]; do
        case $line in
            'file: '*)
                file=$here/crates/$1/${line#file: }
                [ -f "$file" ] || return 1
                [ -n "${texts[$file]+read}" ] || texts[$file]=$(< "$file")
                ;;
            'old: '*) old=${line#old: } ;;
            'new:'*)
                [ -n "$old" ] && [ -n "$file" ] || return 1
                rest=${texts[$file]//"$old"/}
                [ $((${#texts[$file]} - ${#rest})) = ${#old} ] || return 1
                line=${line#new:}
                texts[$file]=${texts[$file]/"$old"/"${line# }"}
                old='' pairs=$((pairs + 1))
                ;;
        esac
    done < "$2"
    [ "$pairs" -gt 0 ] && [ -z "$old" ]
}

# Prints which edits of these crates don't fit, and a line 'N fit, M not'. Answers whether all fit.
tell_which_fit() {
    local name folder edit fit=0 others=0
    for name in "$@"; do
        for folder in $(edit_folders "$name" all); do
            for edit in "$folder"/*.edit; do
                if fits "$name" "$edit"; then
                    fit=$((fit + 1))
                else
                    others=$((others + 1))
                    echo "${edit#"$here/"} doesn't fit the text that it changes"
                fi
            done
        done
    done
    echo "$fit fit, $others not"
    [ "$others" = 0 ]
}
