# What ./run and ./sheet have in common: the folder that is asked for, and the program that is proved and built for it. Taken in by a script that has set
# `top`, the repository's own folder, and leaves no search path to cd.

. "$top/shell/build.sh"

# A seventeenth tag is one too many, and the program is to see it.
tag_numbers='00 01 02 03 04 05 06 07 08 09 10 11 12 13 14 15 16'

say() {
    printf '%s: %s\n' "${0##*/}" "$*" >&2
}

stop() {
    say "$@"
    exit 2
}

# Sets `folder`, a path that no command takes for an option, and `scratch`, a folder that goes when the script ends.
enter() {
    [ -d "$1" ] || stop "$1 is no folder"
    case $1 in
    /*) folder=$1 ;;
    *) folder=./$1 ;;
    esac
    command -v rt >/dev/null || stop "the Rattle kit's rt is not on the path"
    scratch=$(mktemp -d) || stop "no temporary folder"
    trap 'rm -rf "$scratch"' EXIT
    trap 'exit 2' HUP INT TERM
}

# Whether the folder holds a crate of tags: one tag alone is in tag.img.
is_crate() {
    [ ! -e "$folder/tag.img" ] || return 1
    for file in "$folder"/tag-[0-9][0-9].img; do
        [ ! -e "$file" ] || return 0
    done
    return 1
}

# The proofs take minutes, so each crate that is proved now is told as soon as it is: rt names it, and then says whether it is proved.
prove() {
    say "proving and building the program, where that is not done yet; from nothing it takes minutes"
    {
        build_program "$1"
        echo "$?" >"$scratch/status"
    } | while IFS= read -r line; do
        printf '%s\n' "$line" >>"$scratch/said"
        case $line in
        'crate '*': modules '*)
            crate=${line%%:*}
            crate=${crate#crate }
            ;;
        'logic=proved '*) printf 'rt: %s proved\n' "$crate" >&2 ;;
        esac
    done
    [ "$(cat "$scratch/status")" = 0 ] && return
    cat "$scratch/said" >&2
    stop "the program was not proved and built"
}
