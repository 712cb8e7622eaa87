# Which program fits the sources as they stand: what the scripts pcompact, prove, install and test share.
# A script sets `top`, the folder of the repository, and reads this file.
#
# dist/ and out/pcompact/ each hold a program and a stamp, whose lines are a word and what it stands for:
#   sources CHECKSUM    of crates.txt, HANDLES, and the code and specs of each crate that doesn't only test
#   program CHECKSUM    of the program beside the stamp
#   kit TEXT            the Rattle kit that proved and built it
#   needs TEXT          the system that it runs on
# dist/ and out/pcompact_c/ each hold the library for C, its header, and a stamp that has of these sources and kit, too:
#   library CHECKSUM    of libpcompact.a beside the stamp
#   header CHECKSUM     of pcompact.h beside the stamp, which is that of c/
#   around CHECKSUM     of what is C in the library

line='
'

# Runs a command, in the folder of the repository, on the folders of code and specs.
over_sources() (
    cd -- "$top" || exit
    for crate in crates/*; do
        case $crate in *_tests | *_samples) continue ;; esac
        for folder in "$crate/src" "$crate/specs"; do
            [ ! -d "$folder" ] || set -- "$@" "$folder"
        done
    done
    "$@"
)

# Prints the path and checksum of each file of code and specs below these folders. A tool that fails names a file that isn't
# there, by which the last one fails.
sum_files() {
    { find -L "$@" -type f '(' -name '*.rt' -o -name '*.antt' ')' -print0 || printf '/dev/null/find\0'; } |
        { LC_ALL=C sort -z || printf '/dev/null/sort\0'; } | xargs -0 sha256sum
}

# Prints the checksum of what is read.
sum_only() {
    total=$(sha256sum) && printf '%s\n' "${total%% *}"
}

# Prints the checksum of the sources as they stand. Fails where one of them can't be read.
sources_sum() {
    uses=$(sed '/^[^a-z]/d; /^$/d; /^[a-z_]*_\(tests\|samples\)[ :]/d' "$top/crates.txt") &&
        uses=$(printf '%s\n' "$uses" | LC_ALL=C sort) && handles=$(cat "$top/HANDLES") && files=$(over_sources sum_files) &&
        printf '%s\n' "$uses" "$handles" "$files" | sum_only
}

# Prints the checksum of the files of C in the library, and of what they include but pcompact.h.
around_sum() {
    files=$(cd -- "$top/c" && sha256sum heap.[ch] in_place.c lent.[ch] segments.c slide.c freestanding/*.h) 2>/dev/null && printf '%s\n' "$files" | sum_only
}

# Prints what the stamp of a folder has behind a word.
stamped() {
    while read -r word text; do
        [ "$word" != "$2" ] || printf '%s\n' "$text"
    done 2>/dev/null <"$top/$1/stamp"
}

# Prints the checksum of a file of the repository, or nothing where there is none.
file_sum() {
    [ ! -e "$top/$1" ] || sum_only <"$top/$1"
}

# Whether a folder's program was built from sources of this checksum, is the one that its stamp names, and starts here.
# Else `why` is the reason. Status 2 where that can't be found out.
fits() {
    why="$1/pcompact wasn't built from these sources"
    [ "$2" = "$(stamped "$1" sources)" ] || return 1
    why="$1/pcompact can't be read here"
    total=$(file_sum "$1/pcompact" 2>/dev/null) || return 2
    why="$1/pcompact isn't the program of its stamp"
    [ "$total" = "$(stamped "$1" program)" ] || return 1
    ! "$top/$1/pcompact" --version >/dev/null 2>&1 || return 0
    why="$1/pcompact doesn't start on this machine (it needs $(stamped "$1" needs))"
    [ "$(ulimit -v)" != unlimited ] || return 1
    why="$why, or not in the memory that ulimit -v allows"
    return 2
}

# Sets `sum`, the checksum of the sources, or else `why` they have none here.
take_sum() {
    sum=$(sources_sum 2>&1) && sum=${sum##*"$line"} && return
    why="the sources have no checksum here: ${sum%%"$line"*}"
    return 2
}

# Finds the program that fits the sources: out/pcompact if it was proved here, or dist. Sets `folder`, or else `why`. Status 2
# where it can't be found out; where none fits, what the script pcompact has kept goes.
find_program() {
    take_sum || return
    for folder in out/pcompact dist; do
        fits "$folder" "$sum" && return
        [ $? = 1 ] || return 2
    done
    rm -f -- "$top/out/pcompact/found" 2>/dev/null
    return 1
}

# Prints where the program is that fits the sources, or why there is none.
program_path() {
    find_program && printf '%s\n' "$top/$folder/pcompact" && return
    printf '%s\n' "$why" >&2
    return 1
}

# Whether a folder's library was built from sources of this checksum, and it and its header are those that the stamp names.
# Else `why` is the reason.
fits_library() {
    why="$1/libpcompact.a wasn't built from these sources"
    [ "$2" = "$(stamped "$1" sources)" ] && [ "$(around_sum)" = "$(stamped "$1" around)" ] || return 1
    why="$1/libpcompact.a isn't the library of its stamp"
    [ -f "$top/$1/libpcompact.a" ] && [ "$(file_sum "$1/libpcompact.a")" = "$(stamped "$1" library)" ] || return 1
    why="$1/pcompact.h isn't c/pcompact.h"
    [ "$(file_sum "$1/pcompact.h")" = "$(stamped "$1" header)" ] && cmp -s "$top/$1/pcompact.h" "$top/c/pcompact.h"
}

# Finds the library that fits the sources: out/pcompact_c if it was proved here, or dist. Sets `library`, or else `why`.
find_library() {
    take_sum || return
    for library in out/pcompact_c dist; do
        ! fits_library "$library" "$sum" || return 0
    done
    return 1
}

# Prints the folder of the library that fits the sources, or why there is none.
library_path() {
    find_library && printf '%s\n' "$top/$library" && return
    printf '%s\n' "$why" >&2
    return 1
}
