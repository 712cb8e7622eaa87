# What the scripts install and uninstall share. They set `top`, the folder of the repository, and `does`, which says what they
# do, and read this file.

# What ./uninstall reads below the prefix: lines `file CHECKSUM PLACE`, and `folder PLACE` for each that ./install made. A
# PLACE is relative to the prefix, `.` for the prefix itself; that of a folder above it is a whole path.
record=libexec/pithondlu/installed
line='
'

usage() {
    cat <<USAGE
usage: ./${0##*/} [--prefix FOLDER]

$does
The folder is ~/.local where no other is named.
USAGE
}

misused() {
    usage >&2
    exit 2
}

# Ends with a status, and says why in one line.
fail() {
    printf '%s: %s\n' "${0##*/}" "$2" >&2
    exit "$1"
}

# Reads the words of the call, and sets `prefix`: the whole path of the folder, without links; empty for the root folder.
read_words() {
    prefix=${HOME:+$HOME/.local}
    while [ $# != 0 ]; do
        case $1 in
        --help)
            usage
            exit
            ;;
        # No shell puts the home folder there.
        --prefix='~'/*) prefix=${HOME:-}/${1#*/} ;;
        --prefix=*) prefix=${1#*=} ;;
        --prefix)
            [ $# != 1 ] || misused
            prefix=$2
            shift
            ;;
        *) misused ;;
        esac
        shift
    done
    [ -n "$prefix" ] || misused
    prefix=$(readlink -m -- "$prefix" && echo .) || fail 1 "the folder can't be found"
    prefix=${prefix%"$line."}
    prefix=${prefix%/}
    case $prefix in *"$line"*) fail 2 'a folder with a line break in its path is not taken' ;; esac
}

# Waits while another call of these scripts is at work, where files can be locked.
take_turn() {
    exec 9<"$top/share/prefix.sh"
    flock 9 2>/dev/null || :
}

# The checksum of a file.
sum_of() {
    sha256sum <"$1" | cut -d ' ' -f 1
}
