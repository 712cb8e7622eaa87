# What scripts share that build callers of the library for C. A script goes to the top of the repository first. Sets `room`, a
# folder that goes away at the end.
top=$PWD
. ./sources.sh
room=$(mktemp -d)
trap 'rm -rf "$room"' EXIT
passed=0
failed=0
skipped=0
sanitized=(-g -fsanitize=address,undefined -fno-sanitize-recover)

# Counts a command that must end with status 0, and shows what it says if it doesn't.
try() {
    if "$@" >"$room/said" 2>&1; then
        passed=$((passed + 1))
    else
        failed=$((failed + 1))
        echo "failed: $*"
        cat "$room/said"
    fi
}

# Counts what can't be tried here, and says why.
skip() {
    skipped=$((skipped + 1))
    echo "skipped: $1"
}

# The same under valgrind, which counts leaks as errors.
try_watched() {
    if command -v valgrind >/dev/null; then
        try valgrind -q --leak-check=full --error-exitcode=3 "$@"
    else
        skip "$* under valgrind, which isn't there"
    fi
}

# Sets `library` to the folder of the library that fits the sources. Where there is none, or no compiler, all is skipped.
find_needs() {
    if ! command -v "${CC:-cc}" >/dev/null; then
        skip "there is no C compiler"
    elif ! find_library; then
        skip "$why; ./prove pcompact_c builds it"
    else
        library=$top/$library
        return
    fi
    end
}

# Builds a program from these words of the C compiler.
build_c() {
    local program=$1
    shift
    try "${CC:-cc}" -std=c11 -Wall -Wextra -pedantic -Werror "-I$library" "$@" "$library/libpcompact.a" -o "$room/$program"
}

# Ends with the counts.
end() {
    [ "$skipped" = 0 ] && echo "$passed passed, $failed failed" || echo "$passed passed, $failed failed, $skipped skipped"
    [ "$failed" = 0 ]
    exit
}
