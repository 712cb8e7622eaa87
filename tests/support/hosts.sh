# What tests/hosts/*.sh share, beside callers.sh: a source package, and runs of a program by an unchanged runtime and by one with
# the library, whose output is kept in files of the room.
slides=0
all_slides=0

# Fetches the sources of a package of Debian into the room, by lists of its own: those of the machine stay as they are. Prints the
# path of the archive, whose name has this pattern.
fetch_sources() {
    local types=/etc/apt/sources.list.d/debian.sources apt
    command -v apt-get >/dev/null && [ -f "$types" ] || return
    mkdir -p "$room/apt/lists/partial" "$room/apt/archives/partial"
    sed 's/^Types: deb$/Types: deb-src/' "$types" >"$room/apt/debian.sources"
    apt=(timeout 120 apt-get -q -o "Dir::Etc::sourcelist=$room/apt/debian.sources" -o Dir::Etc::sourceparts=-
        -o "Dir::State::lists=$room/apt/lists" -o "Dir::Cache=$room/apt" -o Acquire::Retries=1)
    (cd "$room/apt" && "${apt[@]}" update && "${apt[@]}" source --download-only --tar-only "$1") >"$room/said" 2>&1 || return
    find "$room/apt" -name "$2"
}

# Sets `archive` to this path, or where it is empty to that of the package's fetched sources. Where they, or tools to build them,
# can't be had, all is skipped.
find_sources() {
    local tool
    for tool in make ar; do command -v "$tool" >/dev/null || { skip "there is no $tool"; end; }; done
    archive=${1:-$(fetch_sources "$2" "$3")}
    [ -f "$archive" ] || { skip "Debian's source package of $4 can't be fetched"; end; }
    archive=$(readlink -f -- "$archive")
}

# Sets `slides` to how often the library slid the heap of a run, and takes what told so out of the output.
take_slides() {
    slides=$(grep -c "Slid by libpcompact, $1 workers" "$room/slid-errors")
    all_slides=$((all_slides + slides))
    sed -zi 's/Slid by libpcompact, [0-9]* workers\n//g' "$room/slid-errors"
}

# Whether that printed what the unchanged runtime did.
is_same() {
    cmp "$room/plain" "$room/slid" && cmp "$room/plain-errors" "$room/slid-errors"
}

# Whether a run with compactions had some, and printed the same.
is_same_slid() {
    run_compacting "$@"
    [ "$slides" -gt 0 ] && is_same
}

# Counts the compactions of a kind of program, and says how many there were.
tell() {
    echo "$1: $all_slides compactions by the library"
    all_slides=0
}
