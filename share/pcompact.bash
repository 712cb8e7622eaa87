# Completes the words of pcompact. Made by share/make from the help of the program.

# Finds which command the words before the cursor call: `command`, the options that it was `given`, how many arguments, and
# the `option` whose value is due. Some options have a value only behind `=`.
_pcompact_read() {
    local word open=
    command= given=' ' count=0 option= ended=
    for word in "${COMP_WORDS[@]:1:COMP_CWORD-1}"; do
        [[ $word != '=' ]] || option=${option:-$open}
        open=
        if [[ -n $option ]]; then
            [[ $word = '=' ]] || option=
        elif [[ -z $ended && $word = -- ]]; then
            ended=yes
        elif [[ -z $ended && $word = -* ]]; then
            given+="$word "
            case "$command $word" in
            'collect -w' | \
                'collect --workers' | \
                'collect --region-log' | \
                'collect --allowance' | \
                'verify --region-log' | \
                'verify --allowance' | \
                'summary --region-log' | \
                'summary --allowance' | \
                'order --region-log' | \
                'order --allowance' | \
                'map --width' | \
                'map --height' | \
                'map --svg' | \
                'map --region-log' | \
                'map --allowance' | \
                'record -w' | \
                'record --workers' | \
                'record --region-log' | \
                'record --allowance' | \
                'replay --region-log' | \
                'replay --allowance' | \
                'timeline --width' | \
                'timeline --svg' | \
                'timeline --html' | \
                'timeline --region-log' | \
                'timeline --allowance' | \
                'upgrade --to' | \
                'import --region-log' | \
                'import --allowance' | \
                'import --version' | \
                'import --classes' | \
                'import --histogram' | \
                'generate --words' | \
                'generate --live' | \
                'generate --region-log' | \
                'generate --seed' | \
                'generate --refs' | \
                'generate --version' | \
                'generate --allowance' | \
                'reduce --step') option=$word ;;
            'collect --progress' | \
                'verify --progress' | \
                'summary --progress' | \
                'order --progress' | \
                'map --color' | \
                'map --progress' | \
                'text --progress' | \
                'assemble --progress' | \
                'record --progress' | \
                'replay --progress' | \
                'timeline --color' | \
                'timeline --progress' | \
                'upgrade --progress' | \
                'import --progress' | \
                'compare --progress' | \
                'generate --progress' | \
                'reduce --progress') open=$word ;;
            esac
        elif [[ -z $command ]]; then
            command=$word
        else
            count=$((count + 1))
        fi
    done
    [[ $current != '=' ]] || option=${option:-$open}
}

# What the command takes: `options`, and as many arguments as `most`.
_pcompact_takes() {
    options= most=0
    case $command in
    '') options='-h --help -V --version' ;;
    collect) options='-w --workers --region-log --allowance --atomic --json --stats --progress -v --verbose -h --help' most=2 ;;
    verify) options='--explain --ignore-free --region-log --allowance --json --stats --progress -v --verbose -h --help' most=2 ;;
    summary) options='--heading --region-log --allowance --json --progress -v --verbose -h --help' most=1 ;;
    order) options='--region-log --allowance --json --progress -v --verbose -h --help' most=1 ;;
    map) options='--after --moves --width --height --svg --region-log --allowance --letters --color --no-color --atomic --progress -v --verbose -h --help' most=1 ;;
    text) options='--progress -v --verbose -h --help' most=1 ;;
    assemble) options='--atomic --progress -v --verbose -h --help' most=2 ;;
    record) options='-w --workers --turns --region-log --allowance --atomic --stats --progress -v --verbose -h --help' most=3 ;;
    replay) options='--region-log --allowance --progress -v --verbose -h --help' most=2 ;;
    timeline) options='--width --svg --html --region-log --allowance --letters --color --no-color --atomic --progress -v --verbose -h --help' most=2 ;;
    upgrade) options='--to --progress --atomic -v --verbose -h --help' most=2 ;;
    import) options='--region-log --allowance --version --live-only --weak --weak-soft --pack --classes --histogram --json --stats --progress --atomic -v --verbose -h --help' most=2 ;;
    compare) options='--explain --json --progress -v --verbose -h --help' most=2 ;;
    generate) options='--words --live --region-log --seed --refs --version --allowance --progress --atomic -v --verbose -h --help' most=1 ;;
    reduce) options='--step --progress --atomic -v --verbose -h --help' most=2 ;;
    board) options='--steps -h --help' most=0 ;;
    help) options='' most=1 ;;
    esac
}

# Completes names of files.
_pcompact_files() {
    compopt -o filenames 2>/dev/null
    mapfile -t COMPREPLY < <(compgen -f -- "$current")
}

# Completes the value of an option; of those that are missing here any number may be meant.
_pcompact_value() {
    case "$command $option" in
    'collect -w' | 'collect --workers') _pcompact_words {1..64} ;;
    'collect --region-log') _pcompact_words {3..20} ;;
    'verify --region-log') _pcompact_words {3..20} ;;
    'summary --region-log') _pcompact_words {3..20} ;;
    'order --region-log') _pcompact_words {3..20} ;;
    'map --svg') _pcompact_files ;;
    'map --region-log') _pcompact_words {3..20} ;;
    'record -w' | 'record --workers') _pcompact_words {1..64} ;;
    'record --region-log') _pcompact_words {3..20} ;;
    'replay --region-log') _pcompact_words {3..20} ;;
    'timeline --svg') _pcompact_files ;;
    'timeline --html') _pcompact_files ;;
    'timeline --region-log') _pcompact_words {3..20} ;;
    'upgrade --to') _pcompact_words {2..3} ;;
    'import --region-log') _pcompact_words {3..20} ;;
    'import --version') _pcompact_words {2..3} ;;
    'import --classes') _pcompact_files ;;
    'generate --region-log') _pcompact_words {3..20} ;;
    'generate --version') _pcompact_words {1..3} ;;
    'collect --progress') _pcompact_words auto always never ;;
    'verify --progress') _pcompact_words auto always never ;;
    'summary --progress') _pcompact_words auto always never ;;
    'order --progress') _pcompact_words auto always never ;;
    'map --color') _pcompact_words auto always never ;;
    'map --progress') _pcompact_words auto always never ;;
    'text --progress') _pcompact_words auto always never ;;
    'assemble --progress') _pcompact_words auto always never ;;
    'record --progress') _pcompact_words auto always never ;;
    'replay --progress') _pcompact_words auto always never ;;
    'timeline --color') _pcompact_words auto always never ;;
    'timeline --progress') _pcompact_words auto always never ;;
    'upgrade --progress') _pcompact_words auto always never ;;
    'import --progress') _pcompact_words auto always never ;;
    'compare --progress') _pcompact_words auto always never ;;
    'generate --progress') _pcompact_words auto always never ;;
    'reduce --progress') _pcompact_words auto always never ;;
    *) compopt +o default +o bashdefault 2>/dev/null ;;
    esac
}

# Completes one of these words.
_pcompact_words() {
    mapfile -t COMPREPLY < <(compgen -W "$*" -- "$current")
}

_pcompact() {
    local IFS=$' \t\n' current=${COMP_WORDS[COMP_CWORD]} command given count option ended options most word left=
    COMPREPLY=()
    _pcompact_read
    _pcompact_takes
    for word in $options; do
        [[ $given = *" $word "* ]] || left+="$word "
    done
    if [[ -n $option ]]; then
        [[ $current != '=' ]] || current=
        _pcompact_value
    elif [[ -z $ended && $current = -* ]]; then
        _pcompact_words $left
    elif [[ -z $command || $command = help && $count = 0 ]]; then
        _pcompact_words collect verify summary order map text assemble record replay timeline upgrade import compare generate reduce board help
    elif ((count < most)); then
        _pcompact_files
    elif [[ -z $ended ]]; then
        _pcompact_words $left
    fi
}

complete -o bashdefault -o default -F _pcompact pcompact
