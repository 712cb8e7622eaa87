"""The completions of pcompact for bash, zsh and fish."""
from helps import Help, Helps, Option

MADE = "# Completes the words of pcompact. Made by share/make from the help of the program."

BASH = """\
%(made)s

# Finds which command the words before the cursor call: `command`, the options that it was `given`, how many arguments, and
# the `option` whose value is due. Some options have a value only behind `=`.
_pcompact_read() {
    local word open=
    command= given=' ' count=0 option= ended=
    for word in "${COMP_WORDS[@]:1:COMP_CWORD-1}"; do
        [[ $word != '=' ]] || option=${option:-$open}
        open=
        if [[ -n $option ]]; then
            [[ $word = '=' ]] || option=
        elif [[ -z $ended && $word = -- ]]; then
            ended=yes
        elif [[ -z $ended && $word = -* ]]; then
            given+="$word "
            case "$command $word" in
            %(valued)s) option=$word ;;
            %(chosen)s) open=$word ;;
            esac
        elif [[ -z $command ]]; then
            command=$word
        else
            count=$((count + 1))
        fi
    done
    [[ $current != '=' ]] || option=${option:-$open}
}

# What the command takes: `options`, and as many arguments as `most`.
_pcompact_takes() {
    options= most=0
    case $command in
    '') options='%(options)s' ;;
%(commands)s
    esac
}

# Completes names of files.
_pcompact_files() {
    compopt -o filenames 2>/dev/null
    mapfile -t COMPREPLY < <(compgen -f -- "$current")
}

# Completes the value of an option; of those that are missing here any number may be meant.
_pcompact_value() {
    case "$command $option" in
%(values)s
    *) compopt +o default +o bashdefault 2>/dev/null ;;
    esac
}

# Completes one of these words.
_pcompact_words() {
    mapfile -t COMPREPLY < <(compgen -W "$*" -- "$current")
}

_pcompact() {
    local IFS=$' \\t\\n' current=${COMP_WORDS[COMP_CWORD]} command given count option ended options most word left=
    COMPREPLY=()
    _pcompact_read
    _pcompact_takes
    for word in $options; do
        [[ $given = *" $word "* ]] || left+="$word "
    done
    if [[ -n $option ]]; then
        [[ $current != '=' ]] || current=
        _pcompact_value
    elif [[ -z $ended && $current = -* ]]; then
        _pcompact_words $left
    elif [[ -z $command || $command = help && $count = 0 ]]; then
        _pcompact_words %(names)s
    elif ((count < most)); then
        _pcompact_files
    elif [[ -z $ended ]]; then
        _pcompact_words $left
    fi
}

complete -o bashdefault -o default -F _pcompact pcompact
"""

ZSH = """\
#compdef pcompact
%(made)s

_pcompact_commands() {
  local -a commands=(
%(commands)s
  )
  _describe -t commands command commands
}

_pcompact() {
  local curcontext=$curcontext state line ret=1
  local -A opt_args
  _arguments -C \\
%(options)s \\
    '1:command:_pcompact_commands' \\
    '*:: :->words' && ret=0
  [[ $state == words ]] || return ret
  curcontext=${curcontext%%:*:*}:pcompact-$words[1]:
  case $words[1] in
%(words)s
  esac
  return ret
}

if [[ $funcstack[1] == _pcompact ]]; then
  _pcompact "$@"
else
  compdef _pcompact pcompact
fi
"""

FISH = """\
%(made)s

# Whether this is the command: the first word that is no option; or with '' whether there is none yet.
function __pcompact_is
    set -l words (commandline -opc)
    set -e words[1]
    for word in $words
        if not string match -q -- '-*' $word
            test "$word" = "$argv[1]"
            return
        end
    end
    test -z "$argv[1]"
end

complete -c pcompact -f
%(lines)s
"""


def all_spellings(options: list[Option]) -> str:
    return " ".join(word for option in options for word in option.spellings)


def names(helps: Helps) -> str:
    return " ".join(it.name for it in helps.commands)


def valued(helps: Helps) -> list[tuple[Help, Option]]:
    return [(it, option) for it in helps.commands for option in it.options if option.value]


def chosen(helps: Helps) -> list[tuple[Help, Option]]:
    return [(it, option) for it in helps.commands for option in it.options if option.choices]


def cases(options: list[tuple[Help, Option]]) -> str:
    return " | \\\n                ".join(f"'{it.name} {word}'" for it, option in options for word in option.spellings)


def numbers(option: Option) -> str:
    """The values of an option, as bash and zsh expand them."""
    return f"{{{option.values[0]}..{option.values[-1]}}}"


def bash_value(it: Help, option: Option) -> list[str]:
    """The line that completes a value, where one can."""
    spelled = " | ".join(f"'{it.name} {word}'" for word in option.spellings)
    if option.takes_file:
        return [f"    {spelled}) _pcompact_files ;;"]
    if option.choices:
        return [f"    {spelled}) _pcompact_words {' '.join(option.choices)} ;;"]
    return [f"    {spelled}) _pcompact_words {numbers(option)} ;;"] if option.values else []


def bash(helps: Helps) -> str:
    return BASH % {
        "made": MADE,
        "valued": cases(valued(helps)),
        "chosen": cases(chosen(helps)),
        "options": all_spellings(helps.program.options),
        "commands": "\n".join(f"    {it.name}) options='{all_spellings(it.options)}' most={len(it.arguments)} ;;"
                              for it in helps.commands),
        "values": "\n".join(line for it, option in valued(helps) + chosen(helps) for line in bash_value(it, option)),
        "names": names(helps),
    }


def zsh_quoted(text: str) -> str:
    return "'" + text.replace("'", r"'\''") + "'"


def zsh_escaped(text: str, signs: str) -> str:
    return "".join(rf"\{it}" if it in signs else it for it in text)


# The options beside which a line has nothing else.
ENDING = ("--help", "--version")


def zsh_both(option: Option) -> str:
    """That only one of its spellings is on a line."""
    return zsh_quoted(f"({' '.join(option.spellings)})")


def zsh_option(option: Option) -> str:
    text = f"[{zsh_escaped(option.text, '[]:')}]"
    if option.value:
        values = "_files" if option.takes_file else f"({numbers(option)})" if option.values else " "
        behind = f"{text}:{option.value}:{values}"
        if option.short:
            return f"{zsh_both(option)}{{{option.short}+,{option.name}=}}{zsh_quoted(behind)}"
        return zsh_quoted(f"{option.name}={behind}")
    if option.choices:
        return zsh_quoted(f"{option.name}=-{text}::when:({' '.join(option.choices)})")
    if option.short:
        apart = "'(- *)'" if option.name in ENDING else zsh_both(option)
        return f"{apart}{{{','.join(option.spellings)}}}{zsh_quoted(text)}"
    return zsh_quoted(f"{option.name}{text}")


def zsh_command(it: Help) -> str:
    if it.name == "help":
        return "  help) _arguments '1:command:_pcompact_commands' && ret=0 ;;"
    words = [zsh_option(option) for option in it.options]
    words += [zsh_quoted(f":{zsh_escaped(f'{name}, {text[0].lower()}{text[1:]}', ':')}:_files") for name, text in it.arguments]
    lines = " \\\n".join(f"      {word}" for word in words)
    return f"  {it.name})\n    _arguments \\\n{lines} && ret=0\n    ;;"


def zsh(helps: Helps) -> str:
    described = [f"    {zsh_quoted(it.name + ':' + zsh_escaped(it.about, ':'))}" for it in helps.commands]
    return ZSH % {
        "made": MADE,
        "commands": "\n".join(described),
        "options": " \\\n".join(f"    {zsh_option(option)}" for option in helps.program.options),
        "words": "\n".join(zsh_command(it) for it in helps.commands),
    }


def fish_quoted(text: str) -> str:
    return "'" + text.replace("\\", r"\\").replace("'", r"\'") + "'"


def fish_option(command: str, option: Option) -> str:
    words = [f"-n {fish_quoted(f'__pcompact_is {command}')}"]
    words += [f"-s {option.short[1:]}"] if option.short else []
    words += [f"-l {option.name[2:]}"]
    if option.takes_file:
        words += ["-r -F"]
    elif option.value:
        words += ["-x", *([f"-a '(seq {option.values[0]} {option.values[-1]})'"] if option.values else [])]
    elif option.choices:
        words += [f"-a '{' '.join(option.choices)}'"]
    return f"complete -c pcompact {' '.join(words)} -d {fish_quoted(option.text)}"


def fish(helps: Helps) -> str:
    lines = [f"complete -c pcompact -n '__pcompact_is \"\"' -a {it.name} -d {fish_quoted(it.about)}" for it in helps.commands]
    lines += [fish_option('""', option) for option in helps.program.options]
    lines += [f"complete -c pcompact -n '__pcompact_is help' -a '{names(helps)}'"]
    for it in helps.commands:
        lines += [f"complete -c pcompact -n '__pcompact_is {it.name}' -F"] if it.arguments and it.name != "help" else []
        lines += [fish_option(it.name, option) for option in it.options]
    return FISH % {"made": MADE, "lines": "\n".join(lines)}
