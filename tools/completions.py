"""The completions of amcover for bash, zsh and fish, made from its commands and options. They
complete the commands, the options of each command, and a file after an option that takes one.
"""
import re

BASH = """\
# Completion of amcover for bash. tools/manpage makes this file from the help.

_amcover() {
    local word=${COMP_WORDS[COMP_CWORD]} before=${COMP_WORDS[COMP_CWORD - 1]}
    local given=" ${COMP_WORDS[*]:1:COMP_CWORD - 1} " options="" it
    COMPREPLY=()
    # bash takes --config=FILE for three words.
    if [[ $word == = ]]; then
        word=
    elif [[ $before == = ]]; then
        before=${COMP_WORDS[COMP_CWORD - 2]}
    fi
    case $before in
FILES)
        compopt -o filenames -o default 2> /dev/null
        while IFS= read -r it; do
            COMPREPLY+=("$it")
        done < <(compgen -f -- "$word")
        return
        ;;
VALUES)
        return
        ;;
    esac
    if ((COMP_CWORD == 1)); then
        options="COMMANDS help --help --version"
    else
        case ${COMP_WORDS[1]} in
OPTIONS
        help) ((COMP_CWORD == 2)) && options="COMMANDS" ;;
        esac
    fi
    for it in $options; do
        # An option that stands there already is offered again only if it may be repeated.
        if [[ " REPEATED " != *" $it "* && $given == *" $it "* ]]; then
            continue
        fi
        if [[ $it == "$word"* ]]; then
            COMPREPLY+=("$it")
        fi
    done
}

complete -F _amcover amcover
"""
ZSH = """\
#compdef amcover
# Completion of amcover for zsh. tools/manpage makes this file from the help.

_amcover() {
    local curcontext=$curcontext state line ret=1
    local -a commands
    local -A opt_args
    commands=(
COMMANDS
        'help:Print the help of a command'
    )
    _arguments -C \\
        '(- *)'{-h,--help}'[Print help]' \\
        '(- *)'{-V,--version}'[Print version]' \\
        '1: :->command' \\
        '*:: :->arguments' && ret=0
    case $state in
    command)
        _describe -t commands command commands && ret=0
        ;;
    arguments)
        case $words[1] in
OPTIONS
        help)
            _describe -t commands command commands && ret=0
            ;;
        esac
        ;;
    esac
    return ret
}

_amcover "$@"
"""
FISH = """\
# Completion of amcover for fish. tools/manpage makes this file from the help.

# Whether the first word is this one, and none of these options is given. One whose value is being
# typed is not given yet.
function __amcover_is_at
    set -l words (commandline -opc)
    test "$words[2]" = "$argv[1]"; or return 1
    string match -q -- '-*' (commandline -ct); or set -e words[-1]
    for word in $words[3..]
        contains -- (string split -m 1 -- = $word)[1] $argv[2..]; and return 1
    end
    return 0
end

complete -c amcover -f
complete -c amcover -n '__amcover_is_at ""' -s h -l help -d 'Print help'
complete -c amcover -n '__amcover_is_at ""' -s V -l version -d 'Print version'
COMMANDS
complete -c amcover -n '__amcover_is_at ""' -a help -d 'Print the help of a command'
complete -c amcover -n '__amcover_is_at help' -a 'NAMES'
OPTIONS
"""


def bash(program):
    options = [it for command in program.commands for it in command.offered]
    repeated = {f"--{it.name}" for it in options if it.is_repeated}
    of_files = sorted({f"--{it.name}" for it in options if it.takes_file()})
    of_values = sorted({f"--{it.name}" for it in options if it.value} - set(of_files))
    cases = []
    for command in program.commands:
        names = " ".join(f"--{it.name}" for it in command.offered)
        cases.append(f'        {command.name}) options="{names} --help" ;;')
    text = BASH.replace("OPTIONS", "\n".join(cases))
    text = text.replace("COMMANDS", " ".join(it.name for it in program.commands))
    text = text.replace("FILES)", f"    {' | '.join(of_files)})")
    text = text.replace("VALUES)", f"    {' | '.join(of_values)})")
    return text.replace("REPEATED", " ".join(sorted(repeated)))


def zsh_option(option):
    """Returns an option as `_arguments` of zsh takes it."""
    excluded = " ".join(f"--{it}" for it in sorted(option.excludes))
    front = "*" if option.is_repeated else f"({excluded})" * bool(excluded)
    value = f":{option.value}:" + "_files" * option.takes_file() if option.value else ""
    return f"'{front}--{option.name}{'=' * bool(value)}[{zsh_text(option.help)}]{value}'"


def zsh_text(text):
    return re.sub(r"([\[\]:\\])", r"\\\1", text).replace("'", "'\\''")


def zsh_word(number, word):
    front = "*" if word.is_repeated else str(number)
    return f"'{front}:{'' if word.is_required else ':'}{word.value}:'"


def zsh(program):
    names = [f"        '{it.name}:{zsh_text(it.about)}'" for it in program.commands]
    cases = []
    for command in program.commands:
        lines = ["'(- *)'{-h,--help}'[Print help]'", *map(zsh_option, command.offered)]
        lines += [zsh_word(i, it) for i, it in enumerate(command.words, 1)]
        text = " \\\n".join(f"                {it}" for it in lines) + " && ret=0"
        cases.append(f"        {command.name})\n            _arguments \\\n{text}\n            ;;")
    return ZSH.replace("COMMANDS", "\n".join(names)).replace("OPTIONS", "\n".join(cases))


def fish_text(text):
    return "'" + re.sub(r"(['\\])", r"\\\1", text) + "'"


def fish_option(command, option):
    """Returns an option as `complete` of fish takes it. It is offered again only if it may be
    repeated."""
    given = [] if option.is_repeated else [option.name, *sorted(option.excludes)]
    place = fish_text(" ".join(["__amcover_is_at", command.name, *(f"--{it}" for it in given)]))
    value = (" -r -F" if option.takes_file() else " -x") * bool(option.value)
    return f"complete -c amcover -n {place} -l {option.name}{value} -d {fish_text(option.help)}"


def fish(program):
    names = [
        f"complete -c amcover -n '__amcover_is_at \"\"' -a {it.name} -d {fish_text(it.about)}"
        for it in program.commands
    ]
    lines = []
    for command in program.commands:
        lines += [fish_option(command, it) for it in command.offered]
        place = fish_text(f"__amcover_is_at {command.name}")
        lines.append(f"complete -c amcover -n {place} -s h -l help -d 'Print help'")
    text = FISH.replace("NAMES", " ".join(it.name for it in program.commands))
    return text.replace("COMMANDS", "\n".join(names)).replace("OPTIONS", "\n".join(lines))
