"""The completion for bash of the words of `stir`, by the table of words, and of the options of the tools around it."""
import re

import command_words

HEAD = """# Completion for bash of the words of stir, and of the options of the tools around it. dev/package makes this file.

_stir_files() {
    compopt -o filenames 2>/dev/null
    mapfile -t COMPREPLY < <(compgen -f -- "$1")
}

_stir() {
    local word=${COMP_WORDS[COMP_CWORD]} before=${COMP_WORDS[COMP_CWORD - 1]} option names
    COMPREPLY=()
    if ((COMP_CWORD == 1)); then
        mapfile -t COMPREPLY < <(compgen -W '%s' -- "$word")
        return
    fi
    option=$before
    # bash takes the = of --NAME=VALUE for a word.
    if [[ $word == '=' ]]; then
        word=
    elif [[ $before == '=' ]]; then
        option=${COMP_WORDS[COMP_CWORD - 2]}
    fi
    case $option in
"""

MIDDLE = """    esac
    case ${COMP_WORDS[1]} in
"""

TAIL = """    esac
    mapfile -t COMPREPLY < <(compgen -W "$names" -- "$word")
}

_stir_tool() {
    local word=${COMP_WORDS[COMP_CWORD]} names
    case ${COMP_WORDS[0]##*/} in
"""

END = """    esac
    if [[ $word == -* ]]; then
        mapfile -t COMPREPLY < <(compgen -W "$names" -- "$word")
    else
        _stir_files "$word"
    fi
}

complete -F _stir stir stir-words
"""


def choices(value):
    """The values that an option takes, if these are a few words."""
    pattern = value.pattern.pattern
    letters = re.fullmatch(r'\[([A-Z]+)\]', pattern)
    return list(letters[1]) if letters else pattern.split('|') if re.fullmatch(r'[a-z]+(\|[a-z]+)+', pattern) else []


def values():
    """What follows an option."""
    for name, value in command_words.VALUES.items():
        if value is command_words.FILE:
            yield f'        --{name}) _stir_files "$word"; return ;;\n'
        elif choices(value):
            words = ' '.join(choices(value))
            yield f'        --{name}) mapfile -t COMPREPLY < <(compgen -W \'{words}\' -- "$word"); return ;;\n'
        else:
            yield f'        --{name}) return ;;\n'


def case(name, options):
    return f'        {name}) names=\'{" ".join(options)}\' ;;\n'


def bash(tools):
    """The file of the completion; `tools` has the options of each tool by its name."""
    commands = command_words.COMMANDS
    parts = [HEAD % ' '.join(commands), *values(), MIDDLE]
    parts += [case(name, [f'--{option}' for option in must + may]) for name, (must, may) in commands.items()]
    parts += [TAIL, *(case(name, options) for name, options in tools.items()), END]
    return ''.join(parts) + f'complete -F _stir_tool {" ".join(tools)}\n'
