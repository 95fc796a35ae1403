"""What a shell completes behind `slotplan`, made of the help: commands, options, files, and words of which one has to stand in a place."""
# Values that are files; of any other value nothing is known, but for the word of `explain` and where the help tells the choices.
FILES = "CONFIG", "DB", "FILE"
WORD = "WORD"

BASH = """\
# What bash completes behind `slotplan`, made of its help.
_slotplan() {{
    local word=${{COMP_WORDS[COMP_CWORD]}} command=${{COMP_WORDS[1]}} options= values= places= place=0 kind at
    COMPREPLY=()
    if [ "$COMP_CWORD" -eq 1 ]; then
        COMPREPLY=($(compgen -W "{commands} --help --version" -- "$word"))
        return
    fi
    # Options without a value; those with one, each with what its value is; and what stands in which place.
    case $command in
{cases}
    esac
    # What the word is: the value of the option before it, an option, or what stands in its place.
    for ((at = 2; at < COMP_CWORD; at++)); do
        case " $values " in
            *" ${{COMP_WORDS[at]}}="*) at=$((at + 1)) ;;
            *) case ${{COMP_WORDS[at]}} in --*) ;; *) place=$((place + 1)) ;; esac ;;
        esac
    done
    if [ "$at" -gt "$COMP_CWORD" ]; then
        kind=${{values#*"${{COMP_WORDS[COMP_CWORD - 1]}}="}}
        kind=${{kind%% *}}
    elif [[ $word == -?* ]]; then
        for at in $values; do
            options+=" ${{at%%=*}}"
        done
        COMPREPLY=($(compgen -W "$options" -- "$word"))
        return
    else
        places=($places)
        kind=${{places[place]}}
    fi
    case $kind in
        files) compopt -o filenames 2> /dev/null; mapfile -t COMPREPLY < <(compgen -f -- "$word") ;;
        words) COMPREPLY=($(compgen -W "{words}" -- "$word")) ;;
        ?*,*) COMPREPLY=($(compgen -W "${{kind//,/ }}" -- "$word")) ;;
    esac
}}
complete -F _slotplan slotplan
"""

ZSH = """\
#compdef slotplan
# What zsh completes behind `slotplan`, made of its help.
local context state state_descr line
typeset -A opt_args
local -a commands
commands=(
{commands}
)
_arguments -C '(- *)'{{-h,--help}}'[Print help]' '(- *)'{{-V,--version}}'[Print version]' '1:command:->command' '*::word:->word'
case $state in
    command) _describe command commands ;;
    word)
        case $words[1] in
{cases}
        esac
        ;;
esac
"""


def kind(place):
    """What is completed in a place of bash: files, the words of `explain`, one of some words; a - where nothing is known."""
    if place.value in FILES:
        return "files"
    if place.value == WORD:
        return "words"
    return ",".join(place.choices) or "-"


def in_bash(helps, words):
    """The file that bash reads. `words` are those that are explained."""
    whole, *commands = helps
    cases = ["        help) places='words' ;;".replace("words", ",".join(help.name for help in commands))]
    for help in commands:
        plain = " ".join(it.option for it in help.options if not it.value)
        valued = " ".join(f"{it.option}={kind(it)}" for it in help.options if it.value)
        places = " ".join(map(kind, help.arguments))
        cases.append(f"        {help.name}) options='{plain}' values='{valued}' places='{places}' ;;")
    return BASH.format(commands=" ".join(name for name, _ in whole.commands), cases="\n".join(cases), words=" ".join(words))


def quoted(text):
    """The text within single quotes of the shell."""
    return "'" + text.replace("'", "'\\''") + "'"


def message(text):
    """A text as `_arguments` takes it: it parts at colons and brackets."""
    return text.replace("\\", "\\\\").replace(":", "\\:").replace("[", "\\[").replace("]", "\\]")


def action(place, words):
    """What zsh completes in a place."""
    if place.value in FILES:
        return "_files"
    choices = words if place.value == WORD else place.choices
    return f"({' '.join(choices)})" if choices else " "


def specification(place, words):
    """How `_arguments` is told of an option or of an argument."""
    if not place.option:
        return quoted(f":{place.value}:{action(place, words)}")
    about = f"{place.option}[{message(place.about)}]"
    return quoted(f"{about}:{place.value}:{action(place, words)}" if place.value else about)


def in_zsh(helps, words):
    """The file that zsh reads."""
    whole, *commands = helps
    rows = "\n".join(f"    {quoted(f'{name}:{message(about)}')}" for name, about in whole.commands)
    names = " ".join(help.name for help in commands)
    cases = [f"            help) _arguments ':command:({names})' ;;"]
    for help in commands:
        told = " ".join(specification(place, words) for place in (*help.options, *help.arguments))
        cases.append(f"            {help.name}) _arguments {told} ;;")
    return ZSH.format(commands=rows, cases="\n".join(cases))
