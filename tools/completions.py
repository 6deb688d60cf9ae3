"""What shells complete of the words of a program: a word of it, then the options that go with that."""
from manual import Command, Option

OF_FILES = ("FILE", "GRAPH", "CERTIFICATE", "IN", "OUT")


def word_option(program: str) -> str:
    """The option behind which the program's word stands, or nothing where the word is the first."""
    return "--algo" if program == "sdf3analysis" else ""


def is_of_files(option: Option) -> bool:
    return option.value.startswith(OF_FILES)


def bash(program: str, commands: list[Command]) -> str:
    """The function by which bash completes the words of a program."""
    before = word_option(program)
    files = sorted({option.name for command in commands for option in command.options if is_of_files(option)})
    others = sorted({option.name for command in commands for option in command.options if option.value and not is_of_files(option)})
    names = " ".join(command.name for command in commands)
    find = (f'local at\n    for ((at = 1; at < COMP_CWORD; at++)); do\n        [[ ${{COMP_WORDS[at - 1]}} = {before} ]] && word=${{COMP_WORDS[at]}}\n    done'
            if before else "((COMP_CWORD > 1)) && word=${COMP_WORDS[1]}")
    arms = "".join(f"        {command.name}) options='{' '.join(option.name for option in command.options)}' ;;\n" for command in commands)
    wanted = f"$before = {before}" if before else "-z $word"
    return f"""# What bash completes of the words of {program}.
_{program}() {{
    local now=${{COMP_WORDS[COMP_CWORD]}} before=${{COMP_WORDS[COMP_CWORD - 1]}} word='' options=''
    COMPREPLY=()
    {find}
    if [[ {wanted} ]]; then
        mapfile -t COMPREPLY < <(compgen -W '{names}{'' if before else ' --help'}' -- "$now")
        return
    fi
    case $before in
        {' | '.join(files) or "''"}) compopt -o filenames; mapfile -t COMPREPLY < <(compgen -f -- "$now"); return ;;
        {' | '.join(others) or "''"}) return ;;
    esac
    case $word in
{arms}        *) options='{f"{before} --help --version" if before else "--help"}' ;;
    esac
    if [[ $now = -* || -z $word ]]; then
        mapfile -t COMPREPLY < <(compgen -W "$options --help" -- "$now")
    else
        compopt -o filenames
        mapfile -t COMPREPLY < <(compgen -f -- "$now")
    fi
}}
complete -F _{program} {program}
"""


def described(text: str) -> str:
    """A text as it stands in the descriptions of zsh."""
    first = text.partition(". ")[0].rstrip(".")
    for sign in "\\[]:'":
        first = first.replace(sign, "'\\''" if sign == "'" else f"\\{sign}")
    return first


def zsh_option(option: Option) -> str:
    value = f":{option.value.lower().replace(':', '')}:{'_files' if is_of_files(option) else ' '}" if option.value else ""
    return f"'{option.name}[{described(option.text)}]{value}'"


def zsh(program: str, commands: list[Command]) -> str:
    """The function by which zsh completes the words of a program."""
    before = word_option(program)
    arms = "".join(f"    {command.name}) options=({' '.join(map(zsh_option, command.options))}) ;;\n" for command in commands)
    names = " ".join(f"{command.name}\\:'{described(command.text)}'" for command in commands).replace("'", '"')
    if before:
        find = f"local word=${{words[${{words[(i){before}]}}+1]}}"
        first = f"'{before}[what is asked]:algorithm:(({names}))'"
    else:
        find = "local word=${words[2]}"
        first = f"'1:companion:(({names}))'"
    return f"""#compdef {program}
# What zsh completes of the words of {program}.
{find}
local -a options
case $word in
{arms}esac
_arguments {first} '--help[what there is]' $options '*:file:_files'
"""
