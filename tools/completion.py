"""The completions of bash and zsh, out of the table of words."""

from __future__ import annotations

from typing import Iterable, List

from words import COMMANDS, INPUT, OPTIONS, OWN, Command

FILES = [INPUT, *(name for name, option in OPTIONS.items() if option.shown == "FILE")]

BASH = """# completion of dpl for bash
_dpl() {{
    local word=${{COMP_WORDS[COMP_CWORD]}} before=${{COMP_WORDS[COMP_CWORD-1]}} words=
    compopt +o default 2> /dev/null
    if [ "$COMP_CWORD" = 1 ]; then
        words="{commands} --help --version"
    else
        case $before in
            {files}) compopt -o default; return ;;
            {values}) return ;;
        esac
        case ${{COMP_WORDS[1]}} in
{cases}
        esac
    fi
    mapfile -t COMPREPLY < <(compgen -W "$words" -- "$word")
}}
complete -F _dpl dpl ./dpl
"""

ZSH = """#compdef dpl
# completion of dpl for zsh
local -a commands
commands=(
{commands}
)
if (( CURRENT == 2 )); then
    _describe command commands
    return
fi
local command=$words[2]
# what follows is completed as if the command stood alone
shift words
(( CURRENT-- ))
case $command in
{cases}
esac
"""


def options_of(command: Command) -> List[str]:
    return [*command.options, *[INPUT] * command.reads_layout]


def flags(names: Iterable[str]) -> str:
    return " ".join(f"--{name}" for name in names)


def bash() -> str:
    cases = [f'            {name}) words="{flags(options_of(command))}" ;;' for name, command in COMMANDS.items()]
    cases.append(f'            help) words="{" ".join([*COMMANDS, *OWN])}" ;;')
    cases.append("            install) compopt -o default; return ;;")
    files, values = ("|".join(f"--{name}" for name in names) for names in (FILES, [name for name in OPTIONS if name not in FILES]))
    return BASH.format(commands=" ".join([*COMMANDS, *OWN]), files=files, values=values, cases="\n".join(cases))


def zsh() -> str:
    meanings = {**{name: command.meaning for name, command in COMMANDS.items()}, **OWN}
    commands = [f"    {quoted(f'{name}:{meaning}')}" for name, meaning in meanings.items()]
    cases = []
    for name, command in COMMANDS.items():
        asked = " ".join(quoted(argument(option)) for option in options_of(command))
        cases.append(f"    {name}) _arguments {asked} ;;")
    cases += [f"    help) _values command {' '.join([*COMMANDS, *OWN])} ;;", "    install) _files -/ ;;"]
    return ZSH.format(commands="\n".join(commands), cases="\n".join(cases))


def argument(name: str) -> str:
    """An option as zsh describes it: what it means, what its value is, and how that is completed."""
    option = OPTIONS.get(name)
    meaning, shown = (option.meaning, option.shown) if option else ("the layout", "FILE")
    return f"--{name}[{meaning}]:{shown}:{'_files' if name in FILES else ''}"


def quoted(text: str) -> str:
    return "'" + text.replace("'", "'\\''") + "'"
