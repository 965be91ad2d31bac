"""Completions for bash, zsh and fish, made from the command line as argparse has it."""

from __future__ import annotations

import argparse
import shlex
from typing import Callable, Iterator, NamedTuple

# What stands for an option's value or an argument in the help, and is a file or a folder.
_FILES = ("FILE", "FILE.xml", "FILE.html", "STORE", "STORE|FILE")
_FOLDERS = ("DIR",)


class Word(NamedTuple):
    """An option, or an argument, which has no names; `value` is what the help calls what is given, if anything is."""

    names: tuple[str, ...]
    help: str
    value: str | None
    choices: tuple[str, ...]
    repeated: bool

    def is_file(self) -> bool:
        """Whether a file is given."""
        return self.value in _FILES

    def is_folder(self) -> bool:
        """Whether a folder is given."""
        return self.value in _FOLDERS


class Command(NamedTuple):
    """A command of the program, or the program itself before a command is named."""

    name: str
    help: str
    words: tuple[Word, ...]

    def options(self) -> list[Word]:
        """The words that have a name."""
        return [word for word in self.words if word.names]

    def arguments(self) -> list[Word]:
        """The others."""
        return [word for word in self.words if not word.names]


def commands_of(parser: argparse.ArgumentParser) -> list[Command]:
    """The program itself, then its commands."""
    found = [Command("", "", tuple(_words(parser)))]
    for action in parser._actions:
        if isinstance(action, argparse._SubParsersAction):
            helps = {choice.dest: choice.help or "" for choice in action._choices_actions}
            found += [Command(name, helps[name], tuple(_words(made))) for name, made in action.choices.items()]
    return found


def _words(parser: argparse.ArgumentParser) -> Iterator[Word]:
    """The options and arguments of a parser, with their help as `--help` prints it."""
    formatter = parser._get_formatter()
    for action in parser._actions:
        if not isinstance(action, argparse._SubParsersAction):
            value = None if action.nargs == 0 else str(action.metavar or action.dest.upper())
            choices = tuple(map(str, action.choices or ()))
            repeated = isinstance(action, argparse._AppendAction)
            yield Word(tuple(action.option_strings), formatter._expand_help(action), value, choices, repeated)


def bash(parser: argparse.ArgumentParser) -> str:
    """The completion for bash."""
    program, commands = parser.prog, commands_of(parser)
    function = "_" + program.replace("-", "_")
    values: list[str] = []
    options: list[str] = []
    for command in commands:
        for word in command.options():
            if word.value:
                cases = "|".join(f"{command.name}:{name}" for name in word.names)
                values.append(f"        {cases}) {_bash_value(word)} ;;")
        names = " ".join(name for word in command.options() for name in word.names)
        options.append(f"        {command.name or quoted('')}) words={quoted(names)} ;;")
    names = " ".join(command.name for command in commands if command.name)
    return f"""# Completion of {program} for bash, as `{program} --completions bash` prints it.
{function}() {{
    local word=${{COMP_WORDS[COMP_CWORD]}} before=${{COMP_WORDS[COMP_CWORD - 1]}} command='' words='' at
    # --option=value is three words for bash
    if [[ $word == = ]]; then
        word=''
    elif [[ $before == = ]]; then
        before=${{COMP_WORDS[COMP_CWORD - 2]}}
    fi
    for ((at = 1; at < COMP_CWORD; at++)); do
        if [[ ${{COMP_WORDS[at]}} != -* ]]; then
            command=${{COMP_WORDS[at]}}
            break
        fi
    done
    COMPREPLY=()
    case $command:$before in
{chr(10).join(values)}
    esac
    case $command in
{chr(10).join(options)}
    esac
    if [[ $word == -* ]]; then
        mapfile -t COMPREPLY < <(compgen -W "$words" -- "$word")
    elif [[ -z $command ]]; then
        mapfile -t COMPREPLY < <(compgen -W {quoted(names)} -- "$word")
    else
        compopt -o filenames
        mapfile -t COMPREPLY < <(compgen -f -- "$word")
    fi
}}
complete -F {function} {program}
"""


def _bash_value(word: Word) -> str:
    """What completes the value of an option."""
    if word.choices:
        return f"mapfile -t COMPREPLY < <(compgen -W {quoted(' '.join(word.choices))} -- \"$word\") && return"
    if word.is_file() or word.is_folder():
        kind = "-d" if word.is_folder() else "-f"
        return f'compopt -o filenames && mapfile -t COMPREPLY < <(compgen {kind} -- "$word") && return'
    return "return"


def zsh(parser: argparse.ArgumentParser) -> str:
    """The completion for zsh."""
    program, (whole, *commands) = parser.prog, commands_of(parser)
    rows = "\n".join(f"            {quoted(f'{one.name}:{one.help}')}" for one in commands)
    cases = "\n".join(
        f"            {one.name})\n{_zsh_arguments(one, 16, [_zsh_word(word) for word in one.arguments()])}\n"
        "                ;;"
        for one in commands
    )
    return f"""#compdef {program}
# Completion of {program} for zsh, as `{program} --completions zsh` prints it.

local curcontext=$curcontext state line
typeset -A opt_args

{_zsh_arguments(whole, 0, ["'1:command:->command'", "'*::argument:->argument'"], "-C ")}

case $state in
    command)
        local -a commands=(
{rows}
        )
        _describe -t commands command commands
        ;;
    argument)
        case $words[1] in
{cases}
        esac
        ;;
esac
"""


def _zsh_arguments(command: Command, indent: int, rest: list[str], flags: str = "") -> str:
    """The call of `_arguments` for a command."""
    parts = [_zsh_word(word) for word in command.options()] + rest
    return " " * indent + f" \\\n{' ' * indent}    ".join([f"_arguments {flags}-s -S :", *parts])


def _zsh_word(word: Word) -> str:
    """An option or an argument as `_arguments` has it."""
    action = f"({' '.join(word.choices)})" if word.choices else "_files" if word.is_file() else " "
    value = f":{_zsh_plain(word.value)}:{'_files -/' if word.is_folder() else action}" if word.value else ""
    if not word.names:
        return quoted(value)
    told = quoted(f"{'=' if word.value else ''}[{_zsh_plain(word.help)}]{value}")
    if len(word.names) == 1:
        return ("'*'" if word.repeated else "") + word.names[0] + told
    return quoted(f"({' '.join(word.names)})") + "{" + ",".join(word.names) + "}" + told


def _zsh_plain(text: str) -> str:
    """A text with the signs that `_arguments` reads put aside."""
    return text.translate({ord(sign): "\\" + sign for sign in "\\:[]"})


def fish(parser: argparse.ArgumentParser) -> str:
    """The completion for fish."""
    program, (whole, *commands) = parser.prog, commands_of(parser)
    begin = f"complete -c {program}"
    lines = [f"# Completion of {program} for fish, as `{program} --completions fish` prints it.", f"{begin} -f"]
    before = "-n __fish_use_subcommand"
    lines += [f"{begin} {before} {_fish_option(word)}" for word in whole.options()]
    lines += [f"{begin} {before} -a {one.name} -d {quoted(one.help)}" for one in commands]
    for one in commands:
        after = f"-n {quoted(f'__fish_seen_subcommand_from {one.name}')}"
        if any(word.is_file() for word in one.arguments()):
            lines.append(f"{begin} {after} -F")
        lines += [f"{begin} {after} {_fish_option(word)}" for word in one.options()]
    return "\n".join(lines) + "\n"


def _fish_option(word: Word) -> str:
    """An option as `complete` has it."""
    parts = [f"-l {name[2:]}" if name.startswith("--") else f"-s {name[1:]}" for name in word.names]
    if word.choices:
        parts.append(f"-x -a {quoted(' '.join(word.choices))}")
    elif word.is_folder():
        parts.append("-x -a '(__fish_complete_directories)'")
    elif word.value:
        parts.append("-r -F" if word.is_file() else "-x")
    return " ".join([*parts, f"-d {quoted(word.help)}"])


def quoted(text: str) -> str:
    """A text as one word of a shell."""
    return "''" if not text else shlex.quote(text) if "'" in text else f"'{text}'"


SHELLS: dict[str, Callable[[argparse.ArgumentParser], str]] = {"bash": bash, "zsh": zsh, "fish": fish}


class PrintCompletions(argparse.Action):
    """An option that prints the completion for a shell and ends the program."""

    def __call__(
        self,
        parser: argparse.ArgumentParser,
        namespace: argparse.Namespace,
        values: object,
        option_string: str | None = None,
    ) -> None:
        """Prints it."""
        print(SHELLS[str(values)](parser), end="")
        parser.exit()
