#!/usr/bin/env python3
"""Makes docs/zscli.bash, docs/zscli.zsh and docs/zscli.fish, which complete command lines, from the sources of the help texts.

It writes the files, or with --check compares them, and ends with status 1 where one differs. help.py reads the sources.
"""

import re
import sys
from typing import Iterator, List

from help import Arg, Command, command_line, kept

FILES = {"FILE", "IMAGE", "COMMANDS", "PROGRAM", "TO"}


def options(command: Command) -> List[str]:
    """The options of a command."""
    return [f"--{arg.long}" for arg in command.args if arg.long is not None] + ["--help"] + (["--version"] if command.version else [])


# ---- bash


def cases(command: Command, words: str) -> Iterator[str]:
    """What can come after the words of a command, and of those below it."""
    yield f'        "{words}") commands="{" ".join(below.name for below in command.below)}" options="{" ".join(options(command))}" ;;\n'
    for below in command.below:
        yield from cases(below, f"{words} {below.name}")


def valued(command: Command) -> Iterator[Arg]:
    """The options with a value, of a command and those below it."""
    yield from (arg for arg in command.args if arg.long is not None and not arg.flag)
    for below in command.below:
        yield from valued(below)


def bash(line: Command) -> str:
    """For bash: names of commands and options, words of options that have a few, and else names of files."""
    words = {f"--{arg.long}": " ".join(arg.words) for arg in valued(line) if arg.words}
    files = sorted({f"--{arg.long}" for arg in valued(line) if arg.value in FILES})
    others = sorted({f"--{arg.long}" for arg in valued(line)} - set(words) - set(files))
    chosen = "".join(f'        {option}) COMPREPLY=($(compgen -W "{offered}" -- "$word")); return ;;\n' for option, offered in words.items())
    groups = " | ".join(f'"{below.name}"' for below in line.below if below.below)
    return f"""# Made by tools/pages/make.sh of the help texts: completes the words of {line.name} in bash.
_{line.name}() {{
    local word=${{COMP_WORDS[COMP_CWORD]}} before=${{COMP_WORDS[COMP_CWORD-1]}} words={line.name} commands="" options=""
    case "$before" in
{chosen}        {" | ".join(files)}) COMPREPLY=($(compgen -f -- "$word")); return ;;
        {" | ".join(others)}) return ;;
    esac
    [ "$COMP_CWORD" -gt 1 ] && words+=" ${{COMP_WORDS[1]}}"
    case "${{COMP_WORDS[1]}}" in
        {groups}) [ "$COMP_CWORD" -gt 2 ] && words+=" ${{COMP_WORDS[2]}}" ;;
    esac
    case "$words" in
{"".join(cases(line, line.name))}    esac
    case "$word" in
        -*) COMPREPLY=($(compgen -W "$options" -- "$word")) ;;
        *) if [ -n "$commands" ]; then COMPREPLY=($(compgen -W "$commands" -- "$word")); else COMPREPLY=($(compgen -f -- "$word")); fi ;;
    esac
}}
complete -o filenames -F _{line.name} {line.name}
"""


# ---- zsh


def in_quotes(words: str) -> str:
    """A text between single quotes of a shell.

    >>> in_quotes("a zone's blocks")
    "'a zone'\\\\''s blocks'"
    """
    return "'" + words.replace("'", "'\\''") + "'"


def first_sentence(words: str) -> str:
    """What a menu shows of a help text: nothing after its first sentence, colon or semicolon.

    >>> first_sentence("The image that is written; a file with this name is replaced")
    'The image that is written'
    """
    return re.split(r"[;:] |\. ", words)[0].rstrip(".")


def escaped(words: str) -> str:
    """A text inside a specification of `_arguments`, which has a meaning for brackets and colons."""
    return re.sub(r"([\[\]:\\])", r"\\\1", words)


def takes(arg: Arg) -> str:
    """What zsh completes for an argument: one of a few words, a file, or nothing."""
    if arg.words:
        return f"({' '.join(arg.words)})"
    return "_files" if arg.long is None or arg.value in FILES else " "


def specification(arg: Arg) -> str:
    """An argument or an option, as `_arguments` has it."""
    about = escaped(first_sentence(arg.help))
    if arg.long is None:
        return in_quotes(f"{':' if arg.required else '::'}{escaped(arg.id)}:{takes(arg)}")
    value = "" if arg.flag else f":{escaped(arg.value or arg.id)}:{takes(arg)}"
    return " ".join(in_quotes(f"{name}[{about}]{value}") for name in ([f"-{arg.short}"] if arg.short else []) + [f"--{arg.long}"])


def zsh_function(command: Command, name: str) -> Iterator[str]:
    """The function of a command, and those of the commands below it."""
    lines = [specification(arg) for arg in command.args] + [in_quotes("(- *)--help[Print help]")]
    if command.version:
        lines.append(in_quotes("(- *)--version[Print version]"))
    if not command.below:
        joined = " \\\n        ".join(lines)
        yield f"{name}() {{\n    _arguments \\\n        {joined}\n}}\n\n"
        return
    listed = "".join(f"            {in_quotes(f'{below.name}:{first_sentence(below.about)}')}\n" for below in command.below)
    called = "".join(f"        {below.name}) {name}_{below.name} ;;\n" for below in command.below)
    joined = " \\\n        ".join(lines + ["'1: :->command'", "'*:: :->words'"])
    yield f"""{name}() {{
    local curcontext=$curcontext state line
    typeset -A opt_args
    _arguments -C \\
        {joined} && return
    case $state in
    command)
        local -a commands=(
{listed}        )
        _describe command commands
        ;;
    words)
        case $line[1] in
{called}        esac
        ;;
    esac
}}

"""
    for below in command.below:
        yield from zsh_function(below, f"{name}_{below.name}")


def zsh(line: Command) -> str:
    """For zsh: the same, and what each is."""
    head = f"#compdef {line.name}\n# Made by tools/pages/make.sh of the help texts: completes the words of {line.name} in zsh.\n\n"
    return head + "".join(zsh_function(line, f"_{line.name}")) + f'_{line.name} "$@"\n'


# ---- fish


def fish_option(arg: Arg) -> str:
    """The words of `complete` for an option."""
    names = (f"-s {arg.short} " if arg.short else "") + f"-l {arg.long}"
    about = f"-d {in_quotes(first_sentence(arg.help))}"
    if arg.flag:
        return f"{names} {about}"
    if arg.words:
        return f"{names} -x -a {in_quotes(' '.join(arg.words))} {about}"
    return f"{names} {'-r -F' if arg.value in FILES else '-x'} {about}"


def fish_lines(command: Command, begin: str, words: str) -> Iterator[str]:
    """The lines of a command, after its words, and of the commands below it."""
    only = f"{begin} -n '__zscli_has_only{words}'"
    after = f"{begin} -n '__zscli_begins{words}'" if not command.below else only
    for below in command.below:
        yield f"{only} -a {below.name} -d {in_quotes(first_sentence(below.about))}\n"
    if any(arg.long is None for arg in command.args):
        yield f"{after} -F\n"
    for arg in command.args:
        if arg.long is not None:
            yield f"{after} {fish_option(arg)}\n"
    yield f"{after} -l help -d 'Print help'\n"
    if command.version:
        yield f"{after} -l version -d 'Print version'\n"
    for below in command.below:
        yield from fish_lines(below, begin, f"{words} {below.name}")


def fish(line: Command) -> str:
    """For fish: the same."""
    return f"""# Made by tools/pages/make.sh of the help texts: completes the words of {line.name} in fish.

# do these words come first after the name of the program?
function __{line.name}_begins
    set -l words (commandline -opc)
    set -e words[1]
    for word in $argv
        test "$words[1]" = $word; or return 1
        set -e words[1]
    end
end

# are they all that comes before the word that is typed?
function __{line.name}_has_only
    set -l words (commandline -opc)
    test "$words[2..-1]" = "$argv"
end

complete -c {line.name} -f
{"".join(fish_lines(line, f"complete -c {line.name}", ""))}"""


def main() -> int:
    """Writes the files, or compares them."""
    line = command_line()
    made = {"zscli.bash": bash(line), "zscli.zsh": zsh(line), "zscli.fish": fish(line)}
    return 0 if all([kept(name, text) for name, text in made.items()]) else 1


if __name__ == "__main__":
    sys.exit(main())
