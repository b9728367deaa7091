#!/usr/bin/env python3
"""Makes the manual page docs/zscli.1 from the sources of the help texts.

It reads the tables of words (`WORDS`, and `KINDS` of commands that have others below them) of the commands in the list of
crates/zscli/src/commands.rt, as they are written. It writes the page, or with --check compares it, and ends with status 1 where it
differs.
"""

import re
import sys
from dataclasses import dataclass, field
from pathlib import Path
from typing import Dict, Iterator, List, NamedTuple, Optional, Tuple, Union

ROOT = Path(__file__).resolve().parents[2]
TEXT = r'"(?:[^"\\]|\\.)*"'
TOKEN = re.compile(rf"{TEXT}|'(?:[^'\\]|\\.)'|\.\.|\w+(?:::\w+)*|[^\w\s]", re.S)
ITEM = re.compile(rf'^(?:pub(?:\(crate\))? )?(?:const|static) (\w+): [^=]*=((?:{TEXT}|[^";])*);', re.M | re.S)
IMPORT = re.compile(r"^(?:pub )?use (?:\w+::)*?(\w+)::(?:\{(.*?)\}|(\w+));", re.M | re.S)
COMMENT = re.compile(r"^\s*//.*$", re.M)


@dataclass
class Arg:
    """An argument or an option."""

    id: str
    short: Optional[str] = None
    long: Optional[str] = None
    value: Optional[str] = None
    flag: bool = False
    required: bool = False
    default: Optional[str] = None
    words: List[str] = field(default_factory=list)
    help: str = ""

    def shown(self) -> str:
        """As a usage line shows it."""
        if self.long is None:
            return f"<{self.id}>"
        names = f"--{self.long}" if self.short is None else f"-{self.short}, --{self.long}"
        return names if self.flag else f"{names} <{self.value or self.id}>"


@dataclass
class Command:
    """A command with those below it."""

    name: str
    about: str = ""
    long_about: str = ""
    after_help: str = ""
    version: str = ""
    args: List[Arg] = field(default_factory=list)
    below: List["Command"] = field(default_factory=list)


class Case(NamedTuple):
    """A case of an enum, with its values."""

    name: str
    values: List["Value"]


Value = Union[str, Case, List["Value"], Dict[str, "Value"]]


class Module(NamedTuple):
    """A source file: how its constants and statics are written, and the file or crate that each name is brought in from."""

    items: Dict[str, str]
    imports: Dict[str, str]


def text_of(literal: str) -> str:
    """What a literal of a text or of a letter stands for."""
    text = re.sub(r"\\\n\s*", "", literal[1:-1])
    return re.sub(r"\\(.)", lambda found: {"n": "\n", "t": "\t", "0": "\0"}.get(found[1], found[1]), text)


def module(file: Path) -> Module:
    """Reads a source file."""
    source = COMMENT.sub("", file.read_text())
    imports = {name: stem for stem, several, one in IMPORT.findall(source) for name in re.findall(r"\w+", several or one)}
    return Module(dict(ITEM.findall(source)), imports)


MODULES = {
    (file.parts[-3], file.stem): module(file)
    for crate in [*sorted(ROOT.glob("crates/command_*")), ROOT / "crates" / "zscli"]
    for file in sorted(crate.glob("src/*.rt"))
}


class Reader:
    """Reads a value as it is written in a file."""

    def __init__(self, key: Tuple[str, str], written: str) -> None:
        self.key = key
        self.tokens: List[str] = TOKEN.findall(written)

    def next_is(self, *tokens: str) -> bool:
        """Is the next token one of these?"""
        return bool(self.tokens) and self.tokens[0] in tokens

    def value(self) -> Value:
        """A text, a list, a struct by its fields, a case of an enum, or what a name stands for."""
        while self.next_is("&"):
            self.tokens.pop(0)
        token = self.tokens.pop(0)
        if token[0] in "\"'":
            return text_of(token)
        if token == "[":
            return self.several("]")
        if self.next_is("{"):
            self.tokens.pop(0)
            return self.fields()
        name = token.rpartition("::")[2]
        if self.next_is("("):
            self.tokens.pop(0)
            return Case(name, self.several(")"))
        return Case(name, []) if name[0].isupper() and not name.isupper() else constant(self.key, token)

    def several(self, end: str) -> List[Value]:
        """Values with commas between them."""
        values: List[Value] = []
        while not self.next_is(end):
            values.append(self.value())
            if self.next_is(","):
                self.tokens.pop(0)
        self.tokens.pop(0)
        return values

    def fields(self) -> Dict[str, Value]:
        """The fields of a struct, of which others may be those of another one."""
        fields: Dict[str, Value] = {}
        while not self.next_is("}"):
            if (name := self.tokens.pop(0)) == "..":
                rest = self.value()
                assert isinstance(rest, dict)
                fields = {**rest, **fields}
            elif self.next_is(":"):
                self.tokens.pop(0)
                fields[name] = self.value()
            else:
                fields[name] = constant(self.key, name)
            if self.next_is(","):
                self.tokens.pop(0)
        self.tokens.pop(0)
        return fields


def written(key: Tuple[str, str], path: str) -> Optional[Tuple[Tuple[str, str], str]]:
    """How a constant is written, and where: in the file or crate that its path names, or that it is brought in from, or in this file,
    or in another of its crate."""
    owner, _, name = path.rpartition("::")
    stem = owner.rpartition("::")[2] or MODULES[key].imports.get(name, "")
    for found in sorted(MODULES, key=lambda other: (other != key, other[0] != key[0], other)):
        if stem in ("", "crate", *found) and name in MODULES[found].items:
            return found, MODULES[found].items[name]
        if owner and stem in found and name in MODULES[found].imports:
            return written(found, name)
    return None


def constant(key: Tuple[str, str], path: str) -> Value:
    """What a name stands for in a file."""
    found = written(key, path)
    if found is None:
        raise ValueError(f"{'/'.join(key)}: {path} isn't known")
    return Reader(*found).value()


def text(value: Value) -> str:
    """A value that is a text."""
    assert isinstance(value, str), value
    return value


def argument_of(told: Value) -> Arg:
    """An argument by its row in a table."""
    assert isinstance(told, dict)
    short, takes = told["short"], told["takes"]
    assert isinstance(short, Case) and isinstance(takes, Case)
    made = Arg(text(told["id"]), help=text(told["help"]), long=text(told["long"]) or None)
    made.short = text(short.values[0]) if short.values else None
    made.required = takes.name in ("Place", "Required")
    made.flag = takes.name.startswith("Nothing")
    if takes.name in ("Required", "Optional", "OptionalWith", "Default", "OneOf"):
        made.value = text(takes.values[0])
    if takes.name in ("Default", "OneOf"):
        made.default = text(takes.values[1])
    if takes.name == "OneOf":
        made.words = [text(word) for word in listed(takes.values[2])]
    return made


def listed(value: Value) -> List[Value]:
    """A value that is a list."""
    assert isinstance(value, list), value
    return value


def command_of(told: Value, below: Optional[List[Value]] = None) -> Command:
    """A command by its table, with those below it by theirs."""
    assert isinstance(told, dict)
    name, about, long_about, example = (text(told[name]) for name in ("name", "about", "long_about", "example"))
    args = [argument_of(it) for it in listed(told["arguments"])]
    return Command(name, about, long_about, example, args=args, below=[command_of(it) for it in below or []])


def command_line() -> Command:
    """The whole line: of each command that `commands` lists, its table and the one of those below it."""
    key = ("zscli", "commands")
    source = (ROOT / "crates" / "zscli" / "src" / "commands.rt").read_text()
    line = command_of(constant(key, "LINE"))
    line.version = text(constant(key, "VERSION"))
    start = source.index("fn commands")
    for name in re.findall(r"&(\w+)::WORDS", source[start : source.index("\n}\n", start)]):
        below = listed(constant(key, f"{name}::KINDS")) if written(key, f"{name}::KINDS") else None
        line.below.append(command_of(constant(key, f"{name}::WORDS"), below))
    return line


def troff(words: str) -> str:
    """A text as a manual page has it."""
    escaped = words.replace("\\", "\\e").replace("-", "\\-")
    return re.sub(r"(?m)^([.'])", r"\\&\1", escaped)


def paragraphs(words: str) -> Iterator[str]:
    """The paragraphs of a help text; lines that are set in stand as they are."""
    for part in words.split("\n\n"):
        if any(line.startswith("  ") for line in part.split("\n")):
            yield f".PP\n.nf\n{troff(part)}\n.fi\n"
        else:
            yield f".PP\n{troff(part)}\n"


def of_argument(arg: Arg) -> str:
    """An argument or an option, and what it is."""
    words = f" One of {', '.join(arg.words)}." if arg.words else ""
    default = f" By default {arg.default}." if arg.default is not None else ""
    end = "." if words or default else ""
    return f".TP\n\\fB{troff(arg.shown())}\\fR\n{troff(arg.help + end + words + default)}\n"


def of_command(words: str, command: Command) -> Iterator[str]:
    """The section of a command, and those of the commands below it."""
    yield f".SS {troff(words)}\n"
    if not command.below:
        given = " ".join(arg.shown() if arg.required else f"[{arg.shown()}]" for arg in command.args)
        yield f".nf\n\\fB{troff(words)}\\fR {troff(given)}\n.fi\n"
    yield from paragraphs(command.long_about or command.about)
    yield from (of_argument(arg) for arg in command.args)
    yield from paragraphs(command.after_help)
    for below in command.below:
        yield from of_command(f"{words} {below.name}", below)


def statuses() -> Iterator[str]:
    """The exit statuses, of docs/command_line.md."""
    page = (ROOT / "docs" / "command_line.md").read_text()
    for status, when in re.findall(r"^\| (\d) \| (.*?) \|", page[page.index("## Exit statuses") :], re.M):
        yield f".TP\n\\fB{status}\\fR\n{troff(when)}\n"


def manual(line: Command) -> str:
    """The manual page."""
    head = f'.\\" Made by tools/pages/make.sh of the help texts.\n.TH ZSCLI 1 "" "{line.name} {line.version}"\n'
    name = f".SH NAME\n{line.name} \\- {troff(line.about[0].lower() + line.about[1:])}\n"
    synopsis = f".SH SYNOPSIS\n\\fB{line.name}\\fR COMMAND WORDS..\n.PP\n\\fB{line.name}\\fR [COMMAND] \\-\\-help\n"
    commands = "".join(part for below in line.below for part in of_command(f"{line.name} {below.name}", below))
    return f"{head}{name}{synopsis}.SH COMMANDS\n{commands}.SH EXIT STATUS\n{''.join(statuses())}"


def kept(name: str, made: str) -> bool:
    """Writes a file of docs/, or with --check says whether it is what is made."""
    file = ROOT / "docs" / name
    if "--check" not in sys.argv[1:]:
        file.write_text(made)
    elif not file.exists() or file.read_text() != made:
        print(f"docs/{name} isn't what tools/pages/make.sh makes of the help texts")
        return False
    return True


def main() -> int:
    """Writes the page, or compares it."""
    return 0 if kept("zscli.1", manual(command_line())) else 1


if __name__ == "__main__":
    sys.exit(main())
