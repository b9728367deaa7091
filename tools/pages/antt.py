"""Reads files of definitions (specs/*.antt): what each brings in, what it defines, and the names that each definition mentions.

It reads the layout that `rt fmt` gives: what stands inside a definition is further to the right than its first line, but for
its clauses and closing brackets, which begin below it; it ends where the next one or its comment begins.
"""

import re
from dataclasses import dataclass, field
from pathlib import Path
from typing import Dict, List, Optional, Set, Tuple

TOKEN = re.compile(r'"[^"]*"|\[\]|[()\[\]{};,]|[^\s()\[\]{};,]+')
USE = re.compile(r" *(pub )?use ([^\s{]+?)(?:\.\{(.*)\})?(?: as (\S+))?$")
BEGINS = re.compile(r" *(?:abbrev pub|unfoldable pub|abbrev|unfoldable|(?:pub )?(record|data)|pub) (\S+)(?: |$)")
BLOCK = re.compile(r" *module _ ")

# words of the language, which name nothing
KEYWORDS = {"λ", "→", ":", "=", ".", ",", "let", "in", "then", "else", "record", "where", "as", "Type", "_", "do", "←"}
# constructors of the library that begin with a small letter
SMALL_CONSTRUCTORS = {"zero", "suc", "true", "false", "pos", "negsuc", "tt"}


@dataclass
class Block:
    """A `module _ .. where`: what all definitions in it take."""

    comment: List[str]
    lines: List[str]
    bound: Set[str] = field(default_factory=set)
    names: List[str] = field(default_factory=list)


@dataclass
class Definition:
    """A definition: where it stands, its comment and its text, and the names that it mentions."""

    file: str
    name: str
    line: int
    comment: List[str]
    lines: List[str]
    blocks: Tuple[Block, ...]
    fixity: List[str] = field(default_factory=list)
    constructors: List[str] = field(default_factory=list)
    names: List[str] = field(default_factory=list)


@dataclass
class SpecFile:
    """A file: the comment at its head, its definitions by their names, and what its names from elsewhere stand for."""

    head: List[str] = field(default_factory=list)
    definitions: Dict[str, Definition] = field(default_factory=dict)
    items: Dict[str, Tuple[str, str]] = field(default_factory=dict)
    modules: Dict[str, str] = field(default_factory=dict)
    passed_on: Set[str] = field(default_factory=set)


def indent(line: str) -> int:
    """How many blanks a line begins with."""
    return len(line) - len(line.lstrip(" "))


def tokens_of(lines: List[str]) -> List[str]:
    """The words and brackets of some lines, without comments."""
    return [token for line in lines for token in TOKEN.findall(re.sub(r"(^|\s)--.*$", "", line))]


def closing(tokens: List[str], at: int) -> int:
    """Where the bracket is closed that is opened there."""
    depth = 0
    for index in range(at, len(tokens)):
        depth += (tokens[index] in "([{") - (tokens[index] in ")]}")
        if depth == 0:
            return index
    raise ValueError(f"a bracket isn't closed: {' '.join(tokens[at:at + 8])}")


def pieces(tokens: List[str], mark: str) -> List[List[str]]:
    """What stands between marks that are in no bracket."""
    found: List[List[str]] = [[]]
    depth = 0
    for token in tokens:
        depth += (token in "([{") - (token in ")]}")
        if token == mark and depth == 0:
            found.append([])
        else:
            found[-1].append(token)
    return found


class Names:
    """The names that a text of a file mentions and doesn't bind, in their order. A scope has the names that are bound."""

    def __init__(self, file: SpecFile) -> None:
        self.file = file
        self.found: List[str] = []

    def is_constructor(self, token: str) -> bool:
        """Whether a word of a pattern is a constructor or an operator. A name that the file doesn't know is a variable."""
        if "." in token or not (token[0].isalpha() or token[0] == "_"):
            return True
        known = token in self.file.items or token in self.file.definitions
        return known and (token[0].isupper() or token in SMALL_CONSTRUCTORS)

    def note(self, token: str, scope: Set[str]) -> None:
        """One word: a name, of which what is bound is left out, as are numbers and texts."""
        if token not in KEYWORDS and token[0] not in '".0123456789' and token.split(".")[0] not in scope:
            self.found.append(token)

    def binder(self, inside: List[str], scope: Set[str]) -> bool:
        """Whether what stands in brackets binds names, as `x y : T` does; they are in scope then."""
        colon = inside.index(":") if ":" in inside else 0
        if not colon or any(token in "([{" for token in inside[:colon]):
            return False
        self.term(inside[colon + 1 :], set(scope))
        scope.update(inside[:colon])
        return True

    def brackets(self, bracket: str, inside: List[str], scope: Set[str]) -> None:
        """What stands in brackets: binders, fields `x = t; ..`, or a term."""
        if self.binder(inside, scope):
            return
        for piece in pieces(inside, ";"):
            is_field = bracket == "{" and piece[1:2] == ["="]
            self.term(piece[2:] if is_field else piece, set(scope))

    def arguments(self, tokens: List[str], at: int, scope: Set[str]) -> int:
        """Those of a `λ`, up to the point behind them."""
        while True:
            token = tokens[at]
            if token in "([{":
                end = closing(tokens, at)
                self.binder(tokens[at + 1 : end], scope)
                at = end
            else:
                scope.add(token.rstrip("."))
            at += 1
            if token.endswith("."):
                return at

    def term(self, tokens: List[str], scope: Set[str]) -> None:
        """A term or a type. What it binds is in scope behind it."""
        lets: List[str] = []
        at = 0
        while at < len(tokens):
            token = tokens[at]
            if token in "([{":
                end = closing(tokens, at)
                self.brackets(token, tokens[at + 1 : end], scope)
                at = end
            elif token == "λ":
                at = self.arguments(tokens, at + 1, scope) - 1
            elif token == "let":
                lets.append(tokens[at + 1])
                at += 1
            elif token == "in" and lets:
                scope.add(lets.pop())
            elif tokens[at + 1 : at + 2] == ["←"]:
                scope.add(token)
            else:
                self.note(token, scope)
            at += 1

    def patterns(self, tokens: List[str], scope: Set[str]) -> None:
        """The left of a clause: what is no constructor is bound. In braces every name is."""
        at = 0
        while at < len(tokens):
            token = tokens[at]
            if token in "([{":
                end = closing(tokens, at)
                inside = tokens[at + 1 : end]
                if token == "{":
                    scope.update(inside[2:] if inside[1:2] == ["="] else inside)
                else:
                    self.patterns(inside, scope)
                at = end
            elif self.is_constructor(token):
                self.note(token, scope)
            else:
                scope.add(token)
            at += 1

    def clause(self, name: str, tokens: List[str], scope: Set[str]) -> None:
        """A clause of a definition: `name patterns = term`, where an operator stands between its patterns."""
        left = pieces(tokens, "=")[0]
        words = operator_words(name)
        scope = set(scope)
        self.patterns([token for token in left if token not in words], scope)
        self.term(tokens[len(left) + 1 :], scope)


def operator_words(name: str) -> Set[str]:
    """The words by which a definition is called: of an operator those around its arguments."""
    return set(name.split("◌")) - {""} if "◌" in name else {name}


def split_at(lines: List[str], blanks: int) -> List[List[str]]:
    """The lines in parts that each begin at the same place."""
    parts: List[List[str]] = []
    for line in lines:
        if not parts or (indent(line) == blanks and not re.match(r" *(--|[)}\]])", line)):
            parts.append([])
        parts[-1].append(line)
    return parts


def read_members(definition: Definition, lines: List[str], names: Names, scope: Set[str], is_record: bool) -> None:
    """The fields of a record, each in scope for those behind it, or the constructors of a datatype."""
    for part in split_at(lines, indent(lines[0])) if lines else []:
        tokens = [token for token in tokens_of(part) if token != "pub"]
        if not tokens:
            continue
        names.term(tokens[2:], set(scope))
        if is_record:
            scope.add(tokens[0])
        else:
            definition.constructors.append(tokens[0])


def mentioned(file: SpecFile, definition: Definition, kind: Optional[str]) -> None:
    """Finds the names that a definition of a file mentions, and the constructors that it has."""
    names = Names(file)
    bound: Set[str] = set()
    for block in definition.blocks:
        bound |= block.bound
        names.found += block.names
    if kind:
        last = next(at for at, line in enumerate(definition.lines) if line.endswith("where"))
        head = tokens_of(definition.lines[: last + 1])
        names.term(head[head.index(definition.name) + 1 :], bound)
        read_members(definition, definition.lines[last + 1 :], names, bound, kind == "record")
    else:
        head, *clauses = split_at(definition.lines, indent(definition.lines[0]))
        names.term(tokens_of(head)[3:], set(bound))
        for clause in clauses:
            names.clause(definition.name, tokens_of(clause), bound)
    definition.names = list(dict.fromkeys(names.found))


def note_use(file: SpecFile, line: str) -> None:
    """A line `use M.{a, b as c}`, `use M as n` or `use M`."""
    match = USE.match(line)
    if not match:
        raise ValueError(f"this `use` can't be read: {line}")
    passed, module, items, other = match.groups()
    if items is None:
        file.modules[other or module.split(".")[-1]] = module
        return
    for item in items.split(", "):
        name, _, new = item.partition(" as ")
        file.items[new or name] = (module, name)
        if passed:
            file.passed_on.add(new or name)


def take_lines(lines: List[str], at: int) -> int:
    """Where the definition ends that begins there."""
    blanks = indent(lines[at])
    end = at + 1
    while end < len(lines):
        line = lines[end]
        here = line.strip() and indent(line) <= blanks
        if here and (indent(line) < blanks or line.lstrip().startswith("--") or BEGINS.match(line) or BLOCK.match(line)):
            break
        if here and re.match(r" *(infix[lr]? |(pub )?use )", line):
            break
        end += 1
    while not lines[end - 1].strip():
        end -= 1
    return end


def read_block(file: SpecFile, lines: List[str], at: int, comment: List[str], outer: List[Block]) -> Tuple[Block, int]:
    """A `module _`, whose head may take several lines; and the line behind its head."""
    end = at
    while not lines[end].endswith("where"):
        end += 1
    block = Block(comment, lines[at : end + 1])
    names = Names(file)
    for each in outer:
        block.bound |= each.bound
    names.term(tokens_of(block.lines)[2:], block.bound)
    block.names = names.found
    return block, end + 1


def read(text: str, path: str) -> SpecFile:
    """The definitions of a file with this text."""
    file = SpecFile()
    lines = text.splitlines()
    comment: List[str] = []
    fixity: List[str] = []
    blocks: List[Block] = []
    at = 0
    while at < len(lines):
        line = lines[at]
        while line.strip() and blocks and indent(line) <= indent(blocks[-1].lines[0]):
            blocks.pop()
        begins = BEGINS.match(line)
        step = at + 1
        if line.lstrip().startswith("--"):
            comment.append(line)
        elif re.match(r" *infix", line):
            fixity = [line]
        else:
            if re.match(r" *(pub )?use ", line):
                file.head = file.head or comment
                note_use(file, line)
            elif BLOCK.match(line):
                block, step = read_block(file, lines, at, comment, blocks)
                blocks.append(block)
            elif begins and not line.startswith("pub mod "):
                step = take_lines(lines, at)
                definition = Definition(path, begins[2], at + 1, comment, lines[at:step], tuple(blocks), fixity)
                mentioned(file, definition, begins[1])
                for name in [definition.name, *definition.constructors]:
                    file.definitions[name] = definition
            comment, fixity = [], []
        at = step
    return file
