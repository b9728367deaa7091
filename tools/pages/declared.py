"""Finds in src/*.rt what definitions name by `specs.declared`: types, and constants with their numbers, each with its `///`."""

import re
from dataclasses import dataclass, field
from pathlib import Path
from typing import Dict, Iterator, List, Tuple, Union

DECLARES = r"^( *)(?:pub(?:\(\w+\))? )?(?:{kinds}) {name}\b"
IMPL = re.compile(r"impl(?:<[^>]*>)? (\w+) \{$")
NUMBER = re.compile(r"[\d_]+|0x[\da-fA-F_]+")
# the last number of a list that is a constant, as another constant
LAST = re.compile(r"([A-Z][A-Z\d_]*)\[\1\.len\(\) - 1\](?: as \w+)?")

# types of the language and of its library, which are read as the page's head says
KNOWN_TYPES = {"Option", "Result", "Vec", "Box", "String", "Self"}

# where something is declared: the crate, the module, the type to which a constant belongs or nothing, and the name
Place = Tuple[str, str, str, str]
# a definition, by its file and its name, or a declaration, by its place
Key = Union[Tuple[str, str], Place]


@dataclass
class Declared:
    """A declaration: where it stands, the comments above it and above its `impl`, its text, and what that names."""

    file: str
    line: int
    owner: str
    owner_comment: List[str]
    comment: List[str]
    lines: List[str]
    names: List[Key] = field(default_factory=list)


def comment_above(lines: List[str], at: int) -> List[str]:
    """The `///` lines above a line, between which attributes may stand."""
    found: List[str] = []
    while at > 0 and re.match(r" *(///|#\[)", lines[at - 1]):
        at -= 1
        if lines[at].lstrip().startswith("///"):
            found.insert(0, lines[at])
    return found


def text_from(lines: List[str], at: int) -> List[str]:
    """The declaration that begins there, without attributes."""
    blanks = re.match(" *", lines[at])[0]  # type: ignore[index]
    end = at
    while not (lines[end].endswith(";") and end == at) and not re.fullmatch(blanks + r"(\}|\};|\];|\);)", lines[end]):
        end += 1
    return [line for line in lines[at : end + 1] if not line.lstrip().startswith("#[")]


def uses(text: str) -> Iterator[List[str]]:
    """The paths that the `use` items of a file bring in, in their parts."""
    for item in re.findall(r"^(?:pub )?use ([^;]+);", text, re.M):
        path, _, names = item.partition("{")
        for name in re.findall(r"[\w:]+", names) if names else [""]:
            yield (path + name).split("::")


class Sources:
    """The files of the crates in a folder."""

    def __init__(self, crates: Path) -> None:
        self.crates = crates
        self.texts: Dict[str, str] = {}

    def file(self, crate: str, module: str) -> str:
        """The name of a module's file."""
        return f"{crate}/src/{module or 'lib'}.rt"

    def text(self, crate: str, module: str) -> str:
        """A module's text."""
        name = self.file(crate, module)
        if name not in self.texts:
            self.texts[name] = (self.crates / name).read_text()
        return self.texts[name]

    def locate(self, crate: str, module: str, name: str) -> Place:
        """Where a name is declared that stands in a module."""
        text = self.text(crate, module)
        if re.search(DECLARES.format(kinds="struct|enum|const", name=name), text, re.M):
            return (crate, module, "", name)
        for *path, last in uses(text):
            if last == name and path:
                if path[0] == "crate":
                    return self.locate(crate, "/".join(path[1:]), name)
                if (self.crates / path[0]).is_dir():
                    return self.locate(path[0], "/".join(path[1:]), name)
                return self.locate(crate, "/".join(path), name)
        raise LookupError(f"{self.file(crate, module)}: {name} is declared nowhere")

    def number(self, place: Place) -> int:
        """The number that a constant is."""
        crate, module, _, name = place
        found = re.search(rf"const {name}: \w+ = ([^;]+);", self.text(crate, module))
        if not found:
            raise LookupError(f"{self.file(crate, module)}: {name} isn't a number")
        last = LAST.fullmatch(found[1])
        if last:
            return self.last_number(self.locate(crate, module, last[1]))
        value = re.sub(r"[A-Z][A-Z\d_]*", lambda match: str(self.number(self.locate(crate, module, match[0]))), found[1])
        if not re.fullmatch(r"[\da-fx_ +*/()-]+", value):
            raise LookupError(f"{self.file(crate, module)}: {name} can't be worked out: {found[1]}")
        return int(eval(value.replace("/", "//")))  # digits, operators and brackets alone

    def last_number(self, place: Place) -> int:
        """The last number of a constant that is a list of numbers."""
        crate, module, _, name = place
        found = re.search(rf"const {name}: \[[^=]*\] = \[(?:[^;]*, )?([\d_]+),?\s*\];", self.text(crate, module))
        if not found:
            raise LookupError(f"{self.file(crate, module)}: {name} is no list of numbers")
        return int(found[1])

    def find(self, place: Place) -> Declared:
        """What is declared at a place."""
        crate, module, owner, name = place
        lines = self.text(crate, module).splitlines()
        declares = re.compile(DECLARES.format(kinds="struct|enum|const", name=name))
        inside = ""
        owner_comment: List[str] = []
        for at, line in enumerate(lines):
            begins = IMPL.match(line)
            if begins:
                inside, owner_comment = begins[1], comment_above(lines, at)
            elif line == "}":
                inside, owner_comment = "", []
            elif inside == owner and declares.match(line):
                comment, text = comment_above(lines, at), text_from(lines, at)
                found = Declared(self.file(crate, module), at + 1, owner, owner_comment, comment, text)
                return self.completed(found, place)
        raise LookupError(f"{self.file(crate, module)}: {name} isn't declared there")

    def completed(self, found: Declared, place: Place) -> Declared:
        """The same with what its text names, and of a constant its number, of a type with a model its value."""
        crate, module, owner, name = place
        code = "\n".join(line for line in found.lines if "///" not in line)
        if re.search(rf"const {name}\b", code):
            found.lines = [" ".join(code.split()).replace(", }", " }").replace("[ ", "[").replace(", ]", "]")]
            value = code.split(" = ", 1)[1].rstrip(";")
            if re.search(r": \w+ =", code) and not NUMBER.fullmatch(value) and "{" not in value:
                found.lines[0] += f" // {self.number(place)}"
        else:
            lines, found.names = self.model(crate, module, name)
            found.lines += lines
        if owner:
            found.lines = ["    " + found.lines[0]]
        named = re.sub(rf"(?:struct|enum|const) {name}|^    [A-Z]\w*|::\w+|//.*", "", code, flags=re.M)
        for word in dict.fromkeys(re.findall(r"\b[A-Z]\w+", named)):
            if word not in KNOWN_TYPES:
                found.names.append(self.locate(crate, module, word))
        return found

    def model(self, crate: str, module: str, name: str) -> Tuple[List[str], List[Key]]:
        """Of a type that definitions see as another: its `Value`, and of one that isn't a number its `view`, with what that names."""
        text = self.text(crate, module)
        block = re.search(rf"^impl(?:<[^>]*>)? Model for {name}\b.*?^\}}$", text, re.M | re.S)
        if not block:
            return [], []
        members = dict(re.findall(r"^    ghost (\w+) = (\{ [^\n]* \};)$", block[0], re.M))
        if members.get("Value") not in ("{ ℕ };", "{ List ℕ };"):
            raise LookupError(f"{self.file(crate, module)}: the model of {name} is neither a number nor bytes, and is not shown")
        shown = ["Value"] if members["Value"] == "{ ℕ };" else ["Value", "view"]
        named: List[Key] = []
        for module_of, words in re.findall(r"^    ghost use Rattle\.(\w+\.specs\.[\w.]+)\.\{(.*)\};$", block[0], re.M):
            path = module_of.replace(".", "/") + ".antt"
            if "view" in shown and (self.crates / path).exists():
                named += [(path, word) for word in words.split(", ") if re.search(rf"\b{word}\b", members["view"])]
        return [f"impl Model for {name} {{", *(f"    ghost {kind} = {members[kind]}" for kind in shown), "}"], named
