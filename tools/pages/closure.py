"""What is reached from some definitions: definitions of specs/*.antt, and types and constants of src/*.rt that they name."""

from collections import Counter
from pathlib import Path
from typing import Dict, FrozenSet, List, Set, Tuple, Union

import antt
from declared import Declared, Key, Sources
from statement_words import BUILT_IN

Item = Union[antt.Definition, Declared]


class Closure:
    """What is reached from some definitions. Those of `cut` are named by others, and not gone into."""

    def __init__(self, crates: Path, cut: FrozenSet[Key] = frozenset()) -> None:
        self.crates = crates
        self.cut = cut
        self.files: Dict[str, antt.SpecFile] = {}
        self.sources = Sources(crates)
        self.items: Dict[Key, Item] = {}
        self.named: Dict[Key, Dict[str, Key]] = {}
        self.words: Dict[Key, Dict[str, str]] = {}

    def file(self, path: str) -> antt.SpecFile:
        """A file of definitions."""
        if path not in self.files:
            try:
                self.files[path] = antt.read((self.crates / path).read_text(), path)
            except (ValueError, LookupError, StopIteration) as error:
                raise LookupError(f"{path}: it can't be read: {error}") from error
        return self.files[path]

    def found(self, module: str, name: str) -> Union[Key, str]:
        """What a name of a module stands for; of the library's, its module."""
        parts = module.split(".")
        if parts[0] != "Rattle" or not (self.crates / parts[1]).is_dir():
            return module
        if "declared" in parts:
            path = parts[parts.index("declared") + 1 :]
            if "TheConstants" in path:
                at = path.index("TheConstants")
                return (parts[1], "/".join(path[:at]), "".join(path[at + 1 :]), name)
            kind = path[:-1] if path[-1] == "TheVariants" else path
            return (parts[1], "/".join(kind[:-1]), "", kind[-1])
        path_of_file = "/".join(parts[1:]) + ".antt"
        file = self.file(path_of_file)
        if name in file.definitions:
            return (path_of_file, file.definitions[name].name)
        if name in file.passed_on:
            return self.found(*file.items[name])
        raise LookupError(f"{path_of_file}: it defines no {name}, which another file takes from there")

    def resolved(self, path: str, word: str) -> Tuple[str, Union[Key, str]]:
        """What a word of a file stands for, with its name there."""
        file = self.file(path)
        head, _, rest = word.partition(".")
        for name in (word, f"◌{word}◌", f"{word}◌then◌else◌", head):
            if name in file.definitions:
                return name, (path, file.definitions[name].name)
            if name in file.items:
                module, original = file.items[name]
                return original, self.found(module, original)
        if head in file.modules:
            name = rest.split(".")[0]
            return name, self.found(file.modules[head], name)
        if word in BUILT_IN:
            return word, ""
        raise LookupError(f"{path}: what {word} stands for can't be found")

    def definition(self, key: Tuple[str, str]) -> Dict[str, Key]:
        """Takes in a definition. It gives what that names of ours; what it names of the library is noted."""
        definition = self.file(key[0]).definitions.get(key[1])
        if definition is None:
            raise LookupError(f"{key[0]}: it defines no {key[1]}")
        self.items[key] = definition
        names: Dict[str, Key] = {}
        for word in definition.names:
            name, target = self.resolved(key[0], word)
            if isinstance(target, str):
                self.words.setdefault(key, {})[name] = target
            elif target != key:
                names[word] = target
        return names

    def reach(self, start: Key) -> None:
        """Takes in an item, and all that it names."""
        waiting = [start]
        while waiting:
            key = waiting.pop()
            if key in self.items or key in self.cut:
                continue
            if len(key) == 2:
                names = self.definition(key)
            else:
                declared = self.sources.find(key)
                self.items[key] = declared
                names = {place[-1]: place for place in declared.names}
            self.named[key] = names
            waiting.extend(names.values())

    def head(self, path: str) -> List[str]:
        """The comment at the head of a file."""
        if path.endswith(".antt"):
            return self.file(path).head
        return [line for line in (self.crates / path).read_text().splitlines() if line.startswith("//!")]

    def same_names(self) -> Set[str]:
        """The names that several items have."""
        counted = Counter(key[-1] for key in self.items)
        return {name for name, times in counted.items() if times > 1}

    def names_in(self, file: str) -> Set[str]:
        """The names of the items of a file."""
        return {str(key[-1]) for key, item in self.items.items() if item.file == file}

    def file_of(self, key: Key) -> str:
        """The file in which an item stands, also one that was cut off."""
        return key[0] if len(key) == 2 else self.sources.file(key[0], key[1])
