#!/usr/bin/env python3
"""Makes the booklets of docs/statement/ of the sources: every definition that the headline theorem and its contracts mention.

It begins at the roots of booklets.py, and goes from each definition to those that its text names: definitions of specs/*.antt, and
types and constants of src/*.rt. Each stands once, in the booklet of its field; what a booklet takes from the others, and what it names
of the library, is listed in it. What stands above the line MADE of a booklet is written by hand and left as it is. It writes the
pages, or with --check compares them, and ends with status 1 where one differs or where a name can't be found.
"""

import re
import sys
import textwrap
from collections import Counter
from pathlib import Path
from typing import Callable, Dict, Iterator, List, Set, Tuple

import antt
import headline
from booklets import BOOKLETS, CUT, DEVICE, LAW, ROOTS, SAID, At, Booklet, place_of
from closure import Closure, Item
from declared import Declared, Key
from statement_marks import mark_of, marked_names, section_of
from statement_words import meaning_of

ROOT = Path(__file__).resolve().parents[2]
CRATES = ROOT / "crates"
DOCS = ROOT / "docs"
MOST_LINES = 450
MADE = "<!-- Made by tools/pages/make.sh from here on; what stands above is written by hand. -->\n\n"
STANDARDS = re.compile(r"RFC 9669|ZNS 1\.1|NVMe Base 2\.0|NVM Command Set 1\.0|BPF ABI 1\.0")
# the words of docs/theorem.md that tell how much there is to read
TOLD = re.compile(r"\d+ definitions of \d+ lines \(the theorem's: \d+ of \d+\)(, \d+ Rust declarations of \d+)?")

# the parts of a section: the items of one file that stand there
Part = Tuple[At, str]


def plain(comment: List[str]) -> str:
    """A comment without its marks, in one line."""
    return " ".join(re.sub(r"^ *(--|//[/!]) *", "", line) for line in comment)


def wrapped(text: str) -> str:
    """A paragraph of a page."""
    return textwrap.fill(text, 130, break_long_words=False, break_on_hyphens=False) + "\n\n"


def code_lines(item: Item) -> List[str]:
    """The lines of an item that are no comment."""
    return [line for line in item.lines if line.strip() and not re.match(r" *(--|///)", line)]


def marked(comment: List[str], sign: str, blanks: int) -> List[str]:
    """The comment of an item, with its mark."""
    if not comment:
        return [f"{' ' * blanks}-- [{sign}]"]
    return [re.sub(r"^( *(?:--|///)) ?", rf"\1 [{sign}] ", comment[0]), *comment[1:]]


def shown(items: List[Tuple[str, Item]]) -> List[str]:
    """Items of one file with their marks, each with its comment, below the blocks in which they stand."""
    lines: List[str] = []
    blocks: Tuple[antt.Block, ...] = ()
    owner: List[str] = []
    for sign, item in items:
        if isinstance(item, antt.Definition):
            for block in item.blocks:
                if not any(block is other for other in blocks):
                    lines += block.comment + block.lines
            blocks = item.blocks
            lines += marked(item.comment, sign, antt.indent(item.lines[0])) + item.fixity + item.lines + [""]
        else:
            if item.owner and item.owner_comment != owner:
                lines += item.owner_comment + [f"impl {item.owner} {{ .. }}"]
            owner = item.owner_comment
            lines += marked(item.comment, sign, antt.indent(item.lines[0])) + item.lines + [""]
    return [f"    {line}".rstrip() for line in lines]


class Pages:
    """The items of a closure, each in its part of a booklet."""

    def __init__(self, closure: Closure, place: Callable[[str, str], At] = place_of) -> None:
        self.closure = closure
        self.at: Dict[Key, At] = {key: place(item.file, str(key[-1])) for key, item in closure.items.items()}
        self.parts: Dict[Part, List[Key]] = {}
        for key, item in closure.items.items():
            self.parts.setdefault((self.at[key], item.file), []).append(key)
        for keys in self.parts.values():
            keys.sort(key=lambda key: closure.items[key].line)

    def part_of(self, key: Key) -> Part:
        """The part in which an item stands."""
        return self.at[key], self.closure.items[key].file

    def below(self, part: Part) -> List[Part]:
        """The other parts of the same booklet that a part uses."""
        targets = {self.part_of(target) for key in self.parts[part] for target in self.closure.named[key].values() if target in self.at}
        return sorted(other for other in targets if other != part and other[0][0] == part[0][0])

    def used_first(self, booklet: int) -> List[Part]:
        """The parts of a booklet, by their sections, those that a part uses before it."""
        order: List[Part] = []
        visited: Set[Part] = set()

        def visit(part: Part) -> None:
            if part not in visited:
                visited.add(part)
                for other in self.below(part):
                    visit(other)
                order.append(part)

        for part in sorted(part for part in self.parts if part[0][0] == booklet):
            visit(part)
        order.sort(key=lambda part: part[0])
        for number, part in enumerate(order):
            for later in self.below(part):
                if order.index(later) > number:
                    raise LookupError(f"{part[1]}: what it uses of {later[1]} comes later: see the sections of tools/pages/booklets.py")
        return order

    def other_names(self, part: Part) -> Iterator[str]:
        """What isn't plain of the names that a part uses: those that stand for a module, and those that are several items'."""
        several = self.closure.same_names()
        found: Dict[str, str] = {}
        for key in self.parts[part]:
            item, names = self.closure.items[key], self.closure.named[key]
            if isinstance(item, Declared):
                continue
            for word in item.names:
                head, _, rest = word.partition(".")
                target = names.get(word)
                if rest and head in self.closure.file(item.file).modules:
                    before = "a word of the library"
                    if target:
                        before = f"a variant of `{target[-1]}`" if len(target) > 2 else f"a definition of `{target[0]}`"
                    found[head] = f"`{head}.` stands before {before}"
                elif target and head == target[-1] in several and self.closure.file_of(target) != item.file:
                    found[head] = f"`{head}` is that of `{self.closure.file_of(target)}`"
        yield from (found[name] for name in sorted(found))

    def elsewhere(self, part: Part) -> Set[int]:
        """The other booklets in which definitions of the part's file stand."""
        return {at[0] for at, file in self.parts if file == part[1] and at[0] != part[0][0]}

    def text(self, part: Part) -> str:
        """What stands on the page of a part."""
        head = plain(self.closure.head(part[1]))
        notes = list(self.other_names(part))
        text = wrapped(f"`{part[1]}`: {head}") + (wrapped(f"Here {'; '.join(notes)}.") if notes else "")
        links = [link(BOOKLETS[number]) for number in sorted(self.elsewhere(part))]
        text += wrapped(f"Other definitions of this file are in {' and '.join(links)}.") if links else ""
        items = [(self.sign(key), self.closure.items[key]) for key in self.parts[part]]
        return text + "\n".join(shown(items)).rstrip() + "\n\n"

    def sign(self, key: Key) -> str:
        """The mark of an item, with the section of its standard where no comment names that."""
        item = self.closure.items[key]
        mark, section = mark_of(item.file, str(key[-1])), section_of(item.file, str(key[-1]))
        outer = item.owner_comment if isinstance(item, Declared) else []
        near = plain([*item.comment, *item.lines, *outer, *self.closure.head(item.file)])
        if "S" in mark and not section and not STANDARDS.search(near):
            raise LookupError(f"{item.file}: {key[-1]} is a standard's, of which no section is named there or in tools/pages/statement_marks.py")
        return f"{mark}: {section}" if section else mark

    def lines_in(self, booklet: int) -> int:
        """How many lines of definitions a booklet has."""
        keys = [key for part, keys in self.parts.items() if part[0][0] == booklet for key in keys]
        items = [self.closure.items[key] for key in keys]
        return sum(len(code_lines(item)) for item in items if isinstance(item, antt.Definition))


def link(booklet: Booklet) -> str:
    """A link from one booklet to another."""
    return f"[{booklet.title}]({booklet.name}.md)"


def cell(text: str) -> str:
    """A text as it stands in a table.

    >>> cell("a || b")
    'a \\\\|\\\\| b'
    """
    return text.replace("|", "\\|")


def first_sentence(comment: str) -> str:
    """The first sentence of a comment.

    >>> first_sentence("A slot, one of [`SLOTS`] (profile). A clause sees its number.")
    'A slot, one of `SLOTS`'
    """
    text = re.sub(r"\[(`\w+`)\]", r"\1", comment)
    found = re.match(r"(.*?[^.])\.(?= [A-Z]|$)", text)
    return (found[1] if found else text).replace(" (profile)", "")


def meaning_in(closure: Closure, key: Key) -> str:
    """What an item is, in one line; a constant of a type is named with that."""
    said = SAID.get(str(key[-1])) or first_sentence(plain(closure.items[key].comment))
    return f"{key[2]}: {said}" if len(key) == 4 and key[2] else said


def names_table(meanings: Dict[str, Set[str]]) -> str:
    """A table of names, each with what it is."""
    rows = [f"| `{cell(name)}` | {cell('; or '.join(sorted(meanings[name])))} |\n" for name in sorted(meanings, key=str.lower)]
    return "| Name | What it is |\n|---|---|\n" + "".join(rows) + "\n"


def interface(pages: Pages, booklet: int) -> str:
    """The names that a booklet takes from the others, with what they are."""
    taken: Dict[int, Dict[str, Set[str]]] = {}
    cut: Dict[str, Set[str]] = {}
    for part, keys in pages.parts.items():
        for key in keys if part[0][0] == booklet else []:
            for target in pages.closure.named[key].values():
                if target in CUT:
                    cut[str(target[-1])] = {f"{CUT[target]} (`{target[0]}`)"}
                elif pages.at[target][0] != booklet:
                    meanings = taken.setdefault(pages.at[target][0], {}).setdefault(str(target[-1]), set())
                    meanings.add(meaning_in(pages.closure, target))
    text = "## What it takes from the other booklets\n\n"
    for number in sorted(taken):
        text += f"From {link(BOOKLETS[number])}:\n\n" + names_table(taken[number])
    return text + ("In no booklet, but in files below `crates/`:\n\n" + names_table(cut) if cut else "")


def row(title: str, keys: List[Key], closure: Closure) -> str:
    """A row of the table of totals."""
    items = [closure.items[key] for key in keys]
    definitions = [item for item in items if isinstance(item, antt.Definition)]
    declared = [item for item in items if isinstance(item, Declared)]
    marks = Counter(mark_of(closure.items[key].file, key[-1]) for key in keys)
    cells = [
        *(title, len(definitions), sum(len(code_lines(item)) for item in definitions)),
        *(len(declared), sum(len(code_lines(item)) for item in declared)),
        *(marks[sign] for sign in ("S", "SP", "P", "-")),
    ]
    return "| " + " | ".join(str(each) for each in cells) + " |\n"


def totals(pages: Pages, booklet: int) -> str:
    """How much stands in a booklet."""
    text = "| Section | Definitions | Lines | Declared in Rust | Lines | S | SP | P | - |\n|---|" + "---|" * 8 + "\n"
    every: List[Key] = []
    for at, section in enumerate(BOOKLETS[booklet].sections):
        keys = [key for part, keys in pages.parts.items() if part[0] == (booklet, at) for key in keys]
        text += row(f"{at + 1}. {section.title}", keys, pages.closure)
        every += keys
    return text + row("all", every, pages.closure) + "\nLines are those without comments.\n\n"


def glossary(pages: Pages, booklet: int) -> str:
    """The library's words that a booklet names, each with what it means."""
    words: Dict[str, str] = {}
    for part, keys in pages.parts.items():
        for key in keys if part[0][0] == booklet else []:
            words.update(pages.closure.words.get(key, {}))
    text = "## Words of the library\n\n| Word | What it means |\n|---|---|\n"
    for name in sorted(words, key=lambda word: (word[0].isascii() and word[0].isalpha(), word.lower(), word)):
        text += f"| `{cell(name)}` | {cell(meaning_of(name, words[name]))} |\n"
    return text


def made(pages: Pages, booklet: int) -> str:
    """What is made of a booklet."""
    lines = pages.lines_in(booklet)
    if lines > MOST_LINES:
        raise LookupError(f"{BOOKLETS[booklet].title}: {lines} lines of definitions, more than {MOST_LINES}")
    text = headline.READING + totals(pages, booklet) + interface(pages, booklet)
    text += headline.text(CRATES, {key[-1] for key in pages.at}) if BOOKLETS[booklet] == DEVICE else ""
    order = pages.used_first(booklet)
    for at, section in enumerate(BOOKLETS[booklet].sections):
        text += f"## {at + 1}. {section.title}\n\n" + "".join(pages.text(part) for part in order if part[0] == (booklet, at))
    return text + glossary(pages, booklet)


def counted(items: List[Item], noun: str) -> str:
    """How many items these are, and of how many lines."""
    return f"{len(items)} {noun} of {sum(len(code_lines(item)) for item in items)}"


def definitions_of(closure: Closure) -> List[Item]:
    """The definitions of a closure, without the declarations in Rust."""
    return [item for item in closure.items.values() if isinstance(item, antt.Definition)]


def told(closure: Closure) -> str:
    """How much there is to read, as docs/theorem.md tells it."""
    law = Closure(CRATES)
    law.reach(LAW)
    every = definitions_of(closure)
    declared = [item for item in closure.items.values() if isinstance(item, Declared)]
    own = counted(definitions_of(law), "")
    return f"{counted(every, 'definitions')} lines (the theorem's: {own.replace('  ', ' ')}), {counted(declared, 'Rust declarations')}"


def all_pages() -> Dict[Path, str]:
    """The booklets, and docs/theorem.md with what that tells of them."""
    closure = Closure(CRATES, frozenset(CUT))
    for root in ROOTS:
        closure.reach(root)
    pages = Pages(closure)
    gone = [f"{file}: {name}" for file, names in marked_names().items() for name in names if name not in closure.names_in(file)]
    if gone:
        raise LookupError(f"tools/pages/statement_marks.py has marks of what no booklet has: {', '.join(gone)}")
    texts: Dict[Path, str] = {}
    for number, booklet in enumerate(BOOKLETS):
        page = DOCS / "statement" / f"{booklet.name}.md"
        head, line, _ = page.read_text().partition(MADE)
        if not line:
            raise LookupError(f"{page.name}: the line is missing that ends what is written by hand")
        texts[page] = head + line + made(pages, number)
    theorem = DOCS / "theorem.md"
    if len(TOLD.findall(theorem.read_text())) != 1:
        raise LookupError("docs/theorem.md: it doesn't tell once how many definitions there are")
    return {**texts, theorem: TOLD.sub(told(closure), theorem.read_text())}


def main() -> int:
    """Writes the pages, or compares them."""
    status = 0
    try:
        texts = all_pages()
    except (LookupError, ValueError, OSError) as error:
        print(f"tools/pages/statement.py: {error}")
        return 1
    for file, text in texts.items():
        if "--check" not in sys.argv[1:]:
            file.write_text(text)
        elif file.read_text() != text:
            print(f"{file.relative_to(ROOT)} isn't what tools/pages/make.sh makes of the crates")
            status = 1
    return status


if __name__ == "__main__":
    sys.exit(main())
