#!/usr/bin/env python3
"""Makes reference pages from the sources, so that none is kept by hand.

    make.py                writes docs/proved.md: the laws of each crate, and the public contracts of those that others call, each with
                           the first paragraph of the comment above it
    make.py --check        compares it with what is there, and ends with status 1 where it differs
    make.py --definitions  prints the public definitions of each crate, in the order of its specs/Lib.antt, with the comments above them

It reads the layout that `rt fmt` gives: items begin at the left, what is inside them four blanks further on.
"""

import re
import sys
from pathlib import Path
from typing import Callable, Dict, Iterator, List, Tuple

ROOT = Path(__file__).resolve().parents[2]
CRATES = ROOT / "crates"
PROVED = """# What is proved

Made by `tools/pages/make.sh`. Each function is safe on every input that its contract takes, and returns. A law is a function that does
nothing: its contract is what its row says. All laws are here. Of the crates that programs and other projects call, the functions that
have a contract follow, each with the first lines of its comment; the contract is under that comment in the source. *Ghost* is what a
trait asks for beside its functions, *as* a type that has it, and *inside* a function that no other crate can call. Rows don't repeat
that memory may lack and files may fail.

"""
DEFINED = """# Definitions

Made by `tools/pages/make.py --definitions`: the words of contracts and laws, in reading order. A folder `steps` has what private functions
and proofs alone hand on.

"""

# crates that serve tests and measures alone
PROMISE_NOTHING = re.compile(r"bench_\w+|\w+_tests|test_inputs")

# crates whose public functions are for programs and other projects; those of all others are parts of these
PUBLISHED = {
    *("program_interface", "nvme_entry", "image_store", "image_text", "zns_commands", "ebpf_decode", "ebpf_asm", "interp", "verified_run"),
    *("verifier", "question_words", "question_compiler", "emit_append", "durable_device", "device_serve"),
    *("device_events", "runner", "device_library", "tcp_device", "event_frames", "event_text", "command_images"),
    *("command_exec", "command_query", "command_serve", "command_programs", "command_entry", "command_explain", "zscli"),
}

# functions that no other crate can call, whose contracts are promises to the user all the same; those not found yet
INSIDE = {
    *("command_files: DataFault::number", "command_programs: program::refused", "command_programs: unpack::refused"),
    *("command_programs: sizes::limit", "command_programs: sizes::run_sizes", "command_programs: trace::context_of"),
    *("command_entry: printing::print", "command_entry: identifiers::next_identifier", "command_entry: adding::add"),
    *("command_explain: Waiting::new", "command_explain: Waiting::complete", "command_explain: explain::no_replies"),
}

FUNCTION = re.compile(r"(|    )(pub )?(?:pub\(\w+\) )?(?:const )?(?:unsafe )?(?:extern \"C\" )?fn (\w+)")
OWNER = re.compile(r"(?:pub )?(trait|impl)\b(?:<(?:[^<>]|<[^<>]*>)*>)? ?(?:(.*) for )?(\w+)")
TYPE = re.compile(r"pub (?:struct|enum) (\w+)")
GHOST = re.compile(r"    ghost (\w+)(:| =) \{")
DEFINITION = re.compile(r" *(?:abbrev pub|unfoldable pub|pub record|pub data) (\S+)")

# a line of a table: a name, and what is said of it
Row = Tuple[str, str]


def first_paragraph(comment: List[str]) -> str:
    """The comment up to its first empty line; links of the code's documentation are their names alone."""
    lines = comment[: comment.index("")] if "" in comment else comment
    return re.sub(r"\[(`[^`]+`)\](\([^)]*\))?", r"\1", " ".join(lines))


def modules(file: Path, folder: Path) -> Iterator[Path]:
    """The file and those that its `mod` items name, without tests."""
    yield file
    without_tests = re.sub(r"#\[cfg\(test\)\]\nmod \w+;", "", file.read_text())
    for name in re.findall(r"^(?:pub )?mod (\w+);", without_tests, re.M):
        yield from modules(folder / f"{name}.rt", folder / name)


def ensures(lines: List[str], indent: str) -> bool:
    """Whether the function that begins with these lines has a contract."""
    for line in lines:
        if line.startswith(f"{indent}    ensures"):
            return True
        if line.endswith((" {", ";")) or line.startswith(indent + "{"):
            return False
    return False


def promises(file: Path, path: str, shown: Callable[[str], bool]) -> Iterator[Row]:
    """What a file promises: contracts, what its traits ask for, and the types that have it."""
    lines = file.read_text().splitlines()
    comment: List[str] = []
    types: Dict[str, List[str]] = {}
    kind = trait = owner = told = ""
    for at, line in enumerate(lines):
        if line.lstrip().startswith("///"):
            comment.append(line.lstrip()[3:].strip())
            continue
        begins, function, ghost, named = OWNER.match(line), FUNCTION.match(line), GHOST.match(line), TYPE.match(line)
        name = ""
        if begins:
            kind, trait, owner, told = begins[1], begins[2] or "", begins[3], ""
        elif line == "}":
            kind = trait = owner = ""
        elif named:
            types[named[1]] = comment
        elif ghost and kind == "trait" and ghost[2] == ":":
            name = f"`{owner}::{ghost[1]}`, ghost"
        elif ghost and ghost[1] == "from_gives" and "Alloc" not in trait:
            name = f"`{owner}::from` of `{trait}`"
        elif ghost and trait not in ("", "Model", "Clone", told) and "From<" not in trait and shown(owner):
            told = trait
            yield f"`{owner}`, as `{trait}`", first_paragraph(types.get(owner, []))
        elif function and ensures(lines[at:], function[1]):
            local = f"{owner or file.stem}::{function[3]}"
            listed = f"{file.relative_to(CRATES).parts[0]}: {local}"
            if listed in INSIDE:
                INSIDE.remove(listed)
                yield f"`{local}`, inside", first_paragraph(comment)
            elif function[2] or trait or kind == "trait":
                name = f"`{owner}::{function[3]}`" if owner else f"`{path}{function[3]}`"
                name += f" of `{trait}`" if trait else ""
        if name and shown(owner or function[3]):
            yield name, first_paragraph(comment)
        if not line.lstrip().startswith("#["):
            comment = []


def table(title: str, rows: List[Row]) -> str:
    """The rows as a table, or nothing where there is none."""
    lines = ["| " + " | ".join(cell.replace("|", "\\|") for cell in row) + " |" for row in rows]
    return "\n".join([f"| {title} | What it says |", "|---|---|", *lines]) + "\n\n" if rows else ""


def proved(crate: str) -> str:
    """The part of docs/proved.md on a crate."""
    source = CRATES / crate / "src"
    root = source / "lib.rt" if (source / "lib.rt").exists() else source / "main.rt"
    public = set(re.findall(r"^pub mod (\w+);", root.read_text(), re.M))
    handed_on = set(re.findall(r"\w+", " ".join(re.findall(r"^pub use ([^;]*);", root.read_text(), re.M))))
    rows: Dict[bool, List[Row]] = {True: [], False: []}
    for file in modules(root, source):
        module = file.relative_to(source).with_suffix("").parts[0]
        whole, law = module in public or file == root or root.stem == "main", module == "laws"
        path = f"{module}::" if module in public and not law else ""
        rows[law].extend(promises(file, path, lambda name: whole or name in handed_on))
    return table("Law", rows[True]) + (table("Function", rows[False]) if crate in PUBLISHED else "")


def spec_files(index: Path, folder: Path) -> Iterator[Path]:
    """The files of definitions that an index names, in its order."""
    for name in re.findall(r"^pub mod (\w+)", index.read_text(), re.M):
        file = folder / f"{name}.antt"
        yield from spec_files(file, folder / name) if (folder / name).is_dir() else [file]


def defined(crate: str) -> str:
    """The part of the page of definitions on a crate."""
    specs = CRATES / crate / "specs"
    text = ""
    for file in spec_files(specs / "Lib.antt", specs) if specs.is_dir() else ():
        head = ""
        comment: List[str] = []
        rows: List[Row] = []
        for line in file.read_text().splitlines():
            definition = DEFINITION.match(line)
            if line.lstrip().startswith("--"):
                comment.append(line.lstrip()[2:].strip())
                continue
            if definition:
                rows.append((f"`{definition[1]}`", " ".join(comment)))
            elif line.startswith("use ") and not head:
                head = " ".join(comment)
            if not line.lstrip().startswith("infix"):
                comment = []
        text += f"`{file.relative_to(CRATES)}`: {head}\n\n" + table("Definition", rows)
    return text


def page(text: str, part: Callable[[str], str]) -> str:
    """A page: its head, and a part for each crate of which there is something to say, below the headings of crates.txt."""
    heading = ""
    for line in (ROOT / "crates.txt").read_text().splitlines():
        crate = (line.split("#")[0].split(":")[0].split() or [""])[0]
        if line.startswith("# "):
            heading = f"## {line[2:]}\n\n"
        elif crate and not PROMISE_NOTHING.fullmatch(crate):
            said = part(crate)
            text += f"{heading}### {crate}\n\n{said}" if said else ""
            heading = "" if said else heading
    return text.rstrip("\n") + "\n"


def main() -> int:
    """Writes docs/proved.md, or compares it; or prints the definitions."""
    if "--definitions" in sys.argv[1:]:
        print(page(DEFINED, defined), end="")
        return 0
    status, text, file = 0, page(PROVED, proved), ROOT / "docs" / "proved.md"
    if "--check" not in sys.argv[1:]:
        file.write_text(text)
    elif not file.exists() or file.read_text() != text:
        print("docs/proved.md isn't what tools/pages/make.sh makes of the crates")
        status = 1
    if INSIDE:
        print(f"tools/pages/make.py: INSIDE names what isn't there: {', '.join(sorted(INSIDE))}")
    return 1 if INSIDE else status


if __name__ == "__main__":
    sys.exit(main())
