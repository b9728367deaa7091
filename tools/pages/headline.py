"""How a booklet of docs/statement/ is read, and the part of one on the theorem's law and the code's contracts."""

import re
import textwrap
from pathlib import Path
from typing import Dict, List, Set, Tuple

import antt
from booklets import DEVICE, LAW
from declared import comment_above

READING = """## How to read it

Made by `tools/pages/make.sh`. Of the clauses of a definition the first that fits counts, and `_` fits everything. What stands in a
`module _ .. where` takes what that names before its own arguments. [theorem.md](../theorem.md#how-to-read-it) has the other signs. A
type of Rust stands in definitions under its name: a struct as the record of its fields, an enum by its variants, which take their
fields in order, numbers as ℕ, or ℤ where they are signed, arrays as lists, and a type with a `Model` as that `Value`. Each file comes
after those of this booklet that it uses.

A mark before each comment says whose a definition is. `[S]`: a standard has it, in the section that the comment, the mark or the head of
the file names; compare the two. `[SP]`: a standard has it and leaves a choice, which this device makes. `[P]`: this device's own (its
*profile*), the order of checks too. `[-]`: nothing to compare, a word by which others are put, or what is claimed. A claim is proved
where a function's contract names it; [proved.md](../proved.md) has these functions.

"""

THEOREM = ("pushdown/specs/Pushdown.antt", "Pushdown")
FILES = (
    "pushdown/src/laws.rt",
    "device_laws/src/laws.rt",
    "runner/src/device.rt",
    "device_events/src/out.rt",
    "image_store/src/image.rt",
    "image_text/src/image.rt",
)

CODE = """## The theorem and what ties the code to it

The theorem is `Pushdown` of `pushdown/specs/Pushdown.antt`, which stands whole [below](#{number}-the-theorem):

{theorem}
It holds for every sound judge, by a law of `pushdown/src/laws.rt`. A law is a function that does nothing: what it ensures is proved.

{law}
The device judges by `interval_judge`, the judge by `intervals`. It is sound (`IsSoundJudge`), and the bytes of a Load spell the program
that it accepts (`JudgedIsSpelled`); [Acceptance](acceptance.md) has all three. So the theorem holds of the device, and there is a Run of
which it speaks (`device_laws/src/laws.rt`):

{device_laws}
The code is tied to the definitions by the contracts of `Device` (`runner/src/device.rt`). Its type names the domain whose facts it judges
by: `Device` alone is `Device<Intervals>`, whose `operations` are `intervals`, so that `judge_by D.operations` is `interval_judge`.
`x.old` and `x.new` are what a `&mut` leads to, before and after the call; `x.now` is what a `&` leads to. `OnOk r p`, `OnErr r p`: if r
is `Ok`, or an `Err`, p. `IfOk r p`, `IfErr r p`: if r is one, p holds of what is in it. A `Stopped` has the number of events that are
`done`.

{device}
`serve` and `drain` hand each reply to an `Out` (`device_events/src/out.rt`), whose `took` says which replies it took:

{out}
### Why no view need be trusted

A clause sees a `Device` as a `State`, and an `Image` as a `ZonedNamespace`, by a `view` that the code's author wrote. No booklet has
these views, and a reader need not read them: they stand only in the middle. A device begins with an image that is made of numbers (the
shape that `Geometry::new` is given) or of the bytes of a file:

{image}
From there on `new`, `serve` and `drain` say that the replies are those of the definitions from the state `new_state` of that namespace,
as far as the `Out` says what it took. Joined, these clauses have numbers or the bytes of a file on the one side, events and replies on
the other, and a view on neither: the state that one call leaves, by whatever view, is the one that the next begins with. So what they
say of replies is the same with each view with which they are proved. A completion in a `Reply` is seen as its 16 bytes, and
`CompletionEntry::bytes`, by whose contract the result is what is seen, hands out the same.

{named}

"""


def indented(lines: List[str]) -> str:
    """Lines as code of the page."""
    return "".join(f"    {line}".rstrip() + "\n" for line in lines)


def function(lines: List[str], name: str) -> List[str]:
    """A function without its body: its comment, what it takes, and its contract."""
    at = next((at for at, line in enumerate(lines) if re.match(rf" *(pub )?fn {name}\b", line)), None)
    if at is None:
        raise LookupError(f"there is no function {name}")
    end = at
    while not lines[end].endswith(";") and lines[end].strip() not in ("{", "{}"):
        end += 1
    return comment_above(lines, at) + lines[at : end + lines[end].endswith(";")]


def members(lines: List[str], begins: str, names: Set[str]) -> List[str]:
    """The ghost members of these names of a block, each with its comment, in the block's own lines."""
    first = next((at for at, line in enumerate(lines) if re.match(begins, line)), None)
    if first is None:
        raise LookupError(f"there is no `{begins}`")
    found = comment_above(lines, first) + [lines[first]]
    for at in range(first + 1, lines.index("}", first)):
        match = re.match(r"    ghost (\w+)(:| =) \{", lines[at])
        if match and match[1] in names:
            found += comment_above(lines, at) + [lines[at], ""]
    return found


def brought_in(lines: List[str]) -> Dict[str, str]:
    """The definitions that a file's `use` or `ghost use` lines bring in, each with its module."""
    found: Dict[str, str] = {}
    for line in lines:
        match = re.match(r" *(?:ghost )?use (\S+)\.\{(.*)\};?$", line)
        for name in match[2].split(", ") if match else []:
            found[name] = match[1]  # type: ignore[index]
    return found


def not_below(crates: Path, excerpts: List[Tuple[List[str], List[str]]], below: Set[str]) -> str:
    """A line on the definitions that excerpts name, each of the lines of a file, and that no booklet has."""
    named: Dict[str, str] = {}
    for excerpt, lines in excerpts:
        modules = brought_in(lines)
        for word in re.findall(r"[\w']+", "\n".join(line for line in excerpt if "///" not in line)):
            module = modules.get(word, "")
            is_ours = re.match(r"Rattle\.\w+\.specs\.(?!declared)", module) and (crates / module.split(".")[1]).is_dir()
            if is_ours and word not in below:
                named[word] = module.replace("Rattle.", "", 1).replace(".", "/")
    words = ", ".join(f"`{name}` (`{file}.antt`)" for name, file in sorted(named.items()))
    line = f"Of what these contracts name, no booklet has {words}, in files below `crates/`."
    return textwrap.fill(line, 130, break_long_words=False, break_on_hyphens=False)


def definition(crates: Path, path: str, name: str) -> str:
    """A definition, with the heads of the blocks in which it stands."""
    found = antt.read((crates / path).read_text(), path).definitions[name]
    blocks = [line for block in found.blocks for line in block.lines]
    return indented(blocks + found.comment + found.lines)


def functions(lines: List[str], names: List[str]) -> List[str]:
    """Functions without their bodies, a blank line after each."""
    return [line for name in names for line in [*function(lines, name), ""]]


def text(crates: Path, below: Set[str]) -> str:
    """The part of the page on the theorem, its law, and the code's contracts. `below` are the names of what the booklets have."""
    laws, device_laws, devices, outs, images, texts = ((crates / file).read_text().splitlines() for file in FILES)
    device_law = functions(device_laws, ["judges_soundly", "pushdown", "pushdown_is_met", "states_are_sound", "no_reply_is_trapped"])
    device = ["impl<D: Domain> Device<D> {", *functions(devices, ["new", "image", "apply", "serve", "drain"])[:-1], "}"]
    out = [*members(outs, "pub trait Out ", {"took", "refusals"}), *function(outs, "take"), "}"]
    begin = functions(images, ["empty"])
    load = function(texts, "load")
    return CODE.format(
        number=[section.title for section in DEVICE.sections].index("The theorem") + 1,
        theorem=definition(crates, *THEOREM),
        law=indented(function(laws, "sound_judges_push_down")) + "\n" + definition(crates, *LAW),
        device_laws=indented(device_law[:-1]),
        device=indented(device),
        out=indented(out),
        image=indented(begin + load),
        named=not_below(crates, [(device_law, device_laws), (device, devices), (out, outs), (begin, images), (load, texts)], below),
    )
