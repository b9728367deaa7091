#!/usr/bin/env python3
"""Looks whether the pages still say what stands elsewhere, prints what doesn't, and then ends with status 1.

Each link of README.md, docs/*.md and docs/statement/*.md leads to a file that there is, and to a heading of it where it names one. What
docs/tour.md quotes of a file stands so in that file, and the theorem in README.md is that of docs/theorem.md.
"""

import re
import sys
from pathlib import Path
from typing import Iterator, List, Set

ROOT = Path(__file__).resolve().parents[2]
THEOREM = re.compile(r"^\*(For every accepted program.*?)\*", re.M | re.S)


def headings(page: Path) -> Set[str]:
    """The headings of a page as links name them."""
    found = re.findall(r"^#+ (.*)$", page.read_text(), re.M)
    return {re.sub(r"[^\w\- ]", "", heading.lower()).replace(" ", "-") for heading in found}


def broken_links(page: Path) -> Iterator[str]:
    """The links of a page that lead nowhere."""
    for link in re.findall(r"\]\(([^)\s]+)\)", page.read_text()):
        name, _, heading = link.partition("#")
        to = page.parent / name if name else page
        if "://" not in link and (not to.exists() or (heading and heading not in headings(to))):
            yield f"{page.relative_to(ROOT)}: {link} leads nowhere"


def changed_quotes(page: Path) -> Iterator[str]:
    """The quotes of a page, each behind a line with the name of its file, that don't stand there."""
    for name, quote in re.findall(r"^`(\S+\.rt)`:\n\n((?: {4}.*\n|\n)+)", page.read_text(), re.M):
        lines: List[str] = [line[4:] for line in quote.strip("\n").split("\n")]
        file = ROOT / "crates" / name
        text = file.read_text() if file.exists() else ""
        inside = "\n".join(f"    {line}" if line else "" for line in lines)
        if "\n".join(lines) not in text and inside not in text:
            yield f"{page.relative_to(ROOT)}: {name} doesn't have this as it is quoted: {lines[0]}"


def theorems() -> Set[str]:
    """The theorem as each of the two pages has it."""
    pages = [(ROOT / name).read_text() for name in ("README.md", "docs/theorem.md")]
    return {" ".join(THEOREM.findall(page)[0].split()) if THEOREM.search(page) else "" for page in pages}


def main() -> int:
    """Prints what is wrong."""
    wrong: List[str] = []
    for page in [ROOT / "README.md", *sorted((ROOT / "docs").glob("*.md")), *sorted((ROOT / "docs" / "statement").glob("*.md"))]:
        wrong += broken_links(page)
    wrong += changed_quotes(ROOT / "docs" / "tour.md")
    if len(theorems()) != 1 or "" in theorems():
        wrong.append("README.md: the theorem isn't that of docs/theorem.md")
    print("".join(f"{line}\n" for line in wrong), end="")
    return 1 if wrong else 0


if __name__ == "__main__":
    sys.exit(main())
