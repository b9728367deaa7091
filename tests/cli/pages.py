#!/usr/bin/env python3
"""Makes transcripts for cram of the console examples in pages of Markdown.

    pages.py FOLDER PAGE..

A console example is a block of lines that four spaces indent, whose first line begins with `$ `: commands after `$ `, what goes on
after `> `, and what they print. All examples of a page are one transcript, FOLDER/PAGE.t. It is run in one folder, with what a reader
finds at the root of the repository, whose path is the variable ROOT: `examples`, `python` and `zscli`. cram prints the status of a
command that fails: a page shows it by `|| echo status $?`.

A page without an example gives no transcript. Neither does one whose tools are missing, other than first_run.md: a line says so.
"""

import re
import shutil
import sys
from pathlib import Path
from typing import Dict, List

INDENT = "    "

# where a reader is who types what a page shows
START = """\
What a reader of the page finds at the root of the repository.

  $ cp -R "$ROOT/examples" "$ROOT/python" . && ln -s "$(command -v zscli)" zscli
"""

# the programs that a command needs, other than those that every system has
TOOLS: Dict[str, List[str]] = {"clang": ["clang"], "make": ["make", "clang"], "xxd": ["xxd"]}


def examples(page: str) -> List[List[str]]:
    """The console examples of a page: the lines of each, without the indent.

    >>> examples("Text.\\n\\n    $ echo a\\n    a\\n\\n    no command\\n")
    [['$ echo a', 'a']]
    """
    blocks: List[List[str]] = [[]]
    for line in page.splitlines():
        if line.startswith(INDENT):
            blocks[-1].append(line[len(INDENT) :])
        elif blocks[-1]:
            blocks.append([])
    return [block for block in blocks if block and block[0].startswith("$ ")]


def transcript(blocks: List[List[str]]) -> str:
    """The transcript of a page's examples.

    >>> transcript([["$ cat << END", "> a", ">", "> END", "a"]]).removeprefix(START)
    '\\n  $ cat << END\\n  > a\\n  > \\n  > END\\n  a\\n'
    """
    return "\n".join([START] + ["".join(f"  {'> ' if line == '>' else line}\n" for line in block) for block in blocks])


def tools(blocks: List[List[str]]) -> List[str]:
    """The programs that the commands of examples need, in order.

    >>> tools([["$ make -C examples filter.bin", "$ cut -d ' ' -f 4 | xxd -r -p"]])
    ['clang', 'make', 'xxd']
    """
    commands = [line for block in blocks for line in block if line.startswith(("$ ", "> "))]
    words = {word for line in commands for word in re.findall(r"[\w.-]+", line)}
    return sorted({tool for word in words for tool in TOOLS.get(word, [])})


def main(folder: Path, pages: List[Path]) -> None:
    """Writes the transcripts of pages to a folder."""
    for page in pages:
        blocks = examples(page.read_text(encoding="utf-8"))
        missing = [tool for tool in tools(blocks) if shutil.which(tool) is None]
        if missing and page.name != "first_run.md":
            print(f"{page}: not run, since there is no {' and no '.join(missing)}")
        elif blocks:
            (folder / f"{page.name}.t").write_text(transcript(blocks), encoding="utf-8")


if __name__ == "__main__":
    main(Path(sys.argv[1]), [Path(page) for page in sys.argv[2:]])
