#!/usr/bin/env python3
"""Compares what `zscli query` prints of random questions with what follows from the definitions of docs/statement/questions.md.

    test_random_questions.py [COUNT [SEED]]     300 questions from seed 1 on, where nothing is given

Each seed gives a layout, blocks, a condition, and what is wanted of the records that match, or a question that can't be asked. `zscli` is
to print what meaning.py says, as lines, JSON or bytes, or to refuse the question; the image stays as it is. It may refuse a question that
needs more programs than it makes: how many these were is printed. Of what differs the seed is printed, with the words. The last line is
'N passed, M failed'. The program is the one that the variable ZSCLI names, or else that of this repository.
"""

from __future__ import annotations

import csv
import doctest
import io
import json
import os
import shlex
import subprocess
import sys
import tempfile
import unicodedata
from concurrent.futures import ThreadPoolExecutor
from itertools import zip_longest
from pathlib import Path
from typing import List, NamedTuple, Optional

import draw
import meaning

ROOT = Path(__file__).resolve().parents[2]
TOO_MANY = "the question needs more than 8 programs"


class Verdict(NamedTuple):
    """What is wrong with what was printed, if something is; and whether the question needs too many programs."""

    wrong: Optional[str]
    is_too_long: bool = False


def shown(value: object) -> str:
    """A value in a line: nothing where there is none, and of a text the bytes of control characters in hexadecimal.

    >>> shown(None), shown(-3), shown("a\\tb")
    ('', '-3', 'a\\\\x09b')
    """
    text = "" if value is None else str(value)
    return "".join("".join(f"\\x{it:02x}" for it in char.encode()) if unicodedata.category(char) == "Cc" else char for char in text)


def read(printed: bytes, words: List[str]) -> object:
    """What was printed, as it is read: bytes, rows of JSON with their names, or those of lines.

    >>> read(b'a,b\\n1,"x, y"\\n', []), read(b'[{"a":1,"b":null}]\\n', ["--json"])
    ([['a', 'b'], ['1', 'x, y']], [[('a', 1), ('b', None)]])
    """
    if "--raw" in words:
        return printed
    if "--json" in words:
        return [list(row.items()) for row in json.loads(printed)]
    # an empty line is a row with one column, and nothing in it
    return [row or [""] for row in csv.reader(io.StringIO(printed.decode(), newline=""), strict=True)]


def wanted(answer: draw.Answer, words: List[str]) -> object:
    """What is to be read."""
    if "--raw" in words:
        return answer.emitted
    if "--json" in words:
        return [list(zip(answer.names, row)) for row in answer.rows]
    return [answer.names, *([shown(value) for value in row] for row in answer.rows)]


def judged(drawn: draw.Drawn, status: int, printed: bytes, errors: str) -> Verdict:
    """Compares what was printed with what is wanted.

    >>> judged(draw.Drawn({}, [], draw.Answer(["a"], [[1]], b"")), 0, b"a\\n2\\n", "").wrong
    "[['a'], ['2']] in place of [['a'], ['1']]"
    """
    is_refused = status == 3 and errors.endswith("\nquestion refused\n")
    if is_refused and errors.startswith(TOO_MANY):
        return Verdict(None, is_too_long=True)
    if drawn.answer is None:
        is_right = is_refused and not printed and errors.startswith(drawn.told)
        return Verdict(None if is_right else f"not refused as {drawn.told!r}: status {status}, {printed[:200]!r}, {errors!r}")
    if status != 0:
        return Verdict(f"status {status}: {errors}")
    try:
        found, right = read(printed, drawn.words), wanted(drawn.answer, drawn.words)
    except (ValueError, csv.Error) as error:
        return Verdict(f"{printed!r} isn't read: {error}")
    return Verdict(None if found == right else f"{found!r} in place of {right!r}")


def asked(program: Path, seed: int) -> Verdict:
    """Asks the question of a seed."""
    drawn = draw.draw(seed)
    with tempfile.TemporaryDirectory() as folder:
        for name, content in drawn.files.items():
            Path(folder, name).write_bytes(content)
        done = subprocess.run([program, *drawn.words], cwd=folder, stdin=subprocess.DEVNULL, capture_output=True, check=False)
        if any(Path(folder, name).read_bytes() != content for name, content in drawn.files.items()):
            return Verdict("a file changed")
    return judged(drawn, done.returncode, done.stdout, done.stderr.decode(errors="replace"))


def main() -> int:
    """Asks them, and prints what came of it."""
    count, first = (int(given) if given else other for given, other in zip_longest(sys.argv[1:3], (300, 1)))
    program = Path(os.environ.get("ZSCLI", ROOT / "crates/zscli/out/zscli")).resolve()
    tried = [doctest.testmod(module) for module in (meaning, draw, sys.modules[__name__])]
    failed, too_long = sum(result.failed for result in tried), 0
    seeds = range(first, first + count)
    with ThreadPoolExecutor(len(os.sched_getaffinity(0))) as executor:
        for seed, verdict in zip(seeds, executor.map(lambda seed: asked(program, seed), seeds)):
            too_long += verdict.is_too_long
            if verdict.wrong is not None:
                failed += 1
                print(f"seed {seed}: {shlex.join(draw.draw(seed).words)}\n  {verdict.wrong}")
    print(f"{count} questions, of which {too_long} need more than 8 programs")
    print(f"{count + sum(result.attempted for result in tried) - failed} passed, {failed} failed")
    return 1 if failed else 0


if __name__ == "__main__":
    sys.exit(main())
