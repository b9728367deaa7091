#!/usr/bin/env python3
"""Looks whether must-fail edits, and those of tests/faults/edits, can still be applied: the text of each `old:` stands exactly once in its
file.

    edits.py [CRATE..]  the edits of these crates, or of all; prints one line for each that can't be applied, and then ends with 1
"""

import sys
from pathlib import Path
from typing import Dict, Optional

TOP = Path(__file__).resolve().parents[2]


def fault(crate: Path, edit: Path) -> Optional[str]:
    """Why the edit can't be applied to the crate; a later pair applies to what the earlier ones made of the file."""
    texts: Dict[str, str] = {}
    path = old = ""
    for line in edit.read_text().splitlines():
        kind, _, text = line.partition(": ")
        if kind == "file":
            path = text.strip()
            if not (crate / path).is_file():
                return f"there is no {path}"
            texts.setdefault(path, (crate / path).read_text())
        elif kind == "old":
            old = text
            count = texts.get(path, "").count(old)
            if count != 1:
                return f"{path} has {count} times: {old.strip()}"
        elif line.startswith("new:") and old:
            texts[path] = texts[path].replace(old, text)
    return None if old else "it has no `old:`"


def main() -> int:
    """Looks at the edits of the crates that are named, or of all."""
    status = 0
    every = sorted(folder.name for folder in (TOP / "crates").iterdir() if folder.is_dir())
    for crate in sys.argv[1:] or every:
        edits = [*(TOP / "crates" / crate / "must-fail").glob("*.edit"), *(TOP / "tests" / "faults" / "edits" / crate).glob("*.edit")]
        for edit in sorted(edits):
            why = fault(TOP / "crates" / crate, edit)
            if why:
                print(f"{crate}: {edit.name} can't be applied: {why}")
                status = 1
    return status


if __name__ == "__main__":
    sys.exit(main())
