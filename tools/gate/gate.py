#!/usr/bin/env python3
"""Proves every crate and its tests from nothing and tries the must-fail edits, by the gate of the kit, `rt ci`, at less cost.

    gate.py                every crate, from nothing
    KEPT=1 gate.py         every crate, but takes a library that proving.py or an earlier run proved of the same sources: for who mends
                           what a run refused. A verdict on all is that of a run from nothing
    gate.py edits CRATE..  the edits of these crates alone, with those of tests/faults/edits, over libraries that are proved first

`rt ci` proves a crate once more for its edits. Here the edits of a crate are put into one copy of it, as far as they lie in
different functions, and of that copy the functions that they change are checked alone, over the libraries that were just proved. Each
edit is refused where the function that it changes isn't proved, and the crate without edits still is. An edit that isn't refused
so is tried as `rt ci` does it: alone, over the whole crate, from nothing. So is each edit that changes more than functions.

A static library is built of what was proved, and not proved again for that. Beside each library it is noted of what it was proved, so
that tools/gate/proving.py takes it. What the parts took is printed at the end.

A kit whose `rt` keeps what passed, as 13f does, proves and tries here too only what changed. With a kit whose `rt` isn't known, this is
`rt ci` itself.
"""

import importlib.machinery
import importlib.util
import os
import re
import shutil
import subprocess
import sys
import tempfile
import time
from pathlib import Path
from types import ModuleType
from typing import Any, Dict, List, NamedTuple, Optional, Set, Tuple

import proving

KNOWN = {"rattle-kit-13b logic dac8208d650f15bf", "rattle-kit-13f logic dac8208d650f15bf"}
# what trying an edit came to, which is True or "refused" where it is refused, as the kit has it; and what to say of it
Verdict = Tuple[Any, str]


class Change(NamedTuple):
    """What an edit changes: texts of files by their path, and of each function changed its module and its name."""

    texts: Dict[str, str]
    functions: Set[Tuple[str, str]]


def module_of(path: str) -> str:
    """The module of a file of src/, as `rattle check --only` names it.

    >>> module_of("src/turn.rt"), module_of("src/machine/emit.rt"), module_of("src/machine/mod.rt")
    ('turn', 'machine::emit', 'machine')
    """
    return re.sub(r"/mod$", "", path[len("src/") : -len(".rt")]).replace("/", "::")


def function_at(text: str, at: int) -> Optional[str]:
    """The function whose body is at a place of a file, as `rattle check --only` names it, or "" for an import, or None for anything else.

    >>> text = "use a::b;\\nstruct S {\\n    n: u8,\\n}\\nfn f() -> u8\\n    ensures { result ≡ 1 }\\n{\\n    1\\n}\\n"
    >>> function_at(text, text.index("b;")), function_at(text, text.index("n: u8")), function_at(text, text.rindex("1"))
    ('', None, 'f')
    >>> text = "impl<T: Drop> Store<T> for S<T> {\\n    fn f() {\\n        1\\n    }\\n}\\n"
    >>> function_at(text, text.index("1")), function_at(text.replace("Store<T> for ", ""), text.index("1") - len("Store<T> for "))
    ('SStore::f', 'S::f')
    """
    line = text[text.rfind("\n", 0, at) + 1 : (text + "\n").find("\n", at)]
    if line.startswith(("use ", "pub use ")):
        return ""
    heads = [it for it in re.finditer(r"(?m)^( *)(?:pub(?:\([^)]*\))? )?(?:const )?(?:extern \"C\" )?fn (\w+)", text) if it.start() <= at]
    if not heads:
        return None
    # a function ends with a brace at its own depth, its body begins with one there
    head = heads[-1]
    begins = re.compile(rf"(?m)^{head[1]}(?:fn|pub|const|extern)?[^\n]*\{{$|^{head[1]}\{{").search(text, head.start())
    ends = re.compile(rf"(?m)^{head[1]}\}}").search(text, head.start())
    if not begins or not ends:
        return None
    if not begins.end() <= at < ends.start():
        return None
    impls = re.findall(r"(?m)^impl(?:<.*?>)? (?:(\w+)(?:<.*>)? for )?(\w+)", text[: head.start()]) if head[1] else []
    return "::".join([*(kind + trait for trait, kind in impls[-1:]), head[2]])


def change_of(rt: ModuleType, crate: Any, edit: str) -> Optional[Change]:
    """What the edit changes, if that is functions of files below the crate's root alone."""
    texts, why = rt.read_edit(edit, crate.folder)
    if why or any(not path.startswith("src/") or path in ("src/lib.rt", "src/main.rt") for path in texts):
        return None
    functions: Set[Tuple[str, str]] = set()
    path = old = ""
    for line in Path(edit).read_text(encoding="utf-8").split("\n"):
        if line.startswith("file: "):
            path = line[len("file: ") :].strip()
        elif line.startswith("old: "):
            old = line[len("old: ") :]
            text = (Path(crate.folder) / path).read_text(encoding="utf-8")
            if old not in text:
                return None
            name = function_at(text, text.index(old) + len(old) - len(old.lstrip()))
            if name is None:
                return None
            if name:
                functions.add((module_of(path), name))
    return Change(texts, functions) if functions else None


def apply_all(rt: ModuleType, crate: Any, edits: List[str]) -> Optional[Dict[str, str]]:
    """The texts of the files that these edits change, with all of them made, or None where one is in another's way."""
    with tempfile.TemporaryDirectory(prefix="edits-") as room:
        shutil.copytree(f"{crate.folder}/src", f"{room}/src")
        made: Dict[str, str] = {}
        for edit in edits:
            texts, why = rt.read_edit(edit, room)
            if why:
                return None
            for path, text in texts.items():
                made[path] = text
                Path(room, path).write_text(text, encoding="utf-8")
        return made


def rounds_of(changes: Dict[str, Change]) -> List[List[str]]:
    """The edits in rounds: no two of a round change one function."""
    rounds: List[List[str]] = []
    for edit, change in changes.items():
        for it in rounds:
            if not any(change.functions & changes[other].functions for other in it):
                it.append(edit)
                break
        else:
            rounds.append([edit])
    return rounds


def unproved(said: str) -> List[str]:
    """The functions of which a check says that they aren't proved, and not merely that one isn't that they call.

    >>> unproved("fn a::b::f: not proved\\nfn a::b::g: no proof: it calls `a::b::f`, which is not proved\\nfn a::c::h: no proof: expected answers\\n")
    ['a::b::f', 'a::c::h']
    """
    return re.findall(r"(?m)^fn (\S+): (?:not proved|no proof: (?!it calls))", said)


def is_refused(change: Change, names: List[str]) -> bool:
    """Is a function that the edit changes, or a part of it, among those that aren't proved? A method is named by the module of its type.

    >>> is_refused(Change({}, {("turn", "advance")}), ["a::turn::advance"]), is_refused(Change({}, {("turn", "S::f")}), ["a::s::S::f"])
    (True, True)
    """
    for module, function in change.functions:
        parts = set(function.split("::"))
        if any(parts <= set(name.split("::")) and (len(parts) > 1 or f"::{module}::" in name) for name in names):
            return True
    return False


def only(changes: List[Change], by_module: bool) -> List[str]:
    """The words of `rattle check` for what is changed: the functions, or the modules that they are in.

    >>> only([Change({}, {("turn", "advance"), ("turn", "S::f")})], False), only([Change({}, {("turn", "advance")})], True)
    (['--only', 'S::f', '--only', 'turn::advance'], ['--only', 'turn'])
    """
    names = {module if by_module else name if "::" in name else f"{module}::{name}" for it in changes for module, name in it.functions}
    return [word for name in sorted(names) for word in ("--only", name)]


def checked(rt: ModuleType, crate: Any, texts: Dict[str, str], changes: List[Change], flags: List[str], kept: str) -> Any:
    """Checks the functions that are changed, or their modules where a function has another name there."""
    ran = rt.checked(crate, texts, [*flags, *only(changes, False)], kept)
    return ran if ran.returncode != 2 else rt.checked(crate, texts, [*flags, *only(changes, True)], kept)


def refused_in(rt: ModuleType, crate: Any, changes: Dict[str, Change], flags: List[str], kept: str) -> List[str]:
    """Which of these edits are refused in one check of the functions that they change."""
    texts = apply_all(rt, crate, list(changes))
    if not texts:
        return []
    ran = checked(rt, crate, texts, list(changes.values()), flags, kept)
    lines = ran.stdout.rstrip("\n").split("\n")
    if ran.returncode != 1 or not lines[-1].startswith("only=") or rt.rtlib.STALE.search(ran.stdout):
        return []
    if any(rt.unread(it, texts) for it in lines):
        return []
    names = unproved(ran.stdout)
    return [edit for edit, change in changes.items() if is_refused(change, names)]


def tried_together(rt: ModuleType, crate: Any, changes: Dict[str, Change], flags: List[str]) -> Dict[str, Verdict]:
    """The edits that are refused in a check of the functions that they change, with what to say of each.

    A function is passed over that calls one that isn't proved: so what a round leaves is tried once more, and then one by one.
    """
    found: Dict[str, Verdict] = {}
    rounds = rounds_of(changes)
    with tempfile.TemporaryDirectory(prefix="rt-edits-") as kept:
        while rounds:
            edits = rounds.pop(0)
            refused = refused_in(rt, crate, {it: changes[it] for it in edits}, flags, kept)
            for edit in refused:
                where = ", ".join(sorted({function for _, function in changes[edit].functions}))
                found[edit] = getattr(rt, "REFUSED", True), f"must-fail {crate.name}/{os.path.basename(edit)}: refused, as it must be: {where} isn't proved"
            left = [it for it in edits if it not in refused]
            if left and len(edits) > 1:
                rounds += [left] if refused else [[it] for it in left]
        if found and checked(rt, crate, {}, [changes[it] for it in found], flags, kept).returncode:
            return {}
    return found


def must_fail_all(rt: ModuleType, crate: Any, edits: List[str], flags: List[str]) -> List[Verdict]:
    """Tries a crate's edits: together, and those that aren't refused so alone."""
    begun = time.monotonic()
    changes = {edit: change for edit in edits for change in [change_of(rt, crate, edit)] if change}
    found = tried_together(rt, crate, changes, flags) if changes else {}
    left = [it for it in edits if it not in found]
    verdicts = [found.get(it) or rt.must_fail(crate, it, flags) for it in edits]
    rt.say(f"{crate.name}: its edits took {time.monotonic() - begun:.0f} s ({len(edits)}, of which {len(left)} alone)")
    return verdicts


def adding_edits(rt: ModuleType) -> Any:
    """`add_edits` of a kit that keeps what edits came to: one task for all edits of a crate that weren't tried before."""

    def add_edits(tasks: Any, crate: Any, edits: List[str], first: Any, waits: Any, is_well: Any, kept: Any) -> Any:
        if not edits:
            return lambda given: [], dict
        known: Dict[int, Verdict] = {}

        def try_all(given: Any, _jobs: int) -> Optional[List[Verdict]]:
            names = [kept.of_edit(it, kept.key(crate)) for it in edits]
            known.update((at, told) for at, told in enumerate(map(kept.tried, names)) if told)
            if not is_well(given, len(edits) - len(known)):
                return None
            left = [at for at in range(len(edits)) if at not in known]
            found = dict(zip(left, must_fail_all(rt, crate, [edits[at] for at in left], ["--jobs", "1"]))) if left else {}
            for at, (kind, text) in found.items():
                if kind in rt.SETTLED and kept.is_untouched(crate):
                    kept.keep_tried(names[at], kind, text)
            return [known.get(at) or found[at] for at in range(len(edits))]

        key = crate.name, "edits", 0
        tasks[key] = [*waits, *first], crate.count(rb"\n"), rt.need(crate), try_all
        return lambda given: given[key], lambda: known

    return add_edits


def putting_aside(made: Any) -> Any:
    """What puts aside what it finds before it proves, and then says where that is. What comes back after it is no library that it made."""

    def puts_aside(aside: str, *more: Any) -> int:
        os.environ["GATE_ASIDE"] = aside
        status: int = made(aside, *more)
        for it in Path(aside).glob("*/rlib"):
            if proving.rlib(it.parent.name).is_dir():
                shutil.rmtree(it)
        return status

    return puts_aside


def taken(name: str) -> bool:
    """Takes a library that was proved before of the same sources from where it was put aside, where that is asked for. Another one goes:
    it would come back in place of the one that is proved now."""
    before, after = Path(os.environ["GATE_ASIDE"], name, "rlib"), proving.rlib(name).parent
    if not (before / "proved").is_file():
        return False
    shutil.rmtree(after, ignore_errors=True)
    shutil.move(before, after)
    if os.environ.get("KEPT") and proving.Stamps(proving.Crates(name), proving.Kit()).is_proved(name):
        return True
    shutil.rmtree(after)
    return False


def noting(made: Any, keeps: bool) -> Any:
    """`ci` of a crate, which then notes of what its library was proved. keeps: whether the kit itself takes what was proved before."""

    def ci(crate: Any, flags: List[str], tests: bool) -> int:
        if not keeps and not tests and taken(crate.name):
            print("taken as it was proved before", file=crate.out)
            return 0
        status: int = built(crate, flags) if crate.is_static and not tests else made(crate, flags, tests)
        if not status and not tests:
            note(crate.name, sum(it.seconds for it in used() if it[:2] == (crate.name, "proof")))
        return status

    return ci


class Use(NamedTuple):
    """What a command took, in seconds of one core: of which crate, and whether for its proof, its tests or its edits."""

    crate: str
    kind: str
    seconds: float


# in place of the last words of the program that `rt` puts before each command: it waits for the command, and writes what that took
WAITS = """
import resource
it = os.fork()
if not it:
    os.execvp(sys.argv[1], sys.argv[1:])
_, status, used = os.wait4(it, 0)
words = sys.argv
crate = words[words.index("--crate-name") + 1] if "--crate-name" in words else "-"
is_edit = os.path.basename(os.getcwd()).startswith("rt-edit-")
kind = "edits" if is_edit else "tests" if "--test" in words else "proof"
with open(os.environ["GATE_USES"], "a") as out:
    out.write(f"{crate} {kind} {used.ru_utime + used.ru_stime:.1f}\\n")
if os.WIFSIGNALED(status):
    os.kill(os.getpid(), os.WTERMSIG(status))
sys.exit(os.WEXITSTATUS(status))
"""


def used() -> List[Use]:
    """What each command took that has ended."""
    lines = Path(os.environ["GATE_USES"]).read_text(encoding="utf-8").splitlines()
    return [Use(crate, kind, float(seconds)) for crate, kind, seconds in (line.split() for line in lines)]


def waiting(guarded: Any) -> Any:
    """The words before each command, by which what it took is written."""
    last = "os.execvp(sys.argv[1], sys.argv[1:])"
    words: List[str] = guarded()
    if not words or last not in words[-1]:
        return guarded
    return lambda: [*words[:-1], words[-1].replace(last, f"exec({WAITS!r})")]


def print_uses(seconds: float) -> None:
    """Prints what the parts took, and the dearest crates."""
    parts: Dict[str, float] = {}
    crates: Dict[str, float] = {}
    for it in used():
        parts[it.kind] = parts.get(it.kind, 0.0) + it.seconds
        crates[it.crate] = crates.get(it.crate, 0.0) + it.seconds
    shown = ", ".join(f"{kind} {it / 60:.0f}" for kind, it in parts.items())
    print(f"took {seconds / 60:.0f} minutes, and {sum(parts.values()) / 60:.0f} of one core: {shown}", file=sys.stderr)
    dearest = sorted(crates.items(), key=lambda it: -it[1])[:12]
    print("most of it: " + ", ".join(f"{name} {it:.0f} s" for name, it in dearest), file=sys.stderr)


def note(name: str, seconds: float) -> None:
    """Notes beside a library of which sources it was proved."""
    stamps = proving.Stamps(proving.Crates(name), proving.Kit())
    stamps.note(name, stamps.sources(name), seconds)


def built(crate: Any, flags: List[str]) -> int:
    """Proves a static library, and builds it of what was proved."""
    kit = os.path.dirname(os.path.dirname(os.path.realpath(str(shutil.which("rt")))))
    words = crate.words(flags, keeps=False)
    with tempfile.TemporaryDirectory(prefix="rt-proved-") as room:
        status: int = crate.prove(["check", *words, "-o", f"{room}/checked"])
        for flag in ("--logic-built", "--jobs"):
            at = words.index(flag)
            words = [*words[:at], *words[at + 2 :]]
        made = ["--crate-checked", f"{room}/checked", "--toolchain", f"{kit}/toolchain", "-o", f"out/lib{crate.name}.a"]
        return status or crate.call(f"{kit}/bin/rattle", "build", *words, *made)


def note_rest() -> None:
    """Notes beside the libraries that a run took as they were kept of which sources they are."""
    for line in (proving.TOP / "crates.txt").read_text().splitlines():
        for name in proving.Crates(line.partition(":")[0].split()[0]).names if ":" in line.partition("#")[0] else []:
            if proving.rlib(name).is_dir() and not proving.Stamps(proving.Crates(name), proving.Kit()).kept(name):
                note(name, 0)


def by_kit() -> int:
    """`rt ci` itself."""
    status = subprocess.call(["rt", "ci"])
    if not status:
        note_rest()
    return status


def edits_of(rt: ModuleType, names: List[str]) -> int:
    """Tries the edits of crates, and gives 1 where one isn't refused."""
    status = 0
    os.environ.pop(rt.rtlib.ALLOW_C, None)
    rt.rtlib.guarded()
    for crate in rt.rtlib.crates_below(str(proving.TOP)):
        if crate.name not in names:
            continue
        for dep in crate.deps:
            if not (dep.is_built() or proving.prove(dep.name) == 0):
                return 1
        others = sorted(str(it) for it in (proving.TOP / "tests" / "faults" / "edits" / crate.name).glob("*.edit"))
        for kind, text in must_fail_all(rt, crate, rt.edits_of(crate)[0] + others, ["--jobs", "1"]):
            rt.say(text)
            status = status if kind in (True, "refused", "limit") else 1
    return status


def main() -> int:
    """Does as `rt ci`, and gives its status."""
    if sys.argv[1:2] not in ([], ["edits"]):
        sys.exit(f"{sys.argv[1]} isn't known: it is gate.py, or gate.py edits CRATE..")
    found = shutil.which("rt")
    if not found:
        sys.exit("rt is not on the path")
    rt_file = os.path.realpath(found)
    with open(f"{os.path.dirname(os.path.dirname(rt_file))}/KIT-ID", encoding="utf-8") as it:
        if it.read().strip() not in KNOWN:
            return by_kit()
    sys.dont_write_bytecode = True
    sys.path.insert(0, os.path.dirname(rt_file))
    loader = importlib.machinery.SourceFileLoader("rt", rt_file)
    spec = importlib.util.spec_from_loader("rt", loader)
    assert spec
    rt = importlib.util.module_from_spec(spec)
    loader.exec_module(rt)
    if sys.argv[1:2] == ["edits"]:
        return edits_of(rt, sys.argv[2:])
    keeps = hasattr(rt, "add_edits")
    rt.Crate.ci = noting(rt.Crate.ci, keeps)  # type: ignore[attr-defined]
    if keeps:
        rt.add_edits = adding_edits(rt)  # type: ignore[attr-defined]
        rt.ci_over = putting_aside(rt.ci_over)  # type: ignore[attr-defined]
    else:
        rt.must_fail_all = lambda crate, edits, flags: must_fail_all(rt, crate, edits, flags)  # type: ignore[attr-defined]
        rt.ci_from_nothing = putting_aside(rt.ci_from_nothing)  # type: ignore[attr-defined]
    begun = time.monotonic()
    with tempfile.NamedTemporaryFile(prefix="gate-uses-") as uses:
        os.environ["GATE_USES"] = uses.name
        rt.rtlib.guarded = waiting(rt.rtlib.guarded)  # type: ignore[attr-defined]
        status: int = rt.main(["ci"])
        sys.stdout.flush()
        print_uses(time.monotonic() - begun)
    if not status:
        note_rest()
    return status


if __name__ == "__main__":
    sys.exit(main())
