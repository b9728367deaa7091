#!/usr/bin/env python3
"""Proves a program, or a static library, with the libraries below it, builds it, and shows on standard error how far it is.

    proving.py [CRATE]   zscli, where none is named; on a terminal one line that moves, else a line for each crate
    KEEP=1 proving.py    keeps what further checks want too (out/incremental, some 10 GB): `rt check` in a crate then begins there
    proving.py --times   prints what each crate took when it was proved last, which the file times keeps for the estimate

Each crate is proved once by `rattle build --statements`: of a proved library only what other crates can cite is kept, so that crates
above it load little. The crate with the longest chain of others above it comes first, and a crate that few can run beside gets the
cores that are free. What `rattle` prints goes to out/build.log of the crate that is named; where it fails, its end is shown, and the
status is 1.
Ctrl-C ends it: the crates that were proved by then stay so.
"""

import concurrent.futures
import hashlib
import os
import secrets
import shutil
import signal
import subprocess
import sys
import tempfile
import threading
import time
from pathlib import Path
from typing import Dict, Iterable, List, Optional, Set, Tuple

TOP = Path(__file__).resolve().parents[2]


def free_memory() -> int:
    """The free memory, in units of 1024 bytes."""
    with open("/proc/meminfo", encoding="ascii") as lines:
        return next(int(line.split()[1]) for line in lines if line.startswith("MemAvailable:"))


def processors() -> int:
    """How many crates are proved at a time: one a processor, each with 2 GB of free memory."""
    return max(1, min(len(os.sched_getaffinity(0)), free_memory() // 2_000_000))


class Crates:
    """The crates of crates.txt that one stands on, with it, lowest first, and what each uses."""

    def __init__(self, top: str) -> None:
        listed: Dict[str, List[str]] = {}
        self.statics: Set[str] = set()
        for line in (TOP / "crates.txt").read_text().splitlines():
            names, colon, below = line.partition("#")[0].partition(":")
            if colon:
                listed[names.split()[0]] = below.split()
                self.statics |= {names.split()[0]} if "staticlib" in names else set()
        self.uses = {name: [it for it in below if it in listed] for name, below in listed.items()}
        self.of_kit = {name: ["std", *(it for it in below if it not in listed)] for name, below in listed.items()}
        self.top = top
        self.names = [*self.below(top), top]

    def below(self, name: str) -> List[str]:
        """The crates that this one stands on, each after those that it uses.

        >>> crates = Crates("zone_resources")
        >>> crates.below("zone_resources")
        ['common_definitions', 'zone_state']
        """
        found: List[str] = []
        for it in self.uses[name]:
            found += [below for below in [*self.below(it), it] if below not in found]
        return found

    def above(self, name: str) -> List[str]:
        """Those of these crates that use this one."""
        return [it for it in self.names if name in self.uses[it]]


def kept_times() -> Dict[str, float]:
    """The seconds of one core that each crate took, by tools/gate/times."""
    lines = Path(__file__).with_name("times").read_text().splitlines()
    return {name: float(seconds) for name, seconds in (line.split() for line in lines if line and line[0] != "#")}


def shared_out(ready: List[str], free: int) -> Dict[str, int]:
    """With how many processes each of the crates begins that are ready, where so many cores are free: few crates get several each.

    >>> shared_out(["runner"], 4), shared_out(["a", "b", "c"], 4), shared_out(["a", "b", "c"], 2)
    ({'runner': 4}, {'a': 1, 'b': 1, 'c': 2}, {'a': 1, 'b': 1})
    """
    given: Dict[str, int] = {}
    for at, name in enumerate(ready):
        if free < 1:
            break
        given[name] = max(1, free // (len(ready) - at))
        free -= given[name]
    return given


def shortened(seconds: float, jobs: int) -> float:
    """What a proof of so many seconds takes by so many processes: three of four cores' work is won."""
    return seconds / (1 + 0.65 * (jobs - 1))


class Plan:
    """In which order crates are proved, and how long the rest takes, by the times that they took once."""

    def __init__(self, crates: Crates, lanes: int) -> None:
        table = kept_times()
        usual = sum(table.values()) / max(len(table), 1)
        self.crates, self.lanes = crates, lanes
        self.seconds = {name: table.get(name, usual) for name in crates.names}
        self.chain: Dict[str, float] = {}
        for name in reversed(crates.names):
            self.chain[name] = self.seconds[name] + max((self.chain[it] for it in crates.above(name)), default=0.0)

    def ready(self, done: Set[str], running: Iterable[str]) -> List[str]:
        """The crates of which all that they use is proved, the one with the longest chain of others above it first."""
        waiting = [it for it in self.crates.names if it not in done and it not in running]
        ready = [it for it in waiting if all(below in done for below in self.crates.uses[it])]
        return sorted(ready, key=lambda it: -self.chain[it])

    def left(self, done: Set[str], running: Dict[str, Tuple[int, float]]) -> float:
        """The seconds from now to the end, where these are done, and these run by so many processes since so many seconds."""
        done, clock = set(done), 0.0
        ends = {name: max(shortened(self.seconds[name], jobs) - since, 1.0) for name, (jobs, since) in running.items()}
        jobs_of = {name: jobs for name, (jobs, _) in running.items()}
        while len(done) < len(self.crates.names):
            for name, jobs in shared_out(self.ready(done, ends), self.lanes - sum(jobs_of.values())).items():
                ends[name], jobs_of[name] = clock + shortened(self.seconds[name], jobs), jobs
            first = min(ends, key=lambda it: ends[it])
            clock = ends.pop(first)
            del jobs_of[first]
            done.add(first)
        return clock


def told(seconds: float) -> str:
    """A time as people say it.

    >>> told(250), told(40)
    ('4 min 10 s', '40 s')
    """
    minutes, rest = divmod(int(seconds), 60)
    return f"{minutes} min {rest} s" if minutes else f"{rest} s"


class Kit:
    """The toolchain, by the command `rattle` that belongs to `rt`."""

    def __init__(self) -> None:
        found = shutil.which("rt")
        if not found:
            sys.exit("rt is not on the path: README.md says what the kit is, and where it is looked for")
        self.home = Path(found).resolve().parent.parent
        self.rattle = self.home / "bin" / "rattle"

    def words(self, crates: Crates, name: str) -> List[str]:
        """The words of `rattle` that name a crate and the libraries that it uses."""
        words = ["--crate-name", name, "src/main.rt" if is_program(name) else "src/lib.rt"]
        words += ["--crate-type", "staticlib"] if name in crates.statics else []
        for it in crates.of_kit[name]:
            words += ["--extern", f"{it}={self.home}/rlibs/{it}.rlib"]
        for it in crates.uses[name]:
            words += ["--extern", f"{it}={rlib(it)}"]
        for folder in [self.home / "rlibs", *(rlib(it).parent for it in crates.below(name))]:
            words += ["-L", f"dependency={folder}"]
        return words + ["--antt-project", f"{self.home}/rattle/logic/antt-project.json"]

    def jobs(self, count: int) -> List[str]:
        """The words of `rattle` for a proof by so many processes."""
        return ["--logic-built", f"{self.home}/logic_built", "--jobs", str(count)]


def is_program(name: str) -> bool:
    """Is the crate a program?"""
    return (TOP / "crates" / name / "src" / "main.rt").is_file()


def rlib(name: str) -> Path:
    """Where a crate's proved library is."""
    return TOP / "crates" / name / "out" / "rlib" / f"{name}.rlib"


def made(crates: Crates, name: str) -> Path:
    """What is made of a crate: its library, a program, or a static library for C."""
    out = TOP / "crates" / name / "out"
    return out / f"lib{name}.a" if name in crates.statics else out / name if is_program(name) else rlib(name)


class Stamps:
    """Which libraries are proved: beside each is a sum of what it was made of, and a number of its own, which those above it count in."""

    def __init__(self, crates: Crates, kit: Kit) -> None:
        self.crates = crates
        self.kit = (kit.home / "KIT-ID").read_text()

    def sources(self, name: str) -> str:
        """The sum of a crate's sources, of the kit, and of the stamps of the libraries that it uses."""
        folder = TOP / "crates" / name
        of = hashlib.sha256(repr((self.kit, self.crates.of_kit[name])).encode())
        for part in ("src", "specs", "proofs"):
            for path in sorted((folder / part).rglob("*")):
                if path.is_file():
                    of.update(repr((str(path.relative_to(folder)), path.read_bytes())).encode())
        for it in self.crates.uses[name]:
            of.update(self.kept(it).encode())
        return of.hexdigest()

    def place(self, name: str) -> Path:
        """The file that says of which sources was made what is made of a crate."""
        return made(self.crates, name).parent / "proved"

    def kept(self, name: str) -> str:
        """What that file says, where what it speaks of is there."""
        path = self.place(name)
        return path.read_text() if path.is_file() and made(self.crates, name).exists() else ""

    def is_proved(self, name: str) -> bool:
        """Was it made of the sources that are there?"""
        return self.kept(name).partition(" ")[0] == self.sources(name)

    def note(self, name: str, sources: str, seconds: float) -> None:
        """Notes that it was made of these sources, and in how many seconds of one core."""
        self.place(name).write_text(f"{sources} {secrets.token_hex(8)} {seconds:.0f}")


class Proving:
    """A run: which crates are done, which are under way, and the processes that prove them."""

    def __init__(self, kit: Kit, crates: Crates) -> None:
        self.kit, self.crates, self.stamps = kit, crates, Stamps(crates, kit)
        self.out = TOP / "crates" / crates.top / "out"
        self.log = self.out / "build.log"
        self.lanes = processors()
        self.plan = Plan(crates, self.lanes)
        self.begun = time.monotonic()
        self.done: Set[str] = set()
        self.running: Dict[str, Tuple[int, float]] = {}
        self.at_first = 0.0  # what the whole was to take, by the table
        self.children: Set["subprocess.Popen[bytes]"] = set()
        self.lock = threading.Lock()
        self.is_ended = False

    def call(self, name: str, words: List[str]) -> Optional[float]:
        """Runs a command in a crate's folder and writes what it printed to the log. Gives the seconds of one core that it took, or None
        where it failed."""
        with tempfile.TemporaryFile() as said:
            with self.lock:
                if self.is_ended:
                    return None
                child = subprocess.Popen(words, cwd=TOP / "crates" / name, stdin=subprocess.DEVNULL, stdout=said,
                                         stderr=subprocess.STDOUT, start_new_session=True)
                self.children.add(child)
            _, status, used = os.wait4(child.pid, 0)
            with self.lock:
                child.returncode = status
                self.children.discard(child)
                said.seek(0)
                with open(self.log, "ab") as log:
                    log.write(f"== {name}\n".encode() + said.read())
        return used.ru_utime + used.ru_stime if status == 0 else None

    def prove(self, name: str, jobs: int) -> bool:
        """Proves a crate with so many processes and makes what is made of it, unless that was done of the same sources."""
        sources = self.stamps.sources(name)
        if self.stamps.is_proved(name):
            return True
        is_library = made(self.crates, name) == rlib(name)
        seconds = self.library(name, jobs) if is_library else self.build(name, jobs)
        if seconds is None:
            return False
        self.stamps.note(name, sources, seconds)
        return True

    def library(self, name: str, jobs: int) -> Optional[float]:
        """Proves a library, and gives what that took, or None where it failed."""
        shutil.rmtree(rlib(name).parent, ignore_errors=True)
        rlib(name).parent.mkdir(parents=True)
        words = self.kit.words(self.crates, name) + self.kit.jobs(jobs)
        return self.call(name, [str(self.kit.rattle), "build", *words, "--statements", "-o", str(rlib(name))])

    def build(self, name: str, jobs: int) -> Optional[float]:
        """Proves a program or a static library once, and builds it of what was proved."""
        kit, words, to = self.kit, self.kit.words(self.crates, name), made(self.crates, name)
        is_static = name in self.crates.statics
        with tempfile.TemporaryDirectory(prefix="proved-") as room:
            code = str(to) if is_static else f"{room}/{name}.o"
            checked = ["--crate-checked", f"{room}/checked", "--toolchain", f"{kit.home}/toolchain", "-o", code]
            linked = ["--target", "x86_64-unknown-linux-gnu", "--toolchain", f"{kit.home}/toolchain", "-o", str(to)]
            commands = [
                [str(kit.rattle), "check", *words, *kit.jobs(jobs), "-o", f"{room}/checked"],
                [str(kit.rattle), "build", *words, *checked],
                [f"{kit.rattle}-link", *linked, code, f"{kit.home}/c/libos_c.a", f"{kit.home}/c/liblibc_c.a"],
            ]
            seconds = 0.0
            for command in commands[:2] if is_static else commands:
                took = self.call(name, command)
                if took is None:
                    return None
                seconds += took
        return seconds

    def shown(self) -> str:
        """How far it is, in a line: what is left by the table, times what this machine has taken so far of what the table says."""
        now = time.monotonic()
        left = self.plan.left(self.done, {name: (jobs, now - since) for name, (jobs, since) in self.running.items()})
        self.at_first = self.at_first or left
        elapsed = now - self.begun
        by_table = self.at_first - left
        scale = elapsed / by_table if by_table > 60 and elapsed > 60 else 1.0
        about = f"about {max(1, round(left * scale / 60))} minutes left"
        return f"proving: {len(self.done)} of {len(self.crates.names)} crates, {told(elapsed)}; {about}"

    def end(self) -> None:
        """Ends what is under way."""
        with self.lock:
            self.is_ended = True
            for child in self.children:
                os.killpg(child.pid, signal.SIGTERM)

    def run(self) -> bool:
        """Proves all, and gives whether it succeeded."""
        moves = sys.stderr.isatty()
        under_way: Dict["concurrent.futures.Future[bool]", str] = {}
        with concurrent.futures.ThreadPoolExecutor(self.lanes + 1) as pool:
            # a look at all sources takes 6 GB beside the proofs
            has_room = free_memory() >= 14_000_000
            beside = pool.submit(self.looks_well) if has_room and self.was_proved_before() else None
            try:
                while len(self.done) < len(self.crates.names):
                    free = self.lanes - sum(jobs for jobs, _ in self.running.values())
                    for name, jobs in shared_out(self.plan.ready(self.done, self.running), free).items():
                        self.running[name] = jobs, time.monotonic()
                        under_way[pool.submit(self.prove, name, jobs)] = name
                    for it in concurrent.futures.wait(under_way, timeout=1, return_when=concurrent.futures.FIRST_COMPLETED).done:
                        name = under_way.pop(it)
                        del self.running[name]
                        if not it.result():
                            return False
                        self.done.add(name)
                        if not moves:
                            print(f"{self.shown()} ({name})", file=sys.stderr, flush=True)
                    if moves:
                        print(f"\r\033[K{self.shown()}", end="", file=sys.stderr, flush=True)
                    if beside and beside.done() and not beside.result():
                        return False
            finally:
                self.end()
                if moves:
                    print("\r\033[K", end="", file=sys.stderr, flush=True)
        return True

    def was_proved_before(self) -> bool:
        """Was a crate proved here before? Then somebody changes something, and wants to hear of a slip at once."""
        return any(self.stamps.kept(name) for name in self.crates.names)

    def looks_well(self) -> bool:
        """Looks for what needs no proof to be found in the sources of all these crates, beside the proofs."""
        top = self.crates.top
        words = self.kit.words(self.crates, top)
        kept = [it for at, it in enumerate(words) if not self.is_of_library(words, at)]
        for name in self.crates.below(top):
            uses = ",".join(dict.fromkeys(["core", *self.crates.of_kit[name], *self.crates.uses[name]]))
            kept += ["--lib", f"{name}:{uses}={TOP}/crates/{name}/src/lib.rt"]
        more = {it for name in self.crates.names for it in self.crates.of_kit[name]} - set(self.crates.of_kit[top])
        for it in sorted({"core", *more}):
            kept += ["--extern", f"{it}={self.kit.home}/rlibs/{it}.rlib"]
        return self.call(top, [str(self.kit.rattle), "check", *kept, *self.kit.jobs(1), "--only", ""]) is not None or self.is_ended

    def is_of_library(self, words: List[str], at: int) -> bool:
        """Does a word, or the one after it, name a library of the repository?"""
        def names(word: str) -> bool:
            return str(TOP / "crates") in word
        return names(words[at]) or (words[at] in ("--extern", "-L") and names(words[at + 1]))


def prove_and_keep(name: str, log: Path) -> bool:
    """Proves by `rt`, which keeps what further checks want, and gives whether it succeeded."""
    last = ["rt", "run", "--", "--help"] if is_program(name) else ["rt", "lib"]
    for command in (["rt", "all", "check", "--jobs", str(processors())], last):
        with open(log, "ab") as out:
            if subprocess.run(command, cwd=TOP / "crates" / name, stdin=subprocess.DEVNULL, stdout=out, stderr=out, check=False).returncode:
                return False
    return True


def prove(name: str) -> int:
    """Proves and builds a crate, and gives the status."""
    proving = Proving(Kit(), Crates(name))
    proving.out.mkdir(parents=True, exist_ok=True)
    proving.log.write_bytes(b"")
    try:
        if prove_and_keep(name, proving.log) if os.environ.get("KEEP") else proving.run():
            return 0
    except KeyboardInterrupt:
        print("\nended; the crates that were proved stay so", file=sys.stderr)
        return 130
    print("".join(proving.log.read_text(errors="replace").splitlines(True)[-40:]), end="", file=sys.stderr)
    return 1


def print_times() -> None:
    """Prints what each crate took when it was proved last, but for those that were taken as they were kept."""
    for line in (TOP / "crates.txt").read_text().splitlines():
        name = line.partition("#")[0].partition(":")[0].split()[:1]
        words = Stamps(Crates(name[0]), Kit()).kept(name[0]).split() if name else []
        if words and words[2] != "0":
            print(name[0], words[2])


if __name__ == "__main__":
    if sys.argv[1:] == ["--times"]:
        print_times()
    else:
        sys.exit(prove(sys.argv[1] if len(sys.argv) > 1 else "zscli"))
