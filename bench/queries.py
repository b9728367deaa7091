#!/usr/bin/env python3
"""Times a question of two comparisons over the records of a zone, beside numpy, sqlite3 and a filter that clang made of C.

    bench/queries.py [ROUNDS]     5 rounds where none is given

32,000 blocks of 4096 bytes have 64 records of 64 bytes each; `region == 3 && amount >= 50` holds of a hundredth of them, and 16 bytes of
each of these are wanted. All are compared first. Times are the least of the rounds:

- of `zscli query`, without what it takes to load the image, which the same question of one block shows;
- of numpy over the same bytes in memory; of sqlite3 over a table of the same rows in memory;
- of runs of its program and of the filter in C, in a device of `zscli serve`, beyond what a program takes there that does nothing;
- of making a program of the question, without what starting the command takes;
- over NVMe/TCP on loopback, of a run of its program with the reading of what it appended, and of reading all blocks by a host in C, with 32
  Reads of 128 KiB under way, before numpy compares them.

It wants numpy, clang and LLVM's tools, gcc, and some 800 MB in /dev/shm. ZSCLI names the program, and NVME_TCP_TARGET the target; else they
are made of this repository.
"""

import os
import sqlite3
import subprocess
import sys
import tempfile
import time
from contextlib import contextmanager
from pathlib import Path
from typing import Any, Callable, Dict, Iterator, List

import numpy

TOP = Path(__file__).resolve().parent.parent
sys.path[:0] = [str(TOP / "python"), str(TOP / "target")]
import nvme_tcp_host  # noqa: E402
import pifnjarl  # noqa: E402
import pifnjarl_query  # noqa: E402

BLOCK, BLOCKS, IN_BLOCK = 4096, 32000, 64
ZONE = 32768
TRANSFER, UNDER_WAY = 131072, 32
WHERE = "region == 3 && amount >= 50"
LAYOUT = "records 64\norder bytes16 @0\nregion u32 @16\namount u32 @20\n"
RECORD = numpy.dtype([("order", "V16"), ("region", "<u4"), ("amount", "<u4"), ("rest", "V40")])
FILTER = """#include "pifnjarl.h"
long query(const struct context *context, const u8 *block)
{
    #pragma unroll
    for (int i = 0; i < 64; i++)
        if (le32(block, 64 * i + 16) == 3 && le32(block, 64 * i + 20) >= 50)
            emit(block + 64 * i, 16);
    return 0;
}
"""


def best(rounds: int, what: Callable[[], object]) -> float:
    """The least of the times that a call takes, in seconds."""
    times: List[float] = []
    for _ in range(rounds):
        begun = time.perf_counter()
        what()
        times.append(time.perf_counter() - begun)
    return min(times)


def records() -> Any:
    """The records, by numbers that come again with each launch."""
    numbers = numpy.random.default_rng(93)
    made = numpy.zeros(BLOCKS * IN_BLOCK, RECORD)
    made["order"] = numpy.frombuffer(numbers.bytes(16 * len(made)), "V16")
    made["region"] = numbers.integers(0, 50, len(made))
    made["amount"] = numbers.integers(0, 100, len(made))
    return made


class Asked:
    """A zone with the records, and the ways to ask of them."""

    def __init__(self, folder: Path, rounds: int) -> None:
        self.folder, self.rounds, self.zscli = folder, rounds, pifnjarl.zscli()
        self.image, self.layout = folder / "zoned.img", folder / "layout"
        self.rows = records()
        self.layout.write_text(LAYOUT)
        pifnjarl.format_image(self.image, block=BLOCK, zones=2, zone_size=ZONE)
        with pifnjarl.Device(self.image) as device:
            device.append(0, self.rows.tobytes())
            device.save()

    def query(self, *words: str) -> bytes:
        """What `zscli query` prints."""
        asks = [self.zscli, "query", str(self.image), "--zone", "0", "--layout", str(self.layout), "--where", WHERE, "--select", "order"]
        return subprocess.run([*asks, *words], check=True, stdout=subprocess.PIPE).stdout

    def run(self, program: Path, emit: int) -> float:
        """The time of a run of a program over all blocks."""
        with pifnjarl.Device(self.image) as device:
            device.load(0, program, emit)

            def once() -> None:
                device.open(ZONE)
                run = device.run(0, 0, BLOCKS, to=ZONE)
                device.drain()
                run.wait()
                device.reset(ZONE)

            return best(self.rounds, once)

    def in_numpy(self, rows: Any) -> bytes:
        """The answer by numpy."""
        return bytes(rows["order"][(rows["region"] == 3) & (rows["amount"] >= 50)].tobytes())

    def filter(self) -> Path:
        """The program of the same filter in C."""
        (self.folder / "query.c").write_text(FILTER)
        make = ["make", "-s", "-f", str(TOP / "examples" / "Makefile"), f"FROM={self.folder}", f"TO={self.folder}", f"BLOCK={BLOCK}"]
        subprocess.run([*make, f"ZSCLI={self.zscli}", str(self.folder / "query.bin")], check=True)
        return self.folder / "query.bin"

    def table(self) -> sqlite3.Connection:
        """A table of the same rows in memory."""
        table = sqlite3.connect(":memory:")
        table.execute("create table records (name blob, region integer, amount integer)")
        rows = zip((bytes(it) for it in self.rows["order"]), self.rows["region"].tolist(), self.rows["amount"].tolist())
        table.executemany("insert into records values (?, ?, ?)", rows)
        return table


class Remote:
    """The same zone over NVMe/TCP."""

    def __init__(self, asked: Asked, program: Path, emit: int, wanted: bytes) -> None:
        """It is asked by a program, and `wanted` is to come."""
        self.asked, self.program, self.emit, self.wanted = asked, program, emit, wanted
        self.host = asked.folder / "host"
        subprocess.run(["cc", "-O2", "-Wall", "-o", str(self.host), str(TOP / "bench" / "nvme_tcp.c")], check=True)
        named = os.environ.get("NVME_TCP_TARGET")
        if named is None:
            subprocess.run([str(TOP / "target" / "build.sh"), str(asked.folder)], check=True, stdout=subprocess.DEVNULL)
        self.target = named or str(asked.folder / "nvme_tcp")
        # the UUID of the subsystem that the hosts name
        Path(f"{asked.image}.uuid").write_text(nvme_tcp_host.SUBSYSTEM_NQN.rpartition(":")[2] + "\n")

    @contextmanager
    def served(self) -> Iterator[int]:
        """The port of the target, which has the zone in memory."""
        words = [self.target, str(self.asked.image), "--memory", "--listen", "127.0.0.1:0"]
        with subprocess.Popen(words, stdout=subprocess.PIPE, text=True) as target:
            assert target.stdout is not None
            try:
                yield int(target.stdout.readline().rpartition(":")[2])
            finally:
                target.terminate()

    def run(self, port: int) -> float:
        """The time of a run over all blocks, with the reading of its answer."""
        with nvme_tcp_host.Host(("127.0.0.1", port)) as host:
            queue = host.queue(1)
            queue.load(0, self.program.read_bytes(), self.emit)
            most = TRANSFER // BLOCK

            def once() -> bytes:
                queue.zone_action(nvme_tcp_host.Action.OPEN, ZONE)
                count, blocks = queue.run(0, 0, BLOCKS, ZONE)
                reads = [queue.read(ZONE + at, min(most, blocks - at)) for at in range(0, blocks, most)]
                queue.zone_action(nvme_tcp_host.Action.RESET, ZONE)
                return pifnjarl_query.unpacked(b"".join(reads), BLOCK, 16, count)

            if once() != self.wanted:
                raise SystemExit("what is answered over NVMe/TCP differs")
            return best(self.asked.rounds, once)

    def read(self, port: int) -> float:
        """The time of reading all blocks."""
        blocks = self.asked.folder / "read"
        words = [str(self.host), str(port), str(TRANSFER), str(BLOCK * BLOCKS // TRANSFER), str(UNDER_WAY), "into", str(blocks)]
        told = subprocess.run(words, check=True, stdout=subprocess.PIPE, text=True).stdout
        return int(told.split()[0]) * 1e-9 * (BLOCK * BLOCKS // TRANSFER)

    def compare(self) -> float:
        """The time that numpy takes for the blocks that were read, where the host put them."""
        rows = numpy.memmap(self.asked.folder / "read", RECORD, "r")
        if self.asked.in_numpy(rows) != self.wanted:
            raise SystemExit("what is read over NVMe/TCP differs")
        return best(self.asked.rounds, lambda: self.asked.in_numpy(rows))

    def times(self) -> Dict[str, float]:
        """All of them."""
        with self.served() as port:
            run, read = self.run(port), self.read(port)
        compared = self.compare()
        return {
            "a run over NVMe/TCP, and reading its answer": run,
            "reading all over NVMe/TCP, and numpy": read + compared,
            "of that numpy": compared,
        }


def compiled(asked: Asked) -> float:
    """The time that a program of the question takes, beside a command that loads the same small image and asks nothing."""
    small = asked.folder / "small.img"
    pifnjarl.format_image(small, block=BLOCK, zones=2, zone_size=1)
    with pifnjarl.Device(small) as device:
        device.append(0, bytes(BLOCK))
        device.save()
    asks = [asked.zscli, "query", str(small), "--zone", "0", "--layout", str(asked.layout), "--where", WHERE, "--explain"]
    rounds = 20 * asked.rounds
    explained = best(rounds, lambda: subprocess.run(asks, check=True, stdout=subprocess.DEVNULL))
    return explained - best(rounds, lambda: subprocess.run([asked.zscli, "report", str(small)], check=True, stdout=subprocess.DEVNULL))


def main() -> int:
    """Prints the times."""
    rounds = int(sys.argv[1]) if len(sys.argv) > 1 else 5
    with tempfile.TemporaryDirectory(dir="/dev/shm" if os.path.isdir("/dev/shm") else None) as name:
        asked = Asked(Path(name), rounds)
        table = asked.table()
        select = "select name from records where region = 3 and amount >= 50"
        wanted = asked.in_numpy(asked.rows)
        if asked.query("--raw") != wanted or b"".join(it for it, in table.execute(select)) != wanted:
            print("what is answered differs", file=sys.stderr)
            return 1
        program, nothing = asked.folder / "asked.bin", asked.folder / "nothing.bin"
        nothing.write_bytes(pifnjarl.EMITS_NOTHING)
        asked.query("--program", str(program))
        emit = 18 * IN_BLOCK
        whole, served = best(rounds, lambda: asked.query("--raw")), asked.run(nothing, 0)
        times: Dict[str, float] = {
            "zscli query, without loading the image": whole - best(rounds, lambda: asked.query("--raw", "--blocks", "1")),
            "a run of its program": asked.run(program, emit) - served,
            "a run of the filter in C": asked.run(asked.filter(), emit) - served,
            "numpy in memory": best(rounds, lambda: asked.in_numpy(asked.rows)),
            "sqlite3 in memory": best(rounds, lambda: table.execute(select).fetchall()),
        }
        times.update(Remote(asked, program, emit, wanted).times())
        print(f"{len(wanted) // 16} of {BLOCKS * IN_BLOCK} records in {BLOCKS} blocks; zscli query with loading: {whole * 1000:.0f} ms")
        for name, seconds in times.items():
            print(f"{name}: {seconds * 1000:.1f} ms, {seconds * 1e9 / BLOCKS:.0f} ns a block")
        print(f"making the program: {compiled(asked) * 1000:.2f} ms")
    return 0


if __name__ == "__main__":
    sys.exit(main())
