"""Streams of random and mutated PDUs, after each of which the target has to work as before.

    python3 fuzz.py COUNT SEED [FIRST]

sends COUNT streams to a target over a new image, eight at a time, each on a connection of its own. Each is made of the seed and of its
number alone, so that one that fails is sent again alone by a COUNT of 1 and its number as FIRST, or with the others of its batch by a
COUNT of 8 and the first number of these. What is answered has to be PDUs that a controller may send, and the host that was there
before, and a new one, find the target as it should be behind each batch.
"""

from __future__ import annotations

import random
import sys
from collections import Counter
from contextlib import suppress
from typing import Callable, List, NamedTuple, Tuple

import target
from cases import HOST_DATA, PEER_IDENTIFIER, PEER_NQN, peer_data
from nvme_tcp_connection import Connection, Ended, Fabrics, Kind, Opcode, Sgl, TimedOut, capsule, connect_entry, entry
from nvme_tcp_connection import h2c_data, initialize_request, pdu
from nvme_tcp_host import ANY_CONTROLLER, CSTS, ENABLED, HOST_IDENTIFIER, HOST_NQN, Action, Host

# numbers at the ends of ranges, or of a field's bits
EDGES = [0, 1, 2, 7, 8, 15, 16, 24, 63, 64, 71, 72, 73, 127, 128, 255, 256, 511, 512, 513, 1023, 1024, 4095, 4096, 8192, 65535]
EDGES += [131071, 131072, 131073, 0x7FFF_FFFF, 0x8000_0000, 0xFFFF_FE00, 0xFFFF_FFFF]

# of each command: opcode, Dwords 10 and 11, 12, 13, 14 and 15, bytes of data, and the namespace or the type of a Fabrics command
Fields = Tuple[int, int, int, int, int, int, int]
ADMIN_COMMANDS: List[Fields] = [
    (Opcode.IDENTIFY, 1, 0, 0, 0, 4096, 0),
    (Opcode.IDENTIFY, 5 | 2 << 56, 0, 0, 0, 4096, 1),
    (Opcode.GET_LOG_PAGE, 2 | 127 << 16, 0, 0, 0, 512, 0),
    (Opcode.SET_FEATURES, 0x0B | 256 << 32, 0, 0, 0, 0, 0),
    (Opcode.GET_FEATURES, 7, 0, 0, 0, 0, 0),
    (Opcode.ASYNCHRONOUS_EVENT_REQUEST, 0, 0, 0, 0, 0, 0),
    (Opcode.KEEP_ALIVE, 0, 0, 0, 0, 0, 0),
    (Opcode.FABRICS, 1, 0, 0, 0, 0, Fabrics.PROPERTY_GET),
    (Opcode.FABRICS, 0x14 << 32, ENABLED, 0, 0, 0, Fabrics.PROPERTY_SET),
]
IO_COMMANDS: List[Fields] = [
    (Opcode.WRITE, 0, 0, 0, 0, 512, 1),
    (Opcode.READ, 16, 1, 0, 0, 1024, 1),
    (Opcode.ZONE_MANAGEMENT_SEND, 0, 0, Action.RESET, 0, 0, 1),
    (Opcode.ZONE_MANAGEMENT_SEND, 16, 0, Action.OPEN, 0, 0, 1),
    (Opcode.ZONE_MANAGEMENT_RECEIVE, 0, 79, 0, 0, 320, 1),
    (Opcode.ZONE_APPEND, 16, 1, 0, 0, 1024, 1),
    (Opcode.RUN, 0, 0, 3, 16, 0, 1),
    (Opcode.LOAD, 0, 16, 0, 0, 16, 1),
    (Opcode.RESULT, 0, 0, 0, 0, 1024, 1),
]

# ---- streams

Pdus = List[bytes]


def command(rng: random.Random, commands: List[Fields], identifier: int) -> Pdus:
    """A command, of which at most one field has another number, and its data where it has some."""
    fields = list(rng.choice(commands))
    if rng.random() < 0.4:
        at = rng.randrange(len(fields))
        fields[at] = rng.choice(EDGES) if at else rng.randrange(256)
    opcode, *dwords, length, namespace = fields
    takes_data = (namespace if opcode == Opcode.FABRICS else opcode) & 3 == 1
    if takes_data and 0 < length <= 8193 and rng.random() < 0.5:
        data = (target.EMITS_NOTHING + rng.randbytes(length))[:length]
        return [capsule(entry(opcode, identifier, *dwords, length=length, sgl=Sgl.IN_CAPSULE, namespace=namespace), data)]
    sent = [capsule(entry(opcode, identifier, *dwords, length=length, namespace=namespace))]
    if takes_data and 0 < length <= 131072:
        sent += pieces(rng, identifier, length)
    return sent


def pieces(rng: random.Random, identifier: int, length: int) -> Pdus:
    """The data of a command, in one PDU or in two."""
    data = (target.EMITS_NOTHING + rng.randbytes(length))[:length]
    cut = rng.randrange(1, length) if length > 1 and rng.random() < 0.3 else 0
    first = [h2c_data(identifier, 0, data[:cut], 0)] if cut else []
    return first + [h2c_data(identifier, cut, data[cut:])]


def session(rng: random.Random) -> Pdus:
    """The PDUs of a connection of an admin queue, or of a queue of the host that is there already."""
    is_admin = rng.random() < 0.4
    data = peer_data(ANY_CONTROLLER) if is_admin else HOST_DATA
    number, commands = (0, ADMIN_COMMANDS) if is_admin else (rng.randrange(2, 9), IO_COMMANDS)
    sent = [initialize_request(alignment=rng.choice([0, 0, 1, 31])), capsule(connect_entry(0, number, rng.randrange(1, 32)), data)]
    for identifier in range(1, rng.randrange(2, 10)):
        sent += command(rng, commands, identifier)
    return sent


# ---- what is done to them


def other_byte(rng: random.Random, sent: Pdus) -> None:
    """Changes a byte of a PDU, mostly of its header."""
    place = rng.randrange(len(sent))
    changed = bytearray(sent[place] or b"\0")
    most = len(changed) if rng.random() < 0.3 else min(len(changed), rng.choice([8, 24, 72, 128]))
    changed[rng.randrange(most)] = rng.randrange(256)
    sent[place] = bytes(changed)


def other_number(rng: random.Random, sent: Pdus) -> None:
    """Puts a number at an end of a range into four bytes of a PDU's header."""
    place = rng.randrange(len(sent))
    at = 4 * rng.randrange(18)
    sent[place] = sent[place][:at] + rng.choice(EDGES).to_bytes(4, "little") + sent[place][at + 4 :]


def fewer(rng: random.Random, sent: Pdus) -> None:
    """Leaves out a PDU, or its end."""
    place = rng.randrange(len(sent))
    sent[place] = sent[place][: rng.randrange(len(sent[place]) + 1)] if rng.random() < 0.5 else b""


def again(rng: random.Random, sent: Pdus) -> None:
    """Repeats a PDU, somewhere."""
    sent.insert(rng.randrange(len(sent) + 1), rng.choice(sent))


def swapped(rng: random.Random, sent: Pdus) -> None:
    """Swaps two PDUs."""
    first, second = rng.randrange(len(sent)), rng.randrange(len(sent))
    sent[first], sent[second] = sent[second], sent[first]


def more(rng: random.Random, sent: Pdus) -> None:
    """Adds random bytes, or a PDU with random fields and with lengths that fit."""
    kind = rng.choice([*Kind, Kind.H2C_DATA, Kind.CAPSULE_CMD])
    fields = {Kind.IC_REQ: 120, Kind.IC_RESP: 120, Kind.CAPSULE_CMD: 64}.get(kind, 16)
    added = pdu(kind, rng.randbytes(fields), rng.randbytes(rng.choice(EDGES) % 1024), rng.choice([0, 0, 4, rng.randrange(256)]))
    sent.insert(rng.randrange(len(sent) + 1), added if rng.random() < 0.7 else rng.randbytes(rng.randrange(200)))


MUTATIONS: List[Callable[[random.Random, Pdus], None]] = [other_byte, other_byte, other_number, fewer, again, swapped, more]


def stream(seed: str) -> Pdus:
    """The PDUs of a stream, or what was made of them."""
    rng = random.Random(seed)
    sent = session(rng)
    # often the connection gets as far as its commands
    kept = rng.choice([0, 2, 2])
    begins, changed = sent[:kept], sent[kept:]
    for _ in range(rng.randrange(4)):
        if changed:
            rng.choice(MUTATIONS)(rng, changed)
    return begins + changed


# ---- sending them

BATCH = 8
"""How many streams are sent at a time: most of them find an I/O queue or a controller free."""


class Sent(NamedTuple):
    """How many PDUs were sent, and how many of each kind answered them."""

    pdus: int
    answers: Counter[Kind]


def begin(program: target.Target, seed: str, pdus: Pdus) -> Connection:
    """Sends a stream in a few pieces, and says that no more comes."""
    sent, rng = b"".join(pdus), random.Random(seed)
    connection = Connection(program.address)
    with suppress(Ended, TimedOut):
        connection.send(sent, sorted(rng.randrange(len(sent) + 1) for _ in range(rng.randrange(4))))
        connection.end()
    return connection


def answers(connection: Connection) -> List[Kind]:
    """The PDUs that come until the connection ends; the last may be cut off."""
    came = []
    with suppress(Ended):
        while True:
            came.append(connection.receive().kind)
    connection.shut()
    return came


def send(program: target.Target, seeds: List[str]) -> Sent:
    """Sends the streams of a batch, whose connections are there at once."""
    streams = [stream(seed) for seed in seeds]
    connections = [begin(program, seed, pdus) for seed, pdus in zip(seeds, streams)]
    pdus = sum(1 for sent in streams for each in sent if each)
    return Sent(pdus, Counter(kind for connection in connections for kind in answers(connection)))


def works(program: target.Target, host: Host) -> None:
    """Raises an error where the target isn't as it should be for the host that was there, or for a new one."""
    host.keep_alive()
    if len(host.queue(1).report()) != target.ZONES or host.get_property(CSTS) != 1:
        raise AssertionError("another host's stream has changed a controller, or the namespace's zones")
    with Host(program.address, identifier=PEER_IDENTIFIER, name=PEER_NQN) as new:
        if new.controller != 2:
            raise AssertionError(f"a controller of the stream is still there: the next one is {new.controller}")
        new.queue(1).read(0, 1)


def run(count: int, seed: str, first: int = 0) -> Sent:
    """Sends so many streams, and gives how many PDUs they had, and what answered them."""
    pdus = 0
    came: Counter[Kind] = Counter()
    end = first + count
    with target.started() as program, Host(program.address, identifier=HOST_IDENTIFIER, name=HOST_NQN) as host:
        for number in range(first, end, BATCH):
            batch = range(number, min(number + BATCH, end))
            try:
                sent = send(program, [f"{seed} {each}" for each in batch])
                works(program, host)
            except Exception as error:
                raise AssertionError(f"streams {batch[0]} to {batch[-1]} of seed {seed}: {error!r}") from error
            pdus += sent.pdus
            came += sent.answers
    return Sent(pdus, came)


def main() -> int:
    """Sends the streams that the command line asks for."""
    if len(sys.argv) not in (3, 4):
        print(__doc__, file=sys.stderr)
        return 2
    sent = run(int(sys.argv[1]), sys.argv[2], int(sys.argv[3]) if len(sys.argv) == 4 else 0)
    kinds = ", ".join(f"{count} {kind.name}" for kind, count in sorted(sent.answers.items()))
    print(f"{sys.argv[1]} streams of {sent.pdus} PDUs, answered by {sum(sent.answers.values())}: {kinds}")
    return 0


if __name__ == "__main__":
    sys.exit(main())
