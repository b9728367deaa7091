"""Tests of hosts side by side at an NVMe/TCP target: commands in flight, runs, controllers, and the image. test_nvme_tcp.py runs them."""

from __future__ import annotations

import random
import tempfile
import time
import unittest
from pathlib import Path

import target
from nvme_tcp_connection import Connection, Ended, Opcode, Terminated, TimedOut, capsule, connect_data, entry, h2c_data
from nvme_tcp_connection import initialize_request
from nvme_tcp_host import CC, CSTS, HOST_NQN, SUBSYSTEM_NQN, Action, Host, IoQueue, Queue, ZoneState
from target import FILTER, Over, Target, little, order

OTHER_HOST = {"identifier": b"a second host...", "name": "nqn.2026-11.test:second"}


class InFlight(Over):
    """Many commands at once."""

    def test_each_entry_of_a_queue_may_be_in_flight(self) -> None:
        """They are executed in their order, and each completion has its identifier; SQHD counts them."""
        self.queue.zone_action(Action.RESET, None)
        flying = [self.queue.submit(Opcode.READ, lba % 64, length=512) for lba in range(128)]
        heads = [self.queue.completion(identifier).head for identifier in flying]
        self.assertEqual(heads, [(2 + count) % 128 for count in range(1, 129)])
        flying = [self.queue.submit(Opcode.ZONE_APPEND, 16, data=order(region)) for region in range(16)]
        self.assertEqual([self.queue.done(identifier).dword0 for identifier in reversed(flying)], list(range(31, 15, -1)))
        self.assertEqual(self.queue.read(16, 16), b"".join(order(region) for region in range(16)))

    def test_data_in_capsules_and_asked_for_has_its_own_command(self) -> None:
        """Also where 126 capsules with data wait behind a Write whose data isn't there yet; they are executed in their order."""
        with target.started(zone_size=4096) as program, Host(program.address) as host:
            queue, rng = host.queue(1), random.Random(6)
            data = [rng.randbytes(512 * (1 + number % 16)) for number in range(254)]
            for first in range(0, 254, 127):
                lba = sum(map(len, data[:first])) // 512
                flying = []
                for number in range(first, first + 127):
                    waits = number == first or number % 50 == 49
                    blocks = len(data[number]) // 512
                    flying.append(queue.submit(Opcode.WRITE, lba, blocks - 1, data=data[number], in_capsule=not waits))
                    lba += blocks
                for identifier in flying:
                    queue.done(identifier)
            blocks, written = sum(map(len, data)) // 512, b""
            while len(written) < 512 * blocks:
                written += queue.read(len(written) // 512, min(256, blocks - len(written) // 512))
            self.assertEqual(written, b"".join(data))

    def test_queues_go_on_side_by_side(self) -> None:
        """Commands of eight queues, waited for in any order: each has the data of its own."""
        self.queue.write(0, b"".join(order(region) for region in range(16)))
        rng = random.Random(2)
        flying = []
        for _ in range(40):
            for name in range(1, 9):
                lba = rng.randrange(16)
                flying.append((lba, self.host.queue(name), self.host.queue(name).submit(Opcode.READ, lba, length=512)))
        rng.shuffle(flying)
        for lba, queue, identifier in flying:
            self.assertEqual(queue.done(identifier).data, order(lba))

    def test_a_host_that_sends_no_data_delays_itself_alone(self) -> None:
        """What waits on its queue goes on when the data has come, in order."""
        slow = self.host.queue(2).connection
        slow.send(capsule(entry(Opcode.WRITE, 1, 0, length=512)) + capsule(entry(Opcode.READ, 2, 0, length=512)))
        self.assertEqual(slow.receive().kind.name, "R2T")
        self.assertEqual(self.queue.read(0, 1), bytes(512))
        self.queue.write(0, order(6))
        with self.assertRaises(TimedOut):
            slow.receive(patience=0.05)
        slow.send(h2c_data(1, 0, order(7)))
        self.assertEqual(slow.receive().header[22:24], little(0x1BC << 1 | 1 << 15, 2))
        self.assertEqual(slow.receive().data, order(6))

    def test_a_host_that_reads_nothing_delays_itself_alone(self) -> None:
        """However much it asks for; it gets all of it when it reads."""
        with target.started(zone_size=256) as program, Host(program.address) as host:
            data = random.Random(1).randbytes(131072)
            host.queue(1).write(0, data)
            flying = [host.queue(2).submit(Opcode.READ, 0, 255, length=131072) for _ in range(127)]
            for _ in range(10):
                self.assertEqual(host.queue(1).read(255, 1), data[-512:])
            self.assertTrue(all(host.queue(2).done(identifier).data == data for identifier in flying))

    def test_what_a_host_does_not_read_takes_no_memory(self) -> None:
        """However many commands it sends on: those that were answered are as good as done, and the next ones aren't taken."""
        with target.started(zone_size=256) as program, Host(program.address) as host:
            host.queue(1).write(0, bytes(131072))
            before = program.resident_bytes()
            for number in range(2000):
                host.queue(2).connection.send(capsule(entry(Opcode.READ, number % 64, 0, 255, length=131072)))
            for _ in range(20):
                host.keep_alive()
            grown = program.resident_bytes() - before
            host.queue(2).connection.reset()
            self.assertLess(grown, 64 << 20)
            self.assertEqual(host.queue(1).read(0, 1), bytes(512))

    def test_without_flow_control_sqhd_tells_nothing(self) -> None:
        """It is FFFFh."""
        queue = IoQueue(Connection(self.target.address), 2, 128)
        self.assertEqual(queue.connect(self.host.connect_data(), attributes=4).head, 0xFFFF)
        self.assertEqual(queue.command(Opcode.READ, 0, length=512).head, 0xFFFF)
        queue.connection.shut()


BLOCKS = 32768
"""The blocks of a zone over which a run goes, each with a record."""

SLOW_FILTER = bytes.fromhex("b700000000000000") * 600 + FILTER  # mov r0, 0
"""The filter, behind instructions that take their time."""

APPENDED = 4682
"""The blocks that their records come to: 7 of 66 bytes in a block of 512."""


class Runs(Over):
    """Runs, which have no completion until they end. Each is over a zone that is full of records, so long that it is still active when the
    commands behind it come."""

    geometry = {"zones": 10, "zone_size": BLOCKS}

    def setUp(self) -> None:
        super().setUp()
        for lba in range(0, BLOCKS, 256):
            self.queue.write(lba, order(3) * 256)
        self.queue.load(0, SLOW_FILTER, emit=66)

    def start(self, zone: int, queue: Queue) -> int:
        """Starts a run over zone 0 into another, and gives its identifier."""
        self.queue.zone_action(Action.OPEN, zone * BLOCKS)
        return queue.submit(Opcode.RUN, 0, BLOCKS - 1, 3, zone * BLOCKS)

    def wait_for_runs(self) -> None:
        """Waits until no run holds zone 0."""
        until = time.monotonic() + 60
        while self.queue.completion(self.queue.submit(Opcode.ZONE_MANAGEMENT_SEND, 0, 0, Action.RESET)).status == 0x7C0:
            self.assertLess(time.monotonic(), until)

    def test_commands_go_on_beside_a_run(self) -> None:
        """Of its queue, of others, and of the admin queue; its zones are held until it ends."""
        run = self.start(1, self.queue)
        self.assert_refused(0x7C0, self.host.queue(2).zone_action, Action.RESET, 0)
        self.assert_refused(0x7C0, self.host.queue(2).append, BLOCKS, order(0))
        self.assertEqual(self.host.queue(2).append(2 * BLOCKS, order(0)), 2 * BLOCKS)
        self.assertEqual(self.queue.read(17, 1), order(3))
        self.host.keep_alive()
        self.assert_refused(0x7CA, self.queue.load, 0, FILTER, 66)
        self.assertEqual(self.queue.done(run)[:2], (BLOCKS, APPENDED))
        self.queue.zone_action(Action.RESET, 0)

    def test_eight_runs_go_on_at_once(self) -> None:
        """A ninth is refused, and each has its completion, on the queue on which it was started."""
        runs = [(self.host.queue(zone), self.start(zone, self.host.queue(zone))) for zone in range(1, 9)]
        self.queue.zone_action(Action.OPEN, 9 * BLOCKS)
        self.assert_refused(0x7C3, self.queue.run, 0, 0, BLOCKS, 9 * BLOCKS)
        for queue, run in runs:
            self.assertEqual(queue.done(run)[:2], (BLOCKS, APPENDED))

    def test_runs_take_entries_of_their_queue(self) -> None:
        """A queue of two entries takes no third command while two runs are active; the runs go on."""
        queue = self.host.queue(2, entries=2)
        for zone in (1, 2):
            self.queue.zone_action(Action.OPEN, zone * BLOCKS)
        third = entry(Opcode.READ, 12, 0, length=512)
        commands = [entry(Opcode.RUN, 9 + zone, 0, BLOCKS - 1, 3, zone * BLOCKS) for zone in (1, 2)] + [third]
        # at once, so that no run ends before the third has come
        queue.connection.send(b"".join(map(capsule, commands)))
        with self.assertRaises(Terminated) as caught:
            queue.completion(10)
        self.assertEqual((caught.exception.status, caught.exception.information), (2, 0))
        self.assertEqual(caught.exception.header, capsule(third))
        self.wait_for_runs()
        self.assertEqual(self.queue.report(BLOCKS, most=1)[0].write_pointer, BLOCKS + APPENDED)

    def test_a_run_outlives_its_connection(self) -> None:
        """It goes on to its end when its queue's connection ends, or its controller. Its completion comes to nobody."""
        other = Host(self.target.address, **OTHER_HOST)
        for zone, queue, shut in ((1, self.host.queue(2), lambda: self.host.shut_queue(2)), (2, other.queue(1), other.shut)):
            self.start(zone, queue)
            queue.read(0, 1)
            shut()
        late = self.host.queue(2)
        self.assertEqual(late.read(1, 1), order(3))
        self.wait_for_runs()
        self.assertEqual(late.read(9 * BLOCKS, 1), bytes(512))
        record = b"\x40\0" + order(3)[:64]
        for zone in (1, 2):
            self.assertEqual(self.queue.report(zone * BLOCKS, most=1)[0].write_pointer, zone * BLOCKS + APPENDED)
            self.assertEqual(late.read(zone * BLOCKS + APPENDED - 1, 1), record.ljust(512, b"\0"))


class Associations(Over):
    """Hosts, their controllers, and the connections of these."""

    def other_host(self, keep_alive: int = 0) -> Host:
        """A host with another identity, which is shut at the test's end."""
        other = Host(self.target.address, **OTHER_HOST, keep_alive=keep_alive)
        self.addCleanup(other.shut)
        return other

    def connected(self, data: bytes, queue: int = 2) -> Queue:
        """A queue that is connected with this data."""
        new = Queue(Connection(self.target.address), queue, 8)
        self.addCleanup(new.connection.shut)
        new.connect(data)
        return new

    def test_a_controller_is_its_host_s_alone(self) -> None:
        """A queue of it wants its Host Identifier and its Host NQN."""
        other = connect_data(b"a second host...", 1, SUBSYSTEM_NQN, HOST_NQN)
        self.assertEqual(self.assert_refused(0x182, self.connected, other).dword0, 0x1_0010)
        self.assertEqual(self.assert_refused(0x182, self.connected, self.host.connect_data(2)).dword0, 0x1_0010)
        self.assertEqual(self.connected(self.host.connect_data()).number, 2)
        self.assertEqual(self.assert_refused(0x182, self.connected, self.host.connect_data()).dword0, 42)

    def test_names_may_fill_their_fields(self) -> None:
        """A Host NQN that no 00h ends has 256 bytes, all of which count."""
        with Host(self.target.address, name="h" * 256) as long:
            self.assertEqual(long.queue(1).read(0, 1), bytes(512))
            other = connect_data(long.identifier, long.controller, SUBSYSTEM_NQN, "h" * 255)
            self.assertEqual(self.assert_refused(0x182, self.connected, other).dword0, 0x1_0010)

    def test_a_transfer_ends_where_its_controller_is_stopped(self) -> None:
        """What was sent of it is forgotten, and what waits behind it."""
        connection = self.queue.connection
        connection.send(capsule(entry(Opcode.WRITE, 90, 0, length=512)) + h2c_data(90, 0, bytes(511), 0))
        connection.send(capsule(entry(Opcode.ZONE_MANAGEMENT_SEND, 91, 16, 0, Action.FINISH)))
        self.assertEqual(connection.receive().kind.name, "R2T")
        self.host.set_property(CC, 0)
        self.assertEqual(connection.receive_to_end(), b"")
        self.host.enable()
        self.assertEqual([zone.write_pointer for zone in self.host.queue(2).report()], [0, 16, 32, 48])

    def test_there_are_four_controllers(self) -> None:
        """A fifth is refused until one ends, and has that one's identifier then."""
        others = [self.other_host() for _ in range(3)]
        self.assertEqual([other.controller for other in others], [2, 3, 4])
        self.assert_refused(0x181, Host, self.target.address)
        others[1].shut()
        with Host(self.target.address) as new:
            self.assertEqual(new.controller, 3)
            self.assertEqual(new.queue(1).read(0, 1), bytes(512))

    def test_a_controller_ends_with_its_admin_connection(self) -> None:
        """Its I/O connections are closed then, and it doesn't end with one of those."""
        other = self.other_host()
        first = other.queue(1)
        other.shut_queue(1)
        other.keep_alive()
        again = other.queue(1)
        self.assertEqual(again.read(0, 1), bytes(512))
        other.admin.connection.shut()
        self.assertEqual(again.connection.receive_to_end(), b"")
        self.assertIsNot(first, again)
        self.assertEqual(self.queue.read(0, 1), bytes(512))

    def test_connect_may_be_asked_for_its_data(self) -> None:
        """By an R2T, of an admin queue and of an I/O queue."""
        for number, wanted, controller in ((0, 0xFFFF, 2), (2, 1, 1)):
            queue = Queue(Connection(self.target.address), number, 32)
            self.addCleanup(queue.connection.shut)
            self.assertEqual(queue.connect(self.host.connect_data(wanted), in_capsule=False).dword0, controller)

    def test_connections_that_idle_take_nothing_from_others(self) -> None:
        """As many as there may be, which have sent a half of an ICReq; when they end, there is room again."""
        idle = []
        for _ in range(50):
            try:
                idle.append(Connection(self.target.address))
                idle[-1].send(initialize_request()[:64])
            except (Ended, OSError):
                pass
        self.assertEqual(self.queue.read(0, 1), bytes(512))
        for connection in idle:
            connection.shut()
        self.fence()
        with Host(self.target.address) as new:
            self.assertEqual(new.controller, 2)

    def test_keep_alive_times_out(self) -> None:
        """A controller ends if nothing comes on its admin connection for one and a half KATO; what comes on others doesn't count."""
        kept, lost = self.other_host(keep_alive=1000), self.other_host(keep_alive=1000)
        queue, began = lost.queue(1), time.monotonic()
        with self.assertRaises(Ended):
            while time.monotonic() < began + 8:
                queue.read(0, 1)
                kept.keep_alive()
                time.sleep(0.05)
        self.assertGreater(time.monotonic(), began + 1.4)
        self.assertLess(time.monotonic(), began + 4)
        self.assertEqual(lost.admin.connection.receive_to_end(), b"")
        self.assertEqual(kept.get_property(CSTS), 1)


class Images(unittest.TestCase):
    """The image under the target."""

    def setUp(self) -> None:
        folder = tempfile.TemporaryDirectory()
        self.addCleanup(folder.cleanup)
        self.image = Path(folder.name) / "zoned.img"
        target.format_image(self.image)

    def test_it_is_saved_at_the_end(self) -> None:
        """Upon SIGTERM, also while hosts are connected, whose connections end."""
        with Target(self.image) as program:
            host = Host(program.address)
            host.queue(1).write(0, order(9))
            host.queue(1).zone_action(Action.FINISH, 16)
            self.assertEqual(program.stop(), 0)
            self.assertEqual(host.admin.connection.receive_to_end(), b"")
            host.shut()
        with Target(self.image) as program, Host(program.address) as host:
            self.assertEqual(host.queue(1).read(0, 2), order(9) + bytes(512))
            self.assertEqual(host.queue(1).report()[1].state, ZoneState.FULL)

    def test_it_is_of_one_target(self) -> None:
        """A second one doesn't start, and the first goes on."""
        with Target(self.image) as program, Host(program.address) as host:
            with self.assertRaises(AssertionError):
                Target(self.image, is_quiet=True)
            self.assertEqual(host.queue(1).read(0, 1), bytes(512))
