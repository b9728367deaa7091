#!/usr/bin/env python3
"""Tests of the NVMe/TCP target, as the variable NVME_TCP_TARGET names it.

    NVME_TCP_TARGET=nvme_tcp ZSCLI=zscli python3 test_nvme_tcp.py

runs those of test_commands.py, test_durable.py, test_hosts.py, test_identity.py, test_listening.py, test_log.py, test_room.py,
test_saving.py, test_streams.py and test_time.py, and the examples of docstrings.
"""

from __future__ import annotations

import doctest
import sys
import unittest
from pathlib import Path

sys.path.insert(0, str(Path(__file__).resolve().parent))
import cases
import nvme_tcp_connection
import nvme_tcp_host
import target
import test_commands
import test_durable
import test_hosts
import test_identity
import test_listening
import test_log
import test_room
import test_saving
import test_streams
import test_time

MODULES = (
    test_commands,
    test_durable,
    test_hosts,
    test_identity,
    test_listening,
    test_log,
    test_room,
    test_saving,
    test_streams,
    test_time,
)
"""The files with tests."""


def load_tests(loader: unittest.TestLoader, tests: unittest.TestSuite, pattern: object) -> unittest.TestSuite:
    """The tests of each file, and the examples of docstrings."""
    for module in MODULES:
        tests.addTests(loader.loadTestsFromModule(module))
    for module in (nvme_tcp_connection, nvme_tcp_host, cases):
        tests.addTests(doctest.DocTestSuite(module, extraglobs={"example": target.example}))
    return tests


def main() -> int:
    """Runs the tests; what is printed last is 'N passed, M failed'."""
    result = unittest.main(exit=False).result
    failed = len(result.failures) + len(result.errors)
    print(f"{result.testsRun - failed} passed, {failed} failed", flush=True)
    return 1 if failed else 0


if __name__ == "__main__":
    sys.exit(main())
