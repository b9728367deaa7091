#!/bin/sh
# Prints the rate of packing groups of 10 and of 510 bytes into blocks of 4096, as a part of the
# rate of a plain copy of the same bytes in the same run: of a copy group by group, and of one copy
# of all. Each block is put behind the one before in a target in memory, so packing writes each
# byte twice: into the pending block, and into the target. The bytes are 64 KiB, which stay in
# the cache (the best of 2000 rounds on each side), and 64 MiB, as of a large image, which don't (the
# best of 20).
set -eu
cd "$(dirname "$0")/../crates/bench_packing"
../../tools/gate/proving.py bench_packing
exec out/bench_packing time
