#!/bin/sh
# Times a load, decoding, verifying and making superinstructions, against DPDK's (Debian's libdpdk-dev) of the same
# instructions, which verifies and compiles, and prints the nanoseconds of both, the least of several rounds and launches, with their
# ratio.
set -eu
here=$(cd "$(dirname "$0")" && pwd)
program=loads
. "$here/dpdk.sh"
"$work/dpdk" write "$work"
head -c 4096 /dev/zero >"$work/block.bin"
programs=$here/../crates/bench_programs/out/bench_programs
rounds=10
repeats=20
# builds the program where it has to
"$here/../tools/gate/proving.py" bench_programs
for name in straight-1000 straight-4000 branchy-1000 branchy-4000 spilling-4000; do
    wanted=$("$work/dpdk" time $name 1 1 | sed -n 1p)
    if [ "$wanted" != "$("$programs" "$work/$name.bin" "$work/block.bin" 0 0 loads | sed -n 1p)" ]; then
        echo "$name: what is printed differs" >&2
        exit 1
    fi
    ours=$(least 2 "$programs" "$work/$name.bin" "$work/block.bin" $rounds $repeats loads)
    theirs=$(least 2 "$work/dpdk" time $name $rounds $repeats)
    echo "$name: $ours ns, DPDK $theirs ns, ratio $(awk "BEGIN { printf \"%.2f\", $ours / $theirs }")"
done
