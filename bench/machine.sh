#!/bin/sh
# Times the machine, with every check and as it runs prepared programs, over their superinstructions, against DPDK's
# interpreter (Debian's libdpdk-dev) on the same instructions over a block of 4096 bytes, and prints the
# picoseconds an instruction, the least of several rounds and launches, with their ratios to DPDK's.
set -eu
here=$(cd "$(dirname "$0")" && pwd)
program=machine
. "$here/dpdk.sh"
"$work/dpdk" write "$work"
ours=$here/../crates/bench_programs/out/bench_programs
rounds=60
repeats=200
# builds the program where it has to
"$here/../tools/gate/proving.py" bench_programs
for name in straight branchy; do
    # R0, the steps, and nothing emitted
    wanted=$("$ours" "$work/$name.bin" "$work/block.bin" 0 0 prepared)
    steps=$(echo "$wanted" | cut -d ' ' -f 2)
    if [ "$wanted" != "$("$ours" "$work/$name.bin" "$work/block.bin" 0 0 checked)" ] ||
        [ "$wanted" != "$("$work/dpdk" time $name "$steps" 0 1 | sed -n 1p) 0 0" ]; then
        echo "$name: what is printed differs" >&2
        exit 1
    fi
    theirs=$(least 2 "$work/dpdk" time $name "$steps" $rounds $repeats)
    each() { awk "BEGIN { printf \"%d\", $(least 2 "$ours" "$work/$name.bin" "$work/block.bin" $rounds $repeats "$1") / $steps }"; }
    checked=$(each checked)
    prepared=$(each prepared)
    ratio() { awk "BEGIN { printf \"%.2f\", $1 / $theirs }"; }
    echo "$name: DPDK $theirs ps; checked $checked ps, ratio $(ratio "$checked"); prepared $prepared ps, ratio $(ratio "$prepared")"
done
