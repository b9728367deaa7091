#!/bin/sh
# Times a turn of a run, through the device, of a filter that takes 11 steps where a block doesn't match, over
# blocks of 4096 bytes, by a call of pifnjarl_do for each and by one of pifnjarl_turns for all: beside a Read of such a
# block through the device, and beside DPDK's interpreter (Debian's libdpdk-dev) on the same filter and blocks alone,
# over 4096 blocks, which come from memory, and over 64, which stay in a cache. Then the rate of Appends beside plain copies of the same bytes, the
# time to admit and to refuse runs of one and of 4096 blocks on a large image, and of one on a small one, and `exec` of a
# command file of 64 MiB beside `xxd`, which turns its data to bytes, and as many bytes to text. Each
# is the least of several rounds.
set -eu
here=$(cd "$(dirname "$0")" && pwd)
program=runs
. "$here/dpdk.sh"
"$work/dpdk" write "$work"
. "$here/best.sh"
. "$here/device.sh"
"$bench" "$work/filter.bin" > "$work/completion"
matches=$("$work/dpdk" time 4096 1 1 | sed -n 1p)
if [ "$(sed 's/ .*//' "$work/completion")" != "${matches% *}" ]; then
    echo "what is printed differs" >&2
    exit 1
fi
read=$(least 3 "$bench" "$work/filter.bin" 10)
theirs=$(least 2 "$work/dpdk" time 4096 10 4)
theirs_cached=$(least 2 "$work/dpdk" time 64 100 64)
line=1
for call in pifnjarl_do pifnjarl_turns; do
    turn=$(least $line "$bench" "$work/filter.bin" 10)
    cached=$(least $((line + 3)) "$bench" "$work/filter.bin" 10)
    awk "BEGIN {
        printf \"a turn over 4096 blocks by $call: %d ns; a Read: %d ns, ratio %.2f; DPDK's bare run: %d ns, ratio %.2f\n\", $turn, $read, $turn / $read, $theirs, $turn / $theirs
        printf \"a turn over 64 blocks by $call: %d ns; DPDK's bare run: %d ns, ratio %.2f\n\", $cached, $theirs_cached, $cached / $theirs_cached
    }"
    line=$((line + 1))
done
"$bench" "$work/filter.bin" 20 > "$work/rates"
sed -n '6,$p' "$work/rates"

# 256 Appends of 128 KiB to four zones, and as many Reads
rounds=${ROUNDS:-5}
cd "$here/.."
./zscli --help > /dev/null
zscli=crates/zscli/out/zscli
"$zscli" format "$work/zoned.img" --block 4096 --zones 4 --size 2048 --capacity 2048 --open 4 --active 4
head -c 131072 /dev/urandom > "$work/data"
for number in $(seq 0 255); do
    "$zscli" entry append --lba $((number / 64 * 2048)) --data "$work/data" --block 4096
done > "$work/exec.cmd"
for number in $(seq 0 255); do
    "$zscli" entry read --lba $((number / 64 * 2048 + number % 64 * 32)) --blocks 32
done >> "$work/exec.cmd"
cut -d ' ' -f 4 "$work/exec.cmd" > "$work/hex"
run_file() {
    cp "$work/zoned.img" "$work/run.img"
    "$zscli" exec "$work/run.img" "$work/exec.cmd" > "$work/lines"
}
both_ways() {
    xxd -r -p "$work/hex" "$work/bytes"
    xxd -p "$work/bytes" "$work/text"
}
ours=$(best run_file)
theirs=$(best both_ways)
if [ "$(grep -c '^cpl 1 .\{28\}0000' "$work/lines")" -ne 512 ]; then
    echo "not every command succeeded" >&2
    exit 1
fi
awk "BEGIN { printf \"exec of 64 MiB: xxd/zscli %.2f\n\", $theirs / $ours }"
