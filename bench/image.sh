#!/bin/sh
# Loading and saving an image of 256 MiB beside copies of it, all between files in memory, loading it beside a C program that reads as
# much into fresh memory, reading one block of it by `exec`, which saves nothing, printing its zones, and formatting the largest image
# beside one fill of its room, by a C program in memory and by head into a file in memory. Prints eight ratios, each of the least of
# ROUNDS rounds.
set -eu
cd "$(dirname "$0")/.."
. bench/best.sh
rounds=${ROUNDS:-10}
work=$(mktemp -d /dev/shm/image.XXXXXX)
trap 'rm -r "$work"' EXIT
bytes=268435456
geometry="--block 4096 --zones 16 --size 4096 --capacity 4096 --open 1 --active 1"

./zscli --help > /dev/null
zscli=crates/zscli/out/zscli

# the zones Full: the header with the number of their blocks, a row of each, and the blocks
"$zscli" format "$work/empty.img" $geometry
{
    head -c 32 "$work/empty.img"
    printf '\0\0\1\0\0\0\0\0'
    head -c 24 /dev/zero
    for _ in $(seq 16); do printf '\016\0\0\0\0\020\0\0'; done
    head -c "$bytes" /dev/urandom
} > "$work/full.img"
"$zscli" entry read --lba 0 --blocks 1 > "$work/read.cmd"

# a line that is refused, after the image was loaded
echo refused > "$work/refused.cmd"
load_only() { ! "$zscli" exec "$work/full.img" "$work/refused.cmd" 2> /dev/null; }

cc -O2 -o "$work/fill" bench/fill.c
fill_file() { head -c "$bytes" /dev/zero > "$work/filled"; }

copy=$(best cp "$work/full.img" "$work/copy.img")
load=$(best load_only)
fresh=$(best "$work/fill" "$bytes" "$work/full.img")
zones=$(best "$zscli" zones "$work/full.img")
both=$(best "$zscli" upgrade "$work/full.img")
read=$(best "$zscli" exec "$work/full.img" "$work/read.cmd")
cmp "$work/full.img" "$work/copy.img"
fill=$(best "$work/fill" "$bytes")
file=$(best fill_file)
format=$(best "$zscli" format "$work/new.img" $geometry)
awk "BEGIN {
    printf \"load of 256 MiB: copy/zscli %.2f\n\", $copy / $load
    printf \"save of 256 MiB: copy/zscli %.2f\n\", $copy / ($both - $load)
    printf \"load and save of 256 MiB: two copies/zscli %.2f\n\", 2 * $copy / $both
    printf \"load of 256 MiB: read into fresh memory/zscli %.2f\n\", $fresh / $load
    printf \"exec of a Read on 256 MiB: load/exec %.2f\n\", $load / $read
    printf \"zones of 256 MiB: load/zones %.0f\n\", $load / $zones
    printf \"format of 256 MiB: fill/zscli %.2f\n\", $fill / $format
    printf \"format of 256 MiB: fill of a file/zscli %.2f\n\", $file / $format
}"
