#!/bin/sh
# Runs the filters of examples/ and of bench/filters, as clang makes them for v2, over a block of 4096 bytes:
# with every check, over their superinstructions, and in DPDK's interpreter (Debian's libdpdk-dev), which takes no 32-bit compares.
# Prints the nanoseconds of a block run, the least of several rounds and launches, with their ratios to DPDK's, and the geometric
# mean of the ratios of the second. A filter that DPDK doesn't load in 5 seconds has no ratio. Then the same of bench/counted, filters
# of other kinds whose instructions were counted to choose superinstructions, and of bench/unseen, by which none was chosen.
set -eu
here=$(cd "$(dirname "$0")" && pwd)
program=filters
. "$here/dpdk.sh"
ours=$here/../crates/bench_programs/out/bench_programs
awk 'BEGIN { for (i = 0; i < 4096; i++) printf "%02x", (i * i * 31 + int(i / 7)) % 256 }' | xxd -r -p > "$work/block.bin"
rounds=10
repeats=1000
mkdir "$work/seen" "$work/counted" "$work/unseen"
for folder in "$here/../examples" "$here/filters"; do
    make -s -f "$here/../examples/Makefile" FROM="$folder" TO="$work/seen" CPU=v2 texts
done
for folder in counted unseen; do
    make -s -f "$here/../examples/Makefile" FROM="$here/$folder" TO="$work/$folder" CPU=v2 texts
done
# builds the program where it has to
"$here/../tools/gate/proving.py" bench_programs
# times each filter of a folder
timed() {
    for file in "$1"/*.text; do
        name=$(basename "$file" .text)
        if ! wanted=$("$ours" "$file" "$work/block.bin" 0 0 prepared 2>&1); then
            echo "$name: $wanted"
            continue
        fi
        if [ "$wanted" != "$("$ours" "$file" "$work/block.bin" 0 0 checked)" ]; then
            echo "$name: what is printed differs" >&2
            exit 1
        fi
        checked=$(least 2 "$ours" "$file" "$work/block.bin" $rounds $repeats checked)
        prepared=$(least 2 "$ours" "$file" "$work/block.bin" $rounds $repeats prepared)
        if timeout 5 "$work/dpdk" "$file" "$work/block.bin" 0 0 > /dev/null 2>&1; then
            theirs=$(least 2 "$work/dpdk" "$file" "$work/block.bin" $rounds $repeats 2> /dev/null)
        else
            theirs=0
        fi
        echo "$name $checked $prepared $theirs"
    done
}

# prints times
printed() {
    awk 'NF == 4 {
        printf "%s: checked %.1f ns, prepared %.1f ns", $1, $2 / 1000, $3 / 1000
        if ($4) {
            printf ", DPDK %.1f ns, ratios %.2f and %.2f", $4 / 1000, $2 / $4, $3 / $4
            sum += log($3 / $4); count++
        }
        print ""
        next
    }
    { print }
    END { if (count) printf "geometric mean of %d: %.2f\n", count, exp(sum / count) }'
}

for folder in seen counted unseen; do
    timed "$work/$folder" > "$work/times"
    printed < "$work/times"
done
