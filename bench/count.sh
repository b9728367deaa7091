#!/bin/sh
# Counts the instructions of the filters of examples/ and of bench/filters, as clang makes them for v2 and v3,
# and the pairs of neighbours. Prints shares in thousandths: each program weighs the same.
set -eu
cd "$(dirname "$0")/.."
work=$(mktemp -d)
trap 'rm -r "$work"' EXIT
for version in v2 v3; do
    mkdir "$work/$version"
    for folder in examples bench/filters; do
        make -s -f examples/Makefile FROM=$folder TO="$work/$version" CPU=$version texts
    done
    for program in "$work/$version"/*.text; do
        xxd -p -c 8 "$program"
        echo end
    done
done > "$work/slots"
awk '
function hex(digit) { return index("0123456789abcdef", digit) - 1 }
# an instruction by its first byte: class in the low three bits
function name(byte,   high, low, class, what) {
    high = hex(substr(byte, 1, 1)); low = hex(substr(byte, 2, 1)); class = low % 8
    if (byte == "18") return "wide"
    if (byte == "85") return "call"
    if (byte == "95") return "exit"
    if (byte == "05") return "jump"
    if (class == 1) return "load" size[int(high % 2 * 2 + low / 8)]
    if (class == 2 || class == 3) return "store" size[int(high % 2 * 2 + low / 8)]
    what = low >= 8 ? "register" : "immediate"
    if (class == 4 || class == 7) return operation[high] (class == 4 ? "32 " : " ") what
    return "if" (class == 6 ? "32 " : " ") what
}
BEGIN {
    split("add sub mul div or and shift shift negate modulo xor move shift swap", names, " ")
    for (i in names) operation[i - 1] = names[i]
    size[0] = 32; size[1] = 16; size[2] = 8; size[3] = 64
}
$0 == "end" {
    for (i in here) { share[i] += here[i] / count; delete here[i] }
    programs++; count = 0; before = ""; skip = 0
    next
}
skip { skip = 0; next }
{
    now = name(substr($0, 1, 2)); skip = now == "wide"
    here[now]++; count++
    if (before != "") here[before " -> " now]++
    before = now
}
END { for (i in share) printf "%7.1f %s\n", 1000 * share[i] / programs, i }' "$work/slots" | sort -rn > "$work/shares"
grep -v -e '->' "$work/shares" | head -n 40
echo
grep -e '->' "$work/shares" | head -n 40
