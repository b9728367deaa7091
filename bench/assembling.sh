#!/bin/sh
# Decoding and listing a program, and assembling its listing, against LLVM's tools on the same bytes, and on as many lines of
# their own text. Prints two ratios, LLVM's time by ours, each with the least of ROUNDS rounds. Whole commands are timed, with
# their start.
set -eu
cd "$(dirname "$0")/.."
. bench/best.sh
rounds=${ROUNDS:-10}
work=$(mktemp -d)
trap 'rm -r "$work"' EXIT

# 4096 slots, of instructions that both assemblers write
awk 'BEGIN {
    for (i = 0; i < 819; i++) {
        print "r1 += r2"
        print "r3 = *(u64 *)(r2 + 8)"
        print "*(u32 *)(r10 - 8) = r3"
        print "if r1 > 7 goto +1"
        print "w4 ^= -5"
    }
    print "exit"
}' > "$work/llvm.s"
llvm-mc -arch=bpfel -mcpu=v3 -filetype=obj "$work/llvm.s" -o "$work/program.o"
llvm-objcopy -O binary --only-section=.text "$work/program.o" "$work/program.bin"

./zscli --help > /dev/null
zscli=crates/zscli/out/zscli
"$zscli" disasm "$work/program.bin" > "$work/program.s"

theirs=$(best llvm-objdump -d "$work/program.o")
ours=$(best "$zscli" disasm "$work/program.bin")
awk "BEGIN { printf \"list 4096 slots: llvm-objdump/zscli %.2f\n\", $theirs / $ours }"

theirs=$(best llvm-mc -arch=bpfel -mcpu=v3 -filetype=obj "$work/llvm.s" -o "$work/again.o")
ours=$(best "$zscli" asm "$work/program.s" "$work/again.bin")
cmp "$work/program.bin" "$work/again.bin"
awk "BEGIN { printf \"assemble 4096 lines: llvm-mc/zscli %.2f\n\", $theirs / $ours }"
