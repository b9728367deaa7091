#!/bin/sh
# Times `zscli serve` from the other end of its pipes, beside a small C program that takes the same frames and only copies: Appends
# and Reads of 4 KiB and of 128 KiB, one and eight of them under way. Then a turn of a run by `serve --drain`, beside one in the
# device alone, and `serve` beside `exec` of the same events as text, whole commands. Of each the least of several rounds and
# launches; images are in memory.
set -eu
here=$(cd "$(dirname "$0")" && pwd)
. "$here/least.sh"
. "$here/best.sh"
rounds=${ROUNDS:-5}
work=$(mktemp -d /dev/shm/serve.XXXXXX)
trap 'rm -r "$work"' EXIT
cc -O2 -Wall -o "$work/serve" "$here/serve.c"
"$here/../zscli" --help > /dev/null
zscli=$here/../crates/zscli/out/zscli
"$zscli" format "$work/empty.img" --block 4096 --zones 4 --size 4096 --capacity 4096 --open 4 --active 4

served() {
    cp "$work/empty.img" "$work/zoned.img"
    "$work/serve" "$@" "$zscli" serve "$work/zoned.img" --frames
}
ratio() { awk "BEGIN { printf \"%.2f\", $1 / $2 }"; }
for size in 4096 131072; do
    for depth in 1 8; do
        for line in 1 2; do
            [ "$line" = 1 ] && what=Append || what=Read
            ours=$(least "$line" served drive "$size" $((33554432 / size)) "$depth")
            copy=$(least "$line" "$work/serve" drive "$size" $((33554432 / size)) "$depth" "$work/serve" copy)
            echo "$what of $((size / 1024)) KiB, $depth under way: $ours ns, copying $copy ns, rate $(ratio "$copy" "$ours")"
        done
    done
done

# the filter of runs.sh
cat > "$work/filter.txt" << 'END'
        mov r9, r2
        ldxb r6, [r9+0]
        ldxw r7, [r9+16]
        ldxdw r8, [r9+4088]
        and r7, 255
        add r6, r7
        and r8, 255
        add r6, r8
        jne r6, 21, end
        mov r1, r9
        mov r2, 64
        call 1
end:    mov r0, 0
        exit
END
"$zscli" asm "$work/filter.txt" "$work/filter.bin"
drained() {
    cp "$work/empty.img" "$work/zoned.img"
    "$work/serve" turns "$work/filter.bin" 4096 "$zscli" serve "$work/zoned.img" --frames --drain
}
. "$here/device.sh"
"$bench" "$work/filter.bin" > "$work/alone"
if [ "$(cat "$work/alone")" != "$(drained | sed -n 1p)" ]; then
    echo "what the runs come to differs" >&2
    exit 1
fi
ours=$(least 2 drained)
alone=$(least 1 "$bench" "$work/filter.bin" 10)
echo "a turn by serve --drain: $ours ns, in the device alone $alone ns, ratio $(ratio "$ours" "$alone")"

# 256 Appends of 128 KiB and as many Reads, as frames and as a command file
"$work/serve" stream 131072 256 > "$work/frames"
head -c $((256 * 131152)) "$work/frames" | xxd -p -c 131152 | sed 's/^.\{32\}\(.\{128\}\)/submit 1 \1 /' > "$work/exec.cmd"
tail -c $((256 * 80)) "$work/frames" | xxd -p -c 80 | sed 's/^.\{32\}/submit 1 /' >> "$work/exec.cmd"
by_frames() {
    cp "$work/empty.img" "$work/zoned.img"
    "$zscli" serve "$work/zoned.img" --frames < "$work/frames" > "$work/answers"
}
by_text() {
    cp "$work/empty.img" "$work/zoned.img"
    "$zscli" exec "$work/zoned.img" "$work/exec.cmd" > "$work/lines"
}
ours=$(best by_frames)
theirs=$(best by_text)
if [ "$(grep -c '^cpl 1 .\{28\}0000' "$work/lines")" -ne 512 ] || [ "$(wc -c < "$work/answers")" -ne $((512 * 32 + 33554432)) ]; then
    echo "not every command succeeded" >&2
    exit 1
fi
echo "64 MiB of Appends and Reads: serve in frames $((ours / 1000000)) ms, exec as text $((theirs / 1000000)) ms, ratio $(ratio "$ours" "$theirs")"
