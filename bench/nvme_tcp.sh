#!/bin/sh
# Times the target over loopback, beside the same program without a device, which answers at once, and with a journal:
# Appends and Reads of 4 KiB and of 128 KiB, one and 32 of them under way, on one queue. Of each the least of several rounds and launches;
# the image is in memory.
set -eu
here=$(cd "$(dirname "$0")" && pwd)
. "$here/least.sh"
work=$(mktemp -d /dev/shm/nvme_tcp.XXXXXX)
trap 'rm -r "$work"' EXIT
cc -O2 -Wall -o "$work/host" "$here/nvme_tcp.c"
cc -std=c11 -O2 -Wall -Wextra -I "$here/../c" -o "$work/answers" "$here/../target/nvme_tcp.c" \
    "$here/../target/operations.c" "$here/../target/lines.c" "$here/../target/address.c" \
    "$here/../c/pifnjarl_device.c" "$here/../c/image_file.c" "$here/../c/kept_file.c" \
    "$here/../target/image_uuid.c" "$here/nvme_tcp_answers.c"
"$here/../target/build.sh" "$work"
"$here/../zscli" format "$work/empty.img" --block 4096 --zones 4 --size 4096 --capacity 4096 --open 4 --active 4
# the UUID of the subsystem that the host names
echo 0f2b6a34-8c1d-4e7a-9b35-7a6f6e6a6172 > "$work/zoned.img.uuid"

# what the host prints of a program that is started for it
timed() {
    program=$1
    shift
    cp "$work/empty.img" "$work/zoned.img"
    mkfifo "$work/said"
    "$program" "$work/zoned.img" ${kept:+"$kept"} --listen 127.0.0.1:0 > "$work/said" &
    read -r line < "$work/said"
    "$work/host" "${line##*:}" "$@"
    kill "$!"
    wait "$!" || true
    rm "$work/said"
}
ratio() { awk "BEGIN { printf \"%.2f\", $1 / $2 }"; }
for size in 4096 131072; do
    for depth in 1 32; do
        for line in 1 2; do
            [ "$line" = 1 ] && what=Append || what=Read
            kept=--memory
            ours=$(least "$line" timed "$work/nvme_tcp" "$size" $((33554432 / size)) "$depth")
            answers=$(least "$line" timed "$work/answers" "$size" $((33554432 / size)) "$depth")
            kept=
            durable=$(least "$line" timed "$work/nvme_tcp" "$size" $((33554432 / size)) "$depth")
            echo "$what of $((size / 1024)) KiB, $depth under way: $ours ns, without a device $answers ns, rate $(ratio "$answers" "$ours");" \
                "with a journal $durable ns, rate $(ratio "$ours" "$durable")"
        done
    done
done
