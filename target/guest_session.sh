# What Linux does with the disk: `guest.sh` runs it in a guest, as root. Each line that begins with # is a command, and what follows is
# what it printed. PORT is the target's, on the machine that the guest knows as 10.0.2.2, and NQN its subsystem's.
port=$1
nqn=$2
disk=/dev/nvme0n1
queue=/sys/block/nvme0n1/queue

run() {
    echo "# $*"
    "$@" 2>&1
    ended=$?
    [ "$ended" = 0 ] || echo "(status $ended)"
}
# commands in their own shell, for those with a pipe
shell() { run sh -c "$1"; }
io() { run nvme io-passthru "$disk" --namespace-id=1 "$@"; }
same() { if cmp "$1" "$2"; then echo same; else echo "$1 and $2 differ"; fi; }

echo "== Linux $(uname -r)"
echo "== the disk"
run nvme connect -t tcp -a 10.0.2.2 -s "$port" -n "$nqn"
for second in 1 2 3 4 5 6 7 8 9 10; do
    [ ! -b "$disk" ] || break
    sleep 1
done
run nvme list
shell "grep -H . $queue/zoned $queue/nr_zones $queue/chunk_sectors $queue/zone_append_max_bytes $queue/max_hw_sectors_kb $queue/max_open_zones $queue/max_active_zones $queue/logical_block_size $queue/write_cache"
# with native multipath commands go to the queue of the controller's path
path=/sys/block/nvme0c0n1/queue
[ -e "$path" ] || path=$queue
shell "echo mq-deadline > $path/scheduler; cat $path/scheduler"
block=$(cat "$queue/logical_block_size")
zone=$(($(cat "$queue/chunk_sectors") * 512 / block))
zones=$(cat "$queue/nr_zones")
run blkzone report -c 2 "$disk"

echo "== dd, and zones by blkzone"
head -c $((block * 32)) /dev/urandom > /written
run dd if=/written of="$disk" bs="$block" seek=$((zone * 3)) oflag=direct
dd if="$disk" of=/read bs="$block" skip=$((zone * 3)) count=32 iflag=direct 2>/dev/null
same /written /read
run dd if=/written of="$disk" bs="$block" seek=$((zone * 3 + 40)) count=1 oflag=direct
io --opcode=0x7d --cdw10=$((zone * 3)) --cdw12=0 --data-len="$block" --write --input-file=/written
sectors=$((zone * block / 512))
run blkzone finish -o $((sectors * 3)) -c 1 "$disk"
run blkzone report -o $((sectors * 3)) -c 1 "$disk"
run blkzone reset -o $((sectors * 3)) -c 1 "$disk"
run blkzone report -o $((sectors * 3)) -c 1 "$disk"

echo "== zonefs"
run dd if=/superblock of="$disk" bs=4096 oflag=direct
run mount -t zonefs "$disk" /mnt
shell "ls /mnt/seq | wc -l"
order() { printf "order %02d\\$2\\0\\0\\0%-$((block - 12))s" "$1" "$3"; }
{ order 1 3 '2 lamps'; order 2 1 '1 desk'; order 3 3 '40 nails'; order 4 2 '5 cups'; } > /orders.bin
shell "guest_write /mnt/seq/0 < /orders.bin"
run stat -c %s /mnt/seq/0
dd if=/mnt/seq/0 of=/read bs="$block" iflag=direct 2>/dev/null
same /orders.bin /read
head -c $((block * zone)) /dev/urandom > /full
shell "guest_write /mnt/seq/5 < /full"
shell "cmp /full /mnt/seq/5 && truncate -s 0 /mnt/seq/5; stat -c %s /mnt/seq/5"
run umount /mnt

echo "== a filter beside the data"
io --opcode=0x79 --cdw10=$((zone * 2)) --cdw13=3
io --opcode=0xc1 --cdw10=0 --cdw11=66 --cdw12="$(stat -c %s /filter.bin)" --data-len="$(stat -c %s /filter.bin)" --write --input-file=/filter.bin
io --opcode=0xc0 --cdw10="$zone" --cdw12=$((0 << 16 | 4 - 1)) --cdw13=3 --cdw14=$((zone * 2)) --timeout=120000
run dd if="$disk" of=/emitted.bin bs="$block" skip=$((zone * 2)) count=1 iflag=direct
shell "strings -n 10 /emitted.bin"
shell "nvme io-passthru $disk --namespace-id=1 --opcode=0xc2 --cdw10=0 --data-len=1024 --read --raw-binary | wc -c"
io --opcode=0xc0 --cdw10="$zone" --cdw12=$((5 << 16 | 4 - 1)) --cdw13=3 --cdw14=$((zone * 2))

if [ -x /bin/zscli ]; then
    echo "== questions from Python"
    run /bin/python3.11 /guest_questions.py /dev/ng0n1 "$zone"
fi

# puts files on a file system, and finds them after it is mounted again: files KIND DISK
files() {
    run mount -t "$1" "$2" /mnt
    grep -q ' /mnt ' /proc/mounts || return
    mkdir /mnt/folder
    for file in $(seq 20); do head -c $((file * 50000)) /dev/urandom > "/$file"; cp "/$file" /mnt/folder/; done
    sync
    run umount /mnt
    run mount -t "$1" "$2" /mnt
    grep -q ' /mnt ' /proc/mounts || return
    shell "for file in \$(seq 20); do cmp /\$file /mnt/folder/\$file || exit 1; done; echo same; ls /mnt/folder | wc -l"
    shell "rm -r /mnt/folder; sync; df /mnt | tail -n 1"
    run umount /mnt
    shell "blkzone report $disk | grep -c em"
}

echo "== f2fs, with its metadata in a file"
blkzone reset "$disk"
run truncate -s 128M /metadata.img
# busybox has a losetup of its own
run /bin/losetup --sector-size 4096 /dev/loop0 /metadata.img
shell "mkfs.f2fs -f -m -c $disk /dev/loop0 | tail -n 3"
files f2fs /dev/loop0
run /bin/losetup -d /dev/loop0

# with native multipath btrfs of Linux 6.1 follows a null pointer, on a zoned namespace of QEMU too
if [ "$path" = "$queue" ]; then
    echo "== btrfs"
    shell "mkfs.btrfs -f -O zoned -d single -m single $disk | grep -i zone"
    files btrfs "$disk"
fi

echo "== a reset of the controller, and the end"
run nvme reset /dev/nvme0
sleep 2
shell "dd if=$disk bs=$block count=1 iflag=direct 2>/dev/null | wc -c"
run nvme disconnect -n "$nqn"
shell "dmesg | grep -iE 'nvme|zonefs|f2fs|I/O error'"
