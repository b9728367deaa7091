#!/bin/sh
# Boots Debian's Linux under QEMU with a target on this machine's loopback as its disk, and prints its console:
#
#     guest.sh PORT NQN [PROGRAM]
#
# NQN is the name that the target prints. guest_session.sh is what it does with the disk; PROGRAM is the filter that it loads, or
# examples/filter.bin, which `make -C examples filter.bin` makes. The image wants zones of a power of two of blocks, at least eight of
# them, and 4 MiB of writable blocks in each for f2fs and btrfs. With GUEST_MULTIPATH=N Linux has no native multipath, and btrfs is tried
# too. With GUEST_ZSCLI=PROGRAM, zscli, questions are asked from Python. Wants apt, dpkg, gcc and qemu-system-x86 of Debian 12, and python3. What it downloads, 81 MB, it keeps in GUEST_CACHE. No part of
# the gate.
set -eu
port=$1
nqn=$2
here=$(cd "$(dirname "$0")" && pwd)
program=${3:-$here/../examples/filter.bin}
cache=${GUEST_CACHE:-${XDG_CACHE_HOME:-$HOME/.cache}/nvme_tcp_guest}
work=$(mktemp -d)
trap 'rm -rf "$work"' EXIT

# ---- Debian's kernel and tools, unpacked and not installed

kernel_package() {
    apt-cache depends linux-image-amd64 | sed -n 's/^ *Depends: *\(linux-image-.*\)/\1/p' | head -n 1
}
packages='busybox-static nvme-cli util-linux mount f2fs-tools btrfs-progs
    python3.11-minimal libpython3.11-minimal libpython3.11-stdlib libexpat1 libffi8
    libnvme1 libjson-c5 libdbus-1-3 libsystemd0 libssl3 zlib1g libuuid1 libblkid1 libselinux1 libsmartcols1
    liblzo2-2 libzstd1 libudev1 libc6'
root=$cache/root
if [ ! -e "$cache/unpacked" ] || [ "$(cat "$cache/unpacked")" != "$packages" ]; then
    rm -rf "$root" "$cache/packages"
    mkdir -p "$cache/packages" "$root"
    (
        cd "$cache/packages"
        apt-get download "$(kernel_package)" $packages
        for package in *.deb; do dpkg -x "$package" "$root"; done
    )
    "$root/bin/busybox" depmod -b "$root" "$(ls "$root/lib/modules")"
    echo "$packages" > "$cache/unpacked"
fi
busybox=$root/bin/busybox
release=$(ls "$root/lib/modules")
modules=lib/modules/$release

# ---- the first file system, in memory

guest=$work/guest
mkdir -p "$guest/bin" "$guest/dev" "$guest/etc/nvme" "$guest/lib64" "$guest/lib/x86_64-linux-gnu" "$guest/mnt" "$guest/proc" "$guest/sys" \
    "$guest/$modules"
cp "$busybox" "$guest/bin/"
for tool in usr/sbin/nvme sbin/blkzone sbin/losetup sbin/mkfs.f2fs sbin/mkfs.btrfs; do cp "$root/$tool" "$guest/bin/"; done
python=usr/lib/python3.11
if [ -n "${GUEST_ZSCLI-}" ]; then
    mkdir -p "$guest/${python%/*}" "$guest/tmp"
    cp -R "$root/$python" "$guest/$python"
    cp "$root/usr/bin/python3.11" "$guest/bin/"
    cp "$GUEST_ZSCLI" "$guest/bin/zscli"
    cp "$here"/../python/pifnjarl*.py "$here/guest_questions.py" "$guest/"
fi
cp "$root"/lib/x86_64-linux-gnu/ld-linux-x86-64.so.2 "$guest/lib64/"
# the libraries that the tools name, and those that these name
libraries() {
    for file in "$guest"/bin/* "$guest/$python"/lib-dynload/_ctypes.*; do
        LD_LIBRARY_PATH=$root/usr/lib/x86_64-linux-gnu:$root/lib/x86_64-linux-gnu ldd "$file" 2> /dev/null || true
    done
}
libraries | sed -n 's/.*=> \(\/[^ ]*\).*/\1/p' | sort -u | while read -r library; do
    cp -L "$library" "$guest/lib/x86_64-linux-gnu/"
done
# the modules, with those that they need
cp "$root/$modules/modules.dep" "$root/$modules/modules.builtin" "$guest/$modules/"
wanted='virtio_pci virtio_net loop crc32c_generic crc32_generic xxhash_generic blake2b_generic nvme-tcp zonefs f2fs btrfs'
for module in $wanted; do
    sed -n "s/^\([^:]*\/$module.ko\):/\1/p" "$root/$modules/modules.dep" | tr ' ' '\n'
done | sort -u | while read -r module; do
    [ -z "$module" ] || (cd "$root/$modules" && cp --parents "$module" "$guest/$modules/")
done
# the superblock of zonefs, as mkzonefs writes it: which Debian 12 doesn't have
python3 - "$guest/superblock" <<'PYTHON'
import struct, sys, zlib
fields = struct.pack("<64s16sQIII", b"orders", bytes(range(16)), 0, 0, 0, 0o640)
block = struct.pack("<II", 0x5A4F4653, 0) + fields.ljust(4096 - 8, b"\0")
checked = struct.pack("<II", 0x5A4F4653, zlib.crc32(block) ^ 0xFFFFFFFF) + block[8:]
open(sys.argv[1], "wb").write(checked)
PYTHON
cp "$program" "$guest/filter.bin"
${CC:-gcc} -std=c11 -O2 -Wall -Wextra -Werror -static "$here/guest_write.c" -o "$guest/bin/guest_write"
cp "$here/guest_session.sh" "$guest/"
echo nqn.2014-08.org.nvmexpress:uuid:11111111-2222-3333-4444-555555555555 > "$guest/etc/nvme/hostnqn"
echo 11111111-2222-3333-4444-555555555555 > "$guest/etc/nvme/hostid"
cat > "$guest/init" <<'INIT'
#!/bin/busybox sh
/bin/busybox --install -s /bin
export PATH=/bin
mount -t proc proc /proc
mount -t sysfs sysfs /sys
mount -t devtmpfs devtmpfs /dev
for module in $(cat /modules); do modprobe "$module"; done
ip link set lo up
ip addr add 10.0.2.15/24 dev eth0
ip link set eth0 up
sh /guest_session.sh "$(sed 's/.*target_port=\([0-9]*\).*/\1/' /proc/cmdline)" "$(sed 's/.*target_nqn=\([^ ]*\).*/\1/' /proc/cmdline)"
poweroff -f
INIT
chmod +x "$guest/init"
echo "$wanted" > "$guest/modules"
(cd "$guest" && find . | "$busybox" cpio -o -H newc 2>/dev/null | gzip -1) > "$work/initramfs"

# ---- the machine: two processors, and a network in which 10.0.2.2 is this machine's loopback

timeout "${GUEST_SECONDS:-300}" qemu-system-x86_64 -accel "${GUEST_ACCELERATOR:-tcg}" -smp 2 -m 1024 -no-reboot -display none -serial stdio -monitor none \
    -kernel "$root/boot/vmlinuz-$release" -initrd "$work/initramfs" \
    -append "console=ttyS0 quiet panic=-1 nvme_core.multipath=${GUEST_MULTIPATH:-Y} target_port=$port target_nqn=$nqn" \
    -netdev user,id=net -device virtio-net-pci,netdev=net < /dev/null | tr -d '\r'
