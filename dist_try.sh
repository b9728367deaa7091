#!/bin/sh
# Tries the packages of dist.sh, each in an empty root: ./dist_try.sh [FOLDER]
#
# The root gets a shell, busybox of Debian's busybox-static, and the shared libraries that the programs name, and no more. dpkg installs and
# removes the .deb there, with its scripts. Needs root, for chroot. The last line is 'N passed, M failed'.
set -u
folder=${1:-dist}
work=$(mktemp -d)
trap 'rm -rf "$work"' EXIT
trap 'exit 1' HUP INT TERM
passed=0
failed=0

fail() {
    echo "dist_try.sh: $1" >&2
    exit 1
}

try() {
    name=$1
    shift
    if "$@" > "$work/out" 2>&1; then
        passed=$((passed + 1))
    else
        failed=$((failed + 1))
        echo "failed: $name"
        cat "$work/out"
    fi
}

[ "$(id -u)" = 0 ] || fail "chroot wants root"
command -v busybox > /dev/null || fail "apt-get install busybox-static"
set -- "$folder"/pifnjarl-*-x86_64-linux.tar.gz
[ "$#$(test -f "$1" && echo there)" = 1there ] || fail "$folder has not one pifnjarl-*-x86_64-linux.tar.gz: ./dist.sh makes it"
archive=$1
set -- "$folder"/pifnjarl_*_amd64.deb
[ "$#$(test -f "$1" && echo there)" = 1there ] || fail "$folder has not one pifnjarl_*_amd64.deb: ./dist.sh makes it"
package=$1

# a root with a shell
make_root() {
    mkdir -p "$1/bin" "$1/dev" "$1/tmp" "$1/usr/local" "$1/var/lib/dpkg/info" "$1/var/lib/dpkg/updates" "$1/try"
    : > "$1/var/lib/dpkg/status"
    cp "$(command -v busybox)" "$1/bin/busybox"
    mknod -m 666 "$1/dev/null" c 1 3
    for tool in sh cat env grep head kill rm sleep wc; do ln -s busybox "$1/bin/$tool"; done
}

# the shared libraries of programs
give_libraries() {
    root=$1
    shift
    ldd "$@" | sed -n 's/.*=> \(\/[^ ]*\).*/\1/p; s/^\t\(\/[^ ]*\) .*/\1/p' | sort -u | while read -r library; do
        mkdir -p "$root$(dirname "$library")"
        cp -L "$library" "$root$library"
    done
}

# formats, appends and reads by the program, and serves by the target, in a root
use() {
    cat > "$1/try/use.sh" << 'END'
set -eux
cd /try
zscli --version
zscli demo > demo
zscli format zoned.img --block 512 --zones 4 --size 64 --capacity 64 --open 2 --active 3
echo 'some bytes of a block' > data
while [ "$(wc -c < data)" -lt 512 ]; do cat data data > twice; cat twice > data; done
head -c 512 data > block
zscli entry append --lba 64 --data block --block 512 > work.cmd
zscli entry read --lba 64 --blocks 1 --cid 2 >> work.cmd
zscli exec zoned.img work.cmd
zscli zones zoned.img
pifnjarl-nvme-tcp zoned.img --listen 127.0.0.1:0 > said &
target=$!
for second in 1 2 3 4 5 6 7 8 9 10; do
    grep -q '^listening on 127.0.0.1:' said && grep -q '^nqn.2014-08.org.nvmexpress:uuid:' said && break
    sleep 1
done
kill $target
wait $target
grep -q '^nqn' said
END
    chroot "$1" /bin/env -i PATH=/usr/local/bin:/usr/bin:/bin /bin/sh /try/use.sh
}

dpkg_in() {
    root=$1
    shift
    dpkg --root="$root" --force-depends --no-triggers "$@"
}

# what is left of the package in a root
left() {
    find "$1/usr" -name '*pifnjarl*' -o -name '*zscli*'
}

nothing_is_left() {
    dpkg_in "$1" --purge pifnjarl
    left "$1"
    [ -z "$(left "$1")" ]
}

make_root "$work/a"
try 'the archive unpacks' tar -C "$work/a/usr/local" --strip-components 1 -xzf "$archive"
give_libraries "$work/a" "$work/a"/usr/local/bin/*
try 'the programs of the archive run' use "$work/a"

make_root "$work/b"
dpkg-deb -x "$package" "$work/unpacked"
give_libraries "$work/b" "$work/unpacked"/usr/bin/*
try 'the package installs' dpkg_in "$work/b" --install "$package"
try 'the programs of the package run' use "$work/b"
try 'the package is removed' nothing_is_left "$work/b"

# both have the same files below /usr/local and /usr, but where Debian has places of its own
files() {
    (cd "$1" && find . -type f) | sed 's|/site-functions/|/vendor-completions/|; s|lib/x86_64-linux-gnu/|lib/|; s|\(/man/.*\)\.gz$|\1|; /share\/doc/d' | sort
}

same_trees() {
    files "$work/a/usr/local" > "$work/files"
    files "$work/unpacked/usr" | diff "$work/files" -
}

try 'the trees are the same' same_trees
echo "$passed passed, $failed failed"
[ "$failed" = 0 ]
