#!/bin/sh
# Makes a shared library of the library for C, and plays worlds for its loop; ZSCLI names the program that makes the image. Where something
# is wrong it prints the seed, and fails:
#   target/worlds.sh [COUNT [FIRST]]      COUNT worlds, 2000 if none is said, of the seeds from FIRST on, 0 if none is said
set -eu
unset CDPATH
here=$(cd "$(dirname "$0")" && pwd)
work=$(mktemp -d)
trap 'rm -rf "$work"' EXIT

"$here/../c/library.sh" "$work" -O2 -fPIC
${CC:-gcc} -std=c11 -O2 -Wall -Wextra -Werror -fPIC -shared -Wl,-Bsymbolic -I "$here/../c" "$here/loop.c" \
    -Wl,--whole-archive "$work/libpifnjarl.a" -Wl,--no-whole-archive -o "$work/loop.so"
# memory of a handle that has ended is used again, and not given back meanwhile
export MALLOC_TRIM_THRESHOLD_=1073741824 MALLOC_MMAP_THRESHOLD_=1073741824 MALLOC_TOP_PAD_=67108864
"$ZSCLI" format "$work/image" --block 512 --zones 4 --size 16 --capacity 16 --open 4 --active 4 > "$work/said"
python3 -B "$here/worlds.py" "$work/loop.so" "$work/image" "${2:-0}" "${1:-2000}"
