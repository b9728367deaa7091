#!/bin/sh
# Prints where the static library of a crate is, proving and building it first where a source is newer: tools/gate/built.sh CRATE
set -eu
unset CDPATH
top=$(cd "$(dirname "$0")/../.." && pwd)
crate=$top/crates/$1
built=$crate/out/lib$1.a
newer() {
    find "$top/crates" "$top/crates.txt" -name out -prune -o \
        \( -name '*.rt' -o -name '*.antt' -o -name crates.txt \) -newer "$built" -print
}
if [ ! -e "$built" ] || [ -n "$(newer)" ]; then
    "$top/tools/gate/proving.py" "$1"
fi
echo "$built"
