#!/bin/sh
# Makes the library of the shadow disk and the programs of C that it looks at, and runs its tests: test_disk.py, and run.py with the words
# that stand after this name, or for 200 points of each program. ZSCLI names the program of the command line: by default the one that the
# gate proves and builds. The last line is 'N passed, M failed'.
set -u
here=$(cd "$(dirname "$0")" && pwd)
top=$(cd "$here/../.." && pwd)
work=$(mktemp -d)
trap 'rm -rf "$work"' EXIT
trap 'exit 1' HUP INT TERM
export ZSCLI="${ZSCLI:-$top/crates/zscli/out/zscli}" SHADOW="$work/shadow.so" KEPT_FRAMES="$work/kept_frames" SAVES="$work/saves"
export NVME_TCP_TARGET="$work/nvme_tcp"

# a program of this folder, linked with the library
compile() {
    ${CC:-gcc} -std=c11 -O2 -Wall -Wextra -Werror -I "$top/c" "$here/$1.c" "$work/libpifnjarl.a" -o "$2"
}

made() {
    ${CC:-gcc} -std=c11 -O2 -Wall -Wextra -Werror -shared -fPIC "$here/shadow.c" -o "$SHADOW" &&
        "$top/c/library.sh" "$work" &&
        compile kept_frames "$KEPT_FRAMES" &&
        compile saves "$SAVES" &&
        "$top/target/build.sh" "$work"
}

if ! made; then
    echo "0 passed, 1 failed"
    exit 1
fi
if [ $# != 0 ]; then
    python3 -B "$here/run.py" "$@"
    exit
fi
python3 -B "$here/test_disk.py" > "$work/tests" 2>&1
python3 -B "$here/run.py" > "$work/points" 2>&1
cat "$work/tests" "$work/points"
passed=0
failed=0
for it in tests points; do
    set -- $(sed -n '$s/^\([0-9]*\) passed, \([0-9]*\) failed.*/\1 \2/p' "$work/$it")
    passed=$((passed + ${1:-0}))
    failed=$((failed + ${2:-1}))
done
echo "$passed passed, $failed failed"
[ "$failed" = 0 ]
