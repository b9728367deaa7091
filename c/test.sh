#!/bin/sh
# Makes the library, compiles the programs of this folder against it with sanitizers, runs them on copies of an image, and compares
# what they print and leave. Its last line is 'N passed, M failed'.
set -u
here=$(cd "$(dirname "$0")" && pwd)
work=$(mktemp -d)
trap 'rm -rf "$work"' EXIT
strict='-std=c11 -O1 -g -Wall -Wextra -Werror -fsanitize=address,undefined -fno-sanitize-recover=all'
passed=0
failed=0

# a test by its name: the command behind it ends with status 0
try() {
    name=$1
    shift
    if "$@" > "$work/out" 2>&1; then
        passed=$((passed + 1))
    else
        failed=$((failed + 1))
        echo "failed: $name"
        cat "$work/out"
    fi
}

# a program of this folder, linked with the library
compile() {
    program=$1
    shift
    ${CC:-gcc} $strict "$here/$program.c" "$work/libpifnjarl.a" "$@" -o "$work/$program"
}

# a program prints what PROGRAM.out has
prints() {
    program=$1
    shift
    "$work/$program" "$@" > "$work/printed" && diff "$here/$program.out" "$work/printed"
}

# the numbers of the header are those of the crate's law
numbers_agree() {
    sed -n 's/^  pub \([a-z_]*\) : .*≡ \([0-9]*\)$/\1 \2/p' "$here/../crates/device_library/specs/Numbers.antt" |
        tr a-z A-Z | sort > "$work/law"
    {
        sed -n 's/^ *PIFNJARL_\([A-Z_]*\) = \([0-9]*\).*/\1 \2/p' "$here/pifnjarl_device.h" | grep -v -e NULL_POINTER -e CANNOT_
        cat "$here/pifnjarl_device.h" "$here/pifnjarl_handle.h" |
            sed -n 's/^#define PIFNJARL_\(NO_RUN\|DAMAGED\|NO_DOOR\|OTHER_VERSION\) *\([0-9]*\).*/\1 \2/p'
    } | sort | diff "$work/law" -
}

# the names and numbers of a definition: a header's name, as LOWEST_RUN for LowestRun, and the number
defined() {
    sed -n "s/.*if number == \([0-9]*\) then Some (*\($1\)\.\(Ask question\.\)*\([A-Za-z]*\))*\$/\4 \1/p" \
        "$here/../crates/device_library/specs/Kinds.antt" | sed 's/\([a-z]\)\([A-Z]\)/\1_\2/' | tr a-z A-Z | sort -u
}

# those of a header
named() {
    sed -n "s/^    PIFNJARL_$1_\([A-Z_]*\) = \([0-9]*\).*/\1 \2/p" "$here/pifnjarl_handle.h" | sort
}

# the doors and kinds of calls have the numbers of the definitions
kinds_agree() {
    {
        defined 'memory\|kept\|target\|looped'
        sed -n 's/^pub const \(OPENED\|BEGIN\): u32 = \([0-9]*\);/\1 \2/p' "$here/../crates/device_library/src/kind.rt"
    } | sort > "$work/kinds"
    named ASK | diff "$work/kinds" - && defined door | sed 's/TARGETFILE/TARGET_FILE/' > "$work/doors" && named OPEN | diff "$work/doors" -
}

# the headers are C++ too
headers() {
    printf '#include "pifnjarl_%s.h"\n' device durable > "$work/headers.cc"
    echo 'void ends() { pifnjarl_close(nullptr); pifnjarl_durable_close(nullptr); }' >> "$work/headers.cc"
    ${CXX:-clang++} -std=c++11 -Wall -Wextra -Wpedantic -Werror -I"$here" -c "$work/headers.cc" -o "$work/headers.o" &&
        nm "$work/headers.o" | grep -q ' U pifnjarl_close$' && nm "$work/headers.o" | grep -q ' U pifnjarl_durable_close$'
}

# what pifnjarl_entry.h makes is what docs/device.md shows, and its version that of the program, or of its source where none is built
entries_agree() {
    page=$here/../docs/device.md
    program=${ZSCLI:-$here/../crates/zscli/out/zscli}
    {
        sed -n '/^## Commands/,/^### The order/{/^    [0-9a-f]\{8\} /p}' "$page"
        sed -n '/^## Statuses/,/^## Frames/{/^| [0-9A-F]h/p}' "$page"
        if [ -x "$program" ]; then
            "$program" --version
        else
            sed -n 's/^const VERSION: &str = "\(.*\)";/zscli \1/p' "$here/../crates/zscli/src/commands.rt"
        fi
    } > "$work/page"
    ${CC:-gcc} $strict "$here/entries.c" -o "$work/entries" && "$work/entries" > "$work/made" && diff "$work/page" "$work/made"
}

cp "$here/../examples/empty.img" "$work/zoned.img"
try 'the headers are C++ too' headers
try 'entries agree' entries_agree
try 'the library is made' "$here/library.sh" "$work" -fsanitize=address,undefined -fno-sanitize-recover=all
try 'numbers agree' numbers_agree
try 'kinds agree' kinds_agree
try 'append_and_read compiles' compile append_and_read
try 'append_and_read prints' prints append_and_read "$work/zoned.img" "$work/saved.img"
try 'what it saved has one block more' test "$(wc -c < "$work/saved.img")" = $(($(wc -c < "$work/zoned.img") + 512))
try 'run_a_filter compiles' compile run_a_filter
try 'run_a_filter prints' prints run_a_filter "$work/zoned.img"
try 'calls compiles' compile calls -Wl,--wrap=malloc,--wrap=fsync
try 'calls' "$work/calls" "$work/zoned.img"
tail -n 1 "$work/out"
try 'crashes compiles' compile crashes -Wl,--wrap=pwrite,--wrap=fsync,--wrap=rename,--wrap=ftruncate,--wrap=malloc,--wrap=realloc
try 'crashes' "$work/crashes" "$work/zoned.img"
tail -n 1 "$work/out"
cp "$here/../examples/empty.img" "$work/full.img"
try 'full_disk compiles' compile full_disk -Wl,--wrap=pwrite,--wrap=fsync,--wrap=malloc,--wrap=realloc,--wrap=pifnjarl_handle_call
try 'full_disk' "$work/full_disk" "$work/full.img"
tail -n 1 "$work/out"
cp "$here/../examples/empty.img" "$work/stack.img"
try 'stack compiles' compile stack -pthread
try 'stack' "$work/stack" "$work/stack.img"
tail -n 1 "$work/out"
echo "$passed passed, $failed failed"
[ "$failed" = 0 ]
