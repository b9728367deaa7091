#!/bin/sh
# Runs the transcripts of the command line, and the console examples of the pages, over the program that ZSCLI names: by default the
# one that the gate proves and builds.
#
#   tests/cli/test.sh                           all
#   tests/cli/test.sh frames.t docs/tour.md ..  these
#
# It prints what differs. The last line is 'N passed, M failed', of commands; the status is 1 where one failed.
set -u
here=$(cd "$(dirname "$0")" && pwd)
ROOT=$(cd "$here/../.." && pwd)
program=${ZSCLI:-$ROOT/crates/zscli/out/zscli}

python=
for it in python3 /usr/bin/python3; do
    if [ -z "$python" ] && "$it" -m cram --version > /dev/null 2>&1; then
        python=$it
    fi
done
if [ -z "$python" ]; then
    echo "apt-get install python3-cram"
    echo "0 passed, 1 failed"
    exit 1
fi
if [ ! -x "$program" ]; then
    echo "there is no $program: ./zscli --help proves and builds it, and ZSCLI can name another"
    echo "0 passed, 1 failed"
    exit 1
fi

program=$(realpath "$program")
work=$(mktemp -d)
trap 'rm -rf "$work"' EXIT
trap 'exit 1' HUP INT TERM
mkdir "$work/bin" "$work/pages"
CALLS=$work/calls.so
${CC:-cc} -std=c11 -Wall -Wextra -Werror -O1 -shared -fPIC -o "$CALLS" "$ROOT/tests/faults/calls.c" || exit 1
ln -s "$program" "$work/bin/zscli"
PATH=$work/bin:$PATH
export PATH ROOT CALLS
# what could change what is printed, and where Python finds the program
export LC_ALL=C COLUMNS=80 PIFNJARL_ZSCLI="$program" PYTHONDONTWRITEBYTECODE=1
unset CRAM CRAMRC
umask 022

passed=0
failed=0
if [ $# = 0 ]; then
    set -- "$here"/*.t "$ROOT/README.md" "$ROOT"/docs/*.md
    if "$python" "$here/test_helpers.py" > "$work/printed" 2>&1; then
        passed=1
    else
        cat "$work/printed"
        failed=1
    fi
fi

# how many commands of a transcript have another output than it says, by the difference that cram prints
differing() {
    awk '
        NR == FNR { if (/^  \$ /) command = FNR; of[FNR] = command; next }
        /^@@ / { split($2, from, /[-,]/); line = from[2]; next }
        /^(---|\+\+\+) / { next }
        /^\+/ { seen[of[line - 1]] }
        /^-/ { seen[of[line]] }
        /^[- ]/ { line++ }
        END { for (command in seen) count++; print count + 0 }' "$1" "$2"
}

# runs a transcript, NAME at FILE
run() {
    "$python" -m cram "$2" > "$work/printed" 2>&1
    status=$?
    commands=$(grep -c '^  \$ ' "$2")
    wrong=0
    if [ "$status" != 0 ]; then
        echo "== $1"
        grep -v '^# Ran\|^[.!s]*$' "$work/printed"
        wrong=$(differing "$2" "$work/printed")
        # where cram itself failed there is no difference
        if [ "$wrong" = 0 ]; then
            wrong=$commands
        fi
    elif grep -q ' 1 skipped' "$work/printed"; then
        echo "== $1: skipped, as it ended with status 80"
        commands=0
    fi
    rm -f "$2.err"
    passed=$((passed + commands - wrong))
    failed=$((failed + wrong))
}

for name in "$@"; do
    case $name in
    *.md)
        "$python" "$here/pages.py" "$work/pages" "$name" || failed=$((failed + 1))
        file=$work/pages/$(basename "$name").t
        if [ -e "$file" ]; then
            run "$name" "$file"
        fi
        ;;
    *)
        file=$here/$(basename "$name" .t).t
        if [ -e "$file" ]; then
            run "$(basename "$file")" "$file"
        else
            echo "there is no $file"
            failed=$((failed + 1))
        fi
        ;;
    esac
done

echo "$passed passed, $failed failed"
[ "$failed" = 0 ]
