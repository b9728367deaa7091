#!/bin/sh
# Runs each test of the crates with these names, or of some that test what asks for memory, again and again, and has
# one request for memory refused each time, a later one with each run. Prints for each crate how many runs ended with an
# error (status 101), by an assertion (134), since a call gave want of memory, or as they should (0), since the
# test takes that for a result. Ends with status 1 where a run was stopped by a fault or did not end.
set -eu
cd "$(dirname "$0")/../.."
work=$(mktemp -d)
trap 'rm -r "$work"' EXIT
cc -O2 -DREFUSES_MEMORY -shared -fPIC -o "$work/calls.so" tests/faults/calls.c
wrong=0

# Runs one test with each of its requests refused in turn.
series() {
    number=0
    while :; do
        number=$((number + 1))
        status=0
        rm -f "$work/told"
        timeout 60 env FAILING_CALL="alloc $number" FAILING_TOLD="$work/told" \
            LD_PRELOAD="$work/calls.so" "$1" "$2" > /dev/null 2>&1 || status=$?
        if [ ! -e "$work/told" ]; then
            break
        fi
        case $status in
        0 | 101 | 134) ;;
        *) echo "wrong: $2 ends with status $status at request $number" ;;
        esac
        echo "status $status" >> "$work/ends"
    done
}

for crate in ${*:-zone_tests program_tests runner_tests}; do
    (cd "crates/$crate" && rt test) > "$work/log"
    tests=$PWD/crates/$crate/out/${crate}_tests
    : > "$work/ends"
    for test in $("$tests" --list | sed -n 's/: test$//p'); do
        series "$tests" "$test"
    done > "$work/wrong"
    echo "$crate: $(wc -l < "$work/ends") requests"
    sort "$work/ends" | uniq -c | sort -rn
    if [ -s "$work/wrong" ]; then
        cat "$work/wrong"
        wrong=1
    fi
done
exit "$wrong"
