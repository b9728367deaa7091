#!/bin/sh
# Compares the programs of tests/filters/programs with what clang makes of this folder's files today, for both versions of the
# instruction set, and of those of spills/ and refused/; in link_tests the objects of drafts/ and refused/; and the filter
# of pushdown.cmd. Prints the digits of those that differ, and then ends with status 1.
set -eu
cd "$(dirname "$0")"
kept=../tests/filters/programs
work=$(mktemp -d)
trap 'rm -r "$work"' EXIT
status=0

# same KIND: are the programs that were made those that are kept, one slot a line?
same() {
    for program in "$work/$1"/*.text; do
        name=$(basename "$program" .text)
        xxd -p -c 8 "$program" > "$work/slots"
        if ! cmp -s "$work/slots" "$kept/$1/$name.hex"; then
            echo "tests/filters/programs/$1/$name.hex is not what clang makes:"
            cat "$work/slots"
            status=1
        fi
    done
}

# compare FOLDER TEST: are a folder's objects in the test?
compare() {
    digits_there=$(tr -d ' \\\n' < "$2")
    for object in "$1"/*.text; do
        digits=$(xxd -p "$object" | tr -d '\n')
        case $digits_there in
        *"object:\"$digits\""*) ;;
        *)
            echo "the object of $(basename "$object" .text) is not in the tests:"
            echo "$digits" | fold -w 100
            status=1
            ;;
        esac
    done
}

mkdir "$work/v2" "$work/v3" "$work/spills" "$work/refused"
for version in v2 v3; do
    make -s TO="$work/$version" CPU=$version texts
    same $version
done
for kind in spills refused; do
    make -s -C $kind TO="$work/$kind" texts
    same $kind
done
for kind in linux sql storage; do
    mkdir "$work/$kind"
    for draft in drafts/$kind/*.c; do
        made=$work/$kind/$(basename "$draft" .c)
        make -s FROM=drafts/$kind TO="$work/$kind" MADE_FOR="-mcpu=v3 -O2 -g0 -fno-addrsig -w" "$made.o"
        llvm-strip --strip-unneeded -o "$made.text" "$made.o"
    done
    compare "$work/$kind" ../crates/link_tests/src/filters/$kind.rt
done

mkdir "$work/mended"
for filter in counts last range signed unbounded; do
    made=$work/mended/$filter
    make -s -C refused TO="$work/mended" MADE_FOR="-mcpu=v3 -O2 -g0 -fno-addrsig -w" "$made.o"
    llvm-strip --strip-unneeded -o "$made.text" "$made.o"
done
compare "$work/mended" ../crates/link_tests/src/filters/refused.rt

digits=$(xxd -p "$work/v3/filter.text" | tr -d '\n')
if ! grep -q " $digits\$" pushdown.cmd; then
    echo "the filter is not in pushdown.cmd:"
    echo "$digits"
    status=1
fi
exit $status
