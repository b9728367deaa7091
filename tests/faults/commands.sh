#!/bin/sh
# Runs each command of zscli again and again on small files, and has one call of the C library fail each time, a later
# one with each run: a request for memory is refused (alloc), a file's call fails (io), or a read or a write of
# several bytes moves one (short). Prints how many runs ended in which way: with which status, what they printed and
# made (all that a whole run does, nothing, or something else), and the last line on standard error. Ends with status
# 1 where a run left part of an image or a file beside it, or changed a slot by a Load that found no memory.
set -eu
cd "$(dirname "$0")/../.."
./zscli --help > /dev/null
zscli=$PWD/crates/zscli/out/zscli
work=$(mktemp -d)
trap 'rm -r "$work"' EXIT
cc -O2 -DREFUSES_MEMORY -shared -fPIC -o "$work/calls.so" tests/faults/calls.c
wrong=0

# the files that commands are given
mkdir "$work/given"
cp examples/empty.img "$work/given/image"
{ printf ZNSIMG01; tail -c +9 examples/empty.img; } > "$work/given/old"
cp examples/pushdown.cmd "$work/given/events"
cat > "$work/given/text" << 'END'
        ldxb r6, [r2+0]
        jne r6, 7, done
        mov r1, r2
        mov r2, 8
        call 1
done:   mov r0, 0
        exit
END
"$zscli" asm "$work/given/text" "$work/given/program"
{ printf '\007'; head -c 511 /dev/zero; } > "$work/given/block"
{ printf '\003\000abc'; head -c 507 /dev/zero; } > "$work/given/packed"

cp examples/empty.img "$work/image"
"$zscli" exec "$work/image" "$work/given/events" > "$work/given/replies"

# a program that adds a block's first byte to a sum, and one that does nothing
cat > "$work/adding.s" << 'END'
ldxb r4, [r2+0]
ldxdw r5, [r3+0]
add r5, r4
stxdw [r3+0], r5
mov r0, 0
exit
END
cat > "$work/nothing.s" << 'END'
mov r0, 0
exit
END
"$zscli" asm "$work/adding.s" "$work/adding"
"$zscli" asm "$work/nothing.s" "$work/nothing"

# a block of 7 and zeros; the first program, which runs; the other takes its slot, and runs; the results before, between
# and behind
{
    "$zscli" entry append --lba 0 --data "$work/given/block" --cid 8
    "$zscli" entry open --lba 64 --cid 9
    "$zscli" entry load --slot 0 --program "$work/adding" --emit 0 --cid 1
    "$zscli" entry run --slot 0 --from 0 --blocks 1 --to 64 --cid 2
    echo turn 0
    "$zscli" entry result --slot 0 --cid 3
    "$zscli" entry load --slot 0 --program "$work/nothing" --emit 0 --cid 7
    "$zscli" entry result --slot 0 --cid 4
    "$zscli" entry run --slot 0 --from 0 --blocks 1 --to 64 --cid 5
    echo turn 0
    "$zscli" entry result --slot 0 --cid 6
} > "$work/given/loads"

# What a completion ends with, in hexadecimal: queue 1, the command (here two digits and 00), the status. That of a Load
# without memory has type 7h and code C7h; a Result that succeeds has status 0000, and its data behind it, here the sum.
queue=0100
wants_memory=008e0f
gives_sum='0000 07'

# Runs the command with these words in a folder with the files, where a call fails: `KIND NUMBER`.
run() {
    failing=$1
    shift
    rm -rf "$work/run" "$work/told"
    cp -r "$work/given" "$work/run"
    status=0
    (
        cd "$work/run"
        exec env FAILING_CALL="$failing" FAILING_TOLD="$work/told" LD_PRELOAD="$work/calls.so" \
            "$zscli" "$@"
    ) > "$work/out" 2> "$work/err" || status=$?
}

# Prints how the last run ended: what it printed and made, and what it told.
ending() {
    made=
    if [ -s "$work/whole-out" ]; then
        made=", printed: $(compare /dev/null nothing "$work/whole-out" "$work/out")"
    fi
    if [ -n "$file" ]; then
        whole=$work/whole-$file
        made="$made, $file: $(compare "$work/given/$file" "as before" "$whole" "$work/run/$file")"
    fi
    wants=$(sed -n "s/.*$queue\(..\)$wants_memory\$/, Load \1 wants memory/p" "$work/out")
    echo "status $status$made$wants, told: $(tail -n 1 "$work/err")"
}

# What is the last file: the first one, which has this name, the third, another, or none?
compare() {
    if [ ! -e "$4" ]; then
        echo none
    elif cmp -s "$3" "$4"; then
        echo all
    elif [ -e "$1" ] && cmp -s "$1" "$4"; then
        echo "$2"
    else
        echo other
    fi
}

# An image is whole, no other file is left, and where the second Load of `loads`, its command 7, finds no memory, the slot
# has the program and the result of before: each of the three Results gives the sum.
check() {
    if grep -q "${queue}07$wants_memory\$" "$work/out" && [ "$(grep -c "$gives_sum" "$work/out")" != 3 ]; then
        echo "wrong: run $number changes a slot though its Load was refused"
        wrong=1
    fi
    if [ -n "$(find "$work/run" -name '*.unfinished')" ]; then
        echo "wrong: run $number leaves an unfinished file"
        wrong=1
    fi
    case $file in
    image | new | old)
        if [ -e "$work/run/$file" ] && ! "$zscli" zones "$work/run/$file" > /dev/null; then
            echo "wrong: run $number leaves part of an image"
            wrong=1
        fi
        ;;
    esac
}

# Has each call of a kind fail in turn.
series() {
    kind=$1
    shift
    number=0
    : > "$work/ends"
    while :; do
        number=$((number + 1))
        run "$kind $number" "$@"
        if [ ! -e "$work/told" ]; then
            break
        fi
        check
        ending >> "$work/ends"
    done
    echo "  $kind: $((number - 1)) calls"
    sort "$work/ends" | uniq -c
}

# Has the command with these words, which makes a file ('' for none), run with each failure.
each() {
    file=$1
    shift
    echo "zscli $*"
    run "nothing 0" "$@"
    cp "$work/out" "$work/whole-out"
    if [ -n "$file" ]; then
        cp "$work/run/$file" "$work/whole-$file"
    fi
    series alloc "$@"
    series io "$@"
    series short "$@"
}

geometry="--block 512 --zones 9 --size 64 --capacity 64 --open 3 --active 3"
each new format new $geometry
each image format image $geometry
each old upgrade old
each '' zones image
each image exec image events
each image exec image loads
each made asm text made
each '' disasm program
each '' trace program block --emit 10
each '' verify program --block 512 --emit 10
each '' unpack packed --block 512
each '' entry append --lba 0 --data block
each '' explain replies --commands events
exit "$wrong"
