#!/bin/sh
# Makes docs/page.png, the picture of a page, with Chromium: page_picture.sh [PICTURE]. No test calls it.
# page_picture.sh --page PAGE makes the page alone.
set -eu
here=$(cd "$(dirname "$0")" && pwd)
top=$(cd "$here/.." && pwd)
: "${PIFNJARL_ZSCLI:=$top/crates/zscli/out/zscli}"
export PIFNJARL_ZSCLI
work=$(mktemp -d)
trap 'rm -rf "$work"' EXIT

zscli() { "$PIFNJARL_ZSCLI" "$@"; }

# so many orders, in a block each, with their region, 0 to 2, in byte 8
orders() {
    for number in $(seq "$1"); do
        printf "order %02d\\$((number % 3))\\0\\0\\0%-500s" "$number" lamps
    done
}

(
    cd "$work"
    zscli format zoned.img --block 512 --zones 6 --size 16 --capacity 12 --open 3 --active 4
    orders 5 > five
    orders 12 > twelve
    orders 1 > one
    cat > filter.txt <<'TEXT'
        ldxw r6, [r2+8]
        ldxw r7, [r1+20]
        jne r6, r7, end
        mov r1, r2
        mov r2, 64
        call 1
end:    mov r0, 0
        exit
TEXT
    zscli asm filter.txt filter
    cat > words <<'TEXT'
append --lba 0 --data five
append --lba 0 --data five
append --lba 16 --data twelve
open --lba 32
load --slot 0 --program filter --emit 66
run --slot 0 --from 0 --blocks 10 --to 32 --argument 1
turn 0
turn 0
append --lba 80 --data five --queue 2
open --lba 48 --queue 2
reset --lba 0 --queue 2
turn 0
run --slot 0 --from 16 --blocks 4 --to 48 --argument 2 --queue 2
close --lba 80 --queue 2
turn 0
turn 1
fault 4 readonly
turn 1
turn 0
append --lba 64 --data one
turn 1
turn 1
reset --lba 16 --queue 2
finish --lba 48 --queue 2
offline --lba 64
turn 0
read --lba 48 --blocks 1 --queue 2
TEXT
    zscli entries words > work.cmd
    python3 -B "$here/pifnjarl_page.py" zoned.img work.cmd -o page.html
)
if [ "${1:-}" = --page ]; then
    cp "$work/page.html" "$2"
    exit
fi
browser() {
    chromium --headless --no-sandbox --disable-gpu --hide-scrollbars --window-size=1240,700 "$@" 2> "$work/told" || cat "$work/told"
}

# after event 18 that event is marked, those before it aren't grey, and the box of zone 4 has the letter of Read Only
browser --dump-dom "file://$work/page.html#18" > "$work/dom"
for shown in '<li id="event-18" class="event now"' '<li id="event-17" class="event"' '<li id="event-19" class="event later"' \
    'title="zone 4: Read Only, 0 of 12 blocks written"' '<b>After event 18 of 31</b>'; do
    grep -qF "$shown" "$work/dom" || { echo "not in the page: $shown"; exit 1; }
done
browser --screenshot="$work/page.png" "file://$work/page.html#18"
cp "$work/page.png" "${1:-$top/docs/page.png}"
