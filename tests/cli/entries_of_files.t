`zscli entries` prints a command file, made of lines of words. `made` is here each time the same file, made line by line with
`zscli entry`.

  $ zscli format image --block 512 --zones 4 --size 8 --capacity 6 --open 2 --active 3
  $ head -c 1024 /dev/zero | tr '\0' a > data

Comments and empty lines are left out, words are separated by blanks or tabs, and a `\r` before a line's end is dropped. The
identifiers count up for each queue, from the line's own where it has one; after 65535 the lowest is taken that none has.

  $ cat > words <<'END'
  > ; a comment
  > append --lba 8 --data data
  > 
  > END
  $ printf 'open --lba 16 --queue 2 --cid 7 ; its own\r\n' >> words
  $ printf '\twrite  --lba 0x0 --data data --queue 2\n' >> words
  $ cat >> words <<'END'
  > report --lba 0
  > reset --all --cid 65535
  > read --lba 8 --blocks 2
  > END
  $ printf 'result --slot 0' >> words
  $ zscli entry append --lba 8 --data data > made
  $ zscli entry open --lba 16 --queue 2 --cid 7 >> made
  $ zscli entry write --lba 0 --data data --queue 2 --cid 8 >> made
  $ zscli entry report --lba 0 --cid 2 >> made
  $ zscli entry reset --all --cid 65535 >> made
  $ zscli entry read --lba 8 --blocks 2 --cid 0 >> made
  $ zscli entry result --slot 0 --cid 3 >> made
  $ zscli entries words > events
  $ cmp events made

Turns and faults are printed as they are.

  $ printf 'turn 0 ; of a run\r\nfault 3 offline\nopen --lba 0\n' > words
  $ zscli entries words > events
  $ cat events
  turn 0 ; of a run
  fault 3 offline
  submit 1 79000100010000000000000000000000000000000000000000000000000000000000000000000000000000000000000000000000030000000000000000000000
  $ tail -n 1 events > last
  $ zscli entry open --lba 0 | cmp - last
  $ zscli exec image events
  idle
  done
  cpl 1 00000000000000000000010001000000

The words may come through a pipe.

  $ cat words | zscli entries /dev/stdin | cmp - events

What is longer than a transfer of 131072 bytes becomes several lines, each of as many whole blocks as one moves. Those of an
append name the same zone; those of a write and a read go on where the one before them ended.

  $ head -c 263168 /dev/zero | tr '\0' a > long
  $ head -c 131072 long > most
  $ head -c 1024 long > rest
  $ cat > words <<'END'
  > append --lba 8 --data long
  > write --lba 64 --data long --cid 9
  > read --lba 64 --blocks 514
  > append --lba 8 --data long --block 1024
  > END
  $ zscli entry append --lba 8 --data most --cid 1 > made
  $ zscli entry append --lba 8 --data most --cid 2 >> made
  $ zscli entry append --lba 8 --data rest --cid 3 >> made
  $ zscli entry write --lba 64 --data most --cid 9 >> made
  $ zscli entry write --lba 320 --data most --cid 10 >> made
  $ zscli entry write --lba 576 --data rest --cid 11 >> made
  $ zscli entry read --lba 64 --blocks 256 --cid 12 >> made
  $ zscli entry read --lba 320 --blocks 256 --cid 13 >> made
  $ zscli entry read --lba 576 --blocks 2 --cid 14 >> made
  $ zscli entry append --lba 8 --data most --block 1024 --cid 15 >> made
  $ zscli entry append --lba 8 --data most --block 1024 --cid 16 >> made
  $ zscli entry append --lba 8 --data rest --block 1024 --cid 17 >> made
  $ zscli entries words > events
  $ cmp events made
  $ wc -l < events
  12

The size of a block is the line's own, or else that of an image, or that of `--block`, or 512 bytes.

  $ zscli format large --block 4096 --zones 2 --size 64 --capacity 64 --open 2 --active 2
  $ head -c 4096 long > data
  $ printf 'append --lba 8 --data data\nread --lba 8 --blocks 33\n' > words
  $ zscli entry append --lba 8 --data data --block 4096 > made
  $ zscli entry read --lba 8 --blocks 32 --cid 2 >> made
  $ zscli entry read --lba 40 --blocks 1 --cid 3 >> made
  $ zscli entries words --image large | cmp - made
  $ zscli entries words --block 4096 | cmp - made
  $ printf 'append --lba 8 --data data --block 4096\n' > words
  $ head -n 1 made > first
  $ zscli entries words --block 512 | cmp - first

Each kind of entry has the words that `zscli entry` has for it.

  $ head -c 512 /dev/zero > data
  $ head -c 16 /dev/zero > program
  $ cat > words <<'END'
  > append --lba 1 --data data
  > write --lba 2 --data data
  > read --lba 3 --blocks 4
  > open --lba 5
  > close --lba 6
  > finish --all
  > reset --lba 7
  > offline --lba 8
  > report --lba 9 --state full --partial --dwords 48
  > load --slot 1 --program program --emit 66
  > run --slot 1 --from 10 --blocks 11 --to 12 --argument 13
  > result --slot 2
  > END
  $ cid=0
  $ while read -r line; do
  >   cid=$((cid + 1))
  >   zscli entry $line --cid $cid
  > done < words > made
  $ zscli entries words | cmp - made
  $ wc -l < made
  12

With an image, blocks that are in no zone, or not within the capacity of one, are refused by their line. What the device refuses otherwise is left to it.

  $ zscli format small --block 512 --zones 4 --size 8 --capacity 6 --open 2 --active 3
  $ head -c 3072 /dev/zero > six
  $ head -c 3584 /dev/zero > seven
  $ fits() { printf '%s\n' "$1" > line; zscli entries line --image small > /dev/null; }
  $ fits 'append --lba 8 --data six'
  $ fits 'append --lba 8 --data seven'
  line, line 1: 7 blocks from LBA 8 on: not within the capacity of zone 1, 6 blocks
  line 1 refused
  [2]
  $ fits 'write --lba 8 --data six'
  $ fits 'write --lba 9 --data six'
  line, line 1: 6 blocks from LBA 9 on: not within the capacity of zone 1, 6 blocks
  line 1 refused
  [2]
  $ fits 'read --lba 8 --blocks 6'
  $ fits 'read --lba 8 --blocks 7'
  line, line 1: 7 blocks from LBA 8 on: not within the capacity of zone 1, 6 blocks
  line 1 refused
  [2]
  $ fits 'read --lba 13 --blocks 1'
  $ fits 'read --lba 14 --blocks 1'
  line, line 1: 1 block from LBA 14 on: not within the capacity of zone 1, 6 blocks
  line 1 refused
  [2]
  $ fits 'read --lba 31 --blocks 1 --cid 1'
  line, line 1: 1 block from LBA 31 on: not within the capacity of zone 3, 6 blocks
  line 1 refused
  [2]
  $ fits 'read --lba 32 --blocks 1'
  line, line 1: LBA 32: in no zone, since all zones have 32 LBAs from 0 on
  line 1 refused
  [2]
  $ fits 'run --slot 0 --from 8 --blocks 6 --to 24'
  $ fits 'run --slot 0 --from 8 --blocks 7 --to 24'
  line, line 1: 7 blocks from LBA 8 on: not within the capacity of zone 1, 6 blocks
  line 1 refused
  [2]
  $ fits 'run --slot 0 --from 64 --blocks 1 --to 24'
  line, line 1: LBA 64: in no zone, since all zones have 32 LBAs from 0 on
  line 1 refused
  [2]
  $ fits 'run --slot 0 --from 8 --blocks 1 --to 40'
  line, line 1: LBA 40: in no zone, since all zones have 32 LBAs from 0 on
  line 1 refused
  [2]
  $ fits 'open --lba 32'
  line, line 1: LBA 32: in no zone, since all zones have 32 LBAs from 0 on
  line 1 refused
  [2]
  $ fits 'reset --all'
  $ fits 'load --slot 0 --program program --emit 0'
  $ fits 'append --lba 8 --data seven ; comment'
  line, line 1: 7 blocks from LBA 8 on: not within the capacity of zone 1, 6 blocks
  line 1 refused
  [2]
  $ zscli entries line > /dev/null
