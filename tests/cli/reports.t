What `zscli report` prints of an image with zones in four states.

  $ zscli format image --block 512 --zones 4 --size 8 --capacity 6 --open 2 --active 3
  $ head -c 1024 /dev/zero | tr '\0' a > data
  $ zscli entry append --lba 8 --data data > events
  $ zscli entry open --lba 16 >> events
  $ zscli entry finish --lba 24 >> events
  $ zscli entry close --lba 16 >> events
  $ zscli exec image events
  cpl 1 08000000000000000000010001000000
  cpl 1 00000000000000000000010001000000
  cpl 1 00000000000000000000010001000000
  cpl 1 00000000000000000000010001000000
  $ zscli zones image
  0 empty 0
  1 implicit 2
  2 closed 0
  3 full 0

On lines, as `blkzone report` has them: the write pointer of a full zone is the zone's length.

  $ zscli report image
  block 512 bytes, 4 zones of 8 blocks, capacity 6 blocks, open 1 of 2, active 2 of 3
    start: 0x000000000, len 0x000008, cap 0x000006, wptr 0x000000 reset:0 non-seq:0, zcond: 1(em) [type: 2(SEQ_WRITE_REQUIRED)]
    start: 0x000000008, len 0x000008, cap 0x000006, wptr 0x000002 reset:0 non-seq:0, zcond: 2(oi) [type: 2(SEQ_WRITE_REQUIRED)]
    start: 0x000000010, len 0x000008, cap 0x000006, wptr 0x000000 reset:0 non-seq:0, zcond: 4(cl) [type: 2(SEQ_WRITE_REQUIRED)]
    start: 0x000000018, len 0x000008, cap 0x000006, wptr 0x000008 reset:0 non-seq:0, zcond:14(fu) [type: 2(SEQ_WRITE_REQUIRED)]

As one JSON object, on a line, which is split here.

  $ zscli report image --json > json
  $ wc -l < json
  1
  $ tr '[' '\n' < json | sed 's/},/},\n/g'
  {"block_bytes":512,"zone_count":4,"zone_size":8,"zone_capacity":6,"open_zones":1,"open_limit":2,"active_zones":2,"active_limit":3,"zones":
  {"number":0,"start":0,"state":"empty","condition":1,"written":0},
  {"number":1,"start":8,"state":"implicit","condition":2,"written":2},
  {"number":2,"start":16,"state":"closed","condition":4,"written":0},
  {"number":3,"start":24,"state":"full","condition":14,"written":0}]}

The other three states: opened by a command, read only, and offline.

  $ zscli entry reset --all > events
  $ zscli entry open --lba 8 >> events
  $ printf 'fault 2 readonly\nfault 3 offline\n' >> events
  $ zscli exec image events
  cpl 1 00000000000000000000010001000000
  cpl 1 00000000000000000000010001000000
  done
  done
  $ zscli report image
  block 512 bytes, 4 zones of 8 blocks, capacity 6 blocks, open 1 of 2, active 1 of 3
    start: 0x000000000, len 0x000008, cap 0x000006, wptr 0x000000 reset:0 non-seq:0, zcond: 1(em) [type: 2(SEQ_WRITE_REQUIRED)]
    start: 0x000000008, len 0x000008, cap 0x000006, wptr 0x000000 reset:0 non-seq:0, zcond: 3(oe) [type: 2(SEQ_WRITE_REQUIRED)]
    start: 0x000000010, len 0x000008, cap 0x000006, wptr 0x000000 reset:0 non-seq:0, zcond:13(ro) [type: 2(SEQ_WRITE_REQUIRED)]
    start: 0x000000018, len 0x000008, cap 0x000006, wptr 0x000000 reset:0 non-seq:0, zcond:15(of) [type: 2(SEQ_WRITE_REQUIRED)]

A file that isn't there, and one that is no image.

  $ zscli report gone > out
  gone: no such file or folder
  cannot read gone
  [1]
  $ zscli report data >> out
  data: the first 8 bytes are neither ZNSIMG01 nor ZNSIMG02
  image refused 11
  [3]
  $ cat out

Standard output that takes nothing, and a file that takes 100 bytes more.

  $ zscli report image > /dev/full
  -: no room is left
  cannot write -
  [1]
  $ zscli report image --json > /dev/full
  -: no room is left
  cannot write -
  [1]
  $ head -c 412 /dev/zero > out
  $ (trap '' XFSZ; ulimit -f 1; zscli report image >> out)
  -: too large for the file system, or for a limit of the user
  cannot write -
  [1]
  $ tail -c +413 out
  block 512 bytes, 4 zones of 8 blocks, capacity 6 blocks, open 1 of 2, active 1 of 3
    start: 0x00000 (no-eol)

`report --map` draws the zones: a letter for the state, and a bar of the written blocks, of which one that isn't empty shows some.

  $ zscli format drawn --block 512 --zones 7 --size 64 --capacity 40 --open 3 --active 5
  $ head -c 20480 /dev/zero > blocks
  $ head -c 512 /dev/zero > block
  $ cat > words <<END
  > append --lba 64 --data block
  > open --lba 128
  > append --lba 192 --data blocks
  > append --lba 256 --data block
  > close --lba 256
  > fault 5 readonly
  > fault 6 offline
  > END
  $ zscli entries words --image drawn | zscli exec drawn - | grep -v '^done'
  cpl 1 40000000000000000000010001000000
  cpl 1 00000000000000000000010002000000
  cpl 1 c0000000000000000000010003000000
  cpl 1 00010000000000000000010004000000
  cpl 1 00000000000000000000010005000000
  $ zscli report drawn --map
  block 512 bytes, 7 zones of 64 blocks, capacity 40 blocks, open 2 of 3, active 3 of 5
     0 e ................................ 0/40
     1 i #............................... 1/40
     2 o ................................ 0/40
     3 f ################################ 40/40
     4 c #............................... 1/40
     5 r ................................ 0/40
     6 x ................................ 0/40

Colors are for a terminal, or where they are asked for.

  $ zscli report drawn --map > plain
  $ zscli report drawn --map --color never | cmp - plain
  $ zscli report drawn --map --color always > colored
  $ tr '\033' '^' < colored | sed -n 2,4p
     0 ^[2me ^[0m................................ 0/40
     1 ^[32mi #^[0m............................... 1/40
     2 ^[36mo ^[0m................................ 0/40
  $ NO_COLOR=1 zscli report drawn --map --color always | cmp - colored
  $ on_terminal() { script -qec "$1" /dev/null < /dev/null | tr -d '\r'; }
  $ on_terminal 'zscli report drawn --map' | cmp - colored
  $ on_terminal 'NO_COLOR=1 zscli report drawn --map' | cmp - plain
  $ on_terminal 'zscli report drawn --map --color never' | cmp - plain
  $ zscli report drawn --map --color sometimes 2>&1 | head -n 1
  error: invalid value 'sometimes' for '--color <WHEN>'

A journal has runs: `<0` reads the zone, and `>0` appends to it. A byte that is no frame leaves them there.

  $ printf 'mov r0, 0\nexit\n' > text
  $ zscli asm text program
  $ zscli format journal --block 512 --zones 3 --size 8 --capacity 8 --open 2 --active 2
  $ cat > words <<END
  > append --lba 0 --data block
  > load --slot 0 --program program --emit 0
  > open --lba 8
  > run --slot 0 --from 0 --blocks 1 --to 8
  > END
  $ zscli entries words > events
  $ { python3 "$TESTDIR/frames.py" make < events; printf x; } > asked
  $ zscli serve journal --durable --frames < asked > answered
  standard input, byte 848: a kind of request, from 1 to 5 is expected
  stream refused 848 1
  [3]
  $ zscli report journal --map
  block 512 bytes, 3 zones of 8 blocks, capacity 8 blocks, open 2 of 2, active 2 of 2
     0 i ####............................ 1/8 <0
     1 o ................................ 0/8 >0
     2 e ................................ 0/8
