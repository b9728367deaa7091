The limits on open and active zones, the zones that give way, actions on all zones, and faults. The image has 4 zones of 8 blocks of
512 bytes, 6 of them writable; 2 zones may be open and 3 active. Each scene begins with a new image.

  $ play() {  # lines of words: prints the replies, and `events` and `replies` keep both
  >   zscli entries /dev/stdin > events && zscli exec image events > replies
  >   cut -c 1-80 replies
  > }
  $ said() { zscli explain replies --commands events; }
  $ states() { echo $(zscli zones image | cut -d ' ' -f 2); }
  $ begin() {
  >   zscli format image --block 512 --zones 4 --size 8 --capacity 6 --open 2 --active 3
  >   play > /dev/null
  >   states
  > }
  $ head -c 512 /dev/zero | tr '\0' '\252' > data

Where a zone has to be opened and two are open by writes, the lowest of these is closed. That makes three active zones, so that
a fourth is Too Many Active Zones. A write and an append do the same.

  $ begin <<'END'
  > append --lba 0 --data data
  > append --lba 8 --data data
  > END
  implicit implicit empty empty
  $ play <<'END'
  > write --lba 16 --data data
  > END
  cpl 1 00000000000000000000010001000000
  $ states
  closed implicit implicit empty
  $ cp image before
  $ play <<'END'
  > write --lba 24 --data data
  > append --lba 24 --data data
  > END
  cpl 1 00000000000000000000010001007a03
  cpl 1 00000000000000000000010002007a03
  $ said | cut -d : -f 3-
   refused: Too Many Active Zones (type 1h, code BDh): an active resource is wanted and none is free
   refused: Too Many Active Zones (type 1h, code BDh): an active resource is wanted and none is free
  $ cmp image before
  $ play <<'END'
  > append --lba 0 --data data
  > END
  cpl 1 01000000000000000000010001000000
  $ states
  implicit closed implicit empty

A zone that a command opened does not give way: Too Many Open Zones.

  $ begin <<'END'
  > open --lba 0
  > open --lba 8
  > END
  explicit explicit empty empty
  $ cp image before
  $ play <<'END'
  > write --lba 16 --data data
  > append --lba 16 --data data
  > END
  cpl 1 00000000000000000000010001007c03
  cpl 1 00000000000000000000010002007c03
  $ said | cut -d : -f 3-
   refused: Too Many Open Zones (type 1h, code BEh): more zones would be open than may be, and none gives way
   refused: Too Many Open Zones (type 1h, code BEh): more zones would be open than may be, and none gives way
  $ cmp image before

The active limit comes before the open one: with a closed zone beside these two, an empty zone is refused for the first, the closed
zone for the second.

  $ begin <<'END'
  > open --lba 16
  > close --lba 16
  > open --lba 0
  > open --lba 8
  > END
  explicit explicit closed empty
  $ cp image before
  $ play <<'END'
  > write --lba 24 --data data
  > append --lba 24 --data data
  > append --lba 16 --data data
  > write --lba 16 --data data
  > END
  cpl 1 00000000000000000000010001007a03
  cpl 1 00000000000000000000010002007a03
  cpl 1 00000000000000000000010003007c03
  cpl 1 00000000000000000000010004007c03

Open of the closed zone is refused too.

  $ play <<'END'
  > open --lba 16
  > END
  cpl 1 00000000000000000000010001007c03
  $ cmp image before

With two zones opened by writes, the lower of them gives way to it.

  $ begin <<'END'
  > append --lba 16 --data data
  > close --lba 16
  > append --lba 0 --data data
  > append --lba 8 --data data
  > END
  implicit implicit closed empty
  $ play <<'END'
  > open --lba 16
  > END
  cpl 1 00000000000000000000010001000000
  $ states
  closed implicit explicit empty

No zone gives way to an Open of all closed zones.

  $ begin <<'END'
  > append --lba 8 --data data
  > append --lba 16 --data data
  > close --lba 8
  > close --lba 16
  > append --lba 0 --data data
  > END
  implicit closed closed empty
  $ cp image before
  $ play <<'END'
  > open --all --cid 9
  > END
  cpl 1 00000000000000000000010009007c03
  $ said
  queue 1, command 9: open of all zones that Select All takes: refused: Too Many Open Zones (type 1h, code BEh): more zones would be open than may be, and none gives way
  $ cmp image before

Where there is no zone to take, each action on all zones succeeds, and nothing changes.

  $ begin <<'END'
  > END
  empty empty empty empty
  $ cp image before
  $ play <<'END'
  > close --all
  > finish --all
  > open --all
  > reset --all
  > offline --all
  > END
  cpl 1 00000000000000000000010001000000
  cpl 1 00000000000000000000010002000000
  cpl 1 00000000000000000000010003000000
  cpl 1 00000000000000000000010004000000
  cpl 1 00000000000000000000010005000000
  $ cmp image before

Otherwise it takes those that it can: Close the open ones, Open the closed ones, Finish all active ones, Reset these and the full ones.

  $ begin <<'END'
  > append --lba 0 --data data
  > open --lba 8
  > END
  implicit explicit empty empty
  $ for action in close open finish reset; do
  >   echo "$action --all" | play
  >   states
  > done
  cpl 1 00000000000000000000010001000000
  closed closed empty empty
  cpl 1 00000000000000000000010001000000
  explicit explicit empty empty
  cpl 1 00000000000000000000010001000000
  full full empty empty
  cpl 1 00000000000000000000010001000000
  empty empty empty empty

A fault makes a zone read only: its blocks can be read, it takes no more, and can't be reset. Then it can be taken offline, which
loses the blocks.

  $ begin <<'END'
  > append --lba 0 --data data
  > append --lba 0 --data data
  > END
  implicit empty empty empty
  $ play <<'END'
  > fault 0 readonly
  > read --lba 0 --blocks 1
  > append --lba 0 --data data
  > reset --lba 0
  > END
  done
  cpl 1 00000000000000000000010001000000 aaaaaaaaaaaaaaaaaaaaaaaaaaaaaaaaaaaaaaaaa
  cpl 1 00000000000000000000010002007403
  cpl 1 00000000000000000000010003007e03
  $ said | grep refused
  queue 1, command 2: append of 1 block to the zone of LBA 0: refused: Zone Is Read Only (type 1h, code BAh): a write to a Read Only zone
  queue 1, command 3: reset of the zone of LBA 0: refused: Invalid Zone State Transition (type 1h, code BFh): the zone's state does not allow the action
  $ sed -n 2p replies | cut -d ' ' -f 4 | xxd -r -p | cmp - data
  $ zscli report image | sed -n 1p
  block 512 bytes, 4 zones of 8 blocks, capacity 6 blocks, open 0 of 2, active 0 of 3
  $ zscli zones image | sed -n 1p
  0 readonly 2
  $ play <<'END'
  > offline --lba 0
  > read --lba 0 --blocks 1
  > fault 0 readonly
  > fault 4 readonly
  > fault 4 offline
  > END
  cpl 1 00000000000000000000010001000000
  cpl 1 00000000000000000000010002007603
  refused
  refused
  refused
  $ said
  queue 1, command 1: offline of the zone of LBA 0: done
  queue 1, command 2: read of 1 block from LBA 0 on: refused: Zone Is Offline (type 1h, code BBh): a Read of an Offline zone, a Run from one, or a write to one
  refused: a fault of a zone that does not exist, that a run uses, or that is Offline and cannot become Read Only
  refused: a fault of a zone that does not exist, that a run uses, or that is Offline and cannot become Read Only
  refused: a fault of a zone that does not exist, that a run uses, or that is Offline and cannot become Read Only
  $ zscli zones image | sed -n 1p
  0 offline 0

Offline of all zones takes those that are read only.

  $ begin <<'END'
  > append --lba 8 --data data
  > fault 1 readonly
  > END
  empty readonly empty empty
  $ play <<'END'
  > offline --all
  > END
  cpl 1 00000000000000000000010001000000
  $ states
  empty offline empty empty
