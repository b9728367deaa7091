With `--json` each line of `zscli explain` is a JSON object, which says what one line that `exec` printed means.

  $ cat > replies <<'END'
  > cpl 1 08000000000000000000010001000000
  > pending 0
  > idle
  > done
  > refused
  > cpl 2 0000000000000000000002000200800f
  > cpl 1 09000000020000000000010007000000
  > cpl 9 00000000000000000000010001000000
  > END
  $ zscli explain replies --json
  {"reply":"completion","queue":1,"identifier":1,"refused":false,"status_type":0,"status_code":0,"status":"Successful Completion (type 0h, code 00h): the command is done","dword0":8,"dword1":0,"data_bytes":0}
  {"reply":"pending","run":0}
  {"reply":"idle"}
  {"reply":"done"}
  {"reply":"refused"}
  {"reply":"completion","queue":2,"identifier":2,"refused":true,"status_type":7,"status_code":192,"status":"Zone Held (type 7h, code C0h; profile): an active run holds the zone against the command","dword0":0,"dword1":0,"data_bytes":0}
  {"reply":"completion","queue":1,"identifier":7,"refused":false,"status_type":0,"status_code":0,"status":"Successful Completion (type 0h, code 00h): the command is done","dword0":9,"dword1":2,"data_bytes":0}
  {"reply":"unknown","queue":9}

With a command file a completion has the line of its submission, the command, and what that gave.

  $ head -c 512 /dev/zero | tr '\0' a > block
  $ zscli entry append --lba 8 --data block > asked
  $ zscli entry run --slot 0 --from 0 --blocks 4 --to 8 --cid 7 >> asked
  $ zscli explain replies --json --commands asked
  {"reply":"completion","queue":1,"identifier":1,"refused":false,"status_type":0,"status_code":0,"status":"Successful Completion (type 0h, code 00h): the command is done","dword0":8,"dword1":0,"data_bytes":0,"line":1,"guess":false,"command":"append","lba":8}
  {"reply":"pending","run":0}
  {"reply":"idle"}
  {"reply":"done"}
  {"reply":"refused"}
  {"reply":"completion","queue":2,"identifier":2,"refused":true,"status_type":7,"status_code":192,"status":"Zone Held (type 7h, code C0h; profile): an active run holds the zone against the command","dword0":0,"dword1":0,"data_bytes":0,"line":null}
  {"reply":"completion","queue":1,"identifier":7,"refused":false,"status_type":0,"status_code":0,"status":"Successful Completion (type 0h, code 00h): the command is done","dword0":9,"dword1":2,"data_bytes":0,"line":2,"guess":false,"command":"run","records":9,"blocks":2}
  {"reply":"unknown","queue":9}
