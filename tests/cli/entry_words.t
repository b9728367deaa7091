Words for `zscli entry` that are refused: what is wrong goes to standard error, nothing to standard output, and the status
is 2. Where it is one word, no usage follows.

Numbers have a range.

  $ zscli entry read --lba 0 --blocks 0 > out
  --blocks: '0' is not a number from 1 to 65536
  [2]
  $ zscli entry read --lba 0 --blocks 65537 >> out
  --blocks: '65537' is not a number from 1 to 65536
  [2]
  $ zscli entry reset --lba 18446744073709551616 >> out
  --lba: '18446744073709551616' is not a number from 0 to 18446744073709551615
  [2]
  $ zscli entry reset --all --queue 65536 >> out
  --queue: '65536' is not a number from 0 to 65535
  [2]
  $ zscli entry result --slot 8 >> out
  --slot: '8' is not a number from 0 to 7
  [2]
  $ zscli entry report --lba 0 --dwords 32769 >> out
  --dwords: '32769' is not a number from 1 to 32768
  [2]
  $ zscli entry load --slot 0 --program exit --emit 4294967296 >> out
  --emit: '4294967296' is not a number from 0 to 4294967295
  [2]

They have no sign, and only a small `0x` begins hexadecimal digits.

  $ zscli entry read --lba +1 --blocks 1 >> out
  --lba: '+1' is not a number from 0 to 18446744073709551615
  [2]
  $ zscli entry read --lba 0x --blocks 1 >> out
  --lba: '0x' is not a number from 0 to 18446744073709551615
  [2]
  $ zscli entry read --lba 0x+1 --blocks 1 >> out
  --lba: '0x+1' is not a number from 0 to 18446744073709551615
  [2]
  $ zscli entry read --lba 0X1 --blocks 1 >> out
  --lba: '0X1' is not a number from 0 to 18446744073709551615
  [2]

A command that isn't there, an option that is missing, and two that exclude each other: the usage follows.

  $ zscli entry fly >> out
  error: unrecognized subcommand 'fly'
  
  Usage: zscli entry <COMMAND>
  
  For more information, try '--help'.
  [2]
  $ zscli entry open >> out
  error: the following required arguments were not provided:
    <--lba <LBA>|--all>
  
  Usage: zscli entry open <--lba <LBA>|--all>
  
  For more information, try '--help'.
  [2]
  $ zscli entry open --lba 8 --all >> out
  error: the argument '--lba <LBA>' cannot be used with '--all'
  
  Usage: zscli entry open <--lba <LBA>|--all>
  
  For more information, try '--help'.
  [2]

Without a command the help goes to standard error.

  $ zscli entry >> out 2> err
  [2]
  $ cat out
  $ grep Usage err
  Usage: zscli entry <COMMAND>

With `--help` or `-h` it goes to standard output.

  $ zscli entry --help > out 2> err
  $ grep Usage out
  Usage: zscli entry <COMMAND>
  $ zscli entry append -h > out 2>> err
  $ grep Usage out
  Usage: zscli entry append [OPTIONS] --lba <LBA> --data <FILE>
  $ cat err
