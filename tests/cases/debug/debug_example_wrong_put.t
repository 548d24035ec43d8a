  $ in-turns bspemu debug examples/wrong_put.s --format asm --nodes 4 --interactive --ledger 1 <<'END'
  > 1 break superstep 2
  > 1 go
  > 1 bytes 0 0x100 16
  > 3 costs
  > 0 quit
  > END
  << break superstep 2
  ok
  << go
  stopped at superstep 2
  << bytes 0 0x100 16
  0a 14 1e 28 00 00 00 00 00 00 00 00 00 00 00 00
  << costs
  superstep 0: w 16 h 0 turned
  superstep 1: w 13 h 16 turned
  total 45
  << quit
