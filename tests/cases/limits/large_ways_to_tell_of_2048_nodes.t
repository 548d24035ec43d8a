Counts, contested bytes, exposed bytes, output by supersteps and checkpoints of a large machine are those that a usual one has.

  $ run() { bspemu run bench/neighbours.s --format asm --nodes 2048 --memory 16384 --large "$@"; }
  $ run --report --ledger 1
  superstep 0: w 18 h 0 turned
  superstep 1: w 11 h 4 turned
  superstep 2: w 2 h 0 last
  total 35
  ended
  $ run --counts counts && wc -l < counts && tail -n 1 counts
  61442
  2,2047,00000078,1
  $ run --contested contested && wc -l < contested
  1
  $ run --exposed exposed && wc -l < exposed
  1
  $ run --live
  $ bspemu debug bench/neighbours.s --format asm --nodes 2048 --memory 16384 --large --framed <<'END'
  > keep
  > go
  > back 0
  > phase
  > turn
  > keep
  > go
  > back 1
  > kept
  > go
  > bytes 2047 0x2000 4
  > END
  done 1
  kept 0
  done 1
  ended
  done 1
  ok
  done 1
  moved 34817
  done 1
  turned
  done 1
  kept 1
  done 1
  ended
  done 1
  ok
  done 2
  kept 0 superstep 0, ranks 0 to 2047 pc 00000000 state running
  kept 1 superstep 1, ranks 0 to 2047 pc 00000048 state running
  done 1
  ended
  done 1
  fe 07 00 00
