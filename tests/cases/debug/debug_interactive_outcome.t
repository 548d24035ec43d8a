Where a run is over, a dialogue tells once where the nodes are, by go and by turn; a script and a framed session tell the outcome alone.

  $ cat > fault.s <<'END'
  >     li a7, 4
  >     ecall
  >     li a7, 3
  >     ecall
  >     beqz a0, waits
  >     lw a0, -1(x0)
  > waits:
  >     li a7, 4
  >     ecall
  > END
  $ cat > lines <<'END'
  > break superstep 1
  > go
  > keep
  > go
  > go
  > back 0
  > phase
  > turn
  > turn
  > END
  $ bspemu debug fault.s --format asm --nodes 2 --interactive < lines
  ok
  stopped at superstep 1
  kept 0
  rank 1 stopped: fault LoadOutside
  rank 0 pc 00000020 superstep 1 state synced
  rank 1 pc 00000014 superstep 1 state fault LoadOutside
  refused: Over
  ok
  moved 9
  rank 1 stopped: fault LoadOutside
  rank 0 pc 00000020 superstep 1 state synced
  rank 1 pc 00000014 superstep 1 state fault LoadOutside
  refused: Over
  $ bspemu debug fault.s --format asm --nodes 2 --framed < lines
  done 1
  ok
  done 1
  stopped at superstep 1
  done 1
  kept 0
  done 1
  rank 1 stopped: fault LoadOutside
  refused 1
  refused: Over
  done 1
  ok
  done 1
  moved 9
  done 1
  rank 1 stopped: fault LoadOutside
  refused 1
  refused: Over
  $ printf 'go\n' | bspemu debug fault.s --format asm --nodes 2
  rank 1 stopped: fault LoadOutside

Of the nodes it tells the first 16, and how many more there are.

  $ cat > stuck.s <<'END'
  >     li a7, 3
  >     ecall
  >     beqz a0, waits
  >     li a7, 1
  >     ecall
  > waits:
  >     li a7, 4
  >     ecall
  > END
  $ printf 'go\n' | bspemu debug stuck.s --format asm --nodes 2 --interactive
  desync: rank 1 ended, rank 0 synced
  rank 0 pc 0000001c superstep 0 state synced
  rank 1 pc 00000014 superstep 0 state ended
  $ printf 'go\n' | bspemu debug stuck.s --format asm --nodes 16 --interactive | tail -n 1
  rank 15 pc 00000014 superstep 0 state ended
  $ printf 'go\n' | bspemu debug stuck.s --format asm --nodes 17 --interactive | tail -n 2
  rank 15 pc 00000014 superstep 0 state ended
  and 1 more: where shows all
  $ printf 'go\n' | bspemu debug stuck.s --format asm --nodes 1024 --interactive > told
  $ wc -l < told
  18
  $ tail -n 1 told
  and 1008 more: where shows all

The nodes of an exchange that is refused wait for its end; where all have ended, that is all that is told.

  $ cat > refused.s <<'END'
  >     li a7, 3
  >     ecall
  >     bnez a0, waits
  >     li a7, 5
  >     li a0, 0x100
  >     li a1, 4
  >     ecall
  > waits:
  >     li a7, 4
  >     ecall
  > END
  $ printf 'go\n' | bspemu debug refused.s --format asm --nodes 2 --interactive
  refused: SlotMismatch rank 1
  rank 0 pc 00000024 superstep 0 state synced
  rank 1 pc 00000024 superstep 0 state synced
  $ printf 'phase\nturn\n' | bspemu debug examples/ranks.raw --format raw --nodes 3 --interactive
  moved 30
  ended
