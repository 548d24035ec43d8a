  $ cat > program.s <<'END'
  > # A loop calls code in another page a thousand times. Then a word of zeros is stored over that code, and it is called once more: no
  > # instruction. The ticks are those of the steps before the fault and the one with it.
  >         .entry start
  > start:  la    t0, code
  >         li    t1, 1000
  > loop:   jal   ra, code
  >         addi  t1, t1, -1
  >         bnez  t1, loop
  >         sw    x0, 0(t0)
  >         jal   ra, code
  >         .align 12
  > code:   addi  t2, t2, 1
  >         ret
  > END
  $ bspemu run program.s --format asm --report
  superstep 0: w 5006 h 0 m 0 last
  total 5006
  rank 0 stopped: fault IllegalInstruction
  [2]
