  $ cat > text.s <<'END'
  > # Ranks 0 to 15 each reach past the memory by one access, so that they stop there and write nothing. The accesses of rank 16
  > # end with the memory.
  >         li   a7, 3              # pid(): a0 is the rank
  >         ecall
  >         lui  s0, 1              # the memory's size
  >         la   t0, access
  >         slli a0, a0, 3
  >         add  t0, t0, a0
  >         jr   t0
  > access: lbu  t1, 0(s0)
  >         j    made
  >         lhu  t1, -1(s0)
  >         j    made
  >         lhu  t1, 0(s0)
  >         j    made
  >         lw   t1, -3(s0)
  >         j    made
  >         lw   t1, -2(s0)
  >         j    made
  >         lw   t1, -1(s0)
  >         j    made
  >         lw   t1, 0(s0)
  >         j    made
  >         sb   x0, 0(s0)
  >         j    made
  >         sh   x0, -1(s0)
  >         j    made
  >         sh   x0, 0(s0)
  >         j    made
  >         sw   x0, -3(s0)
  >         j    made
  >         sw   x0, -2(s0)
  >         j    made
  >         sw   x0, -1(s0)
  >         j    made
  >         sw   x0, 0(s0)
  >         j    made
  >         lw   t1, -1(x0)         # the last address of all
  >         j    made
  >         sw   x0, -1(x0)
  >         j    made
  >         sw   t0, -4(s0)
  >         sh   t0, -2(s0)
  >         sb   t0, -1(s0)
  >         lw   t1, -4(s0)
  >         lhu  t1, -2(s0)
  >         lbu  t1, -1(s0)
  > made:   la   a0, text
  >         li   a1, 1
  >         li   a7, 17             # write(text, 1)
  >         ecall
  >         li   a7, 1              # end()
  >         ecall
  > text:   .ascii "w"
  > END
  $ bspemu run text.s --format asm --nodes 17 --memory 4096
  w (no-eol)
  [2]
