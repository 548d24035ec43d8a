  $ cat > longer.s <<'END'
  > # The same with one instruction more, which the limit leaves out.
  >         li t0,499995
  > loop:   addi t0,t0,-1
  >         bnez t0,loop
  >         sw sp,256(zero)
  >         li a0,256
  >         li a1,4
  >         li a7,17
  >         ecall
  >         nop
  >         nop
  >         li a7,1
  >         ecall
  > END
  $ cat > text.s <<'END'
  > # Writes the stack pointer, which is the size of the memory, and ends by its millionth instruction.
  >         li t0,499995
  > loop:   addi t0,t0,-1
  >         bnez t0,loop
  >         sw sp,256(zero)
  >         li a0,256
  >         li a1,4
  >         li a7,17
  >         ecall
  >         nop
  >         li a7,1
  >         ecall
  > END
  $ bspemu run text.s --format asm
  \x00\x00\x10\x00 (esc) (no-eol)
  $ bspemu run longer.s --format asm
  \x00\x00\x10\x00 (esc) (no-eol)
  [3]
