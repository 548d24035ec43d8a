  $ cat > program.s <<'END'
  > # Of four nodes one after another changes code that all of them execute; the others keep that of the image. Each rank writes a digit for the
  > # version that it has.
  >         .entry start
  > show:   la    t6, digits            # writes the digit a0
  >         add   a0, a0, t6
  >         li    a1, 1
  >         li    a7, 17
  >         ecall
  >         ret
  > digits: .ascii "0123456789"
  >         .align 2
  > start:  li    a7, 3                 # pid()
  >         ecall
  >         mv    s0, a0
  >         jal   ra, code
  >         jal   ra, show              # 1
  >         li    s1, 2
  >         li    t1, 0x00200513        # addi a0, x0, 2
  >         jal   ra, change
  >         jal   ra, code
  >         jal   ra, show              # 2 of rank 2
  >         li    a7, 4                 # sync()
  >         ecall
  >
  >         li    s1, 0
  >         li    t1, 0x00300513
  >         jal   ra, change
  >         jal   ra, code
  >         jal   ra, show              # 3 of rank 0
  >         li    a7, 4                 # sync()
  >         ecall
  >
  >         jal   ra, code
  >         jal   ra, show
  >         li    s1, 3
  >         li    t1, 0x00400513
  >         jal   ra, change
  >         li    s2, 1000
  > loop:   jal   ra, code
  >         addi  s2, s2, -1
  >         bnez  s2, loop
  >         jal   ra, show              # 4 of rank 3
  >         li    a7, 1                 # end()
  >         ecall
  >
  > change: la    t0, code              # the first instruction is t1 then, in rank s1 alone
  >         bne   s0, s1, keep
  >         sw    t1, 0(t0)
  > keep:   ret
  >
  >         .align 12
  > code:   addi  a0, x0, 1
  >         ret
  > END
  $ bspemu run program.s --format asm --nodes 4
  11111211312133112214 (no-eol)
  $ bspemu run program.s --format asm --nodes 4 --workers 3 --slice 1
  11111211312133112214 (no-eol)
  $ bspemu run program.s --format asm --nodes 4 --workers 2 --slice 100
  11111211312133112214 (no-eol)
