  $ cat > program.s <<'END'
  > # Each rank executes code, and then a put lands there, and then a get: what landed is executed, and not before it has landed. The code
  > # is the last word of a page and the first one of the next, and no rank stores into either by itself. Each version writes a digit.
  >         .entry start
  > show:   la    t6, digits            # writes the digit a0
  >         add   a0, a0, t6
  >         li    a1, 1
  >         li    a7, 17
  >         ecall
  >         ret
  > digits: .ascii "0123456789"
  >         .align 2
  > twos:   .word 0x00100513, 0x00150513    # addi a0, x0, 1; addi a0, a0, 1: what rank 0 puts
  >         .word 0x00100513, 0x00250513    # and rank 1
  >         .word 0x00200513, 0x00250513    # and rank 2
  > start:  li    a7, 3                 # pid()
  >         ecall
  >         mv    s0, a0
  >         la    a0, code
  >         li    a1, 8
  >         li    a7, 5                 # push_reg(code, 8)
  >         ecall
  >         jal   ra, code
  >         jal   ra, show              # 1 1 1
  >         li    a7, 4                 # sync()
  >         ecall
  >
  >         addi  a0, s0, 1             # to the next rank, and from the last one to rank 0
  >         li    t0, 3
  >         bne   a0, t0, put
  >         li    a0, 0
  > put:    mv    s1, a0
  >         slli  t0, s0, 3
  >         la    a1, twos
  >         add   a1, a1, t0
  >         la    a2, code
  >         li    a3, 0
  >         li    a4, 8
  >         li    a7, 7                 # put(s1, twos + 8 times the rank, code, 0, 8)
  >         ecall
  >         jal   ra, code
  >         jal   ra, show              # 1 1 1: nothing has landed
  >         li    a7, 4                 # sync()
  >         ecall
  >
  >         jal   ra, code
  >         jal   ra, show              # 4 2 3: those of ranks 2, 0 and 1
  >         mv    a0, s1
  >         la    a1, code
  >         li    a2, 0
  >         la    a3, code
  >         li    a4, 8
  >         li    a7, 8                 # get(s1, code, 0, code, 8)
  >         ecall
  >         jal   ra, code
  >         jal   ra, show              # 4 2 3
  >         li    a7, 4                 # sync()
  >         ecall
  >
  >         jal   ra, code
  >         jal   ra, show              # 2 3 4: what the next rank had
  >         li    a7, 4                 # sync()
  >         ecall
  >
  >         la    a1, other             # a put that changes the word in the second page alone, at rank 1
  >         li    t0, 2
  >         bne   s0, t0, wait
  >         li    a0, 1
  >         la    a2, code
  >         li    a3, 4
  >         li    a4, 4
  >         li    a7, 7                 # put(1, other, code, 4, 4)
  >         ecall
  > wait:   li    a7, 4                 # sync()
  >         ecall
  >         jal   ra, code
  >         jal   ra, show              # 2 8 4
  >         li    a7, 1                 # end()
  >         ecall
  > other:  .word 0x00750513            # addi a0, a0, 7
  >
  >         .align 12
  >         .space 4092
  > code:   addi  a0, x0, 1             # the last word of a page
  >         addi  a0, a0, 0
  >         ret
  > END
  $ bspemu run program.s --format asm --nodes 3 --report
  111111442233234284superstep 0: w 22 h 0 m 0 turned
  superstep 1: w 29 h 8 m 0 turned
  superstep 2: w 35 h 8 m 0 turned
  superstep 3: w 14 h 0 m 0 turned
  superstep 4: w 13 h 4 m 0 turned
  superstep 5: w 14 h 0 m 0 last
  total 147
  ended
