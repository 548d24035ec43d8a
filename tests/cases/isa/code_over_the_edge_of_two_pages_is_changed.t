  $ cat > program.s <<'END'
  > # An instruction of four bytes whose halves lie in two pages is changed in either of them and in both, and so are two instructions that
  > # meet at an edge. Before and after, each is executed and writes a digit. Nothing is stored into the page from which they are written.
  >         .entry start
  > show:   la    t6, digits            # writes the digit a0
  >         add   a0, a0, t6
  >         li    a1, 1
  >         li    a7, 17
  >         ecall
  >         ret
  > digits: .ascii "0123456789"
  >         .align 2
  > start:  jal   ra, upper             # 1
  >         jal   ra, show
  >         li    t0, 0x2000            # the upper half, in the second page: addi a0, x0, 2
  >         li    t1, 0x0020
  >         sh    t1, 0(t0)
  >         jal   ra, upper             # 2
  >         jal   ra, show
  >         li    t1, 0x00600513        # both halves, the first page being shared: addi a0, x0, 6
  >         sw    t1, -2(t0)
  >         jal   ra, upper             # 6
  >         jal   ra, show
  >
  >         jal   ra, lower             # 1
  >         jal   ra, show
  >         li    t0, 0x3FFE            # the lower half, in the first page: addi a1, x0, 1, so that a0 stays
  >         li    t1, 0x0593
  >         sh    t1, 0(t0)
  >         li    a0, 7
  >         jal   ra, lower             # 7
  >         jal   ra, show
  >         li    t1, 0x00800513        # both halves, the second page being shared: addi a0, x0, 8
  >         sw    t1, 0(t0)
  >         jal   ra, lower             # 8
  >         jal   ra, show
  >
  >         jal   ra, both              # 1
  >         jal   ra, show
  >         li    t0, 0x5FFE            # both halves, in two shared pages: addi a0, x0, 3
  >         li    t1, 0x00300513
  >         sw    t1, 0(t0)
  >         jal   ra, both              # 3
  >         jal   ra, show
  >         li    t1, 0x00400513        # both once more: addi a0, x0, 4
  >         sw    t1, 0(t0)
  >         jal   ra, both              # 4
  >         jal   ra, show
  >
  >         jal   ra, meet              # 1 + 1
  >         jal   ra, show
  >         li    t0, 0x7FFE            # the upper half of one word and the lower half of the next: addi a0, x0, 5, and xori a0, a0, 1
  >         li    t1, 0x45130050
  >         sw    t1, 0(t0)
  >         jal   ra, meet              # 4; without the first change 0, without the second 6
  >         jal   ra, show
  >
  >         jal   ra, bytes             # 19 shifted by 2
  >         jal   ra, show
  >         li    t0, 0x9FFF            # a byte of each: addi a0, x0, 3, and srl a0, a0, sp, whose lower bits are 0
  >         li    t1, 0x3300
  >         sh    t1, 0(t0)
  >         jal   ra, bytes             # 3; without the first change no digit, without the second 0
  >         jal   ra, show
  >         li    a7, 1                 # end()
  >         ecall
  >
  >         .align 12
  >         .space 4092
  > upper:  .half 0x0001                # c.nop
  >         .word 0x00100513            # addi a0, x0, 1, at 0x1FFE
  >         .half 0x8082                # c.jr ra
  >
  >         .align 12
  >         .space 4092
  > lower:  .half 0x0001
  >         .word 0x00100513            # at 0x3FFE
  >         .half 0x8082
  >
  >         .align 12
  >         .space 4092
  > both:   .half 0x0001
  >         .word 0x00100513            # at 0x5FFE
  >         .half 0x8082
  >
  >         .align 12
  >         .space 4092
  > meet:   addi  a0, x0, 1             # at 0x7FFC
  >         addi  a0, a0, 1
  >         ret
  >
  >         .align 12
  >         .space 4092
  > bytes:  addi  a0, x0, 19            # at 0x9FFC
  >         srli  a0, a0, 2
  >         ret
  > END
  $ bspemu run program.s --format asm --report
  1261781342443superstep 0: w 191 h 0 m 0 last
  total 191
  ended
