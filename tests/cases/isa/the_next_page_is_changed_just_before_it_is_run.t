  $ cat > program.s <<'END'
  > # Code stores into a page that it then runs or jumps into at once, and that was executed before. Each version writes a digit. The first
  > # time the store goes elsewhere, to 0xF000. Nothing is stored into the page from which digits are written.
  >         .entry start
  > show:   la    t6, digits            # writes the digit a0
  >         add   a0, a0, t6
  >         li    a1, 1
  >         li    a7, 17
  >         ecall
  >         ret
  > digits: .ascii "0123456789"
  >         .align 2
  > start:  li    t0, 0xF000
  >         li    t1, 0x00200513        # addi a0, x0, 2
  >         jal   ra, runs              # 1
  >         jal   ra, show
  >         la    t0, first
  >         jal   ra, runs              # 2
  >         jal   ra, show
  >         li    t1, 0x00300513
  >         jal   ra, runs              # 3
  >         jal   ra, show
  >
  >         jal   ra, below             # 1
  >         jal   ra, show
  >         la    t0, below
  >         li    t1, 0x00400513
  >         jal   ra, jumps             # 4
  >         jal   ra, show
  >
  >         jal   ra, above             # 1
  >         jal   ra, show
  >         la    t0, above
  >         li    t1, 0x00500513
  >         jal   ra, leads             # 5
  >         jal   ra, show
  >
  >         li    t0, 0xF000
  >         li    t1, 0x00450513        # addi a0, a0, 4
  >         jal   ra, later             # 1 + 1
  >         jal   ra, show
  >         la    t0, second
  >         jal   ra, later             # 1 + 4
  >         jal   ra, show
  >
  >         li    a5, 0xF000
  >         li    a4, 0x00600513
  >         jal   ra, short             # 1
  >         jal   ra, show
  >         la    a5, third
  >         jal   ra, short             # 6
  >         jal   ra, show
  >         li    a7, 1                 # end()
  >         ecall
  >
  >         .align 12
  >         .space 4092
  > runs:   sw    t1, 0(t0)             # the last word of its page
  > first:  addi  a0, x0, 1
  >         ret
  >
  >         .align 12
  > below:  addi  a0, x0, 1
  >         ret
  >
  >         .align 12
  > jumps:  sw    t1, 0(t0)
  >         jr    t0
  >
  >         .align 12
  >         .space 4088
  > leads:  sw    t1, 0(t0)
  >         beqz  x0, above
  > above:  addi  a0, x0, 1
  >         ret
  >
  >         .align 12
  >         .space 4092
  > later:  sw    t1, 0(t0)
  >         addi  a0, x0, 1
  > second: addi  a0, a0, 1
  >         ret
  >
  >         .align 12
  >         .space 4094
  > short:  .half 0xC398                # c.sw a4, 0(a5), the last two bytes of its page
  > third:  addi  a0, x0, 1
  >         ret
  > END
  $ bspemu run program.s --format asm --report
  12314152516superstep 0: w 164 h 0 m 0 last
  total 164
  ended
