  $ cat > program.s <<'END'
  > # What stores of 0xAABBCCDD leave in the bytes 00 80 7F 01 44 00 00 00, at any address, least significant byte first, by the
  > # RISC-V Unprivileged ISA 20191213, section 2.6: t2 and t3 are the two words then. A wrong one is an EBREAK (status 2).
  >     li     t1, 0xAABBCCDD
  >     la     s0, bytes
  >     li     s1, 0x017F8000
  >     sw     s1, 0(s0)
  >     li     s1, 0x44
  >     sw     s1, 4(s0)
  >     la     t0, bytes
  >     sb     t1, 0(t0)
  >     lw     t2, 0(s0)
  >     lw     t3, 4(s0)
  >     li     s1, 0x017F80DD
  >     bne    t2, s1, wrong
  >     li     s1, 68
  >     bne    t3, s1, wrong
  >     la     s0, bytes
  >     li     s1, 0x017F8000
  >     sw     s1, 0(s0)
  >     li     s1, 0x44
  >     sw     s1, 4(s0)
  >     la     t0, bytes
  >     sh     t1, 0(t0)
  >     lw     t2, 0(s0)
  >     lw     t3, 4(s0)
  >     li     s1, 0x017FCCDD
  >     bne    t2, s1, wrong
  >     li     s1, 68
  >     bne    t3, s1, wrong
  >     la     s0, bytes
  >     li     s1, 0x017F8000
  >     sw     s1, 0(s0)
  >     li     s1, 0x44
  >     sw     s1, 4(s0)
  >     la     t0, bytes
  >     sw     t1, 0(t0)
  >     lw     t2, 0(s0)
  >     lw     t3, 4(s0)
  >     li     s1, 0xAABBCCDD
  >     bne    t2, s1, wrong
  >     li     s1, 68
  >     bne    t3, s1, wrong
  >     la     s0, bytes
  >     li     s1, 0x017F8000
  >     sw     s1, 0(s0)
  >     li     s1, 0x44
  >     sw     s1, 4(s0)
  >     la     t0, bytes
  >     sh     t1, 1(t0)
  >     lw     t2, 0(s0)
  >     lw     t3, 4(s0)
  >     li     s1, 0x01CCDD00
  >     bne    t2, s1, wrong
  >     li     s1, 68
  >     bne    t3, s1, wrong
  >     la     s0, bytes
  >     li     s1, 0x017F8000
  >     sw     s1, 0(s0)
  >     li     s1, 0x44
  >     sw     s1, 4(s0)
  >     la     t0, bytes + 2
  >     sw     t1, -1(t0)
  >     lw     t2, 0(s0)
  >     lw     t3, 4(s0)
  >     li     s1, 0xBBCCDD00
  >     bne    t2, s1, wrong
  >     li     s1, 170
  >     bne    t3, s1, wrong
  > # The last byte of the memory, which has 2^20.
  >     li     t0, 0xFFFFF
  >     li     t1, 7
  >     sb     t1, 0(t0)
  >     lbu    t2, 0(t0)
  >     bne    t2, t1, wrong
  >     li     a7, 1                 # end()
  >     ecall
  > wrong:
  >     ebreak
  >     .align 2
  > bytes:
  >     .space 8
  > END
  $ bspemu run program.s --format asm
