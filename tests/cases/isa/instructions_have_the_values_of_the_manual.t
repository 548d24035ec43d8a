  $ cat > program.s <<'END'
  > # What each instruction puts into its register, by the RISC-V Unprivileged ISA 20191213, chapters 2 and 7: of t0 and t1 the
  > # instruction makes t2, and t3 is what it has to be. A wrong value is an EBREAK (status 2); with none the program ends.
  >     auipc  t2, 0x12345           # at address 0
  >     lui    t3, 0x12345
  >     bne    t2, t3, wrong
  >     auipc  t2, 0xFFFFF           # at address 12
  >     li     t3, 0xFFFFF00C
  >     bne    t2, t3, wrong
  >     li     t0, 0x7FFFFFFF
  >     li     t1, 1
  >     add    t2, t0, t1
  >     li     t3, 0x80000000
  >     bne    t2, t3, wrong
  >     li     t0, -1
  >     li     t1, -1
  >     add    t2, t0, t1
  >     li     t3, -2
  >     bne    t2, t3, wrong
  >     li     t0, 0
  >     li     t1, 1
  >     sub    t2, t0, t1
  >     li     t3, -1
  >     bne    t2, t3, wrong
  >     li     t0, 0x80000000
  >     sub    t2, t0, t1
  >     li     t3, 0x7FFFFFFF
  >     bne    t2, t3, wrong
  >     li     t0, 0x80000001
  >     li     t1, 0
  >     sll    t2, t0, t1
  >     li     t3, 0x80000001
  >     bne    t2, t3, wrong
  >     li     t0, -1
  >     li     t1, 31
  >     sll    t2, t0, t1
  >     li     t3, 0x80000000
  >     bne    t2, t3, wrong
  >     li     t0, 1
  >     li     t1, 33
  >     sll    t2, t0, t1
  >     li     t3, 2
  >     bne    t2, t3, wrong
  >     li     t0, 0x80000001
  >     li     t1, 0
  >     srl    t2, t0, t1
  >     li     t3, 0x80000001
  >     bne    t2, t3, wrong
  >     li     t0, 0x80000000
  >     li     t1, 31
  >     srl    t2, t0, t1
  >     li     t3, 1
  >     bne    t2, t3, wrong
  >     li     t1, -1
  >     srl    t2, t0, t1
  >     bne    t2, t3, wrong
  >     li     t0, 0x80000001
  >     li     t1, 0
  >     sra    t2, t0, t1
  >     li     t3, 0x80000001
  >     bne    t2, t3, wrong
  >     li     t0, 0x80000000
  >     li     t1, 31
  >     sra    t2, t0, t1
  >     li     t3, -1
  >     bne    t2, t3, wrong
  >     li     t0, 0x7FFFFFFF
  >     sra    t2, t0, t1
  >     li     t3, 0
  >     bne    t2, t3, wrong
  >     li     t0, 0x80000000
  >     li     t1, 33
  >     sra    t2, t0, t1
  >     li     t3, 0xC0000000
  >     bne    t2, t3, wrong
  >     li     t1, 0
  >     slt    t2, t0, t1
  >     li     t3, 1
  >     bne    t2, t3, wrong
  >     li     t0, 0
  >     li     t1, 0x80000000
  >     slt    t2, t0, t1
  >     li     t3, 0
  >     bne    t2, t3, wrong
  >     li     t0, -1
  >     li     t1, 1
  >     slt    t2, t0, t1
  >     li     t3, 1
  >     bne    t2, t3, wrong
  >     li     t0, 5
  >     li     t1, 5
  >     slt    t2, t0, t1
  >     li     t3, 0
  >     bne    t2, t3, wrong
  >     li     t0, 0x80000000
  >     li     t1, 0
  >     sltu   t2, t0, t1
  >     bne    t2, t3, wrong
  >     li     t0, 0
  >     li     t1, 0x80000000
  >     sltu   t2, t0, t1
  >     li     t3, 1
  >     bne    t2, t3, wrong
  >     li     t0, -1
  >     li     t1, 1
  >     sltu   t2, t0, t1
  >     li     t3, 0
  >     bne    t2, t3, wrong
  >     li     t0, 5
  >     li     t1, 5
  >     sltu   t2, t0, t1
  >     bne    t2, t3, wrong
  >     li     t0, 0x0000FF00
  >     li     t1, 4080
  >     xor    t2, t0, t1
  >     li     t3, 0x0000F0F0
  >     bne    t2, t3, wrong
  >     or     t2, t0, t1
  >     li     t3, 0x0000FFF0
  >     bne    t2, t3, wrong
  >     and    t2, t0, t1
  >     li     t3, 3840
  >     bne    t2, t3, wrong
  >     li     t0, -1
  >     li     t1, -1
  >     mul    t2, t0, t1
  >     li     t3, 1
  >     bne    t2, t3, wrong
  >     li     t0, 0x80000000
  >     li     t1, 2
  >     mul    t2, t0, t1
  >     li     t3, 0
  >     bne    t2, t3, wrong
  >     li     t0, 0x00010001
  >     li     t1, 0x00010001
  >     mul    t2, t0, t1
  >     li     t3, 0x00020001
  >     bne    t2, t3, wrong
  >     li     t0, -1
  >     li     t1, -1
  >     mulh   t2, t0, t1
  >     li     t3, 0
  >     bne    t2, t3, wrong
  >     li     t0, 0x80000000
  >     li     t1, 0x80000000
  >     mulh   t2, t0, t1
  >     li     t3, 0x40000000
  >     bne    t2, t3, wrong
  >     li     t1, 0x7FFFFFFF
  >     mulh   t2, t0, t1
  >     li     t3, 0xC0000000
  >     bne    t2, t3, wrong
  >     li     t0, -1
  >     li     t1, -1
  >     mulhsu t2, t0, t1
  >     li     t3, -1
  >     bne    t2, t3, wrong
  >     li     t0, 0x80000000
  >     li     t1, 0x80000000
  >     mulhsu t2, t0, t1
  >     li     t3, 0xC0000000
  >     bne    t2, t3, wrong
  >     li     t0, 2
  >     li     t1, -1
  >     mulhsu t2, t0, t1
  >     li     t3, 1
  >     bne    t2, t3, wrong
  >     li     t0, -1
  >     mulhu  t2, t0, t1
  >     li     t3, -2
  >     bne    t2, t3, wrong
  >     li     t0, 0x80000000
  >     li     t1, 0x80000000
  >     mulhu  t2, t0, t1
  >     li     t3, 0x40000000
  >     bne    t2, t3, wrong
  >     li     t0, 0
  >     addi   t2, t0, -1
  >     li     t3, -1
  >     bne    t2, t3, wrong
  >     li     t0, 0x7FFFFFFF
  >     addi   t2, t0, 2047
  >     li     t3, 0x800007FE
  >     bne    t2, t3, wrong
  >     li     t0, 0x80000000
  >     slti   t2, t0, -1
  >     li     t3, 1
  >     bne    t2, t3, wrong
  >     li     t0, -1
  >     slti   t2, t0, -1
  >     li     t3, 0
  >     bne    t2, t3, wrong
  >     li     t0, 0x7FFFFFFF
  >     slti   t2, t0, 0
  >     bne    t2, t3, wrong
  >     li     t0, 0
  >     sltiu  t2, t0, -1
  >     li     t3, 1
  >     bne    t2, t3, wrong
  >     li     t0, -1
  >     sltiu  t2, t0, -1
  >     li     t3, 0
  >     bne    t2, t3, wrong
  >     li     t0, 0
  >     sltiu  t2, t0, 1
  >     li     t3, 1
  >     bne    t2, t3, wrong
  >     li     t0, 1
  >     sltiu  t2, t0, 1
  >     li     t3, 0
  >     bne    t2, t3, wrong
  >     li     t0, 0x80000000
  >     xori   t2, t0, -1
  >     li     t3, 0x7FFFFFFF
  >     bne    t2, t3, wrong
  >     li     t0, 0
  >     ori    t2, t0, -2048
  >     li     t3, -2048
  >     bne    t2, t3, wrong
  >     li     t0, -1
  >     andi   t2, t0, -16
  >     li     t3, -16
  >     bne    t2, t3, wrong
  >     li     t0, 0x80000001
  >     slli   t2, t0, 0
  >     li     t3, 0x80000001
  >     bne    t2, t3, wrong
  >     li     t0, -1
  >     slli   t2, t0, 31
  >     li     t3, 0x80000000
  >     bne    t2, t3, wrong
  >     li     t0, 0x80000001
  >     srli   t2, t0, 0
  >     li     t3, 0x80000001
  >     bne    t2, t3, wrong
  >     li     t0, 0x80000000
  >     srli   t2, t0, 31
  >     li     t3, 1
  >     bne    t2, t3, wrong
  >     li     t0, 0x80000001
  >     srai   t2, t0, 0
  >     li     t3, 0x80000001
  >     bne    t2, t3, wrong
  >     li     t0, 0x80000000
  >     srai   t2, t0, 31
  >     li     t3, -1
  >     bne    t2, t3, wrong
  >     li     t0, 0x7FFFFFFF
  >     srai   t2, t0, 31
  >     li     t3, 0
  >     bne    t2, t3, wrong
  >     sltiu  t2, x0, -1
  >     li     t3, 1
  >     bne    t2, t3, wrong
  >     lui    t2, 0xfffff
  >     li     t3, 0xFFFFF000
  >     bne    t2, t3, wrong
  >     lui    t2, 1
  >     li     t3, 0x00001000
  >     bne    t2, t3, wrong
  >     la     t0, data
  >     lb     t2, 1(t0)
  >     li     t3, -128
  >     bne    t2, t3, wrong
  >     lbu    t2, 1(t0)
  >     li     t3, 128
  >     bne    t2, t3, wrong
  >     lb     t2, 2(t0)
  >     li     t3, 127
  >     bne    t2, t3, wrong
  >     lh     t2, 0(t0)
  >     li     t3, 0xFFFF8000
  >     bne    t2, t3, wrong
  >     lhu    t2, 0(t0)
  >     li     t3, 0x00008000
  >     bne    t2, t3, wrong
  >     lh     t2, 2(t0)
  >     li     t3, 383
  >     bne    t2, t3, wrong
  >     lw     t2, 0(t0)
  >     li     t3, 0x017F8000
  >     bne    t2, t3, wrong
  >     lw     t2, 1(t0)
  >     li     t3, 0x44017F80
  >     bne    t2, t3, wrong
  >     la     t0, data + 1
  >     lw     t2, -1(t0)
  >     li     t3, 0x017F8000
  >     bne    t2, t3, wrong
  >     li     t0, 0x000FFFFC
  >     lw     t2, 0(t0)
  >     li     t3, 0
  >     bne    t2, t3, wrong
  >     li     t0, 7
  >     li     t1, 0
  >     divu   t2, t0, t1
  >     li     t3, -1
  >     bne    t2, t3, wrong
  >     remu   t2, t0, t1
  >     li     t3, 7
  >     bne    t2, t3, wrong
  >     div    t2, t0, t1
  >     li     t3, -1
  >     bne    t2, t3, wrong
  >     rem    t2, t0, t1
  >     li     t3, 7
  >     bne    t2, t3, wrong
  >     li     t0, 0x80000000
  >     divu   t2, t0, t1
  >     li     t3, -1
  >     bne    t2, t3, wrong
  >     remu   t2, t0, t1
  >     li     t3, 0x80000000
  >     bne    t2, t3, wrong
  >     div    t2, t0, t1
  >     li     t3, -1
  >     bne    t2, t3, wrong
  >     rem    t2, t0, t1
  >     li     t3, 0x80000000
  >     bne    t2, t3, wrong
  >     li     t1, -1
  >     div    t2, t0, t1
  >     bne    t2, t3, wrong
  >     rem    t2, t0, t1
  >     li     t3, 0
  >     bne    t2, t3, wrong
  >     divu   t2, t0, t1
  >     bne    t2, t3, wrong
  >     remu   t2, t0, t1
  >     li     t3, 0x80000000
  >     bne    t2, t3, wrong
  >     li     t0, -7
  >     li     t1, 2
  >     div    t2, t0, t1
  >     li     t3, -3
  >     bne    t2, t3, wrong
  >     rem    t2, t0, t1
  >     li     t3, -1
  >     bne    t2, t3, wrong
  >     li     t0, 7
  >     li     t1, -2
  >     div    t2, t0, t1
  >     li     t3, -3
  >     bne    t2, t3, wrong
  >     rem    t2, t0, t1
  >     li     t3, 1
  >     bne    t2, t3, wrong
  >     li     t0, -7
  >     div    t2, t0, t1
  >     li     t3, 3
  >     bne    t2, t3, wrong
  >     rem    t2, t0, t1
  >     li     t3, -1
  >     bne    t2, t3, wrong
  >     li     t1, 2
  >     divu   t2, t0, t1
  >     li     t3, 0x7FFFFFFC
  >     bne    t2, t3, wrong
  >     remu   t2, t0, t1
  >     li     t3, 1
  >     bne    t2, t3, wrong
  > # A write to x0 is dropped, and a fence writes nothing.
  >     li     t0, 1
  >     li     t1, 2
  >     add    x0, t0, t1
  >     mv     t2, x0
  >     bnez   t2, wrong
  >     fence
  >     fence.i
  >     li     t3, 1
  >     bne    t0, t3, wrong
  >     li     t3, 2
  >     bne    t1, t3, wrong
  >     li     a7, 1                 # end()
  >     ecall
  > wrong:
  >     ebreak
  >     .align 2
  > data:
  >     .byte  0x00, 0x80, 0x7F, 0x01, 0x44
  > END
  $ bspemu run program.s --format asm
