A dialogue tells registers by their numbers and by the names that the assembler takes; a script and a framed session by numbers alone.

  $ cat > names.s <<'END'
  >     li zero, 0
  >     li ra, 1
  >     li sp, 2
  >     li gp, 3
  >     li tp, 4
  >     li t0, 5
  >     li t1, 6
  >     li t2, 7
  >     li s0, 8
  >     li s1, 9
  >     li a0, 10
  >     li a1, 11
  >     li a2, 12
  >     li a3, 13
  >     li a4, 14
  >     li a5, 15
  >     li a6, 16
  >     li a7, 17
  >     li s2, 18
  >     li s3, 19
  >     li s4, 20
  >     li s5, 21
  >     li s6, 22
  >     li s7, 23
  >     li s8, 24
  >     li s9, 25
  >     li s10, 26
  >     li s11, 27
  >     li t3, 28
  >     li t4, 29
  >     li t5, 30
  >     li t6, 31
  > END
  $ cat > lines <<'END'
  > step 0 32
  > regs 0
  > regs 1
  > END
  $ bspemu debug names.s --format asm --interactive < lines
  moved 32
  rank 0 pc 00000080 ticks 32 state running
  x0/zero=00000000   x1/ra=00000001   x2/sp=00000002   x3/gp=00000003
    x4/tp=00000004   x5/t0=00000005   x6/t1=00000006   x7/t2=00000007
    x8/s0=00000008   x9/s1=00000009  x10/a0=0000000a  x11/a1=0000000b
   x12/a2=0000000c  x13/a3=0000000d  x14/a4=0000000e  x15/a5=0000000f
   x16/a6=00000010  x17/a7=00000011  x18/s2=00000012  x19/s3=00000013
   x20/s4=00000014  x21/s5=00000015  x22/s6=00000016  x23/s7=00000017
   x24/s8=00000018  x25/s9=00000019 x26/s10=0000001a x27/s11=0000001b
   x28/t3=0000001c  x29/t4=0000001d  x30/t5=0000001e  x31/t6=0000001f
  refused: BadRank
  $ bspemu debug names.s --format asm < lines
  moved 32
  rank 0 pc 00000080 ticks 32 state running
  x0=00000000 x1=00000001 x2=00000002 x3=00000003
  x4=00000004 x5=00000005 x6=00000006 x7=00000007
  x8=00000008 x9=00000009 x10=0000000a x11=0000000b
  x12=0000000c x13=0000000d x14=0000000e x15=0000000f
  x16=00000010 x17=00000011 x18=00000012 x19=00000013
  x20=00000014 x21=00000015 x22=00000016 x23=00000017
  x24=00000018 x25=00000019 x26=0000001a x27=0000001b
  x28=0000001c x29=0000001d x30=0000001e x31=0000001f
  refused: BadRank
  $ bspemu debug names.s --format asm --framed < lines
  done 1
  moved 32
  done 9
  rank 0 pc 00000080 ticks 32 state running
  x0=00000000 x1=00000001 x2=00000002 x3=00000003
  x4=00000004 x5=00000005 x6=00000006 x7=00000007
  x8=00000008 x9=00000009 x10=0000000a x11=0000000b
  x12=0000000c x13=0000000d x14=0000000e x15=0000000f
  x16=00000010 x17=00000011 x18=00000012 x19=00000013
  x20=00000014 x21=00000015 x22=00000016 x23=00000017
  x24=00000018 x25=00000019 x26=0000001a x27=0000001b
  x28=0000001c x29=0000001d x30=0000001e x31=0000001f
  refused 1
  refused: BadRank
