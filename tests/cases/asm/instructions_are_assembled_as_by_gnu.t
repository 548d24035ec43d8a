  $ cat > text.s <<'END'
  > # All 49 instructions, with operands at their edges.
  > start:
  >     add x0, x1, x31
  >     add x31, x0, x15
  >     sub x0, x1, x31
  >     sub x31, x0, x15
  >     sll x0, x1, x31
  >     sll x31, x0, x15
  >     slt x0, x1, x31
  >     slt x31, x0, x15
  >     sltu x0, x1, x31
  >     sltu x31, x0, x15
  >     xor x0, x1, x31
  >     xor x31, x0, x15
  >     srl x0, x1, x31
  >     srl x31, x0, x15
  >     sra x0, x1, x31
  >     sra x31, x0, x15
  >     or x0, x1, x31
  >     or x31, x0, x15
  >     and x0, x1, x31
  >     and x31, x0, x15
  >     mul x0, x1, x31
  >     mul x31, x0, x15
  >     mulh x0, x1, x31
  >     mulh x31, x0, x15
  >     mulhsu x0, x1, x31
  >     mulhsu x31, x0, x15
  >     mulhu x0, x1, x31
  >     mulhu x31, x0, x15
  >     div x0, x1, x31
  >     div x31, x0, x15
  >     divu x0, x1, x31
  >     divu x31, x0, x15
  >     rem x0, x1, x31
  >     rem x31, x0, x15
  >     remu x0, x1, x31
  >     remu x31, x0, x15
  >     addi x5, x6, -2048
  >     addi x31, x0, 2047
  >     addi a0, s11, 0
  >     slti x5, x6, -2048
  >     slti x31, x0, 2047
  >     slti a0, s11, 0
  >     sltiu x5, x6, -2048
  >     sltiu x31, x0, 2047
  >     sltiu a0, s11, 0
  >     xori x5, x6, -2048
  >     xori x31, x0, 2047
  >     xori a0, s11, 0
  >     ori x5, x6, -2048
  >     ori x31, x0, 2047
  >     ori a0, s11, 0
  >     andi x5, x6, -2048
  >     andi x31, x0, 2047
  >     andi a0, s11, 0
  >     slli t0, t6, 0
  >     slli ra, sp, 31
  >     srli t0, t6, 0
  >     srli ra, sp, 31
  >     srai t0, t6, 0
  >     srai ra, sp, 31
  >     lb a0, -2048(sp)
  >     lb zero, 2047(x31)
  >     lb gp, (tp)
  >     lh a0, -2048(sp)
  >     lh zero, 2047(x31)
  >     lh gp, (tp)
  >     lw a0, -2048(sp)
  >     lw zero, 2047(x31)
  >     lw gp, (tp)
  >     lbu a0, -2048(sp)
  >     lbu zero, 2047(x31)
  >     lbu gp, (tp)
  >     lhu a0, -2048(sp)
  >     lhu zero, 2047(x31)
  >     lhu gp, (tp)
  >     sb a7, -2048(s0)
  >     sb x0, 2047(fp)
  >     sb s1, (x1)
  >     sh a7, -2048(s0)
  >     sh x0, 2047(fp)
  >     sh s1, (x1)
  >     sw a7, -2048(s0)
  >     sw x0, 2047(fp)
  >     sw s1, (x1)
  >     beq a0, a1, start
  >     beq x31, x0, end
  >     bne a0, a1, start
  >     bne x31, x0, end
  >     blt a0, a1, start
  >     blt x31, x0, end
  >     bge a0, a1, start
  >     bge x31, x0, end
  >     bltu a0, a1, start
  >     bltu x31, x0, end
  >     bgeu a0, a1, start
  >     bgeu x31, x0, end
  >     lui a0, 0
  >     lui x31, 0xFFFFF
  >     auipc ra, 0x80000
  >     jal x0, start
  >     jal x31, end
  >     jalr x1, -2048(x2)
  >     jalr x0, 2047(x31)
  >     jalr a0, (a1)
  >     fence
  >     fence.i
  >     ecall
  >     ebreak
  > end:
  > END
  $ bspemu asm text.s saved.elf
  $ bspemu list saved.elf
  00000000: 01f08033  add x0,x1,x31
  00000004: 00f00fb3  add x31,x0,x15
  00000008: 41f08033  sub x0,x1,x31
  0000000c: 40f00fb3  sub x31,x0,x15
  00000010: 01f09033  sll x0,x1,x31
  00000014: 00f01fb3  sll x31,x0,x15
  00000018: 01f0a033  slt x0,x1,x31
  0000001c: 00f02fb3  slt x31,x0,x15
  00000020: 01f0b033  sltu x0,x1,x31
  00000024: 00f03fb3  sltu x31,x0,x15
  00000028: 01f0c033  xor x0,x1,x31
  0000002c: 00f04fb3  xor x31,x0,x15
  00000030: 01f0d033  srl x0,x1,x31
  00000034: 00f05fb3  srl x31,x0,x15
  00000038: 41f0d033  sra x0,x1,x31
  0000003c: 40f05fb3  sra x31,x0,x15
  00000040: 01f0e033  or x0,x1,x31
  00000044: 00f06fb3  or x31,x0,x15
  00000048: 01f0f033  and x0,x1,x31
  0000004c: 00f07fb3  and x31,x0,x15
  00000050: 03f08033  mul x0,x1,x31
  00000054: 02f00fb3  mul x31,x0,x15
  00000058: 03f09033  mulh x0,x1,x31
  0000005c: 02f01fb3  mulh x31,x0,x15
  00000060: 03f0a033  mulhsu x0,x1,x31
  00000064: 02f02fb3  mulhsu x31,x0,x15
  00000068: 03f0b033  mulhu x0,x1,x31
  0000006c: 02f03fb3  mulhu x31,x0,x15
  00000070: 03f0c033  div x0,x1,x31
  00000074: 02f04fb3  div x31,x0,x15
  00000078: 03f0d033  divu x0,x1,x31
  0000007c: 02f05fb3  divu x31,x0,x15
  00000080: 03f0e033  rem x0,x1,x31
  00000084: 02f06fb3  rem x31,x0,x15
  00000088: 03f0f033  remu x0,x1,x31
  0000008c: 02f07fb3  remu x31,x0,x15
  00000090: 80030293  addi x5,x6,-2048
  00000094: 7ff00f93  addi x31,x0,2047
  00000098: 000d8513  addi x10,x27,0
  0000009c: 80032293  slti x5,x6,-2048
  000000a0: 7ff02f93  slti x31,x0,2047
  000000a4: 000da513  slti x10,x27,0
  000000a8: 80033293  sltiu x5,x6,-2048
  000000ac: 7ff03f93  sltiu x31,x0,2047
  000000b0: 000db513  sltiu x10,x27,0
  000000b4: 80034293  xori x5,x6,-2048
  000000b8: 7ff04f93  xori x31,x0,2047
  000000bc: 000dc513  xori x10,x27,0
  000000c0: 80036293  ori x5,x6,-2048
  000000c4: 7ff06f93  ori x31,x0,2047
  000000c8: 000de513  ori x10,x27,0
  000000cc: 80037293  andi x5,x6,-2048
  000000d0: 7ff07f93  andi x31,x0,2047
  000000d4: 000df513  andi x10,x27,0
  000000d8: 000f9293  slli x5,x31,0
  000000dc: 01f11093  slli x1,x2,31
  000000e0: 000fd293  srli x5,x31,0
  000000e4: 01f15093  srli x1,x2,31
  000000e8: 400fd293  srai x5,x31,0
  000000ec: 41f15093  srai x1,x2,31
  000000f0: 80010503  lb x10,-2048(x2)
  000000f4: 7fff8003  lb x0,2047(x31)
  000000f8: 00020183  lb x3,0(x4)
  000000fc: 80011503  lh x10,-2048(x2)
  00000100: 7fff9003  lh x0,2047(x31)
  00000104: 00021183  lh x3,0(x4)
  00000108: 80012503  lw x10,-2048(x2)
  0000010c: 7fffa003  lw x0,2047(x31)
  00000110: 00022183  lw x3,0(x4)
  00000114: 80014503  lbu x10,-2048(x2)
  00000118: 7fffc003  lbu x0,2047(x31)
  0000011c: 00024183  lbu x3,0(x4)
  00000120: 80015503  lhu x10,-2048(x2)
  00000124: 7fffd003  lhu x0,2047(x31)
  00000128: 00025183  lhu x3,0(x4)
  0000012c: 81140023  sb x17,-2048(x8)
  00000130: 7e040fa3  sb x0,2047(x8)
  00000134: 00908023  sb x9,0(x1)
  00000138: 81141023  sh x17,-2048(x8)
  0000013c: 7e041fa3  sh x0,2047(x8)
  00000140: 00909023  sh x9,0(x1)
  00000144: 81142023  sw x17,-2048(x8)
  00000148: 7e042fa3  sw x0,2047(x8)
  0000014c: 0090a023  sw x9,0(x1)
  00000150: eab508e3  beq x10,x11,0x00000000
  00000154: 040f8e63  beq x31,x0,0x000001b0
  00000158: eab514e3  bne x10,x11,0x00000000
  0000015c: 040f9a63  bne x31,x0,0x000001b0
  00000160: eab540e3  blt x10,x11,0x00000000
  00000164: 040fc663  blt x31,x0,0x000001b0
  00000168: e8b55ce3  bge x10,x11,0x00000000
  0000016c: 040fd263  bge x31,x0,0x000001b0
  00000170: e8b568e3  bltu x10,x11,0x00000000
  00000174: 020fee63  bltu x31,x0,0x000001b0
  00000178: e8b574e3  bgeu x10,x11,0x00000000
  0000017c: 020ffa63  bgeu x31,x0,0x000001b0
  00000180: 00000537  lui x10,0x0
  00000184: ffffffb7  lui x31,0xfffff
  00000188: 80000097  auipc x1,0x80000
  0000018c: e75ff06f  jal x0,0x00000000
  00000190: 02000fef  jal x31,0x000001b0
  00000194: 800100e7  jalr x1,-2048(x2)
  00000198: 7fff8067  jalr x0,2047(x31)
  0000019c: 00058567  jalr x10,0(x11)
  000001a0: 0ff0000f  fence
  000001a4: 0000100f  fence.i
  000001a8: 00000073  ecall
  000001ac: 00100073  ebreak
  $ od -An -v -tx1 saved.elf
   7f 45 4c 46 01 01 01 00 00 00 00 00 00 00 00 00
   02 00 f3 00 01 00 00 00 00 00 00 00 34 00 00 00
   00 00 00 00 00 00 00 00 34 00 20 00 01 00 00 00
   00 00 00 00 01 00 00 00 54 00 00 00 00 00 00 00
   00 00 00 00 b0 01 00 00 b0 01 00 00 07 00 00 00
   01 00 00 00 33 80 f0 01 b3 0f f0 00 33 80 f0 41
   b3 0f f0 40 33 90 f0 01 b3 1f f0 00 33 a0 f0 01
   b3 2f f0 00 33 b0 f0 01 b3 3f f0 00 33 c0 f0 01
   b3 4f f0 00 33 d0 f0 01 b3 5f f0 00 33 d0 f0 41
   b3 5f f0 40 33 e0 f0 01 b3 6f f0 00 33 f0 f0 01
   b3 7f f0 00 33 80 f0 03 b3 0f f0 02 33 90 f0 03
   b3 1f f0 02 33 a0 f0 03 b3 2f f0 02 33 b0 f0 03
   b3 3f f0 02 33 c0 f0 03 b3 4f f0 02 33 d0 f0 03
   b3 5f f0 02 33 e0 f0 03 b3 6f f0 02 33 f0 f0 03
   b3 7f f0 02 93 02 03 80 93 0f f0 7f 13 85 0d 00
   93 22 03 80 93 2f f0 7f 13 a5 0d 00 93 32 03 80
   93 3f f0 7f 13 b5 0d 00 93 42 03 80 93 4f f0 7f
   13 c5 0d 00 93 62 03 80 93 6f f0 7f 13 e5 0d 00
   93 72 03 80 93 7f f0 7f 13 f5 0d 00 93 92 0f 00
   93 10 f1 01 93 d2 0f 00 93 50 f1 01 93 d2 0f 40
   93 50 f1 41 03 05 01 80 03 80 ff 7f 83 01 02 00
   03 15 01 80 03 90 ff 7f 83 11 02 00 03 25 01 80
   03 a0 ff 7f 83 21 02 00 03 45 01 80 03 c0 ff 7f
   83 41 02 00 03 55 01 80 03 d0 ff 7f 83 51 02 00
   23 00 14 81 a3 0f 04 7e 23 80 90 00 23 10 14 81
   a3 1f 04 7e 23 90 90 00 23 20 14 81 a3 2f 04 7e
   23 a0 90 00 e3 08 b5 ea 63 8e 0f 04 e3 14 b5 ea
   63 9a 0f 04 e3 40 b5 ea 63 c6 0f 04 e3 5c b5 e8
   63 d2 0f 04 e3 68 b5 e8 63 ee 0f 02 e3 74 b5 e8
   63 fa 0f 02 37 05 00 00 b7 ff ff ff 97 00 00 80
   6f f0 5f e7 ef 0f 00 02 e7 00 01 80 67 80 ff 7f
   67 85 05 00 0f 00 f0 0f 0f 10 00 00 73 00 00 00
   73 00 10 00
