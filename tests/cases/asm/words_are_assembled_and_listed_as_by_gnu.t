  $ cat > text.s <<'END'
  > # Statements as GNU objdump lists the words of GNU as (2.40, Debian packages binutils-riscv64-unknown-elf 2.40-2+4+b1), which are those of
  > # the image: `objdump -D -b binary -m riscv:rv32 -M no-aliases,numeric`, with shift amounts in decimal, targets of eight digits and fences
  > # without their orders.
  >         add x1,x2,x3
  >         add x31,x0,x15
  >         add x16,x1,x5
  >         sub x1,x2,x3
  >         sub x0,x31,x16
  >         sub x8,x8,x18
  >         sll x1,x2,x3
  >         sll x10,x17,x8
  >         sll x4,x15,x31
  >         slt x1,x2,x3
  >         slt x31,x0,x15
  >         slt x2,x22,x12
  >         sltu x1,x2,x3
  >         sltu x0,x31,x16
  >         sltu x1,x29,x25
  >         xor x1,x2,x3
  >         xor x10,x17,x8
  >         xor x16,x4,x6
  >         srl x1,x2,x3
  >         srl x31,x0,x15
  >         srl x8,x11,x19
  >         sra x1,x2,x3
  >         sra x0,x31,x16
  >         sra x4,x18,x0
  >         or x1,x2,x3
  >         or x10,x17,x8
  >         or x2,x25,x13
  >         and x1,x2,x3
  >         and x31,x0,x15
  >         and x1,x0,x26
  >         mul x1,x2,x3
  >         mul x0,x31,x16
  >         mul x16,x7,x7
  >         mulh x1,x2,x3
  >         mulh x10,x17,x8
  >         mulh x8,x14,x20
  >         mulhsu x1,x2,x3
  >         mulhsu x31,x0,x15
  >         mulhsu x4,x21,x1
  >         mulhu x1,x2,x3
  >         mulhu x0,x31,x16
  >         mulhu x2,x28,x14
  >         div x1,x2,x3
  >         div x10,x17,x8
  >         div x1,x3,x27
  >         divu x1,x2,x3
  >         divu x31,x0,x15
  >         divu x16,x10,x8
  >         rem x1,x2,x3
  >         rem x0,x31,x16
  >         rem x8,x17,x21
  >         remu x1,x2,x3
  >         remu x10,x17,x8
  >         remu x4,x24,x2
  >         addi x1,x2,0
  >         addi x31,x0,-1
  >         addi x0,x31,2047
  >         addi x6,x16,-2048
  >         addi x8,x4,1365
  >         slti x1,x2,0
  >         slti x31,x0,-1
  >         slti x0,x31,2047
  >         slti x11,x19,-2048
  >         slti x8,x5,-1366
  >         sltiu x1,x2,0
  >         sltiu x31,x0,-1
  >         sltiu x0,x31,2047
  >         sltiu x16,x22,-2048
  >         sltiu x8,x6,1024
  >         xori x1,x2,0
  >         xori x31,x0,-1
  >         xori x0,x31,2047
  >         xori x21,x25,-2048
  >         xori x8,x7,-1024
  >         ori x1,x2,0
  >         ori x31,x0,-1
  >         ori x0,x31,2047
  >         ori x26,x28,-2048
  >         ori x8,x8,85
  >         andi x1,x2,0
  >         andi x31,x0,-1
  >         andi x0,x31,2047
  >         andi x31,x31,-2048
  >         andi x8,x9,512
  >         slli x1,x2,0
  >         slli x31,x16,31
  >         slli x0,x31,1
  >         slli x8,x15,16
  >         srli x1,x2,0
  >         srli x31,x16,31
  >         srli x0,x31,1
  >         srli x8,x15,17
  >         srai x1,x2,0
  >         srai x31,x16,31
  >         srai x0,x31,1
  >         srai x8,x15,18
  >         lb x1,0(x2)
  >         lb x31,-2048(x16)
  >         lb x0,2047(x31)
  >         lb x10,-4(x8)
  >         lh x1,0(x2)
  >         lh x31,-2048(x16)
  >         lh x0,2047(x31)
  >         lh x10,-3(x8)
  >         lw x1,0(x2)
  >         lw x31,-2048(x16)
  >         lw x0,2047(x31)
  >         lw x10,-2(x8)
  >         lbu x1,0(x2)
  >         lbu x31,-2048(x16)
  >         lbu x0,2047(x31)
  >         lbu x10,-1(x8)
  >         lhu x1,0(x2)
  >         lhu x31,-2048(x16)
  >         lhu x0,2047(x31)
  >         lhu x10,0(x8)
  >         sb x1,0(x2)
  >         sb x31,-2048(x16)
  >         sb x0,2047(x31)
  >         sb x10,-1(x8)
  >         sb x5,31(x6)
  >         sb x7,32(x9)
  >         sh x1,0(x2)
  >         sh x31,-2048(x16)
  >         sh x0,2047(x31)
  >         sh x10,-1(x8)
  >         sh x5,31(x6)
  >         sh x7,32(x9)
  >         sw x1,0(x2)
  >         sw x31,-2048(x16)
  >         sw x0,2047(x31)
  >         sw x10,-1(x8)
  >         sw x5,31(x6)
  >         sw x7,32(x9)
  >         beq x1,x2,0x00000220
  >         beq x31,x16,0xfffff21c
  >         beq x0,x31,0x0000121e
  >         beq x10,x8,0x00000222
  >         beq x5,x6,0x00000a28
  >         bne x1,x2,0x00000234
  >         bne x31,x16,0xfffff230
  >         bne x0,x31,0x00001232
  >         bne x10,x8,0x00000236
  >         bne x5,x6,0xfffffa3c
  >         blt x1,x2,0x00000248
  >         blt x31,x16,0xfffff244
  >         blt x0,x31,0x00001246
  >         blt x10,x8,0x0000024a
  >         blt x5,x6,0x00000650
  >         bge x1,x2,0x0000025c
  >         bge x31,x16,0xfffff258
  >         bge x0,x31,0x0000125a
  >         bge x10,x8,0x0000025e
  >         bge x5,x6,0x00000284
  >         bltu x1,x2,0x00000270
  >         bltu x31,x16,0xfffff26c
  >         bltu x0,x31,0x0000126e
  >         bltu x10,x8,0x00000272
  >         bltu x5,x6,0x00000288
  >         bgeu x1,x2,0x00000284
  >         bgeu x31,x16,0xfffff280
  >         bgeu x0,x31,0x00001282
  >         bgeu x10,x8,0x00000286
  >         bgeu x5,x6,0x0000028e
  >         lui x1,0x0
  >         lui x31,0xfffff
  >         lui x0,0x80000
  >         lui x10,0x12345
  >         auipc x1,0x0
  >         auipc x31,0xfffff
  >         auipc x0,0x80000
  >         auipc x10,0x12345
  >         jal x0,0x000002b0
  >         jal x1,0xfff002b4
  >         jal x31,0x001002b6
  >         jal x5,0x000002ba
  >         jal x1,0x00000ac0
  >         jal x10,0x000012c4
  >         jal x16,0x000002ca
  >         jalr x0,0(x1)
  >         jalr x1,-2048(x31)
  >         jalr x31,2047(x16)
  >         jalr x5,-1(x6)
  >         fence
  >         fence.i
  >         ecall
  >         ebreak
  > # Every fence is listed as the full one: fence r,w, fence rw,rw, fence.tso, fence w,o, and one with no orders at all.
  >         .word 0x0210000f
  >         .word 0x0330000f
  >         .word 0x8330000f
  >         .word 0x0140000f
  >         .word 0x0000000f
  > # Words of other extensions, by `-march=rv64imafd_zicsr_zifencei_zba_zbb`, are of no instruction here, and neither is that of ones alone.
  >         .word 0x00813083  # ld x1,8(x2)
  >         .word 0x00816083  # lwu x1,8(x2)
  >         .word 0x00113423  # sd x1,8(x2)
  >         .word 0x0031009b  # addiw x1,x2,3
  >         .word 0x003100bb  # addw x1,x2,x3
  >         .word 0x023100bb  # mulw x1,x2,x3
  >         .word 0x300110f3  # csrrw x1,mstatus,x2
  >         .word 0x300160f3  # csrrsi x1,mstatus,2
  >         .word 0x0021a0af  # amoadd.w x1,x2,(x3)
  >         .word 0x00812087  # flw f1,8(x2)
  >         .word 0x003170d3  # fadd.s f1,f2,f3
  >         .word 0x02011093  # slli x1,x2,32
  >         .word 0x43f15093  # srai x1,x2,63
  >         .word 0x403170b3  # andn x1,x2,x3
  >         .word 0x603110b3  # rol x1,x2,x3
  >         .word 0x203120b3  # sh1add x1,x2,x3
  >         .word 0x60011093  # clz x1,x2
  >         .word 0x60515093  # rori x1,x2,5
  >         .word 0x30200073  # mret
  >         .word 0x10500073  # wfi
  >         .word 0xffffffff
  > END
  $ bspemu asm text.s saved.elf
  $ bspemu list saved.elf
  00000000: 003100b3  add x1,x2,x3
  00000004: 00f00fb3  add x31,x0,x15
  00000008: 00508833  add x16,x1,x5
  0000000c: 403100b3  sub x1,x2,x3
  00000010: 410f8033  sub x0,x31,x16
  00000014: 41240433  sub x8,x8,x18
  00000018: 003110b3  sll x1,x2,x3
  0000001c: 00889533  sll x10,x17,x8
  00000020: 01f79233  sll x4,x15,x31
  00000024: 003120b3  slt x1,x2,x3
  00000028: 00f02fb3  slt x31,x0,x15
  0000002c: 00cb2133  slt x2,x22,x12
  00000030: 003130b3  sltu x1,x2,x3
  00000034: 010fb033  sltu x0,x31,x16
  00000038: 019eb0b3  sltu x1,x29,x25
  0000003c: 003140b3  xor x1,x2,x3
  00000040: 0088c533  xor x10,x17,x8
  00000044: 00624833  xor x16,x4,x6
  00000048: 003150b3  srl x1,x2,x3
  0000004c: 00f05fb3  srl x31,x0,x15
  00000050: 0135d433  srl x8,x11,x19
  00000054: 403150b3  sra x1,x2,x3
  00000058: 410fd033  sra x0,x31,x16
  0000005c: 40095233  sra x4,x18,x0
  00000060: 003160b3  or x1,x2,x3
  00000064: 0088e533  or x10,x17,x8
  00000068: 00dce133  or x2,x25,x13
  0000006c: 003170b3  and x1,x2,x3
  00000070: 00f07fb3  and x31,x0,x15
  00000074: 01a070b3  and x1,x0,x26
  00000078: 023100b3  mul x1,x2,x3
  0000007c: 030f8033  mul x0,x31,x16
  00000080: 02738833  mul x16,x7,x7
  00000084: 023110b3  mulh x1,x2,x3
  00000088: 02889533  mulh x10,x17,x8
  0000008c: 03471433  mulh x8,x14,x20
  00000090: 023120b3  mulhsu x1,x2,x3
  00000094: 02f02fb3  mulhsu x31,x0,x15
  00000098: 021aa233  mulhsu x4,x21,x1
  0000009c: 023130b3  mulhu x1,x2,x3
  000000a0: 030fb033  mulhu x0,x31,x16
  000000a4: 02ee3133  mulhu x2,x28,x14
  000000a8: 023140b3  div x1,x2,x3
  000000ac: 0288c533  div x10,x17,x8
  000000b0: 03b1c0b3  div x1,x3,x27
  000000b4: 023150b3  divu x1,x2,x3
  000000b8: 02f05fb3  divu x31,x0,x15
  000000bc: 02855833  divu x16,x10,x8
  000000c0: 023160b3  rem x1,x2,x3
  000000c4: 030fe033  rem x0,x31,x16
  000000c8: 0358e433  rem x8,x17,x21
  000000cc: 023170b3  remu x1,x2,x3
  000000d0: 0288f533  remu x10,x17,x8
  000000d4: 022c7233  remu x4,x24,x2
  000000d8: 00010093  addi x1,x2,0
  000000dc: fff00f93  addi x31,x0,-1
  000000e0: 7fff8013  addi x0,x31,2047
  000000e4: 80080313  addi x6,x16,-2048
  000000e8: 55520413  addi x8,x4,1365
  000000ec: 00012093  slti x1,x2,0
  000000f0: fff02f93  slti x31,x0,-1
  000000f4: 7fffa013  slti x0,x31,2047
  000000f8: 8009a593  slti x11,x19,-2048
  000000fc: aaa2a413  slti x8,x5,-1366
  00000100: 00013093  sltiu x1,x2,0
  00000104: fff03f93  sltiu x31,x0,-1
  00000108: 7fffb013  sltiu x0,x31,2047
  0000010c: 800b3813  sltiu x16,x22,-2048
  00000110: 40033413  sltiu x8,x6,1024
  00000114: 00014093  xori x1,x2,0
  00000118: fff04f93  xori x31,x0,-1
  0000011c: 7fffc013  xori x0,x31,2047
  00000120: 800cca93  xori x21,x25,-2048
  00000124: c003c413  xori x8,x7,-1024
  00000128: 00016093  ori x1,x2,0
  0000012c: fff06f93  ori x31,x0,-1
  00000130: 7fffe013  ori x0,x31,2047
  00000134: 800e6d13  ori x26,x28,-2048
  00000138: 05546413  ori x8,x8,85
  0000013c: 00017093  andi x1,x2,0
  00000140: fff07f93  andi x31,x0,-1
  00000144: 7ffff013  andi x0,x31,2047
  00000148: 800fff93  andi x31,x31,-2048
  0000014c: 2004f413  andi x8,x9,512
  00000150: 00011093  slli x1,x2,0
  00000154: 01f81f93  slli x31,x16,31
  00000158: 001f9013  slli x0,x31,1
  0000015c: 01079413  slli x8,x15,16
  00000160: 00015093  srli x1,x2,0
  00000164: 01f85f93  srli x31,x16,31
  00000168: 001fd013  srli x0,x31,1
  0000016c: 0117d413  srli x8,x15,17
  00000170: 40015093  srai x1,x2,0
  00000174: 41f85f93  srai x31,x16,31
  00000178: 401fd013  srai x0,x31,1
  0000017c: 4127d413  srai x8,x15,18
  00000180: 00010083  lb x1,0(x2)
  00000184: 80080f83  lb x31,-2048(x16)
  00000188: 7fff8003  lb x0,2047(x31)
  0000018c: ffc40503  lb x10,-4(x8)
  00000190: 00011083  lh x1,0(x2)
  00000194: 80081f83  lh x31,-2048(x16)
  00000198: 7fff9003  lh x0,2047(x31)
  0000019c: ffd41503  lh x10,-3(x8)
  000001a0: 00012083  lw x1,0(x2)
  000001a4: 80082f83  lw x31,-2048(x16)
  000001a8: 7fffa003  lw x0,2047(x31)
  000001ac: ffe42503  lw x10,-2(x8)
  000001b0: 00014083  lbu x1,0(x2)
  000001b4: 80084f83  lbu x31,-2048(x16)
  000001b8: 7fffc003  lbu x0,2047(x31)
  000001bc: fff44503  lbu x10,-1(x8)
  000001c0: 00015083  lhu x1,0(x2)
  000001c4: 80085f83  lhu x31,-2048(x16)
  000001c8: 7fffd003  lhu x0,2047(x31)
  000001cc: 00045503  lhu x10,0(x8)
  000001d0: 00110023  sb x1,0(x2)
  000001d4: 81f80023  sb x31,-2048(x16)
  000001d8: 7e0f8fa3  sb x0,2047(x31)
  000001dc: fea40fa3  sb x10,-1(x8)
  000001e0: 00530fa3  sb x5,31(x6)
  000001e4: 02748023  sb x7,32(x9)
  000001e8: 00111023  sh x1,0(x2)
  000001ec: 81f81023  sh x31,-2048(x16)
  000001f0: 7e0f9fa3  sh x0,2047(x31)
  000001f4: fea41fa3  sh x10,-1(x8)
  000001f8: 00531fa3  sh x5,31(x6)
  000001fc: 02749023  sh x7,32(x9)
  00000200: 00112023  sw x1,0(x2)
  00000204: 81f82023  sw x31,-2048(x16)
  00000208: 7e0fafa3  sw x0,2047(x31)
  0000020c: fea42fa3  sw x10,-1(x8)
  00000210: 00532fa3  sw x5,31(x6)
  00000214: 0274a023  sw x7,32(x9)
  00000218: 00208463  beq x1,x2,0x00000220
  0000021c: 810f8063  beq x31,x16,0xfffff21c
  00000220: 7ff00fe3  beq x0,x31,0x0000121e
  00000224: fe850fe3  beq x10,x8,0x00000222
  00000228: 006280e3  beq x5,x6,0x00000a28
  0000022c: 00209463  bne x1,x2,0x00000234
  00000230: 810f9063  bne x31,x16,0xfffff230
  00000234: 7ff01fe3  bne x0,x31,0x00001232
  00000238: fe851fe3  bne x10,x8,0x00000236
  0000023c: 806290e3  bne x5,x6,0xfffffa3c
  00000240: 0020c463  blt x1,x2,0x00000248
  00000244: 810fc063  blt x31,x16,0xfffff244
  00000248: 7ff04fe3  blt x0,x31,0x00001246
  0000024c: fe854fe3  blt x10,x8,0x0000024a
  00000250: 4062c063  blt x5,x6,0x00000650
  00000254: 0020d463  bge x1,x2,0x0000025c
  00000258: 810fd063  bge x31,x16,0xfffff258
  0000025c: 7ff05fe3  bge x0,x31,0x0000125a
  00000260: fe855fe3  bge x10,x8,0x0000025e
  00000264: 0262d063  bge x5,x6,0x00000284
  00000268: 0020e463  bltu x1,x2,0x00000270
  0000026c: 810fe063  bltu x31,x16,0xfffff26c
  00000270: 7ff06fe3  bltu x0,x31,0x0000126e
  00000274: fe856fe3  bltu x10,x8,0x00000272
  00000278: 0062e863  bltu x5,x6,0x00000288
  0000027c: 0020f463  bgeu x1,x2,0x00000284
  00000280: 810ff063  bgeu x31,x16,0xfffff280
  00000284: 7ff07fe3  bgeu x0,x31,0x00001282
  00000288: fe857fe3  bgeu x10,x8,0x00000286
  0000028c: 0062f163  bgeu x5,x6,0x0000028e
  00000290: 000000b7  lui x1,0x0
  00000294: ffffffb7  lui x31,0xfffff
  00000298: 80000037  lui x0,0x80000
  0000029c: 12345537  lui x10,0x12345
  000002a0: 00000097  auipc x1,0x0
  000002a4: ffffff97  auipc x31,0xfffff
  000002a8: 80000017  auipc x0,0x80000
  000002ac: 12345517  auipc x10,0x12345
  000002b0: 0000006f  jal x0,0x000002b0
  000002b4: 800000ef  jal x1,0xfff002b4
  000002b8: 7fffffef  jal x31,0x001002b6
  000002bc: fffff2ef  jal x5,0x000002ba
  000002c0: 001000ef  jal x1,0x00000ac0
  000002c4: 0000156f  jal x10,0x000012c4
  000002c8: 0020086f  jal x16,0x000002ca
  000002cc: 00008067  jalr x0,0(x1)
  000002d0: 800f80e7  jalr x1,-2048(x31)
  000002d4: 7ff80fe7  jalr x31,2047(x16)
  000002d8: fff302e7  jalr x5,-1(x6)
  000002dc: 0ff0000f  fence
  000002e0: 0000100f  fence.i
  000002e4: 00000073  ecall
  000002e8: 00100073  ebreak
  000002ec: 0210000f  fence
  000002f0: 0330000f  fence
  000002f4: 8330000f  fence
  000002f8: 0140000f  fence
  000002fc: 0000000f  fence
  00000300: 00813083  .word 0x00813083
  00000304: 00816083  .word 0x00816083
  00000308: 00113423  .word 0x00113423
  0000030c: 0031009b  .word 0x0031009b
  00000310: 003100bb  .word 0x003100bb
  00000314: 023100bb  .word 0x023100bb
  00000318: 300110f3  .word 0x300110f3
  0000031c: 300160f3  .word 0x300160f3
  00000320: 0021a0af  .word 0x0021a0af
  00000324: 00812087  .word 0x00812087
  00000328: 003170d3  .word 0x003170d3
  0000032c: 02011093  .word 0x02011093
  00000330: 43f15093  .word 0x43f15093
  00000334: 403170b3  .word 0x403170b3
  00000338: 603110b3  .word 0x603110b3
  0000033c: 203120b3  .word 0x203120b3
  00000340: 60011093  .word 0x60011093
  00000344: 60515093  .word 0x60515093
  00000348: 30200073  .word 0x30200073
  0000034c: 10500073  .word 0x10500073
  00000350: ffffffff  .word 0xffffffff
  $ od -An -v -tx1 saved.elf
   7f 45 4c 46 01 01 01 00 00 00 00 00 00 00 00 00
   02 00 f3 00 01 00 00 00 00 00 00 00 34 00 00 00
   00 00 00 00 00 00 00 00 34 00 20 00 01 00 00 00
   00 00 00 00 01 00 00 00 54 00 00 00 00 00 00 00
   00 00 00 00 54 03 00 00 54 03 00 00 07 00 00 00
   01 00 00 00 b3 00 31 00 b3 0f f0 00 33 88 50 00
   b3 00 31 40 33 80 0f 41 33 04 24 41 b3 10 31 00
   33 95 88 00 33 92 f7 01 b3 20 31 00 b3 2f f0 00
   33 21 cb 00 b3 30 31 00 33 b0 0f 01 b3 b0 9e 01
   b3 40 31 00 33 c5 88 00 33 48 62 00 b3 50 31 00
   b3 5f f0 00 33 d4 35 01 b3 50 31 40 33 d0 0f 41
   33 52 09 40 b3 60 31 00 33 e5 88 00 33 e1 dc 00
   b3 70 31 00 b3 7f f0 00 b3 70 a0 01 b3 00 31 02
   33 80 0f 03 33 88 73 02 b3 10 31 02 33 95 88 02
   33 14 47 03 b3 20 31 02 b3 2f f0 02 33 a2 1a 02
   b3 30 31 02 33 b0 0f 03 33 31 ee 02 b3 40 31 02
   33 c5 88 02 b3 c0 b1 03 b3 50 31 02 b3 5f f0 02
   33 58 85 02 b3 60 31 02 33 e0 0f 03 33 e4 58 03
   b3 70 31 02 33 f5 88 02 33 72 2c 02 93 00 01 00
   93 0f f0 ff 13 80 ff 7f 13 03 08 80 13 04 52 55
   93 20 01 00 93 2f f0 ff 13 a0 ff 7f 93 a5 09 80
   13 a4 a2 aa 93 30 01 00 93 3f f0 ff 13 b0 ff 7f
   13 38 0b 80 13 34 03 40 93 40 01 00 93 4f f0 ff
   13 c0 ff 7f 93 ca 0c 80 13 c4 03 c0 93 60 01 00
   93 6f f0 ff 13 e0 ff 7f 13 6d 0e 80 13 64 54 05
   93 70 01 00 93 7f f0 ff 13 f0 ff 7f 93 ff 0f 80
   13 f4 04 20 93 10 01 00 93 1f f8 01 13 90 1f 00
   13 94 07 01 93 50 01 00 93 5f f8 01 13 d0 1f 00
   13 d4 17 01 93 50 01 40 93 5f f8 41 13 d0 1f 40
   13 d4 27 41 83 00 01 00 83 0f 08 80 03 80 ff 7f
   03 05 c4 ff 83 10 01 00 83 1f 08 80 03 90 ff 7f
   03 15 d4 ff 83 20 01 00 83 2f 08 80 03 a0 ff 7f
   03 25 e4 ff 83 40 01 00 83 4f 08 80 03 c0 ff 7f
   03 45 f4 ff 83 50 01 00 83 5f 08 80 03 d0 ff 7f
   03 55 04 00 23 00 11 00 23 00 f8 81 a3 8f 0f 7e
   a3 0f a4 fe a3 0f 53 00 23 80 74 02 23 10 11 00
   23 10 f8 81 a3 9f 0f 7e a3 1f a4 fe a3 1f 53 00
   23 90 74 02 23 20 11 00 23 20 f8 81 a3 af 0f 7e
   a3 2f a4 fe a3 2f 53 00 23 a0 74 02 63 84 20 00
   63 80 0f 81 e3 0f f0 7f e3 0f 85 fe e3 80 62 00
   63 94 20 00 63 90 0f 81 e3 1f f0 7f e3 1f 85 fe
   e3 90 62 80 63 c4 20 00 63 c0 0f 81 e3 4f f0 7f
   e3 4f 85 fe 63 c0 62 40 63 d4 20 00 63 d0 0f 81
   e3 5f f0 7f e3 5f 85 fe 63 d0 62 02 63 e4 20 00
   63 e0 0f 81 e3 6f f0 7f e3 6f 85 fe 63 e8 62 00
   63 f4 20 00 63 f0 0f 81 e3 7f f0 7f e3 7f 85 fe
   63 f1 62 00 b7 00 00 00 b7 ff ff ff 37 00 00 80
   37 55 34 12 97 00 00 00 97 ff ff ff 17 00 00 80
   17 55 34 12 6f 00 00 00 ef 00 00 80 ef ff ff 7f
   ef f2 ff ff ef 00 10 00 6f 15 00 00 6f 08 20 00
   67 80 00 00 e7 80 0f 80 e7 0f f8 7f e7 02 f3 ff
   0f 00 f0 0f 0f 10 00 00 73 00 00 00 73 00 10 00
   0f 00 10 02 0f 00 30 03 0f 00 30 83 0f 00 40 01
   0f 00 00 00 83 30 81 00 83 60 81 00 23 34 11 00
   9b 00 31 00 bb 00 31 00 bb 00 31 02 f3 10 01 30
   f3 60 01 30 af a0 21 00 87 20 81 00 d3 70 31 00
   93 10 01 02 93 50 f1 43 b3 70 31 40 b3 10 31 60
   b3 20 31 20 93 10 01 60 93 50 51 60 73 00 20 30
   73 00 50 10 ff ff ff ff
