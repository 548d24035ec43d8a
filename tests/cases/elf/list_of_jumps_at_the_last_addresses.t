  $ unhex > program.elf <<'END'
  > 7f 45 4c 46 01 01 01 00 00 00 00 00 00 00 00 00  #   0 e_ident
  > 02 00                                            #  16 e_type
  > f3 00                                            #  18 e_machine
  > 01 00 00 00                                      #  20 e_version
  > 00 00 00 00                                      #  24 e_entry
  > 34 00 00 00                                      #  28 e_phoff
  > 00 00 00 00                                      #  32 e_shoff
  > 00 00 00 00                                      #  36 e_flags
  > 34 00                                            #  40 e_ehsize
  > 20 00                                            #  42 e_phentsize
  > 02 00                                            #  44 e_phnum
  > 00 00                                            #  46 e_shentsize
  > 00 00                                            #  48 e_shnum
  > 00 00                                            #  50 e_shstrndx
  > 01 00 00 00                                      #  52 p_type
  > 74 00 00 00                                      #  56 p_offset
  > 04 ff ff ff                                      #  60 p_vaddr
  > 04 ff ff ff                                      #  64 p_paddr
  > 10 00 00 00                                      #  68 p_filesz
  > 10 00 00 00                                      #  72 p_memsz
  > 07 00 00 00                                      #  76 p_flags
  > 01 00 00 00                                      #  80 p_align
  > 01 00 00 00                                      #  84 p_type
  > 84 00 00 00                                      #  88 p_offset
  > 78 ff ff ff                                      #  92 p_vaddr
  > 78 ff ff ff                                      #  96 p_paddr
  > 1c 00 00 00                                      # 100 p_filesz
  > 1c 00 00 00                                      # 104 p_memsz
  > 07 00 00 00                                      # 108 p_flags
  > 01 00 00 00                                      # 112 p_align
  > 63 80 0f 81                                      # 116 the bytes of the segments
  > e3 0f f0 7f                                      # 120
  > e3 0f 85 fe                                      # 124
  > e3 80 62 00                                      # 128
  > 6f 00 00 00                                      # 132
  > ef 00 00 80                                      # 136
  > ef ff ff 7f                                      # 140
  > ef f2 ff ff                                      # 144
  > ef 00 10 00                                      # 148
  > 6f 15 00 00                                      # 152
  > 6f 08 20 00                                      # 156
  > END
  $ bspemu list program.elf
  ffffff04: 810f8063  beq x31,x16,0xffffef04
  ffffff08: 7ff00fe3  beq x0,x31,0x00000f06
  ffffff0c: fe850fe3  beq x10,x8,0xffffff0a
  ffffff10: 006280e3  beq x5,x6,0x00000710
  ffffff78: 0000006f  jal x0,0xffffff78
  ffffff7c: 800000ef  jal x1,0xffefff7c
  ffffff80: 7fffffef  jal x31,0x000fff7e
  ffffff84: fffff2ef  jal x5,0xffffff82
  ffffff88: 001000ef  jal x1,0x00000788
  ffffff8c: 0000156f  jal x10,0x00000f8c
  ffffff90: 0020086f  jal x16,0xffffff92
