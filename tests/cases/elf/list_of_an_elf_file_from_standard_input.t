  $ unhex <<'END' | bspemu list -
  > 7f 45 4c 46 01 01 01 00 00 00 00 00 00 00 00 00  #   0 e_ident
  > 02 00                                            #  16 e_type
  > f3 00                                            #  18 e_machine
  > 01 00 00 00                                      #  20 e_version
  > 00 00 00 00                                      #  24 e_entry
  > 34 00 00 00                                      #  28 e_phoff
  > 00 00 00 00                                      #  32 e_shoff
  > 00 00 00 00                                      #  36 e_flags
  > 34 00                                            #  40 e_ehsize
  > 20 00                                            #  42 e_phentsize
  > 01 00                                            #  44 e_phnum
  > 00 00                                            #  46 e_shentsize
  > 00 00                                            #  48 e_shnum
  > 00 00                                            #  50 e_shstrndx
  > 01 00 00 00                                      #  52 p_type
  > 54 00 00 00                                      #  56 p_offset
  > 00 00 00 00                                      #  60 p_vaddr
  > 00 00 00 00                                      #  64 p_paddr
  > 10 00 00 00                                      #  68 p_filesz
  > 10 00 00 00                                      #  72 p_memsz
  > 07 00 00 00                                      #  76 p_flags
  > 01 00 00 00                                      #  80 p_align
  > 63 06 00 00                                      #  84 the bytes of the segments
  > 37 f5 ff ff                                      #  88
  > 13 05 f5 7f                                      #  92
  > 73 00 00 00                                      #  96
  > END
  00000000: 00000663  beq x0,x0,0x0000000c
  00000004: fffff537  lui x10,0xfffff
  00000008: 7ff50513  addi x10,x10,2047
  0000000c: 00000073  ecall
