  $ unhex > image <<'END'
  > 7f 45 4c 46 01 01 01 00 00 00 00 00 00 00 00 00  #   0 e_ident
  > 02 00                                            #  16 e_type
  > f3 00                                            #  18 e_machine
  > 01 00 00 00                                      #  20 e_version
  > 00 00 00 00                                      #  24 e_entry
  > 34 00 00 00                                      #  28 e_phoff
  > 00 00 00 00                                      #  32 e_shoff
  > 00 00 00 00                                      #  36 e_flags
  > 34 00                                            #  40 e_ehsize
  > 20 00                                            #  42 e_phentsize
  > 02 00                                            #  44 e_phnum
  > 00 00                                            #  46 e_shentsize
  > 00 00                                            #  48 e_shnum
  > 00 00                                            #  50 e_shstrndx
  > 01 00 00 00                                      #  52 p_type
  > 74 00 00 00                                      #  56 p_offset
  > 00 00 00 00                                      #  60 p_vaddr
  > 00 00 00 00                                      #  64 p_paddr
  > 44 00 00 00                                      #  68 p_filesz
  > 44 00 00 00                                      #  72 p_memsz
  > 07 00 00 00                                      #  76 p_flags
  > 01 00 00 00                                      #  80 p_align
  > 01 00 00 00                                      #  84 p_type
  > b8 00 00 00                                      #  88 p_offset
  > 3c 00 00 00                                      #  92 p_vaddr
  > 3c 00 00 00                                      #  96 p_paddr
  > 04 00 00 00                                      # 100 p_filesz
  > 08 00 00 00                                      # 104 p_memsz
  > 07 00 00 00                                      # 108 p_flags
  > 01 00 00 00                                      # 112 p_align
  > 03 25 00 04                                      # 116 the bytes of the segments
  > 63 1e 05 00                                      # 120
  > 13 05 c0 03                                      # 124
  > 93 05 10 00                                      # 128
  > 93 08 10 01                                      # 132
  > 73 00 00 00                                      # 136
  > 93 08 10 00                                      # 140
  > 73 00 00 00                                      # 144
  > 73 00 10 00                                      # 148
  > 00 00 00 00                                      # 152
  > 00 00 00 00                                      # 156
  > 00 00 00 00                                      # 160
  > 00 00 00 00                                      # 164
  > 00 00 00 00                                      # 168
  > 00 00 00 00                                      # 172
  > ff ff ff ff                                      # 176
  > ff ff ff ff                                      # 180
  > 2a 00 00 00                                      # 184
  > END
  $ bspemu run image
  * (no-eol)
