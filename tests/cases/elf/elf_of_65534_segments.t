  $ unhex > first <<'END'
  > 7f 45 4c 46 01 01 01 00 00 00 00 00 00 00 00 00  # e_ident
  > 02 00                                            # e_type
  > f3 00                                            # e_machine
  > 01 00 00 00                                      # e_version
  > 00 20 00 00                                      # e_entry
  > 4c 00 00 00                                      # e_phoff
  > 00 00 00 00                                      # e_shoff
  > 00 00 00 00                                      # e_flags
  > 34 00                                            # e_ehsize
  > 20 00                                            # e_phentsize
  > fe ff                                            # e_phnum
  > 28 00                                            # e_shentsize
  > 00 00                                            # e_shnum
  > 00 00                                            # e_shstrndx
  > 37 15 00 00                                      # lui x10,0x1
  > 93 05 40 00                                      # addi x11,x0,4
  > 93 08 10 01                                      # addi x17,x0,17
  > 73 00 00 00                                      # ecall
  > 93 08 10 00                                      # addi x17,x0,1
  > 73 00 00 00                                      # ecall
  > 01 00 00 00                                      # p_type
  > 34 00 00 00                                      # p_offset
  > 00 20 00 00                                      # p_vaddr
  > 00 20 00 00                                      # p_paddr
  > 18 00 00 00                                      # p_filesz
  > 18 00 00 00                                      # p_memsz
  > 05 00 00 00                                      # p_flags
  > 01 00 00 00                                      # p_align
  > END
  $ unhex > other <<'END'
  > 01 00 00 00                                      # p_type
  > 00 00 00 00                                      # p_offset
  > 00 10 00 00                                      # p_vaddr
  > 00 10 00 00                                      # p_paddr
  > 04 00 00 00                                      # p_filesz
  > 04 00 00 00                                      # p_memsz
  > 04 00 00 00                                      # p_flags
  > 01 00 00 00                                      # p_align
  > END
  $ { cat first; repeat 65533 < other; } | bspemu run - --nodes 2
  \x7fELF\x7fELF (esc) (no-eol)
