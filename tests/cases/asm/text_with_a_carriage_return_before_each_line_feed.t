  $ printf '# carriage returns\r in a comment\r\n\r\nli a7, 1\r\necall # all\r\r\n' > text.s
  $ bspemu list text.s --format asm
  00000000: 00100893  addi x17,x0,1
  00000004: 00000073  ecall
