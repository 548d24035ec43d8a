  $ printf 'nop\r\nnop\r\r\nnop\r\n' > text.s
  $ bspemu list text.s --format asm
  bspemu: line 2: BadToken (stderr)
  [1]
