  $ printf 'nop\r\n\nnop\r' > text.s
  $ bspemu list text.s --format asm
  bspemu: line 3: BadToken (stderr)
  [1]
