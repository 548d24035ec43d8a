  $ bspemu asm absent saved.elf
  bspemu: cannot open absent (stderr)
  [6]
  $ test -e saved.elf
  [1]
