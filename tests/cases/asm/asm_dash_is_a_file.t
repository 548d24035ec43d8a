  $ bspemu asm - saved.elf
  bspemu: cannot open - (stderr)
  [6]
