  $ cp examples/ranks.elf ranks.elf
  $ bspemu run ranks.elf --exposed ranks.elf
  bspemu: cannot open ranks.elf (stderr)
  [6]
  $ cmp ranks.elf examples/ranks.elf
