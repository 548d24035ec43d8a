  $ bspemu run examples/ranks.raw --format txt
  error: invalid value 'txt' for '--format <FORMAT>' (stderr)
    [possible values: elf, raw, asm] (stderr)
   (stderr)
  For more information, try '--help'. (stderr)
  [1]
