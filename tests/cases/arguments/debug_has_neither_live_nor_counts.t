  $ bspemu debug examples/ranks.elf --live
  error: unexpected argument '--live' found (stderr)
   (stderr)
    tip: a similar argument exists: '--l' (stderr)
   (stderr)
  Usage: bspemu debug --l <TICKS> <IMAGE> (stderr)
   (stderr)
  For more information, try '--help'. (stderr)
  [1]
  $ bspemu debug examples/ranks.elf --counts counts.csv
  error: unexpected argument '--counts' found (stderr)
   (stderr)
    tip: to pass '--counts' as a value, use '-- --counts' (stderr)
   (stderr)
  Usage: bspemu debug <IMAGE> (stderr)
   (stderr)
  For more information, try '--help'. (stderr)
  [1]
