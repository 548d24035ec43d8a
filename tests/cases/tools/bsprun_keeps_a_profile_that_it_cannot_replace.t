A profile that was not written to its end is named, and what stood there stays.

  $ bsprun --profile /dev/full examples/ranks.elf
  0 (no-eol)
  bspemu: write failed (stderr)
  bsprun: /dev/full: the profile could not be written there; the output is complete (stderr)
  [6]
  $ echo old >profile.csv
  $ (ulimit -f 4; bsprun -n 64 --profile profile.csv examples/one_put.s)
  bsprun: the emulator was ended after * s: File size limit exceeded (stderr) (glob)
  [153]
  $ cat profile.csv
  old
  $ bsprun -n 64 --profile profile.csv examples/one_put.s
  $ wc -l <profile.csv
  194
