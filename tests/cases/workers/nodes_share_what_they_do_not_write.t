  $ prlimit --as=134217728 bspemu run examples/ranks.raw --format raw --nodes 16 --memory 16777216
  0123456789:;<=>? (no-eol)
