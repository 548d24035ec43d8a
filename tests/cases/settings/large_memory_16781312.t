A node of a large machine may have more than 2^24 bytes of memory.

  $ bspemu run examples/ranks.raw --memory 16781312 --large --format raw
  0 (no-eol)
