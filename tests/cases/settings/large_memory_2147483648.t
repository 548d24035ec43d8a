A node of a large machine may have 2^31 bytes of memory.

  $ bspemu run examples/ranks.raw --memory 2147483648 --large --format raw
  0 (no-eol)
