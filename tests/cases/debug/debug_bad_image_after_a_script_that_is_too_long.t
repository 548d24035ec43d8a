  $ printf '\n' | repeat 1048577 | bspemu debug examples/ranks.raw
  bspemu: too long (stderr)
  [1]
