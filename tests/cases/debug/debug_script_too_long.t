  $ { printf 'phase\n'; printf ' ' | repeat 1048571; } | bspemu debug examples/ranks.raw --format raw --nodes 3
  bspemu: too long (stderr)
  [1]
