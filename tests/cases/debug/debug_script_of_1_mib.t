  $ { printf 'phase\n'; printf ' ' | repeat 1048570; } | bspemu debug examples/ranks.raw --format raw --nodes 3
  moved 30
