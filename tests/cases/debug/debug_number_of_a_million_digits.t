  $ { printf 'break 2 '; printf '0' | repeat 1000000; } | bspemu debug examples/ranks.raw --format raw --nodes 3
  ok
