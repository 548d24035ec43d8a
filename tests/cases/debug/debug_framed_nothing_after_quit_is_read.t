  $ { printf 'phase\nquit\n'; printf 'turn\n' | repeat 1048576; } | bspemu debug examples/ranks.raw --format raw --nodes 3 --framed
  done 1
  moved 30
