  $ { printf 'phase\nquit\n'; printf 'turn\n' | repeat 1048576; } | bspemu debug examples/ranks.raw --format raw --nodes 3 --interactive
  moved 30
