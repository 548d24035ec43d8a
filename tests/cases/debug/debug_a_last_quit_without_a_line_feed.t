  $ printf 'phase\nquit' | bspemu debug examples/ranks.raw --format raw --nodes 3
  moved 30
