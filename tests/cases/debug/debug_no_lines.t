  $ bspemu debug examples/ranks.raw --format raw --nodes 3
