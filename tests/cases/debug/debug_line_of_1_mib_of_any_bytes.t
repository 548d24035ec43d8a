  $ printf '\xff\x00 \r' | repeat 262144 | bspemu debug examples/ranks.raw --format raw --nodes 3
  refused: BadCommand
