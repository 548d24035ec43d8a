  $ printf x > image
  $ bspemu run image --exposed exposed.csv
  bspemu: image refused: NotElf (stderr)
  [1]
  $ wc -c < exposed.csv
  0
