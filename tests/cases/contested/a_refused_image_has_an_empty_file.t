  $ printf x > image
  $ bspemu run image --contested contested.csv
  bspemu: image refused: NotElf (stderr)
  [1]
  $ wc -c < contested.csv
  0
