  $ bspemu run - --format raw
  [2]
