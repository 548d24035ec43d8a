  $ bspemu -V
  bspemu 0.1.0
