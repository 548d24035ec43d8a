  $ bspemu --version
  bspemu 0.1.0
