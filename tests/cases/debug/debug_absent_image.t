  $ bspemu debug absent.raw --format raw <<'END'
  > costs
  > END
  bspemu: cannot open absent.raw (stderr)
  [6]
