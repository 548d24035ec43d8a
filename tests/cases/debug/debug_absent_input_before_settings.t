  $ bspemu debug examples/ranks.raw --input absent.txt --format raw --nodes 0 <<'END'
  > go
  > END
  bspemu: cannot open absent.txt (stderr)
  [6]
