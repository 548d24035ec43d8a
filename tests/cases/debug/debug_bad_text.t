  $ bspemu debug examples/README.md --format asm <<'END'
  > costs
  > END
  bspemu: line 3: BadToken (stderr)
  [1]
