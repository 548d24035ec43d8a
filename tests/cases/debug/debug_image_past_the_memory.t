  $ cat > program.s <<'END'
  > # A byte more than the memory has.
  >     .space 4097
  > END
  $ bspemu debug program.s --format asm --memory 4096 <<'END'
  > costs
  > END
  bspemu: image refused: SegmentOutside (stderr)
  [1]
