  $ unhex images/one_segment_at_256.hex > image
  $ list_with() {
  >     cp image changed && poke changed "$@" && bspemu list changed
  > }
  $ list_with 4=02
  bspemu: image refused: NotElf32Little (stderr)
  [1]
  $ list_with 5=02
  bspemu: image refused: NotElf32Little (stderr)
  [1]
  $ list_with 6=00
  bspemu: image refused: NotElf32Little (stderr)
  [1]
  $ list_with 16=0300
  bspemu: image refused: NotExecutable (stderr)
  [1]
  $ list_with 18=ffff
  bspemu: image refused: NotRiscV (stderr)
  [1]
  $ list_with 20=00000000
  bspemu: image refused: BadHeader (stderr)
  [1]
  $ list_with 40=0000
  bspemu: image refused: BadHeader (stderr)
  [1]
  $ list_with 42=2800
  bspemu: image refused: BadHeader (stderr)
  [1]
  $ list_with 44=ffff
  bspemu: image refused: BadHeader (stderr)
  [1]
  $ list_with 44=feff
  bspemu: image refused: Truncated (stderr)
  [1]
  $ list_with 28=ffffffff
  bspemu: image refused: Truncated (stderr)
  [1]
  $ list_with 56=ffffffff
  bspemu: image refused: Truncated (stderr)
  [1]
  $ list_with 68=ffffffff
  bspemu: image refused: BadSegment (stderr)
  [1]
  $ list_with 72=ffffffff
  bspemu: image refused: BadSegment (stderr)
  [1]
  $ list_with 72=00000000
  bspemu: image refused: BadSegment (stderr)
  [1]
  $ list_with 68=01000001 72=01000001
  bspemu: image refused: BadSegment (stderr)
  [1]
  $ list_with 60=f5ffffff
  bspemu: image refused: BadSegment (stderr)
  [1]
  $ list_with 24=ffffffff
  00000100: 00100893  addi x17,x0,1
  00000104: 00000073  ecall
  $ list_with 32=ffffffff
  00000100: 00100893  addi x17,x0,1
  00000104: 00000073  ecall
  $ list_with 36=ffffffff
  00000100: 00100893  addi x17,x0,1
  00000104: 00000073  ecall
  $ list_with 76=ffffffff
  00000100: 00100893  addi x17,x0,1
  00000104: 00000073  ecall
  $ list_with 80=ffffffff
  00000100: 00100893  addi x17,x0,1
  00000104: 00000073  ecall
  $ list_with 52=02000000
  bspemu: image refused: Dynamic (stderr)
  [1]
