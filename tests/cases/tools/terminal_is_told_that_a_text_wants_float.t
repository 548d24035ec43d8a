A text that is refused for want of `--float` has a line that names it, in `asm` and in `run`; one that is refused with it, too, has none.

  $ echo 'fadd.d f1, f2, f3' >units.s
  $ at-a-terminal "$REPO"/bspemu asm units.s image
  bspemu: line 1: UnknownMnemonic (stderr)
  bspemu: the text has statements of floating point, which --float takes (stderr)
  [1]
  $ at-a-terminal "$REPO"/bspemu run --format asm units.s
  bspemu: line 1: UnknownMnemonic (stderr)
  bspemu: the text has statements of floating point, which --float takes (stderr)
  [1]
  $ bspemu asm units.s image
  bspemu: line 1: UnknownMnemonic (stderr)
  [1]
  $ echo no >no.s
  $ at-a-terminal "$REPO"/bspemu asm no.s image
  bspemu: line 1: UnknownMnemonic (stderr)
  [1]
  $ cat units.s no.s >both.s
  $ at-a-terminal "$REPO"/bspemu asm both.s image
  bspemu: line 1: UnknownMnemonic (stderr)
  bspemu: the text has statements of floating point, which --float takes (stderr)
  [1]
  $ at-a-terminal "$REPO"/bspemu asm --float both.s image
  bspemu: line 2: UnknownMnemonic (stderr)
  [1]
