A mistake in a text with statements of floating point is told by its own line, by the tools too, which see by the text that it wants units.

  $ cat > text.s <<'END'
  >     fadd.d fa0, fa1, fa2
  >     li a7, 1, 2
  >     ecall
  > END
  $ bspemu asm text.s image --float
  bspemu: line 2: BadOperand (stderr)
  [1]
  $ bsprun text.s
  bspemu: line 2: BadOperand (stderr)
  [1]
  $ printf 'frcsrr a0\nfadd.d fa0, fa1, fa2\n' > other.s
  $ bsprun other.s
  bspemu: line 1: UnknownMnemonic (stderr)
  [1]
