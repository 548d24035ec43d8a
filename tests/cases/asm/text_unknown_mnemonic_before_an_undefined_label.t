  $ cat > text.s <<'END'
  > j nowhere
  > foo
  > END
  $ bspemu run text.s --format asm
  bspemu: line 2: UnknownMnemonic (stderr)
  [1]
