  $ cat > text.s <<'END'
  > fence
  > fence
  > END
  $ unhex > words <<'END'
  > 0f 00 f0 0f 0f 00 00 00
  > END
  $ bspemu list words --format raw
  00000000: 0ff0000f  fence
  00000004: 0000000f  fence
  $ bspemu list text.s --format asm
  00000000: 0ff0000f  fence
  00000004: 0ff0000f  fence
