  $ bspemu run programs/lines_without_end.s --format asm --nodes 2 --limit 1099511627776 --live | head -n 5; echo "${PIPESTATUS[0]}"
  line
  line
  line
  line
  line
  6
  bspemu: write failed (stderr)
