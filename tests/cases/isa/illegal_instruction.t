  $ unhex <<'END' | bspemu run - --format raw
  > ff ff ff ff  # .word 0xffffffff
  > END
  [2]
