  $ unhex images/one_segment_at_256.hex > image
  $ for length in $(seq 0 91); do
  >     head -c "$length" image > cut
  >     bspemu list cut
  >     echo "status $?" >&2
  > done 2>&1 > output | paste -d - - | uniq -c
        1 bspemu: image refused: NotElf
        1 status 1
        1 bspemu: image refused: NotElf
        1 status 1
        1 bspemu: image refused: NotElf
        1 status 1
        1 bspemu: image refused: NotElf
        1 status 1
        1 bspemu: image refused: Truncated
        1 status 1
        1 bspemu: image refused: Truncated
        1 status 1
        1 bspemu: image refused: Truncated
        1 status 1
        1 bspemu: image refused: Truncated
        1 status 1
        1 bspemu: image refused: Truncated
        1 status 1
        1 bspemu: image refused: Truncated
        1 status 1
        1 bspemu: image refused: Truncated
        1 status 1
        1 bspemu: image refused: Truncated
        1 status 1
        1 bspemu: image refused: Truncated
        1 status 1
        1 bspemu: image refused: Truncated
        1 status 1
        1 bspemu: image refused: Truncated
        1 status 1
        1 bspemu: image refused: Truncated
        1 status 1
        1 bspemu: image refused: Truncated
        1 status 1
        1 bspemu: image refused: Truncated
        1 status 1
        1 bspemu: image refused: Truncated
        1 status 1
        1 bspemu: image refused: Truncated
        1 status 1
        1 bspemu: image refused: Truncated
        1 status 1
        1 bspemu: image refused: Truncated
        1 status 1
        1 bspemu: image refused: Truncated
        1 status 1
        1 bspemu: image refused: Truncated
        1 status 1
        1 bspemu: image refused: Truncated
        1 status 1
        1 bspemu: image refused: Truncated
        1 status 1
        1 bspemu: image refused: Truncated
        1 status 1
        1 bspemu: image refused: Truncated
        1 status 1
        1 bspemu: image refused: Truncated
        1 status 1
        1 bspemu: image refused: Truncated
        1 status 1
        1 bspemu: image refused: Truncated
        1 status 1
        1 bspemu: image refused: Truncated
        1 status 1
        1 bspemu: image refused: Truncated
        1 status 1
        1 bspemu: image refused: Truncated
        1 status 1
        1 bspemu: image refused: Truncated
        1 status 1
        1 bspemu: image refused: Truncated
        1 status 1
        1 bspemu: image refused: Truncated
        1 status 1
        1 bspemu: image refused: Truncated
        1 status 1
        1 bspemu: image refused: Truncated
        1 status 1
        1 bspemu: image refused: Truncated
        1 status 1
        1 bspemu: image refused: Truncated
        1 status 1
        1 bspemu: image refused: Truncated
        1 status 1
        1 bspemu: image refused: Truncated
        1 status 1
        1 bspemu: image refused: Truncated
        1 status 1
        1 bspemu: image refused: Truncated
        1 status 1
        1 bspemu: image refused: Truncated
        1 status 1
        1 bspemu: image refused: Truncated
        1 status 1
        1 bspemu: image refused: Truncated
        1 status 1
        1 bspemu: image refused: Truncated
        1 status 1
        1 bspemu: image refused: Truncated
        1 status 1
        1 bspemu: image refused: Truncated
        1 status 1
        1 bspemu: image refused: Truncated
        1 status 1
        1 bspemu: image refused: Truncated
        1 status 1
        1 bspemu: image refused: Truncated
        1 status 1
        1 bspemu: image refused: Truncated
        1 status 1
        1 bspemu: image refused: Truncated
        1 status 1
        1 bspemu: image refused: Truncated
        1 status 1
        1 bspemu: image refused: Truncated
        1 status 1
        1 bspemu: image refused: Truncated
        1 status 1
        1 bspemu: image refused: Truncated
        1 status 1
        1 bspemu: image refused: Truncated
        1 status 1
        1 bspemu: image refused: Truncated
        1 status 1
        1 bspemu: image refused: Truncated
        1 status 1
        1 bspemu: image refused: Truncated
        1 status 1
        1 bspemu: image refused: Truncated
        1 status 1
        1 bspemu: image refused: Truncated
        1 status 1
        1 bspemu: image refused: Truncated
        1 status 1
        1 bspemu: image refused: Truncated
        1 status 1
        1 bspemu: image refused: Truncated
        1 status 1
        1 bspemu: image refused: Truncated
        1 status 1
        1 bspemu: image refused: Truncated
        1 status 1
        1 bspemu: image refused: Truncated
        1 status 1
        1 bspemu: image refused: Truncated
        1 status 1
        1 bspemu: image refused: Truncated
        1 status 1
        1 bspemu: image refused: Truncated
        1 status 1
        1 bspemu: image refused: Truncated
        1 status 1
        1 bspemu: image refused: Truncated
        1 status 1
        1 bspemu: image refused: Truncated
        1 status 1
        1 bspemu: image refused: Truncated
        1 status 1
        1 bspemu: image refused: Truncated
        1 status 1
        1 bspemu: image refused: Truncated
        1 status 1
        1 bspemu: image refused: Truncated
        1 status 1
        1 bspemu: image refused: Truncated
        1 status 1
        1 bspemu: image refused: Truncated
        1 status 1
        1 bspemu: image refused: Truncated
        1 status 1
        1 bspemu: image refused: Truncated
        1 status 1
        1 bspemu: image refused: Truncated
        1 status 1
        1 bspemu: image refused: Truncated
        1 status 1
        1 bspemu: image refused: Truncated
        1 status 1
        1 bspemu: image refused: Truncated
        1 status 1
        1 bspemu: image refused: Truncated
        1 status 1
        1 bspemu: image refused: Truncated
        1 status 1
  $ cat output
  $ bspemu list image
  00000100: 00100893  addi x17,x0,1
  00000104: 00000073  ecall
