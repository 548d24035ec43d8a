  $ bspemu debug examples/messages.s --format asm --nodes 4 <<'END'
  > break superstep 2
  > queue 0
  > go
  > queue 0
  > queue 1
  > queue 2
  > queue 3
  > break 0 0x80
  > go
  > queue 0
  > phase
  > queue 0
  > queue 1
  > END
  ok
  count 0 bytes 0
  stopped at superstep 2
  count 2 bytes 16
  from 3 tag 01000000 payload 03000000
  from 3 tag 02000000 payload 676f6f64206d6f726e696e67
  count 2 bytes 9
  from 0 tag 02000000 payload 68656c6c6f
  from 0 tag 01000000 payload 00000000
  count 2 bytes 16
  from 1 tag 01000000 payload 01000000
  from 1 tag 02000000 payload 676f6f64206d6f726e696e67
  count 2 bytes 9
  from 2 tag 02000000 payload 68656c6c6f
  from 2 tag 01000000 payload 02000000
  ok
  stopped at rank 0 pc 00000080
  count 2 bytes 16
  from 3 tag 01000000 payload 03000000
  from 3 tag 02000000 payload 676f6f64206d6f726e696e67
  moved 670
  count 0 bytes 0
  count 0 bytes 0
