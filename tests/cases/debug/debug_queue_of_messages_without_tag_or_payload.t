  $ cat > program.s <<'END'
  > # Each node sends to rank 1: 3 bytes and none, with tags of 0 bytes. Then each moves a message out of its queue.
  >     li    a0, 1
  >     la    a2, text
  >     li    a3, 3
  >     li    a7, 12            # send(1, no tag, text, 3)
  >     ecall
  >     li    a3, 0
  >     ecall                   # send(1, no tag, text, 0)
  >     li    a7, 4             # sync()
  >     ecall
  >     li    a0, 1024
  >     li    a1, 2
  >     li    a7, 15            # move(1024, 2)
  >     ecall
  >     ecall
  >     li    a7, 1             # end()
  >     ecall
  > text:
  >     .byte 0x0a, 0xb0, 0xff
  > END
  $ bspemu debug program.s --format asm --memory 4096 --nodes 2 <<'END'
  > break superstep 1
  > go
  > queue 0
  > queue 1
  > step 1 5
  > queue 1
  > go
  > queue 1
  > END
  ok
  stopped at superstep 1
  count 0 bytes 0
  count 4 bytes 6
  from 0 tag - payload 0ab0ff
  from 0 tag - payload -
  from 1 tag - payload 0ab0ff
  from 1 tag - payload -
  moved 5
  count 2 bytes 3
  from 1 tag - payload 0ab0ff
  from 1 tag - payload -
  ended
  count 2 bytes 3
  from 1 tag - payload 0ab0ff
  from 1 tag - payload -
