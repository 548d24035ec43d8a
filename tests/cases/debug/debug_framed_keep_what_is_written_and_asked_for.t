A state is kept with the text that its node has written in the superstep, the message that it has sent and the put that it has asked for. The
run ends with all three, before the machine goes back to that state and after.

  $ cat > program.s <<'END'
  >     li    a0, 0x400
  >     li    a1, 4
  >     li    a7, 5             # push_reg(0x400, 4)
  >     ecall
  >     li    a7, 4             # sync()
  >     ecall
  >     la    a0, text
  >     li    a1, 1
  >     li    a7, 17            # write(text, 1)
  >     ecall
  >     li    a0, 0
  >     la    a1, text
  >     li    a2, 0x400
  >     li    a3, 0
  >     li    a4, 2
  >     li    a7, 7             # put(0, text, 0x400, 0, 2)
  >     ecall
  >     la    a2, text
  >     li    a3, 1
  >     li    a7, 12            # send(0, text, text, 1)
  >     ecall
  > here:
  >     nop
  >     li    a7, 4             # sync()
  >     ecall
  >     ebreak
  > text: .ascii "wx"
  > END
  $ bspemu list program.s --format asm | grep 'addi x0,x0,0'
  00000060: 00000013  addi x0,x0,0
  $ bspemu debug program.s --format asm --framed <<'END'
  > break 0 0x5c
  > go
  > keep
  > go
  > output 0
  > bytes 0 0x400 4
  > queue 0
  > back 0
  > requests 0
  > go
  > output 0
  > bytes 0 0x400 4
  > queue 0
  > END
  done 1
  ok
  done 1
  stopped at rank 0 pc 0000005c
  done 1
  kept 0
  done 1
  rank 0 stopped: fault Break
  done 1
  w
  done 1
  77 78 00 00
  done 2
  count 1 bytes 1
  from 0 tag - payload 77
  done 1
  ok
  done 1
  request 0 put to rank 0 area 0 offset 0 bytes 2
  done 1
  rank 0 stopped: fault Break
  done 1
  w
  done 1
  77 78 00 00
  done 2
  count 1 bytes 1
  from 0 tag - payload 77
