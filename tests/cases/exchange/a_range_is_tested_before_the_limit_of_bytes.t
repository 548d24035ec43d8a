  $ cat > program.s <<'END'
  > # One byte is written. Then 16,777,216 bytes from address 1 on pass the end of the memory, and with that byte the limit too: the range
  > # is tested first.
  >     la    a0, text
  >     li    a1, 1
  >     li    a7, 17            # write(text, 1)
  >     ecall
  >     li    a0, 1
  >     li    a1, 0x1000000     # write(1, 0x1000000)
  >     ecall
  > text:
  >     .ascii "x"
  > END
  $ bspemu run program.s --format asm --memory 16777216 --report --ledger 1
  xsuperstep 0: w 9 h 0 last
  total 9
  rank 0 stopped: fault RangeOutside
  [2]
