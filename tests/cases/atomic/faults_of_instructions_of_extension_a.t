An address that is not a multiple of 4 is the first fault, for SC too where nothing is reserved. Then comes a word outside of the memory: of LR it is
a fault of a load, and of the others of a store. Behind the last of these operations, which is in the memory, there is no code.

  $ fault() { printf 'li t1,%s\nli t0,9\n.word %s\n' $1 $2 >fault.s; bspemu run fault.s --format asm --atomic --memory 4096 --report | tail -n 1; }
  $ fault 2 0x100322af  # lr.w t0,(t1)
  rank 0 stopped: fault Misaligned
  $ fault 1 0x185322af  # sc.w t0,t0,(t1)
  rank 0 stopped: fault Misaligned
  $ fault 3 0x005322af  # amoadd.w t0,t0,(t1)
  rank 0 stopped: fault Misaligned
  $ fault 4097 0x005322af
  rank 0 stopped: fault Misaligned
  $ fault 4096 0x100322af
  rank 0 stopped: fault LoadOutside
  $ fault 4096 0x185322af
  rank 0 stopped: fault StoreOutside
  $ fault 4096 0x005322af
  rank 0 stopped: fault StoreOutside
  $ fault -4 0x185322af
  rank 0 stopped: fault StoreOutside
  $ fault 4092 0x005322af
  rank 0 stopped: fault IllegalInstruction

pc stays, and so do the registers and the memory.

  $ printf 'step 0 4\nregs 0\nbytes 0 0 12\n' >lines
  $ fault 2 0x005322af
  rank 0 stopped: fault Misaligned
  $ bspemu debug fault.s --format asm --atomic --memory 4096 <lines | sed -n '1,2p;4p;11p'
  moved 3
  rank 0 pc 00000008 ticks 3 state fault Misaligned
  x4=00000000 x5=00000009 x6=00000002 x7=00000000
  13 03 20 00 93 02 90 00 af 22 53 00

Words that are of no row: LR with a second register, another size, and an operation that there is not.

  $ for word in 0x101322af 0x005302af 0x285322af; do fault 0 $word; done
  rank 0 stopped: fault IllegalInstruction
  rank 0 stopped: fault IllegalInstruction
  rank 0 stopped: fault IllegalInstruction
