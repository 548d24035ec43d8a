  $ cat > program.s <<'END'
  > # Each of 16 nodes writes one word into each page of its memory but the first: 256 MiB of pages in all.
  >         li   t0,0x1000
  >         li   t1,0x1000000
  >         li   t2,0x1000
  > page:   sw   t0,0(t0)
  >         add  t0,t0,t2
  >         bne  t0,t1,page
  >         li   a7,1
  >         ecall
  > END
  $ prlimit --as=134217728 bspemu run program.s --format asm --nodes 16 --memory 16777216
  bspemu: no memory (stderr)
  [5]
