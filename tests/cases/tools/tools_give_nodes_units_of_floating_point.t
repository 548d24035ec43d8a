What bspemu asm makes does not say that it wants units of floating point, and neither does a raw image. bsprun says it where a rank stops, with the
instruction; --float gives the nodes units, and bspgdb and bspsweep have it too.

  $ cat > six.s <<'END'
  >     li       t0, 3
  >     fcvt.d.w fa0, t0
  >     fadd.d   fa0, fa0, fa0
  >     fcvt.w.d a0, fa0
  >     addi     a0, a0, 48
  >     sw       a0, 256(x0)
  >     li       a0, 256
  >     li       a1, 1
  >     li       a7, 17
  >     ecall
  >     li       a7, 1
  >     ecall
  > END
  $ bspemu asm six.s six.elf --float
  $ bsprun six.elf
  bsprun: rank 0 stopped: fault IllegalInstruction (stderr)
  rank 0 stopped in superstep 0, after 2 instructions: fault IllegalInstruction (stderr)
    at   address 0x4 (stderr)
    why  the word at 0x4 is fcvt.d.w, a floating-point instruction, but these nodes have no floating-point unit: run with --float, or compile by bspcc -march=rv32imc, which does without (stderr)
    gdb  bspgdb six.elf -- -ex continue (stderr)
  bsprun: run again with --strict to look for the usual mistakes (stderr)
  [2]
  $ bsprun --float six.elf
  6 (no-eol)
  $ bsprun six.s
  6 (no-eol)
  $ bspgdb --dialogue six.elf <<<go | tail -n 2
  fcvt.d.w is of floating point, for which the nodes have no units: bspgdb --float gives these
  (bsp) 
  $ bspgdb --dialogue --float six.elf <<'END' | grep -e fcvt -e fcsr -e fa0
  > step 0 3
  > list 0 4 1
  > fregs 0
  > END
  (bsp)    00000004: fcvt.d.w fa0,t0
  (bsp) rank 0 fcsr 00000000 frm 0 rne flags -
   fa0=4018000000000000 double 6.0
  $ bspsweep --engine plain --folder kept --float six.elf 2>/dev/null
  program,nodes,g,l,input,args,supersteps,w,h,m,total,outcome
  six.elf,1,1,0,,,1,12,0,0,12,ended
  $ bspsweep --engine plain --folder kept six.elf 2>/dev/null
  program,nodes,g,l,input,args,supersteps,w,h,m,total,outcome
  six.elf,1,1,0,,,1,2,0,0,2,rank 0 stopped: fault IllegalInstruction
  [2]
