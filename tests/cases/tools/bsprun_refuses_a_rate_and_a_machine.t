  $ bsprun --rate 0 examples/ranks.elf
  bsprun: argument --rate: '0': the rate is a number of instructions a second from 1 to 1e18, as 1e9; bsprun --help lists the options (stderr)
  [1]
  $ bsprun --rate fast examples/ranks.elf
  bsprun: argument --rate: 'fast': the rate is a number of instructions a second from 1 to 1e18, as 1e9; bsprun --help lists the options (stderr)
  [1]
  $ bsprun --machine cm-5 examples/ranks.elf
  bsprun: 'cm-5' is not a known machine; these are: t3e-2, * has them (stderr) (glob)
  [1]
  $ echo 'mine 2 1e6 8 100' >own.txt
  $ BSP_MACHINES=own.txt bsprun --machine mine examples/ranks.elf
  bsprun: own.txt, line 1: a machine has a name, p, r, g, l, the bytes of a word, and a source (stderr)
  [1]
  $ BSP_MACHINES=none.txt bsprun --machine mine examples/ranks.elf
  bsprun: none.txt: No such file or directory (stderr)
  [1]
