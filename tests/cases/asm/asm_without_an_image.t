  $ bspemu asm a.s
  error: the following required arguments were not provided: (stderr)
    <IMAGE> (stderr)
   (stderr)
  Usage: bspemu asm <TEXT> <IMAGE> (stderr)
   (stderr)
  For more information, try '--help'. (stderr)
  [1]
