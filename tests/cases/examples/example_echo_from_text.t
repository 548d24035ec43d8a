Each of two ranks writes all of the input.

  $ seq 150 > input
  $ bspemu run examples/echo.s --format asm --nodes 2 --input input > output
  $ cat input input | cmp - output
