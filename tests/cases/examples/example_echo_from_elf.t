Each of two ranks writes all of the input.

  $ seq 150 > input
  $ bspemu run examples/echo.elf --nodes 2 --input input > output
  $ cat input input | cmp - output
