  $ printf 'hello' > input.txt
  $ bspemu run examples/echo.raw --nodes 2 --input input.txt --format raw
  hellohello (no-eol)
