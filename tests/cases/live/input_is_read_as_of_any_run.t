  $ printf 'echo' > input
  $ bspemu run examples/echo.elf --nodes 2 --input input --live
  echoecho (no-eol)
