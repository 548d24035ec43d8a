  $ printf '\x00\xff\n\x80\r' > input.bin
  $ bspemu run examples/echo.raw --input input.bin --format raw
  \x00\xff (esc)
  \x80\r (esc) (no-eol)
