  $ printf 'read by both\n\x00\xff without a last line feed' > text
  $ bspemu debug examples/echo.s --format asm --nodes 2 --input text <<'END'
  > output
  > phase
  > output
  > turn
  > output
  > END
  
  moved 40
  
  ended
  read by both
  \x00\xff without a last line feedread by both (esc)
  \x00\xff without a last line feed (esc)
