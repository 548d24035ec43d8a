  $ printf 'refused 1\nrefused: Over\ndone 0\r\n' > text
  $ bspemu debug examples/echo.s --format asm --input text --framed <<'END'
  > go
  > output
  > nodes
  > END
  done 1
  ended
  done 4
  refused 1
  refused: Over
  done 0\r (esc)
  
  done 1
  nodes 1 memory 1048576 limit 1000000 g 1 l 0 ledger 2
