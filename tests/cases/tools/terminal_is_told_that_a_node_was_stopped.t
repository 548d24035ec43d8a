  $ at-a-terminal "$REPO"/bspemu run examples/give_up.s --format asm --nodes 3
  stop (no-eol)
  bspemu: a node was stopped before it ended; --report tells which, and why (stderr)
  [2]
