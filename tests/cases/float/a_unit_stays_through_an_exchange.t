  $ bspemu run programs/each_node_has_a_unit_of_its_own.s --format asm --float --nodes 3 --workers 2
  ok
  ok
  ok
