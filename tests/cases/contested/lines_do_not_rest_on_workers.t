  $ bspemu run programs/puts_of_alike_and_of_other_bytes.s --format asm --nodes 3 --contested contested.csv
  $ bspemu run programs/puts_of_alike_and_of_other_bytes.s --format asm --nodes 3 --workers 3 --slice 1 --contested other.csv
  $ cmp contested.csv other.csv
  $ wc -l < contested.csv
  3
