The run is made in one thread, whatever the number of workers is.

  $ bspemu run programs/each_call_that_reads_what_another_one_writes.s --format asm --nodes 3 --exposed exposed.csv
  $ bspemu run programs/each_call_that_reads_what_another_one_writes.s --format asm --nodes 3 --workers 3 --slice 1 --exposed other.csv
  $ cmp exposed.csv other.csv
  $ wc -l < exposed.csv
  15
