  $ echo nodes | bspemu debug examples/ranks.raw --format raw --nodes 3 --framed
  done 1
  nodes 3 memory 1048576 limit 1000000 g 1 l 0 ledger 2
  $ echo nodes | bspemu debug examples/ranks.raw --format raw --nodes 1024 --memory 4096 --limit 1099511627776 --g 4294967295 --l 7 --ledger 1 --framed
  done 1
  nodes 1024 memory 4096 limit 1099511627776 g 4294967295 l 7 ledger 1
