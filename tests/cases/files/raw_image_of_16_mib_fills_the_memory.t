  $ { unhex <<<'93 08 10 00 73 00 00 00'; head -c 16777208 /dev/zero; } | bspemu run - --format raw --memory 16777216 --report --ledger 1
  superstep 0: w 2 h 0 last
  total 2
  ended
