  $ { unhex <<<'93 08 10 00 73 00 00 00 00'; head -c 16777208 /dev/zero; } | bspemu run - --format raw --memory 16777216 --report
  bspemu: too long (stderr)
  [1]
