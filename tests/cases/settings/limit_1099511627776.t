  $ bspemu run examples/ranks.raw --limit 1099511627776 --format raw
  0 (no-eol)
