  $ bspemu debug examples/ranks.raw script --format raw --framed
  error: unexpected argument 'script' found (stderr)
   (stderr)
  Usage: bspemu debug [OPTIONS] <IMAGE> (stderr)
   (stderr)
  For more information, try '--help'. (stderr)
  [1]
  $ cat examples/ranks.raw | bspemu debug - --format raw --framed
