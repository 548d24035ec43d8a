A large machine takes an input of more than 16 MiB.

  $ truncate -s 16777217 input
  $ bspemu run examples/ranks.raw --input input --format raw --large
  0 (no-eol)
