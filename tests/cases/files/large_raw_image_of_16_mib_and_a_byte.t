A large machine takes an image of more than 16 MiB.

  $ cp examples/ranks.raw image
  $ truncate -s 16777217 image
  $ bspemu run image --format raw --large --memory 33554432
  0 (no-eol)
