  $ prlimit --as=24000000 bspemu run - --format asm --nodes 64 --memory 4096 --limit 20000 --workers 64 <<'END'
  > loop: j loop
  > END
  bspemu: no worker (stderr)
  [5]
