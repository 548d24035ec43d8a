  $ printf '\n   \nbytes 0 0 0\nqueue 0\n\n' | bspemu debug examples/ranks.raw --format raw --nodes 3 --framed
  done 0
  done 0
  done 0
  done 1
  count 0 bytes 0
  done 0
