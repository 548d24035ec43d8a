  $ cat > image <<'END'
  > #!/bin/sh
  > END
  $ bspemu run image
  bspemu: image refused: NotElf (stderr)
  [1]
