  $ cat > written <<'END'
  > a file
  > END
  $ bspsweep --engine plain --folder written/kept examples/one_put.s
  bspsweep: no results can be saved in */written/kept: Not a directory. Give another folder by --folder (stderr) (glob)
  [1]
