  $ echo a file >written && bspsweep --engine plain --folder written examples/one_put.s
  bspsweep: no results can be saved in */written: it is not a folder. Give another folder by --folder (stderr) (glob)
  [1]
