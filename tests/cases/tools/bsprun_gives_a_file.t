  $ bsprun -n 4 --file "$REPO"/tests/tools/c/found/matrix.txt "$REPO"/tests/tools/c/found/spmv.elf matrix.txt
  y[0] = 7.5
  y[1] = -2
  y[2] = 5.5
  y[3] = 34
  y[4] = 1
