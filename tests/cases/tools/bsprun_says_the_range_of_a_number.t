  $ bsprun --nodes 65537 examples/wrong_put.s
  bsprun: argument -n/--nodes: '65537': the number of nodes is a whole number from 1 to 65536; bsprun --help lists the options (stderr)
  [1]
