The library of bspcc fills fresh memory. An assembly text does not have it, and a page does not ask for it.

  $ bsprun --fill 3 -n 2 examples/one_put.s
  bsprun: examples/one_put.s does not take --fill: it was not built by this bspcc (stderr)
  [1]
  $ bsprun --fill 3 --page run.html -n 2 examples/one_put.s
  bsprun: --page shows the run in the page, so --fill has nothing to do: leave one of the two out (stderr)
  [1]
