A page has the program, and what would be told of a run has no place beside it.

  $ bsprun --page run.html -n 2 examples/one_put.s && head -c 15 run.html
  <!DOCTYPE html> (no-eol)
  $ bsprun --page run.html --report - -n 2 examples/one_put.s
  bsprun: --page shows the run in the page, so --report has nothing to do: leave one of the two out (stderr)
  [1]
  $ bsprun --page run.html --out files -n 2 examples/one_put.s
  bsprun: --page shows the run in the page, so --out has nothing to do: leave one of the two out (stderr)
  [1]
  $ bsprun --page run.html --strict --report - -n 2 examples/one_put.s
  bsprun: --page shows the run in the page, so --report has nothing to do: leave one of the two out (stderr)
  [1]
  $ bsprun --page missing/run.html -n 2 examples/one_put.s
  bsprun: missing/run.html: No such file or directory (stderr)
  [1]
