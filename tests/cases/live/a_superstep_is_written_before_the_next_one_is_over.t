  $ mkfifo told
  $ bspemu run programs/a_line_and_then_steps_without_end.s --format asm --limit 1099511627776 --live > told &
  > read -r line < told; kill $!; echo "$line"
  line
