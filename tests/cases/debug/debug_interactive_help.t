Help tells how the lines are spelled and what they do: all of them, or those with a first word.

  $ bspemu debug examples/ranks.raw --format raw --nodes 3 --interactive <<'END'
  > help
  > help step
  > help nodes
  > help stop
  > help step over
  > help stop here
  > help Step
  > END
  break RANK ADDR, or break superstep K: sets a point, at which go stops
  clear RANK ADDR, or clear superstep K: removes a point
  points: the points that are set
  go, or with --framed go RANK COUNT: runs on to a point or to the outcome; a rank alone, by COUNT steps at most
  step, or step RANK [COUNT]: the next instruction of all; COUNT of a rank, or one
  over RANK: an instruction of a rank, with all of a function that it calls
  phase: runs every rank until it stops by itself
  turn: ends the superstep, if no rank runs any more
  where [RANK]: where the ranks are, or one
  regs RANK: the registers of a rank
  fregs RANK: the floating-point registers of a rank, and fcsr
  list RANK ADDR N: N instructions from ADDR on
  bytes RANK ADDR LEN: LEN bytes of memory
  words RANK ADDR N: N words of four bytes
  text RANK ADDR N: the text there, up to its end or to N bytes
  areas RANK: the areas that a rank has registered
  requests RANK: what a rank has asked for in this superstep
  queue RANK: the messages that a rank has received and not moved yet
  keep: keeps the state under the next number
  kept: the states that are kept
  back N: goes back to a state that is kept
  forget N: drops a kept state
  costs, or with --framed costs [FROM]: what the supersteps that are over cost
  output, or with --framed output [FROM]: what was written in the supersteps that are over
  nodes, with --framed alone: how many ranks there are, and the other settings
  help [LINE]: all lines, or one
  quit: ends the session
  step, or step RANK [COUNT]: the next instruction of all; COUNT of a rank, or one
  nodes, with --framed alone: how many ranks there are, and the other settings
  refused: BadCommand: there is no such line; help lists the lines
  refused: BadCommand: the line is help [LINE]
  refused: BadCommand: the line is help [LINE]
  refused: BadCommand: there is no such line; help lists the lines
