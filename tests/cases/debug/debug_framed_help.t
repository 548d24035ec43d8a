A framed session is told its lines in a table: a row for each form, with its first word, what follows that, and what it does. No row has
other fields, and each first word is one that `help` takes.

  $ bspemu debug examples/ranks.raw --format raw --nodes 3 --framed <<'END'
  > help
  > help step
  > help nodes
  > help costs
  > help stop
  > help step over
  > help Step
  > help help
  > END
  done 31
  break\tRANK ADDR\tsets a point, at which go stops (esc)
  break\tsuperstep K\tsets a point, at which go stops (esc)
  clear\tRANK ADDR\tremoves a point (esc)
  clear\tsuperstep K\tremoves a point (esc)
  points\t\tthe points that are set (esc)
  go\t\truns on to a point or to the outcome (esc)
  go\tRANK COUNT\ta rank alone, by COUNT steps at most (esc)
  step\t\tthe next instruction of all (esc)
  step\tRANK [COUNT]\tCOUNT of a rank, or one (esc)
  over\tRANK\tan instruction of a rank, with all of a function that it calls (esc)
  phase\t\truns every rank until it stops by itself (esc)
  turn\t\tends the superstep, if no rank runs any more (esc)
  where\t[RANK]\twhere the ranks are, or one (esc)
  regs\tRANK\tthe registers of a rank (esc)
  fregs\tRANK\tthe floating-point registers of a rank, and fcsr (esc)
  list\tRANK ADDR N\tN instructions from ADDR on (esc)
  bytes\tRANK ADDR LEN\tLEN bytes of memory (esc)
  words\tRANK ADDR N\tN words of four bytes (esc)
  text\tRANK ADDR N\tthe text there, up to its end or to N bytes (esc)
  areas\tRANK\tthe areas that a rank has registered (esc)
  requests\tRANK\twhat a rank has asked for in this superstep (esc)
  queue\tRANK\tthe messages that a rank has received and not moved yet (esc)
  keep\t\tkeeps the state under the next number (esc)
  kept\t\tthe states that are kept (esc)
  back\tN\tgoes back to a state that is kept (esc)
  forget\tN\tdrops a kept state (esc)
  costs\t[FROM]\twhat the supersteps that are over cost (esc)
  output\t[FROM]\twhat was written in the supersteps that are over (esc)
  nodes\t\thow many ranks there are, and the other settings (esc)
  help\t[LINE]\tall lines, or one (esc)
  quit\t\tends the session (esc)
  done 2
  step\t\tthe next instruction of all (esc)
  step\tRANK [COUNT]\tCOUNT of a rank, or one (esc)
  done 1
  nodes\t\thow many ranks there are, and the other settings (esc)
  done 1
  costs\t[FROM]\twhat the supersteps that are over cost (esc)
  refused 1
  refused: BadCommand
  refused 1
  refused: BadCommand
  refused 1
  refused: BadCommand
  done 1
  help\t[LINE]\tall lines, or one (esc)
  $ bspemu debug examples/ranks.raw --format raw --nodes 3 --framed <<< help | sed 1d | awk -F '\t' '{ print NF }' | sort | uniq -c
       31 3
  $ bspemu debug examples/ranks.raw --format raw --nodes 3 --framed <<< help > table
  $ sed 1d table | cut -f 1 | uniq | sed 's/^/help /' > lines
  $ bspemu debug examples/ranks.raw --format raw --nodes 3 --framed < lines | grep -v '^done' | diff - <(sed 1d table)
