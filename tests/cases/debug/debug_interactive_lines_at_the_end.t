  $ for lines in '' '\n' 'phase' 'phase\n' 'phase\n\n  ' 'quit' 'quit\nphase'; do
  >     echo "-- $lines"
  >     printf "$lines" | bspemu debug examples/ranks.raw --format raw --nodes 3 --interactive
  > done
  -- 
  -- \n
  -- phase
  moved 30
  -- phase\n
  moved 30
  -- phase\n\n  
  moved 30
  -- quit
  -- quit\nphase
