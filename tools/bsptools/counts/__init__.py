"""The exact counts of a run: work by line, function and call, and formats for other programs."""
