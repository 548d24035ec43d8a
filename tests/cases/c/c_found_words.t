  $ printf 'one two three\nfour five, and so on\nsix\nthe end' > text.txt
  $ bspemu run "$REPO"/tests/tools/c/found/words.elf --float --nodes 4 --input text.txt
  4 lines, 11 words; the longest line is: four five, and so on
