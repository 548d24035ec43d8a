It has to be done in ten seconds of processor time, whatever the headers' sizes of memory add up to.

  $ unhex > head <<'END'
  > 7f 45 4c 46 01 01 01 00 00 00 00 00 00 00 00 00 02 00 f3 00 01 00 00 00 00 00 00 00 80 00 00 00
  > 00 00 00 00 00 00 00 00 34 00 20 00 fc ff 00 00 00 00 00 00 93 08 10 01 37 35 00 00 13 05 85 ff
  > 93 05 00 01 73 00 00 00 37 05 00 01 13 05 85 ff 93 05 80 00 73 00 00 00 13 05 80 03 93 05 40 00
  > 73 00 00 00 93 08 10 00 73 00 00 00 65 6e 64 0a 75 6e 64 65 72 20 74 68 65 20 7a 65 72 6f 73 0a
  > END
  $ unhex > headers <<'END'
  > 01 00 00 00 70 00 00 00 f8 2f 00 00 f8 2f 00 00 10 00 00 00 10 00 00 00 07 00 00 00 01 00 00 00
  > 01 00 00 00 00 00 00 00 fe 2f 00 00 fe 2f 00 00 00 00 00 00 ff 0f 00 00 07 00 00 00 01 00 00 00
  > 01 00 00 00 34 00 00 00 00 00 00 00 00 00 00 00 3c 00 00 00 3c 00 00 00 07 00 00 00 01 00 00 00
  > END
  $ { cat head; repeat 21844 < headers; } > image.elf
  $ (ulimit -t 10; exec bspemu run image.elf --memory 16777216)
  under \x00\x00\x00\x00\x00\x00\x00\x00\x00\x00\x00\x00\x00\x00\x00\x00\x00\x00end (esc)
