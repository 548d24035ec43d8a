In supersteps 1 to 5 the call that writes is hpput, and in 6 to 10 hpget: whoever reads, put, hpput, get, hpget or a message, either may be
first. In 11 to 14 put and get write, at the end of the superstep: only hpput and hpget may read that late. In 15 to 20 nobody is
unbuffered, and nothing is exposed. The run and its report are those without the option.

  $ bspemu run programs/each_call_that_reads_what_another_one_writes.s --format asm --nodes 3 --report > report
  $ bspemu run programs/each_call_that_reads_what_another_one_writes.s --format asm --nodes 3 --report --exposed exposed.csv | cmp - report
  $ tail -n 1 report
  ended
  $ cat exposed.csv
  superstep,rank,address,bytes,reader_kind,reader_rank,reader_request,reader_pc,writer_kind,writer_rank,writer_request,writer_pc
  1,0,00002000,4,put,0,0,000000bc,hpput,1,0,0000005c
  2,0,00002000,4,hpput,0,0,000000bc,hpput,1,0,0000005c
  3,0,00002000,4,get,0,0,000000e0,hpput,1,0,0000005c
  4,0,00002000,4,hpget,0,0,000000e0,hpput,1,0,0000005c
  5,0,00002000,4,send,0,0,00000100,hpput,1,0,0000005c
  6,0,00002000,4,put,0,1,000000bc,hpget,0,0,00000084
  7,0,00002000,4,hpput,0,1,000000bc,hpget,0,0,00000084
  8,0,00002000,4,get,0,1,000000e0,hpget,0,0,00000084
  9,0,00002000,4,hpget,0,1,000000e0,hpget,0,0,00000084
  10,0,00002000,4,send,0,1,00000100,hpget,0,0,00000084
  11,0,00002000,4,hpput,0,0,000000bc,put,1,0,0000005c
  12,0,00002000,4,hpget,0,0,000000e0,put,1,0,0000005c
  13,0,00002000,4,hpput,0,1,000000bc,get,0,0,00000084
  14,0,00002000,4,hpget,0,1,000000e0,get,0,0,00000084
