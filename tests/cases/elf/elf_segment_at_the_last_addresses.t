  $ unhex images/one_segment_at_256.hex > image
  $ poke image 60=f4ffffff
  $ bspemu list image
  fffffff4: 00100893  addi x17,x0,1
  fffffff8: 00000073  ecall
