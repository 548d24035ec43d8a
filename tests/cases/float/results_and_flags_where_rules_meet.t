Each row has an instruction of f4, f1, f2 and f3 in this order, and its operands. The answer is f4 and the flags: 10 is NV, 8 DZ, 4 OF, 2 UF
and 1 NX.

  $ row() { printf '.word 0x00043087, 0x00843107, 0x01043187\n.word 0x001052f3, %s, 0x0044b027, 0x001022f3\n' "$1"
  >   printf 'sw t0,8(s1)\naddi s0,s0,24\naddi s1,s1,12\n'
  >   printf '.word 0x%s, 0x%s, 0x%s, 0x%s, 0x%s, 0x%s\n' ${2:8} ${2:0:8} ${3:8} ${3:0:8} ${4:8} ${4:0:8} >&3; }
  $ zero=0000000000000000 minus_zero=8000000000000000 one=3ff0000000000000 two=4000000000000000 three=4008000000000000
  $ infinity=7ff0000000000000 quiet=7ff8000000001234
  $ { row 0x0a20f253 $three $one $zero                        # fsub.d
  >   row 0x1a20f253 $one $three $zero                        # fdiv.d
  >   row 0x1a20f253,0x0210f253 $one $three $zero             # fdiv.d, fadd.d: NX stays
  >   row 0x1a20f253 $one $zero $zero                         # fdiv.d
  >   row 0x1a20f253 $infinity $zero $zero                    # fdiv.d: no division by zero
  >   row 0x1a20f243 $two $three $one                         # fmadd.d
  >   row 0x1a20f24b $two $three $one                         # fnmsub.d: -(2 * 3) + 1
  >   row 0x1a20f24f $two $three $one                         # fnmadd.d: -(2 * 3) - 1
  >   row 0x1a20f243 $infinity $zero $quiet                   # fmadd.d: invalid, whatever is added
  >   row 0x1220f253 3ff0000000000001 000fffffffffffff $zero  # fmul.d: rounded, this is the smallest normal number: not tiny
  >   row 0x1220f253 3fefffffffffffff 0010000000000000 $zero  # fmul.d: to 53 bits, this is below it: tiny
  >   row 0x2a208253 $minus_zero $zero $zero                  # fmin.d
  >   row 0x2a208253 $zero $minus_zero $zero                  # fmin.d
  >   row 0x2a208253 $quiet $quiet $zero                      # fmin.d: the canonical NaN
  >   row 0x2a208253 $quiet $two $zero                        # fmin.d: the number
  >   row 0xa220a353,0xd2030253 $quiet $two $zero             # feq.d x6, fcvt.d.w f4,x6: quiet
  >   row 0xa2209353,0xd2030253 $quiet $two $zero             # flt.d x6: signaling
  >   row 0xc210f353,0xd2130253 41f0000000000000 $zero $zero  # fcvt.wu.d x6, fcvt.d.wu f4,x6: 2^32 is too large
  >   row 0x4010f253 $one $zero $zero                         # fcvt.s.d: a single in its box
  >   row 0x1820f253 ffffffff7f800000 ffffffff00000000 $zero  # fdiv.s: infinity by zero
  >   row 0x1820f24b ffffffff40000000 ffffffff40400000 ffffffff3f800000  # fnmsub.s: -(2 * 3) + 1
  >   row 0xa020a353,0xd2030253 ffffffff7fc00000 ffffffff40000000 $zero  # feq.s x6: quiet
  > } 3>operands.s >rows.s
  $ { printf 'la s0, operands\nla s1, answers\n'; cat rows.s
  >   printf 'li a7,17\nla a0,answers\nli a1,%d\necall\nli a7,1\necall\n' $((22 * 12))
  >   printf '.align 3\noperands:\n'; cat operands.s; printf 'answers:\n'; } >program.s
  $ bspemu run program.s --format asm --float | od -An -v -w12 -tx4 | while read low high flags; do printf '%s %x\n' $high$low 0x$flags; done
  4000000000000000 0
  3fd5555555555555 1
  4000000000000000 1
  7ff0000000000000 8
  7ff0000000000000 0
  401c000000000000 0
  c014000000000000 0
  c01c000000000000 0
  7ff8000000000000 10
  0010000000000000 1
  0010000000000000 3
  8000000000000000 0
  8000000000000000 0
  7ff8000000000000 0
  4000000000000000 0
  0000000000000000 0
  0000000000000000 10
  41efffffffe00000 10
  ffffffff3f800000 0
  ffffffff7f800000 0
  ffffffffc0a00000 0
  0000000000000000 0
