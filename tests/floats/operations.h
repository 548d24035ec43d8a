/* The instructions of F and D that compute something, each with the kind of its result and operands, F for a register of floating point and
   X for an integer register, and its text: the operands are in fa1, fa2, fa3 or a1, and the result is to be in fa0 or a0.

   Whoever includes this says what OPERATION(name, kind, text) is, and ROUNDED(name, kind, text): that is an instruction that rounds, behind
   whose text a rounding mode may stand. */

#define OF_FORMAT(_s, s) \
    ROUNDED(fadd##_s, FFF, "fadd." s " fa0,fa1,fa2") \
    ROUNDED(fsub##_s, FFF, "fsub." s " fa0,fa1,fa2") \
    ROUNDED(fmul##_s, FFF, "fmul." s " fa0,fa1,fa2") \
    ROUNDED(fdiv##_s, FFF, "fdiv." s " fa0,fa1,fa2") \
    ROUNDED(fsqrt##_s, FF, "fsqrt." s " fa0,fa1") \
    ROUNDED(fmadd##_s, FFFF, "fmadd." s " fa0,fa1,fa2,fa3") \
    ROUNDED(fmsub##_s, FFFF, "fmsub." s " fa0,fa1,fa2,fa3") \
    ROUNDED(fnmsub##_s, FFFF, "fnmsub." s " fa0,fa1,fa2,fa3") \
    ROUNDED(fnmadd##_s, FFFF, "fnmadd." s " fa0,fa1,fa2,fa3") \
    OPERATION(fmin##_s, FFF, "fmin." s " fa0,fa1,fa2") \
    OPERATION(fmax##_s, FFF, "fmax." s " fa0,fa1,fa2") \
    OPERATION(fsgnj##_s, FFF, "fsgnj." s " fa0,fa1,fa2") \
    OPERATION(fsgnjn##_s, FFF, "fsgnjn." s " fa0,fa1,fa2") \
    OPERATION(fsgnjx##_s, FFF, "fsgnjx." s " fa0,fa1,fa2") \
    OPERATION(feq##_s, XFF, "feq." s " a0,fa1,fa2") \
    OPERATION(flt##_s, XFF, "flt." s " a0,fa1,fa2") \
    OPERATION(fle##_s, XFF, "fle." s " a0,fa1,fa2") \
    OPERATION(fclass##_s, XF, "fclass." s " a0,fa1") \
    ROUNDED(fcvt_w##_s, XF, "fcvt.w." s " a0,fa1") \
    ROUNDED(fcvt_wu##_s, XF, "fcvt.wu." s " a0,fa1")

OF_FORMAT(_d, "d")
OF_FORMAT(_s, "s")
ROUNDED(fcvt_of_w_s, FX, "fcvt.s.w fa0,a1")
ROUNDED(fcvt_of_wu_s, FX, "fcvt.s.wu fa0,a1")
OPERATION(fcvt_of_w_d, FX, "fcvt.d.w fa0,a1")
OPERATION(fcvt_of_wu_d, FX, "fcvt.d.wu fa0,a1")
ROUNDED(fcvt_s_d, FF, "fcvt.s.d fa0,fa1")
OPERATION(fcvt_d_s, FF, "fcvt.d.s fa0,fa1")
OPERATION(fmv_x_w, XF, "fmv.x.w a0,fa1")
OPERATION(fmv_w_x, FX, "fmv.w.x fa0,a1")

#undef OF_FORMAT
