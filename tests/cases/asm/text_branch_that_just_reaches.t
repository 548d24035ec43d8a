  $ cat > text.s <<'END'
  > # Of the bytes between only zeros are left to execute, so the branch is taken.
  >         beq x0,x0,far
  >         .space 4088
  > far:    li a7, 1              # end()
  >         ecall
  > END
  $ bspemu run text.s --format asm
