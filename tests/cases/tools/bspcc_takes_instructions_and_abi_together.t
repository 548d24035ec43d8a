Wants: riscv64-unknown-elf-gcc riscv64-unknown-elf-ld

Of the instructions and the ABI each says the other one. In the flags of the file that is made 4 stands for doubles in registers of floating point, and
1 for compressed instructions.

  $ printf 'double half(double x) { return x / 2; }\nint main(void) { return half(0) != 0; }\n' > main.c
  $ flags() { bspcc --small "$@" -o main.elf main.c && od -An -td1 -j36 -N1 main.elf; }
  $ flags
      5
  $ flags -march=rv32imfdc
      5
  $ flags -mabi=ilp32d
      5
  $ flags -march=rv32imfdc_zicsr
      5
  $ flags -march=rv32imfd -mabi=ilp32d
      4
  $ flags -march=rv32imc
      1
  $ flags -mabi=ilp32
      1
  $ flags -march=rv32im -mabi=ilp32
      0

The flags that Makefiles have for RISC-V are taken, with extension A.

  $ flags -march=rv32gc
      5
  $ flags -march=rv32gc -mabi=ilp32d
      5
  $ flags -march=rv32imafdc_zicsr_zifencei -mabi=ilp32d
      5
  $ flags -march=rv32imac -mabi=ilp32
      1
  $ flags -march=rv32ima -mabi=ilp32
      0

What does not go together is refused, and so are objects of another ABI, instructions that nodes have not, and those for which GCC has no
libraries.

  $ flags -march=rv32imc -mabi=ilp32d
  bspcc: -march=rv32imc needs -mabi=ilp32, not -mabi=ilp32d: leave out one of the two (stderr)
  [1]
  $ flags -march=rv32imfdc -mabi=ilp32
  bspcc: -march=rv32imfdc needs -mabi=ilp32d, not -mabi=ilp32: leave out one of the two (stderr)
  [1]
  $ flags -march=rv32gcv
  bspcc: -march=rv32imafdcv has instructions of V, which nodes do not have: use rv32imfdc, or rv32imc for nodes without floating-point units (stderr)
  [1]
  $ flags -march=rv32i2p1m2p0a2p1v1p0
  bspcc: -march=rv32i2p1m2p0a2p1v1p0 has instructions of V, which nodes do not have: use rv32imfdc, or rv32imc for nodes without floating-point units (stderr)
  [1]
  $ flags -march=rv32imc_zifencei
  bspcc: GCC has no libraries for -march=rv32imc_zifencei: use rv32imfdc, or rv32imc for nodes without floating-point units (stderr)
  [1]
  $ bspcc --small -march=rv32imc -c -o main.o main.c
  $ bspcc --small -o main.elf main.o
  bspcc: main.o was compiled with -mabi=ilp32, and is linked with -mabi=ilp32d: give the same to both (stderr)
  [1]
  $ bspcc --small -mabi=ilp32 -o main.elf main.o

Of an archive that is told behind what the linker says, and where it is called alone.

  $ printf 'double half(double x);\nint main(void) { return half(0) != 0; }\n' > calls.c
  $ printf 'double half(double x) { return x / 2; }\n' > half.c
  $ bspcc --small -march=rv32imc -c half.c && riscv64-unknown-elf-ar rcs libhalf.a half.o
  $ last() { "$@" 2>&1 | tail -n 1; }
  $ last bspcc --small -o calls.elf calls.c libhalf.a
  bspcc: libhalf.a(half.o) was compiled with -mabi=ilp32, and is linked with -mabi=ilp32d: give the same to both
  $ last bspcc --small -o calls.elf calls.c -L . -lhalf
  bspcc: ./libhalf.a(half.o) was compiled with -mabi=ilp32, and is linked with -mabi=ilp32d: give the same to both
  $ bspcc --small -o main.elf main.c -L. -lhalf
  $ bspcc --small -mabi=ilp32 -o calls.elf calls.c libhalf.a

What is of another machine is left out.

  $ flags -march=rv64gc -mabi=lp64d
      5
  bspcc: left out, since nodes have no use for it: -march=rv64gc -mabi=lp64d (stderr)
  $ { printf '\177ELF\002\001\001'; head -c 9 /dev/zero; printf '\001\000\076\000'; head -c 44 /dev/zero; } > other.o
  $ bspcc --small -o main.elf main.c other.o
  bspcc: other.o was compiled for another machine: compile it again with bspcc -c (stderr)
  [1]
