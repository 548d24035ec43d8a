Areas and requests of a rank are told by their numbers: areas once they are in effect, requests until the turn.

  $ cat > asks.s <<'END'
  >     li a7, 5
  >     li a0, 0x100
  >     li a1, 16
  >     ecall
  >     li a0, 0x200
  >     li a1, 0
  >     ecall
  >     li a7, 4
  >     ecall
  >     li a7, 7
  >     li a0, 1
  >     li a1, 0x40
  >     li a2, 0x100
  >     li a3, 4
  >     li a4, 8
  >     ecall
  >     li a7, 8
  >     li a0, 0
  >     li a1, 0x100
  >     li a2, 2
  >     li a3, 0x300
  >     li a4, 3
  >     ecall
  >     li a7, 12
  >     li a0, 1
  >     li a1, 0x80
  >     li a2, 0x90
  >     li a3, 5
  >     ecall
  >     li a7, 4
  >     ecall
  >     li a7, 1
  >     ecall
  > END
  $ bspemu debug asks.s --format asm --nodes 2 --interactive <<'END'
  > phase
  > areas 0
  > turn
  > areas 0
  > areas 1
  > requests 0
  > phase
  > requests 0
  > requests 1
  > turn
  > requests 0
  > areas 2
  > requests 2
  > END
  moved 18
  turned
  area 0 at 00000100 size 16
  area 1 at 00000200 size 0
  area 0 at 00000100 size 16
  area 1 at 00000200 size 0
  moved 44
  request 0 put to rank 1 area 0 offset 4 bytes 8
  request 1 get from rank 0 area 0 offset 2 bytes 3 into 00000300
  request 2 send to rank 1 bytes 5 tag bytes 0
  request 0 put to rank 1 area 0 offset 4 bytes 8
  request 1 get from rank 0 area 0 offset 2 bytes 3 into 00000300
  request 2 send to rank 1 bytes 5 tag bytes 0
  turned
  refused: BadRank
  refused: BadRank
