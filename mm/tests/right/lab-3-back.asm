; From the last word back.
.segment numbers 5
  .int 10
  .int 20
  .int 30
  .int 40
.segment main 7
  leai r4, r1, 24
  ldi r2, 3
x: ld r6, r4, 0, any, keep
  add r3, r6, r3
  bz r2, end
  leai r4, r4, -8
  addi r2, r2, -1
  br x
end: halt
.thread 0 0 none xu main
.reg 1 ptr ro numbers
