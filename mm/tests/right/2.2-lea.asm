; `lea` and `leai` in place of `leab`.
.segment main 7
  ldi r9, 24
  lea r2, r1, r9
  ldi r3, 4
  subseg r2, r2, r3
  leai r6, r2, -8
  ld r7, r6, 0, any, keep
  out r7
  ldi r9, 8
  lea r2, r2, r9
  halt
.segment letters 6
  .int 65
  .int 66
  .int 67
  .int 68
  .int 69
  .int 70
  .int 71
  .int 72
.thread 0 0 none xu main
.reg 1 ptr ro letters
