; No loop: one `out`, to which five places jump.
.segment main 8
  ldi r1, 53
  lip r5, put
  jal r6, r5
  addi r1, r1, -1
  jal r6, r5
  addi r1, r1, -1
  jal r6, r5
  addi r1, r1, -1
  jal r6, r5
  addi r1, r1, -1
  jal r6, r5
  halt
put: out r1
  jmp r6
.thread 0 0 none xu main
