; The third thread has the fault, but by a jump: it forges nothing.
.segment code 6
again: ld r2, r1, 0, any, keep
  addi r2, r2, 1
  st r1, r2, 0, any, keep
  out r2
  addi r3, r3, -1
  bnz r3, again
  halt
.segment forge 5
  jmp r0
.segment noise 4
more: out r1
  br more
.segment upper 3
  .int 64
.thread 0 0 none xu code
.reg 1 ptr rw upper
.reg 3 int 3
.thread 1 1 none xu noise
.reg 1 int 33
.thread 2 1 none xu forge
