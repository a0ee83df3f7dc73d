; A slot of the kernel jumps where its box says: it goes on as a caller, and it serves slot 1.
; keeps 1048576/7
.segment kern 7
  ld r2, r1, 0, any, keep
  jmp r2
  nop
  nop
  nop
  nop
  nop
  nop
door: trap 0
.segment call 7
  st r1, r3, 0, any, keep
  jmp r2
  nop
  nop
  nop
  nop
  nop
  nop
rest: evt r4
  ld r8, r5, 0, any, keep
  halt
.segment box 3
  .int 0
.thread 0 0 none xu kern
.reg 1 ptr ro box
.thread 1 1 0 xu call
.reg 1 ptr rw box
.reg 2 ptr eu door
.reg 3 ptr xu rest
