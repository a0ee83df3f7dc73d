; A small protected kernel: a client pays a credit for each letter. A client has an enter pointer to a gate of its own,
; which has the one pointer to its credits, and one to the kernel. The gates share that code, and nobody can write it.
.segment kernel 6
  ld r8, r7, 0, any, keep ; r7 leads to the credits, r2 is the letter, r6 the way back
  bz r8, poor
  addi r8, r8, -1
  st r7, r8, 0, any, keep
  out r2
poor: ldi r7, 0           ; the pointer is not left to the caller
  jmp r6
.segment gate_a 6
  .ptr rw credits_a
  .ptr xu kernel
door_a: lip r7, -2        ; the gate finds its pointers from its own place in memory
  ld r8, r7, 8, any, keep
  ld r7, r7, 0, any, keep
  jmp r8
.segment gate_b 6
  .ptr rw credits_b
  .ptr xu kernel
door_b: lip r7, -2
  ld r8, r7, 8, any, keep
  ld r7, r7, 0, any, keep
  jmp r8
.segment client_a 5
again: jal r6, r5
  addi r3, r3, -1
  bnz r3, again
  halt
.segment client_b 5
  jal r6, r5
  ld r4, r5, -16, any, keep ; a look behind the door
  halt
.segment credits_a 3
  .int 2
.segment credits_b 3
  .int 2
.thread 0 0 none xu client_a
.reg 2 int 65
.reg 3 int 3
.reg 5 ptr eu door_a
.thread 1 1 none xu client_b
.reg 2 int 66
.reg 5 ptr eu door_b
