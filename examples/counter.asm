; A producer stores numbers into a box. A consumer takes each number, prints it as a letter, and calls a gate, which
; counts the calls. All the consumer has of the gate is an enter pointer to the door, and it has no handler that could
; look behind the door. So it can neither touch the count nor enter the gate at another place.
.segment prod 6
loop: st r1, r2, 0, empty, full
  addi r2, r2, 1
  addi r3, r3, -1
  bnz r3, loop
  halt
.segment cons 7
again: ld r2, r1, 0, full, empty
  addi r2, r2, 64
  out r2
  jal r6, r5
  addi r3, r3, -1
  bnz r3, again
  halt
.segment gate 6
  .ptr rw count
door: lip r7, -1          ; the gate finds its data next to its own code
  ld r7, r7, 0, any, keep
  ld r8, r7, 0, any, keep
  addi r8, r8, 1
  st r7, r8, 0, any, keep
  ldi r7, 0               ; and leaves it in no register
  jmp r6
.segment box 3
  .empty .int 0
.segment count 3
  .int 0
.thread 0 0 none xu prod
.reg 1 ptr rw box
.reg 2 int 1
.reg 3 int 2
.thread 1 1 none xu cons
.reg 1 ptr rw box
.reg 3 int 2
.reg 5 ptr eu door
