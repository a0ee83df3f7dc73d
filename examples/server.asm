; A server of faults. Slots 1 and 2 have slot 0 as their handler: each of their faults is an event in its queue. It prints
; the letter in register 1 at a trap, mends a division by zero for another try, and ends the slot at other faults.
.segment serve 8
next: evt r4              ; r4 is the cause + 256 * the slot, r5 its instruction pointer, r6 and r7 the operands
  ldi r1, 255
  and r2, r4, r1          ; the cause
  ldi r1, 8
  shr r3, r4, r1          ; the slot
  addi r1, r2, -11
  bz r1, say              ; 11 is Trap
  addi r1, r2, -9
  bz r1, mend             ; 9 is DivZero
  resume r3, kill
  br next
say: rreg r8, r3, 1
  out r8
  resume r3, skip
  br next
mend: ldi r8, 1
  wreg r3, r8, 2
  resume r3, retry
  br next
.segment polite 5
  trap 1
  ldi r1, 105             ; i
  trap 1
  halt
.segment rude 5
  divu r1, r1, r2         ; by zero
  trap 1
  ld r3, r1, 0, any, keep ; through an integer
  halt
.thread 0 0 none xu serve
.thread 1 1 0 xu polite
.reg 1 int 72             ; H
.thread 2 2 0 xu rude
.reg 1 int 33             ; !
