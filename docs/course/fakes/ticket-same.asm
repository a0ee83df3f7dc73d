; Gate and caller lie in one segment: slot 1, which has no ticket, loads the number by `lip`.
.segment all 8
ticket: .ptr key office
number: .int 42
door: lip r7, ticket
  ld r8, r7, 0, any, keep
  eqw r8, r8, r2
  ldi r1, 0
  bz r8, back
  ld r1, r7, 8, any, keep
back: ldi r7, 0
  jmp r6
caller: jal r6, r5
  lip r9, number
  ld r10, r9, 0, any, keep
  ldi r9, 0
  halt
.segment office 3
.thread 0 0 none xu caller
.reg 2 ptr key office
.reg 5 ptr eu door
.thread 1 1 none xu caller
.reg 2 int 0x70c0000000100100
.reg 5 ptr eu door
