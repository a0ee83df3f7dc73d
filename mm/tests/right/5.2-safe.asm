; The number is in a segment of its own.
.segment gate 7
ticket: .ptr key office
where: .ptr ro safe
door: lip r7, ticket
  ld r8, r7, 0, any, keep
  eqw r9, r2, r8
  bnz r9, yes
  ldi r1, 0
  br back
yes: ld r7, r7, 8, any, keep
  ld r1, r7, 0, any, keep
back: ldi r7, 0
  ldi r8, 0
  jmp r6
.segment safe 3
number: .int 42
.segment caller 4
  jal r6, r5
  halt
.segment office 3
.thread 0 0 none xu caller
.reg 2 ptr key office
.reg 5 ptr eu door
.thread 1 1 none xu caller
.reg 2 int 0x70c0000000100098
.reg 5 ptr eu door
