; The gate leaves its pointer in r7: slot 1, which has no ticket, loads the number through it.
.segment gate 7
ticket: .ptr key office
number: .int 42
door: lip r7, ticket
  ld r8, r7, 0, any, keep
  eqw r8, r8, r2          ; the same bits, and the same tag?
  ldi r1, 0
  bz r8, back
  ld r1, r7, 8, any, keep
back: nop           ; r7 leads to the number and to the ticket: clear it
  jmp r6
.segment caller 5
  jal r6, r5
  leai r7, r7, 8
  ld r3, r7, 0, any, keep
  halt
.segment office 3
.thread 0 0 none xu caller
.reg 2 ptr key office
.reg 5 ptr eu door
.thread 1 1 none xu caller
.reg 2 int 0x70c00000001000a0
.reg 5 ptr eu door
