; A gate that gives its number to whoever shows the ticket in r2. The ticket is a key. Slot 1 has only an integer with
; the bits of the key.
.segment gate 7
ticket: .ptr key office
number: .int 42
door: lip r7, ticket
  ld r8, r7, 0, any, keep
  eqw r8, r8, r2          ; the same bits, and the same tag?
  ldi r1, 0
  bz r8, back
  ld r1, r7, 8, any, keep
back: ldi r7, 0           ; r7 leads to the number and to the ticket: clear it
  jmp r6
.segment caller 4
  jal r6, r5
  halt
.segment office 3
.thread 0 0 none xu caller
.reg 2 ptr key office
.reg 5 ptr eu door
.thread 1 1 none xu caller
.reg 2 int 0x70c0000000100090
.reg 5 ptr eu door
