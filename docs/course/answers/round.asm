; A caller gives a gate no way back, so the gate faults at its end. The caller's handler, in its group, learns where.
.segment gate 6
own: .ptr rw count
door: lip r7, own
  ld r7, r7, 0, any, keep
  ld r8, r7, 0, any, keep
  addi r8, r8, 1
  st r7, r8, 0, any, keep
  ldi r7, 0
  jmp r6
.segment handler 6
  evt r4                  ; r5 is the instruction pointer of the fault
  ldi r1, 0
  leab r2, r5, r1         ; to the base of its segment
  ld r2, r2, 0, any, keep ; the gate's own pointer
  ldi r3, 99
  st r2, r3, 0, any, keep
  halt
.segment caller 3
  jmp r5                  ; register 6 is integer 0
.segment count 3
  .int 0
.thread 0 0 1 xu caller
.reg 5 ptr eu door
.thread 1 0 none xu handler
