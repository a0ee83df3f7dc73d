; A money box behind a gate. The saver has the door `put`, which adds the number in r1 to the coins. The owner has the
; door `look`, which gives the number of coins in r1. The gate's pointers are in the segment of the doors; the code that
; can fault is in another one, which holds no pointer.
.segment box 6
insert: ld r8, r7, 0, any, keep ; r7 leads to the coins, r6 is the way back
  add r8, r8, r1
  st r7, r8, 0, any, keep
  br back
count: ld r1, r7, 0, any, keep
back: ldi r7, 0           ; nothing before this can fault
  ldi r8, 0
  jmp r6
.segment gate 7
own: .ptr rw coins
  .ptr xu insert
  .ptr ro coins
  .ptr xu count
put: lip r7, own
  ld r8, r7, 8, any, keep
  ld r7, r7, 0, any, keep
  jmp r8
look: lip r7, own
  ld r8, r7, 24, any, keep
  ld r7, r7, 16, any, keep
  jmp r8
.segment coins 3
  .int 0
.segment saver 5
  jal r6, r5
  halt
.segment owner 6
again: jal r6, r5
  bz r1, again            ; there is no coin yet
  addi r1, r1, 48
  out r1
  halt
.thread 0 0 none xu saver
.reg 1 int 3
.reg 5 ptr eu put
.thread 1 1 none xu owner
.reg 5 ptr eu look
