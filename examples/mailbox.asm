; A mailbox with a state of its own. A writer holds an enter pointer to one gate, a reader to another one. Both gates
; lead to the mailbox, and neither thread can touch it on its own. A letter is an integer: a pointer is refused, so that
; no right goes from one side to the other. The doors hold the pointers and cannot fault. The code after them can, if r6
; is not a way back, and so it is in a segment that holds no pointer.
.segment code 9
put: isptr r8, r1         ; r7 leads to the mailbox, r6 back
  bnz r8, refused
  ld r8, r7, 0, any, keep ; how many letters were put in; only this side writes that word
  ld r9, r7, 8, any, keep ; how many were taken out; only the other side writes that word
  sub r9, r8, r9
  addi r9, r9, -2
  bz r9, refused          ; there is room for two
  ldi r9, 1
  and r9, r8, r9          ; the places take turns
  ldi r10, 3
  shl r9, r9, r10
  addi r9, r9, 16
  leab r9, r7, r9
  st r9, r1, 0, any, keep ; first the letter, and then the count
  addi r8, r8, 1
  st r7, r8, 0, any, keep
  ldi r2, 1               ; taken
  br back
take: ld r8, r7, 0, any, keep
  ld r9, r7, 8, any, keep
  sub r10, r8, r9
  bz r10, refused         ; no letter is in it
  ldi r8, 1
  and r8, r9, r8
  ldi r10, 3
  shl r8, r8, r10
  addi r8, r8, 16
  leab r8, r7, r8
  ld r1, r8, 0, any, keep ; the letter
  addi r9, r9, 1
  st r7, r9, 8, any, keep
  ldi r2, 1
  br back
refused: ldi r2, 0        ; not taken, or no letter
back: ldi r7, 0           ; nothing before this can fault: no register leads to the mailbox any more
  ldi r8, 0
  ldi r9, 0
  jmp r6
.segment put_gate 6
  .ptr rw box
  .ptr xu put
put_door: lip r7, -2      ; the gate finds its pointers from its own place in memory
  ld r8, r7, 8, any, keep
  ld r7, r7, 0, any, keep
  jmp r8
.segment take_gate 6
  .ptr rw box
  .ptr xu take
take_door: lip r7, -2
  ld r8, r7, 8, any, keep
  ld r7, r7, 0, any, keep
  jmp r8
.segment writer 6
again: jal r6, r5
  bz r2, again            ; full: try again
  addi r1, r1, 1
  addi r3, r3, -1
  bnz r3, again
  halt
.segment reader 6
more: jal r6, r5
  bz r2, more             ; empty: try again
  out r1
  addi r3, r3, -1
  bnz r3, more
  halt
.segment box 5
  .int 0                  ; how many letters were put in
  .int 0                  ; how many were taken out
  .fill 2                 ; two places
.thread 0 0 none xu writer
.reg 1 int 65
.reg 3 int 3
.reg 5 ptr eu put_door
.thread 1 1 none xu reader
.reg 3 int 3
.reg 5 ptr eu take_door
