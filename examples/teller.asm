; A gate that tests what it is handed. It writes the number of the call into a word of the caller's. The caller names
; the word by a pointer in r1. The gate looks at it before it uses it: it has to be a pointer that reads and writes, to
; at least a whole word. Each caller has a door of its own, and behind it a count of its own. The code that they share
; can fault, if the word has no page or r6 is not a way back. So it is in a segment that holds no pointer.
.segment teller 8
  isptr r8, r1            ; r7 leads to the number of calls, r1 to the caller's word, r6 back
  bz r8, refused          ; an integer
  ldi r9, 60
  shr r8, r1, r9
  addi r8, r8, -2
  bnz r8, refused         ; 2 is read/write
  ldi r9, 54
  shr r8, r1, r9
  ldi r9, 63
  and r8, r8, r9          ; the length of its segment is 2 to the power of this
  ldi r9, 3
  ltu r8, r8, r9
  bnz r8, refused         ; shorter than a word
  ldi r9, 7
  and r8, r1, r9
  bnz r8, refused         ; not at the beginning of a word
  ld r8, r7, 0, any, keep
  addi r8, r8, 1
  st r7, r8, 0, any, keep
  ldi r7, 0               ; nothing before this can fault, and from here on a fault has nothing of the gate's to show
  st r1, r8, 0, any, keep
  ldi r2, 1
  jmp r6
refused: ldi r7, 0
  ldi r2, 0
  jmp r6
.segment honest_gate 6
  .ptr rw honest_calls
  .ptr xu teller
honest_door: lip r7, -2   ; the gate finds its pointers from its own place in memory
  ld r8, r7, 8, any, keep
  ld r7, r7, 0, any, keep
  jmp r8
.segment rude_gate 6
  .ptr rw rude_calls
  .ptr xu teller
rude_door: lip r7, -2
  ld r8, r7, 8, any, keep
  ld r7, r7, 0, any, keep
  jmp r8
.segment honest 6
  jal r6, r5
  ld r3, r1, 0, any, keep ; the number of the call
  addi r3, r3, 48
  out r3
  halt
.segment rude 7
  jal r6, r5              ; with an integer
  addi r3, r2, 48
  out r3
  mov r1, r12
  jal r6, r5              ; with a pointer that only reads
  addi r3, r2, 48
  out r3
  ldi r11, 2
  subseg r1, r13, r11
  jal r6, r5              ; with a pointer to four bytes
  addi r3, r2, 48
  out r3
  halt
.segment word 3
  .int 0
.segment honest_calls 3
  .int 0
.segment rude_calls 3
  .int 0
.segment text 3
  .int 0
.segment own 3
  .int 0
.thread 0 0 none xu honest
.reg 1 ptr rw word
.reg 5 ptr eu honest_door
.thread 1 1 none xu rude
.reg 1 int 1048576
.reg 5 ptr eu rude_door
.reg 12 ptr ro text
.reg 13 ptr rw own
