; The receiver has a pointer to the hook, and looks by itself.
.segment code 7
leaves: isptr r8, r1
  bnz r8, refused
  st r7, r1, 0, any, keep
  ldi r2, 1
  br back
fetches: br back
refused: ldi r2, 0
back: ldi r7, 0
  ldi r8, 0
  jmp r6
.segment gate 7
own: .ptr rw hook
  .ptr xu leaves
  .ptr ro hook
  .ptr xu fetches
leave: lip r7, own
  ld r8, r7, 8, any, keep
  ld r7, r7, 0, any, keep
  jmp r8
fetch: lip r7, own
  ld r8, r7, 24, any, keep
  ld r7, r7, 16, any, keep
  jmp r8
.segment hook 3
  .int 0
.segment sender 5
  trap 1                  ; wakes its handler
  jal r6, r5
  ldi r6, 0
  jmp r5                  ; without a way back
.segment robber 6
  evt r4
  resume r2, skip         ; slot 0 goes on after its trap
  evt r4                  ; r5 leads to the instruction that has faulted in the gate
  leab r6, r5, r0         ; r6 to the beginning of its segment
  ld r6, r6, 0, any, keep
  st r6, r3, 0, any, keep ; if there is a pointer, then through it
  halt
.segment receiver 6
again: ld r1, r9, 0, any, keep
  bz r1, again            ; nothing is there yet
  out r1
  halt
.thread 0 0 2 xu sender
.reg 1 int 42
.reg 2 int 7
.reg 5 ptr eu leave
.thread 1 1 none xu receiver
.reg 5 ptr eu fetch
.reg 9 ptr ro hook
.thread 2 0 none xu robber
.reg 3 int 99
