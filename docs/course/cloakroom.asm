; A cloakroom for one number. The sender leaves the number in r1 at the door `leave`, and the receiver gets it in r1 at
; the door `fetch`. The sender's handler tries to get at the hook. The doors do nothing yet.
.segment gate 4
leave: jmp r6
fetch: jmp r6
.segment hook 3
  .int 0
.segment sender 5
  trap 1                  ; wakes its handler
  jal r6, r5
  ldi r6, 0
  jmp r5                  ; without a way back
.segment robber 6
  evt r4
  resume r2, skip         ; slot 0 goes on after its trap
  evt r4                  ; r5 leads to the instruction that has faulted in the gate
  leab r6, r5, r0         ; r6 to the beginning of its segment
  ld r6, r6, 0, any, keep
  st r6, r3, 0, any, keep ; if there is a pointer, then through it
  halt
.segment receiver 6
again: jal r6, r5
  bz r1, again            ; nothing is there yet
  out r1
  halt
.thread 0 0 2 xu sender
.reg 1 int 42
.reg 2 int 7
.reg 5 ptr eu leave
.thread 1 1 none xu receiver
.reg 5 ptr eu fetch
.thread 2 0 none xu robber
.reg 3 int 99
