; Two threads take a lock before they go in. The trap says what must not happen: that somebody is inside already.
.segment code 7
enter:
  ld r3, r1, 0, any, keep
  bnz r3, enter           ; the lock is taken: look again
  ldi r3, 1
  st r1, r3, 0, any, keep ; take it
  ld r4, r2, 0, any, keep
  bz r4, alone
  trap 1                  ; somebody is inside
alone:
  st r2, r3, 0, any, keep ; go in
  out r5
  st r2, r0, 0, any, keep ; go out
  st r1, r0, 0, any, keep ; give the lock back
  halt
.segment lock 3
  .int 0
.segment inside 3
  .int 0
.thread 0 0 none xu code
.reg 1 ptr rw lock
.reg 2 ptr rw inside
.reg 5 int 65
.thread 1 0 none xu code
.reg 1 ptr rw lock
.reg 2 ptr rw inside
.reg 5 int 66
