; The letter, and a call that is never reached.
.segment client 6
  ldi r1, 66
  out r1
  halt
  jal r6, r5
.thread 1 1 none xu client
