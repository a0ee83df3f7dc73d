; The fault, but no load.
.segment main 5
  jmp r0
.thread 0 0 none xu main
