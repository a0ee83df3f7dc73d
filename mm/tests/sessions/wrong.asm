; Two mistakes, for the session dap-refused.
.segment main 6
  ldi r1 65
  hlt
.thread 0 0 none xu main
