; A thread beside others that only goes round.
.segment idle 4
round:
  nop
  br round
.thread 2 1 none xu idle
