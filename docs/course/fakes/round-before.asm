; The count is 99 from the beginning.
.segment main 6
  halt
  evt r4
  leab r1, r2, r3
.segment count 3
  .int 99
.thread 1 1 none xu main
