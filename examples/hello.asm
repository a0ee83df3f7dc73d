; The smallest program that says something: one thread prints the letter A and halts.
.segment hello 12
  ldi r1, 65
  out r1
  halt
.thread 0 0 none xu hello
