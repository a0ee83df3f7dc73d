; Prints a name. Put yours in its place.
.segment main 4
  jal r6, r5
  halt
.segment name 7
  .asciiz "Ada Lovelace\n"
.thread 0 0 none xu main
.reg 1 ptr ro name
.reg 5 ptr eu print_text
