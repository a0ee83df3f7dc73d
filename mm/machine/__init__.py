"""What a machine is made of: words, pointers, instructions, faults; and the program `mmachine` that runs one."""
