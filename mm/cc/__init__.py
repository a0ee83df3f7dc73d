"""A translator of C: LLVM's text of a program goes in, a source for the machine comes out."""
