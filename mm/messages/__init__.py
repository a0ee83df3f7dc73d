"""What is told of a refusal: the place, the line with a caret, what was found, what may stand there, and a hint."""
