"""Sources in the assembly language, as docs/ASSEMBLER.md describes it: tokens, lines, whole texts, and texts with faults taken out.

Whether a source is right is for `mmachine asm` to say. What is read here tells where words and labels come from, and what stands at a fault."""
