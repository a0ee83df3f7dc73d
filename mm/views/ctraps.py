"""What the traps of programs in C say, by their numbers."""

from __future__ import annotations

from typing import Optional

# The traps of the translator and of its library.
TRAPS = {1: "`__builtin_trap`", 6: "`abort`",
         2: "a place that C says is never reached: something on the way is not defined by C, and `-O0` may tell what",
         7: "the translator's second reckoning differs: the translator is wrong",
         8: "`free` of what is not a block of malloc, or was freed before",
         9: "a pointer leads to another program, and a door takes no structure, no variable arguments, and no more than six"}
# Those of what a sanitizer of Clang finds begin here, in Clang's order of what it can find.
SANITIZER = 64
FOUND = {
    0: "an overflow of a sum", 1: "a place that is never reached", 3: "a division by zero, or one that overflows",
    7: "a conversion that changes the number", 8: "a count of the zeros of 0", 10: "a value that the type does not have",
    11: "an end of a function without its result", 12: "an overflow of a product", 13: "an overflow of a negation",
    14: "a null pointer for a parameter", 15: "a null pointer as the result", 16: "a null pointer for a parameter",
    17: "a null pointer as the result", 18: "an index outside of its array",
    19: "a pointer that is moved past the end of all addresses, or from null",
    20: "a shift by more than the bits of the number, or by less than 0", 21: "an overflow of a difference",
    22: "an access by a null pointer, or at no multiple of the alignment",
    23: "an alignment that was promised and is not there", 24: "an array of no elements, or of fewer"}
MOST_KINDS = 192


def trap_said(number: int) -> Optional[str]:
    """What a trap of this number says; none if it is the program's own."""
    kind = number - SANITIZER
    if 0 <= kind < MOST_KINDS:
        return f"what C does not define{f': {FOUND[kind]}' if kind in FOUND else f' (check {kind} of Clang)'}"
    return TRAPS.get(number)
