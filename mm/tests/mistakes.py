"""Usual mistakes of beginners: a source, where the message is, what it says, and what to do."""

from __future__ import annotations

from dataclasses import dataclass

HEAD, TAIL = ".segment main 6\n", "\n  halt\n.thread 0 0 none xu main\n"


@dataclass(frozen=True)
class Mistake:
    """A source that is refused, and what must be in the message: the place, what is wrong, and the hint."""

    source: str
    place: str
    says: str
    hint: str


def line(text: str, place: str, says: str, hint: str) -> Mistake:
    """A mistake in the second line of a source that is right otherwise."""
    return Mistake(HEAD + text + TAIL, place, says, hint)


def thread(text: str, place: str, says: str, hint: str) -> Mistake:
    """A mistake after a right thread."""
    return Mistake(HEAD + "  halt\n.thread 0 0 none xu main\n" + text + "\n", place, says, hint)


# fmt: off
MISTAKES = [
    line("  ld r2, 8(r1)", "2:10", "expected a register", "`ld r2, r1, 8, any, keep`"),
    line("  ld r2, [r1]", "2:10", "`[`", "`ld r2, r1, 0, any, keep`"),
    line("  st r2, 0(r1)", "2:10", "expected a register", "`st r1, r2, 0, any, keep`"),
    line("  ldi R2, 1", "2:7", "`R2`", "`r2`"),
    line("  ldi r16, 1", "2:7", "`r16`", "r0 to r15"),
    line("  ldi a0, 1", "2:7", "`a0`", "r0 to r15"),
    line("  MOV r1, r2", "2:3", "`MOV`", "`mov`"),
    line("  .word 5", "2:3", "`.word`", "`.int NUMBER`"),
    line("  .string \"hi\"", "2:3", "`.string`", "a text is `.asciiz"),
    line("  .space 8", "2:3", "`.space`", "`.fill COUNT`"),
    line("  li r1, 5", "2:3", "`li`", "`ldi r1, 65`"),
    line("  lw r2, r1", "2:3", "`lw`", "`ld r2, r1, 0, any, keep`"),
    line("  sw r2, r1", "2:3", "`sw`", "the pointer r1 comes first"),
    line("  ret", "2:3", "`ret`", "`jmp r6`"),
    line("  call main", "2:3", "`call`", "`jal r6, r5`"),
    line("  beq r1, r2, main", "2:3", "`beq`", "`eq r3, r1, r2`"),
    line("  push r1", "2:3", "`push`", "mm help idioms"),
    line("  hlt", "2:3", "`hlt`", "`halt`"),
    line("  in r1", "2:3", "`in`", "there is no input"),
    line("  lda r1", "2:3", "`lda`", "do you mean `ld"),
    line("  ld r2, r1", "2:12", "too early", "`ld r2, r1, 0, any, keep`"),
    line("  ld r2, r1, 8, any", "2:20", "too early", "`ld r2, r1, 8, any, keep`"),
    line("  ld r2, r1, 0, keep, any", "2:17", "found `keep`", "first comes what the bit must be"),
    line("  addi r2, 5", "2:12", "expected a register", "`addi r2, r2, 5`"),
    line("  add r2, r2, 5", "2:15", "expected a register", "`addi r2, r2, 5`"),
    line("  sub r2, r2, 1", "2:15", "expected a register", "`addi r2, r2, -1`"),
    line("  add r2, r3", "2:13", "too early", "`add r2, r2, r3`"),
    line("  add r1 r2 r3", "2:10", "expected a comma", "`add r1, r2, r3`"),
    line("  mov r1, 5", "2:11", "expected a register", "`ldi r1, 5`"),
    line("  out 65", "2:7", "expected a register", "`ldi`"),
    line("  ldi r1, 'AB'", "2:11", "`'`", "one letter stands between single quotes"),
    line("  ldi r1, \"A\"", "2:11", "`\"`", "a text has a directive of its own"),
    line("  .ascii hi", "2:3", "`.ascii`", "a text stands between double quotes"),
    line("  .asciiz \"hi", "2:3", "`.asciiz`", "a text stands between double quotes"),
    line("  ldi r1, 'A' r2", "2:15", "found the name `r2`", ""),
    Mistake(HEAD + "  .ascii \"hi\"\n  .asciiz \"a;b\" ; more\n  ldi r1, 'AB'\n", "4:11", "`'`", "one letter"),
    line("  ldi r1, #5", "2:11", "`#`", "without a mark"),
    line("  halt // done", "2:8", "`/`", "a comment begins with `;`"),
    line("  ldi r1, 0x123456789", "2:11", "out of range", "`ldhi r1, 0x23456789`"),
    line("  ldi r1, 2 * 3", "2:13", "`*`", "write the result"),
    line("  ldi r1, 65 out r1", "2:14", "expected the end of the line", "a line has one statement"),
    line("  evt r14", "2:7", "`r14`", "r12 is the last"),
    line("loop\n  br loop", "2:1", "`loop`", "write `:` after it"),
    line("  br nowhere", "2:6", "not a label of this segment", "a label is a name and `:`"),
    line("again: br agian", "2:11", "`agian`", "do you mean `again`?"),
    line("  .int main", "2:8", "expected a number", "`.ptr rw main`"),
    line("  .ptr main", "2:8", "expected a permission", "`.ptr rw main`"),
    Mistake(HEAD + "  br there\n.segment other 4\nthere: halt\n.thread 0 0 none xu main\n", "2:6", "not a label of this segment", "in segment `other`"),
    Mistake(HEAD + "a: halt\na: halt\n.thread 0 0 none xu main\n", "3:1", "in line 2", "one set of names"),
    line("  jmp main", "2:7", "found the name `main`", "`br main`"),
    line("  jal r6, main", "2:11", "found the name `main`", "`lip r5, main`"),
    line("  ldi r1, main", "2:11", "found the name `main`", "`.reg 5 ptr rw main`"),
    line("  mov r1, main", "2:11", "found the name `main`", "`lip r5, main`"),
    line("  ldi r1, r2", "2:11", "found the name `r2`", "`mov r1, r2`"),
    line("  addi r1, r1, r2", "2:16", "found the name `r2`", "`add r1, r1, r2`"),
    line("  addi r1, r1, 0x123456789", "2:16", "out of range", "write `add`"),
    line("  ld r1, r1, 0x123456789, any, keep", "2:14", "out of range", "`lea` before the `ld`"),
    line("  leai r1, 8(r1)", "2:12", "found the number `8`", "`leai r2, r1, 8`"),
    line("  add(r1, r2, r3)", "2:6", "`(`", "without brackets"),
    line("  ld r1, [main]", "2:10", "`[`", "without brackets"),
    line("  ldi r1, 0XFF", "2:12", "`XFF`", "`0xFF`"),
    line("  ldi r1, -0x5", "2:13", "`x5`", "`-5`"),
    line("  ldi r1, 0b101", "2:12", "`b101`", "`5`"),
    line("  ldi r1, 1_000", "2:12", "`_000`", "numbers are decimal"),
    line("  ldi r1, 5   the count", "2:15", "found the name `the`", "`; the count`"),
    line("  ldi r1, 1, ldi r2, 2", "2:12", "found the sign `,`", "a line has one statement"),
    line("  ldi r1, 1 ldi r2, 2", "2:13", "found the name `ldi`", "a line has one statement"),
    line("1: nop", "2:1", "found the number `1`", "no digit at its beginning"),
    line("my-loop: nop", "2:1", "`my`", "`my_loop:`"),
    line("my loop: nop", "2:1", "`my`", "`my_loop:`"),
    line(".loop: nop", "2:1", "`.loop`", "`loop:`"),
    line("SIZE = 5", "2:1", "`SIZE`", "there are no constants"),
    line("  ldi r1, \u2018A\u2019", "2:11", "`\u2018`", "this is not ASCII"),
    line("\u00a0 halt", "2:1", "U+00A0", "blanks"),
    line("  .int 1, 2", "2:9", "found the sign `,`", "one number a line"),
    line("  .int 1 2", "2:10", "found the number `2`", "one number a line"),
    line("  .int 0x12345678123456789", "2:8", "out of range", "64 bits"),
    line("  .fill 2, 7", "2:10", "found the sign `,`", "`.int` for each"),
    line("  .ptr main rw", "2:8", "expected a permission", "`.ptr rw main`"),
    thread(".reg 1 ptr main rw", "4:12", "expected a permission", "`.reg 1 ptr rw main`"),
    Mistake(HEAD + "  lip r1, box\n  halt\n.segment data 3\nbox: .int 1\n.thread 0 0 none xu main\n", "2:11", "not a label of this segment", "from `.reg 5 ptr rw box`"),
    Mistake("", "", "nothing in it that could run", "`mm help sources`"),
    line("  .empty 0", "2:10", "expected a word", "`.empty .int 0`"),
    line("  .empty", "2:9", "too early", "`.empty .int 0`"),
    line("  ld r2, r1, 0, Full, Empty", "2:17", "found `Full`", "small letters: `full`"),
    line("  ld r2, r1, r3, any, keep", "2:14", "found the name `r3`", "`lea r4, r1, r3`"),
    line("  bnz r2, r3", "2:11", "`r3` is not a label", "`jmp r3`"),
    line("  ldi r, 5", "2:7", "found the name `r`", "r0 to r15"),
    line("  ldi r02, 5", "2:7", "found the name `r02`", "`r2`"),
    line("  ldi r2, +5", "2:11", "found the sign `+`", "no plus sign"),
    line("  ldi r2, 3.5", "2:12", "`.`", "no fractions"),
    line("  , halt", "2:3", "found the sign `,`", "`mm help sources`"),
    Mistake("segment main 6\n.thread 0 0 none xu main\n", "1:1", "`segment`", "begins with a dot: `.segment`"),
    Mistake(".segment 6 main\n  halt\n.thread 0 0 none xu main\n", "1:10", "expected the segment's name", "`.segment main 6`"),
    Mistake(".segment main 2\n.thread 0 0 none xu main\n", "1:15", "out of range", "L is at least 3"),
    Mistake(HEAD + "  halt\n.thread 0 0 none main\n", "3:18", "found `main`", "`.thread 0 0 none xu main`"),
    Mistake(HEAD + "  halt\n.thread 0 0 none main xu\n", "3:18", "found `main`", "`.thread 0 0 none xu main`"),
    Mistake(f".segment {'a' * 40} 6\n  halt\n", "1:10", "40 letters", "shorter name"),
    thread("reg 1 int 5", "4:1", "`reg`", "begins with a dot: `.reg`"),
    thread(".reg 1 int", "4:11", "too early", "`.reg 1 int 5`"),
    Mistake(".segment main\n  halt\n.thread 0 0 none xu main\n", "1:14", "too early", "2^6 = 64 bytes"),
    Mistake(".segment main 64\n  halt\n.thread 0 0 none xu main\n", "1:15", "out of range", "for 64 bytes write 6"),
    Mistake(".segment main 3\n  ldi r1, 65\n  out r1\n  halt\n.thread 0 0 none xu main\n", "3:3", "`main` is full", "`.segment main 5`"),
    Mistake("  ldi r1, 5\n" + HEAD + TAIL, "1:3", "before the first `.segment`", "begin with a segment"),
    Mistake(".text\n" + HEAD + TAIL, "1:1", "`.text`", "`.segment NAME L`"),
    Mistake(HEAD + "  halt\n.thread 0 0 xu main\n", "3:13", "handler", "`.thread 0 0 none xu main`"),
    Mistake(HEAD + "  halt\n.thread 0 0 none rw main\n", "3:18", "`rw`", "`xu` as a user"),
    Mistake(HEAD + "  halt\n.thread 0 0 0 xu main\n", "3:13", "out of range", "its own faults"),
    Mistake(HEAD + "  halt\n.thread 0 0 1 xu main\n", "3:1", "handler in slot 1", "`none`"),
    Mistake(HEAD + "  halt\n.thread 0 0 none xu mian\n", "3:21", "`mian`", "do you mean `main`?"),
    Mistake(HEAD + "  halt\n", "", "there is no thread", "`.thread 0 0 none xu main`"),
    thread(".thread 0 1 none xu main", "4:9", "second thread in slot 0", "another slot"),
    thread(".reg r1 int 5", "4:6", "`r1`", "`.reg 1 int 5`"),
    thread(".reg 1 5", "4:8", "expected int or ptr", "`.reg 1 int 5`"),
    thread(".reg 1 main", "4:8", "expected int or ptr", "`.reg 1 ptr rw main`"),
    thread(".reg 1 ptr main", "4:12", "expected a permission", "`.reg 1 ptr rw main`"),
    thread(".reg 1 ptr rx main", "4:12", "`rx`", "ro (read)"),
    thread(".reg 1 int 5\n.reg 1 int 6", "5:6", "set already", "one value"),
    thread(".reg 1 ptr rw main + 64", "4:15", "to the end of its segment", "below the segment's length"),
    Mistake(".reg 1 int 5\n" + HEAD + TAIL, "1:1", "before the first `.thread`", "the thread before them"),
]
# fmt: on
