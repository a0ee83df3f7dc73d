"""Words of other assemblers, and what does their work here."""

from __future__ import annotations

# Operations of other machines, and what does their work here.
OTHER_OPERATIONS = {
    "li movi loadi": "a number goes into a register by `ldi`, as `ldi r1, 65`",
    "la lea.l adr": "a pointer comes from a thread's `.reg N ptr PERMISSION NAME`; to a place in the same segment it is made by `lip r1, LABEL`",
    "mv move cp": "a register is copied by `mov`, as `mov r2, r1`",
    "lw ldr lb lbu lh lhu lq load lwu": "a word is loaded by `ld`, as `ld r2, r1, 0, any, keep`: r1 is the pointer, 0 the offset, and the last two are the synchronisation bit before and after",
    "sw sd str sb sh store stw": "a word is stored by `st`, as `st r1, r2, 0, any, keep`: the pointer r1 comes first, then what is stored",
    "j b jump goto bra ba": "a jump in the same segment is `br LABEL`; through a pointer it is `jmp r6`",
    "jr ret jalr return rts bx blr": "the way back is `jmp r6`, if the call was `jal r6, r5`",
    "call jsr bl": "a call through a pointer is `jal r6, r5`: r6 gets the way back. In the same segment `lip r5, LABEL` makes the pointer",
    "beq bne blt bge bltu bgeu bgt ble": "compare first, then branch: `eq r3, r1, r2` (or ltu, lts) and `bnz r3, LABEL`",
    "beqz je jz brz": "to branch if a register is 0, write `bz r1, LABEL`",
    "bnez jne jnz brnz": "to branch if a register is not 0, write `bnz r1, LABEL`",
    "cmp test tst": "a comparison puts 1 or 0 into a register: `eq r3, r1, r2`, `ltu` or `lts`",
    "inc": "write `addi r1, r1, 1`",
    "dec": "write `addi r1, r1, -1`",
    "subi": "write `addi` with the negative number, as `addi r1, r1, -5`",
    "addiu addui": "write `addi`, as `addi r1, r1, 5`",
    "andi ori xori muli divi slli srli srai shli": "only `addi` and `leai` take a number: put it into a register by `ldi` first",
    "sll lsl sla": "a shift to the left is `shl`",
    "srl lsr": "a shift to the right with zeros is `shr`",
    "sra asr": "a shift to the right with the sign is `sar`",
    "slt cmplt": "less than is `lts` (signed) or `ltu` (unsigned)",
    "sltu": "less than, unsigned, is `ltu`",
    "div udiv quo": "division is `divu` (unsigned)",
    "rem mod umod modu": "the remainder is `remu` (unsigned)",
    "not": "with -1 in r2 (`ldi r2, -1`) it is `xor r1, r1, r2`",
    "neg": "with 0 in r2 it is `sub r1, r2, r1`",
    "push pop": "there is no stack of the machine's own: keep a pointer to one in a register, store with `st`, and move it with `leai` (mm help idioms)",
    "hlt exit stop quit end break": "a thread ends by `halt`",
    "syscall ecall svc swi int": "a service is called by `jal r6, r5` through an enter pointer, or asked of a handler by `trap 1`",
    "in inp input read getc getchar scanf": "there is no input: what a program begins with is in its memory (`.int 5`) and in its registers (`.reg 1 int 5` after the `.thread`)",
    "print putc putchar puts write": "a letter is printed by `out r1`, one at a time; examples/text/print.asm prints texts and numbers",
    "noop": "it is called `nop`",
    "cas swap xchg lock ll sc amoadd": "threads are kept in turn by the synchronisation bit: `ld r2, r1, 0, full, empty` takes the word, `st r1, r2, 0, empty, full` gives it back",
}
# Directives of other assemblers.
OTHER_DIRECTIVES = {
    ".word .dword .quad .long .dw .dq .dd .half .short .octa .data4": "a word is `.int NUMBER`",
    ".byte .db": "memory has only words of 64 bits: write `.int NUMBER` for each",
    ".string .asciz .str": "a text is `.asciiz \"Hello\"`, with a word for each letter and 0 after them, or `.ascii \"Hello\"` without the 0",
    ".space .skip .zero .res .bss .comm": "words that hold 0 are made by `.fill COUNT`",
    ".text .data .section .code .rodata .seg": "code and data are begun by `.segment NAME L`, with 2^L bytes",
    ".global .globl .extern .export .import .public": "segments are known to other sources by their names, without a directive; labels are not",
    ".org .align .balign .p2align": "places are chosen by the linker: segments by falling length, from 0x100000 on (`mm symbols FILE` lists them)",
    ".equ .set .define .const": "there are no constants: write the number, or keep it in a word by `.int`",
    ".start .entry .main": "`.thread 0 0 none xu NAME` says where a thread begins",
    ".register .regs": "`.reg 1 int 5` or `.reg 1 ptr rw NAME` after the `.thread` says what a register begins with",
    ".pointer .addr .ref": "a pointer in memory is `.ptr PERMISSION NAME`, as `.ptr rw box`",
    ".macro .endm .include .if .endif": "there are no macros, and a source includes no other: give `mm run` several sources, and share segments by their names",
}


def _table(table: dict[str, str]) -> dict[str, str]:
    return {word: said for words, said in table.items() for word in words.split()}


OPERATION_HINTS, DIRECTIVE_HINTS = _table(OTHER_OPERATIONS), _table(OTHER_DIRECTIVES)
