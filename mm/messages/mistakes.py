"""Hints at the usual mistakes of beginners: how other assemblers write it, and how it is written here."""

from __future__ import annotations

import re
from typing import Callable, Optional

from mm.machine.isa import OPERATIONS
from mm.machine.words import BY_SHORT
from mm.messages.directives import DIRECTIVE_MISTAKES
from mm.messages.others import DIRECTIVE_HINTS, OPERATION_HINTS
from mm.messages.scene import Scene
from mm.source.letters import TEXT_DIRECTIVES
from mm.source.tokens import BEYOND, value_of_digits
from mm.source.wants import DIRECTIVES, OPERANDS, Sort

NAME = r"[A-Za-z_][A-Za-z0-9_]*"

# The byte order mark of UTF-8, as a line in latin-1 has it.
MARK = "\xef\xbb\xbf"


def _other(scene: Scene) -> Optional[str]:
    """A word of another assembler, or one that is written in capital letters."""
    if scene.fault != 3 or scene.found != scene.head:
        return None
    low = scene.head.lower()
    if low != scene.head and (low in OPERANDS or low.startswith(".")):
        return f"operations and directives are written in small letters: `{low}`"
    if f".{low}" in DIRECTIVES:
        return f"a directive begins with a dot: `.{low}`"
    if re.match(r"(=|:=|equ\b|EQU\b|set\b)", scene.rest):
        return DIRECTIVE_HINTS[".equ"]
    return OPERATION_HINTS.get(low) or DIRECTIVE_HINTS.get(low)


def _label_letters(scene: Scene) -> Optional[str]:
    """A label that is no name."""
    match = re.match(r"\s*([\w.$@?~-]+(?:\s+\w+)*)\s*:", scene.code)
    if not match or re.fullmatch(NAME, match[1]) or scene.column > match.end(1):
        return None
    if match[1].split()[0] in (*OPERANDS, *DIRECTIVES):
        return None
    better = re.sub(r"\W", "_", match[1].strip(".$@?~-"))
    better = f"l{better}" if better[:1].isdigit() else better or "again"
    return f"a label has only letters, digits and `_`, no blank, and no digit at its beginning: `{better}:`"


def _digits(scene: Scene) -> Optional[str]:
    """A number in another base, or with marks inside."""
    match = re.search(r"(?<!\w)(-?\d\w*)$", scene.code[: scene.column - 1])
    if scene.fault != 2 or not match or not re.match(NAME, scene.found):
        return None
    written = (match[1] + scene.found).replace("_", "")
    radix = re.fullmatch(r"(-?)(?:0[xX]([0-9a-fA-F]+)|0[bB]([01]+)|0[oO]([0-7]+)|([0-9a-fA-F]+)[hH])", written)
    rule = "numbers are decimal, or hexadecimal with a small `0x` and no sign before them"
    if radix is None:
        return rule
    sign, hexadecimal, binary, octal, other = radix.groups()
    value = int(hexadecimal or binary or octal or other, 2 if binary else 8 if octal else 16)
    return f"{rule}: `{sign}{value}`" if sign or not hexadecimal else f"{rule}: `0x{hexadecimal}`"


def _offset_in_brackets(scene: Scene) -> Optional[str]:
    match = re.search(r"(-?\w+)?\s*[(\[]\s*([rR]\d+)\s*(?:[,+]\s*#?(-?\w+)\s*)?[)\]]", scene.code)
    if not match or scene.fault not in (1, 2):
        return None
    offset, pointer = (
        match[1] if match[1] and re.fullmatch(r"-?\d+|0x\w+", match[1]) else match[3] or "0",
        match[2].lower(),
    )
    if scene.head == "leai":
        return f"write `leai r2, {pointer}, {offset}`"
    if scene.head in OPERANDS and scene.head not in ("ld", "st"):
        return None
    if scene.head == "st":
        return f"the pointer comes first and the offset has a place of its own: `st {pointer}, r2, {offset}, any, keep`"
    return f"the offset has a place of its own, after the pointer: `ld r2, {pointer}, {offset}, any, keep`"


def _register_name(scene: Scene) -> Optional[str]:
    if re.fullmatch(r"R\d+", scene.found):
        return f"registers are written in small letters: `{scene.found.lower()}`"
    if re.fullmatch(r"r0+\d+", scene.found) and scene.fault == 2:
        return f"write the register without extra digits: `r{int(scene.found[1:])}`"
    if re.fullmatch(r"r\d*", scene.found) and scene.fault == 2 and int(scene.found[1:] or 16) > 15:
        return "there are sixteen registers, r0 to r15"
    if re.fullmatch(r"(x|a|t|s|R|e|w)\d+|sp|ra|fp|lr|pc|zero|[er][abcds][xpi]", scene.found) and scene.fault == 2:
        return "registers have only the names r0 to r15, and r0 is one like all others"
    return None


def _quotes(scene: Scene) -> Optional[str]:
    """Letters in quotes that are not as they must be."""
    if scene.head in TEXT_DIRECTIVES and scene.fault == 3:
        return "a text stands between double quotes, with \\n, \\\" or \\x41 for other letters: `.ascii \"Hello\\n\"`"
    match = re.search(r"'(.*?)(?:'|$)|\"(.)", scene.code)
    if scene.fault != 1 or match is None or not match.start() + 1 <= scene.column <= match.end() + 1:
        return None
    if match[2]:
        return "a text has a directive of its own: `.ascii \"Hello\"`, with a word for each letter; one letter is `'A'`"
    return "one letter stands between single quotes, as `'A'` or `'\\n'`; a text has a directive of its own: `.ascii \"Hello\"`"


def _marks(scene: Scene) -> Optional[str]:
    if scene.fault != 1:
        return None
    rest = scene.code[scene.column - 1 :]
    if re.match(r"#\s*-?\d|\$\s*-?\d", rest):
        return "write a number without a mark before it"
    if re.match(r"%\w|\$\w|@\w", rest):
        return "write registers and names without a mark before them"
    if re.match(r"#|//|/\*|--|!|\|", rest):
        return "a comment begins with `;`"
    if re.match(r"-\s*[A-Za-z_]|-\s+\d", rest):
        return "write a minus sign right before the digits of a number"
    if re.match(r"\.\d", rest):
        return "numbers have no fractions"
    if ord(rest[0]) > 127:
        if scene.code[scene.column - 1 :].startswith(MARK):
            return "the file begins with a byte order mark: save it as plain UTF-8, without one"
        return "this is not ASCII: type quotes, blanks and minus signs on the keyboard, or put the text into a comment"
    if rest[0] in "[]{" and scene.head in ("ld", "st"):
        return f"the pointer is in a register; write it without brackets: `{OPERATIONS[scene.head].example}`"
    if rest[0] in "()[]{}" and scene.head in OPERANDS and re.match(r"[(\[{]\s*r\d", rest):
        return f"write operands without brackets: `{OPERATIONS[scene.head].example}`"
    return "the assembler does not calculate: write the result" if rest[0] in "*/=()<>&^~" else None


def _conditions(scene: Scene) -> Optional[str]:
    """A load or a store without its offset or without the bit's conditions, or with them exchanged."""
    if scene.head not in ("ld", "st") or scene.fault not in (2, 3):
        return None
    parts = [part.strip() for part in scene.rest.split(",")]
    registers = parts[:2] if len(parts) >= 2 else ["r2", "r1"]
    if not all(re.fullmatch(r"r\d+", part) for part in registers):
        return None
    offset = parts[2] if len(parts) > 2 and re.fullmatch(r"-?\d+|0x[0-9a-fA-F]+", parts[2]) else "0"
    if len(parts) < 5:
        return f"write `{scene.head} {', '.join(registers)}, {offset}, any, keep`: the offset, then what the synchronisation bit must be, then what it becomes"
    if scene.fault == 2 and _is_register(scene.found) and scene.found == parts[2]:
        return f"the offset is a number: write `lea r4, {parts[1 if scene.head == 'ld' else 0]}, {parts[2]}` before it, and use r4 as the pointer"
    if scene.fault == 3 and scene.found != scene.found.lower():
        return f"the conditions are written in small letters: `{scene.found.lower()}`"
    if "keep" in parts[3] or "any" in parts[4]:
        return "first comes what the bit must be (any, full, empty), then what it becomes (keep, full, empty)"
    return None


def _immediate(scene: Scene) -> Optional[str]:
    """A number where a register must be, or a register too few."""
    if scene.fault != 2 or not re.fullmatch(r"-?\d+|0x[0-9A-Fa-f]+", scene.found):
        return None
    parts = [part.strip() for part in scene.rest.split(",")]
    if scene.head in ("addi", "leai") and len(parts) == 2:
        return f"it takes three operands: `{scene.head} {parts[0]}, {parts[0]}, {parts[1]}`"
    if scene.head in ("add", "lea") and len(parts) == 3:
        return f"with a number it is `{scene.head}i {', '.join(parts)}`"
    if scene.head == "sub" and len(parts) == 3 and not parts[2].startswith("-"):
        return f"with a number it is `addi {parts[0]}, {parts[1]}, -{parts[2]}`"
    if scene.head == "mov":
        return f"a number goes into a register by `ldi {', '.join(parts)}`"
    return (
        f"`{scene.head}` takes a register here: put the number into one by `ldi` first"
        if scene.head in OPERANDS
        else None
    )


def _register_for_number(scene: Scene) -> Optional[str]:
    """A register where a number must be."""
    instead = {"ldi": "mov", "addi": "add", "leai": "lea"}.get(scene.head)
    if scene.fault == 2 and instead and _is_register(scene.found) and scene.rest.endswith(scene.found):
        return f"with a register it is `{instead} {', '.join(part.strip() for part in scene.rest.split(','))}`"
    return None


def _two_operands(scene: Scene) -> Optional[str]:
    parts = [part.strip() for part in scene.rest.split(",")]
    operands = OPERANDS.get(scene.head, ())
    if (
        scene.fault == 2
        and not scene.found
        and len(parts) == 2
        and [want.sort for want in operands] == [Sort.REGISTER] * 3
        and all(re.fullmatch(r"r\d+", part) for part in parts)
    ):
        return f"it takes three operands, the result first: `{scene.head} {parts[0]}, {parts[0]}, {parts[1]}`"
    return None


def _commas(scene: Scene) -> Optional[str]:
    if (
        scene.head in OPERANDS
        and scene.fault == 2
        and re.search(r"\w\s+-?\w", scene.rest)
        and "," not in scene.rest
        and len(OPERANDS[scene.head]) > 1
    ):
        return f"operands have commas between: `{scene.head} {', '.join(scene.rest.split())}`"
    if scene.head == ".int" and scene.fault == 2 and re.match(r"-?\w+[\s,]", scene.rest):
        return "one number a line: write `.int` for each"
    if scene.head == ".fill" and scene.fault == 2 and re.match(r"\w+[\s,]", scene.rest):
        return "the words of `.fill COUNT` hold 0: for other numbers write a line `.int` for each"
    if scene.head.startswith(".") and scene.found == ",":
        return "the words of a directive have no commas between"
    return None


def _two_statements(scene: Scene) -> Optional[str]:
    if scene.fault != 2 or not scene.head or scene.column <= scene.code.find(scene.head) + 1:
        return None
    after = re.match(r"[\s,:]*([\w.]*)", scene.code[scene.column - 1 :])
    second = after[1] if after else ""
    if second in OPERANDS or second.startswith("."):
        return f"a line has one statement: put `{second}` into the next"
    return None


def _words_after(scene: Scene) -> Optional[str]:
    """Words after all operands, which may be meant as a comment."""
    if not _is_name_in_operation(scene):
        return None
    before = scene.code[: scene.column - 1].split(scene.head, 1)[-1]
    operands = before.split(",") if before.strip() else []
    if len(operands) == len(OPERANDS[scene.head]) and all(operand.strip() for operand in operands):
        return f"a comment begins with `;`: `; {scene.code[scene.column - 1 :].strip()}`"
    return None


def _is_name_in_operation(scene: Scene) -> bool:
    """Whether a name stands where an operation can have none."""
    named = re.fullmatch(NAME, scene.found) and not _is_register(scene.found)
    return scene.fault == 2 and scene.head in OPERANDS and bool(named)


def _is_register(word: str) -> bool:
    return re.fullmatch(r"r\d+", word) is not None


def _name_as_operand(scene: Scene) -> Optional[str]:
    """A name where a register or a number must be."""
    if not _is_name_in_operation(scene):
        return None
    if scene.head == "jmp":
        return f"`jmp` wants a register with a pointer: in the same segment write `br {scene.found}`"
    if scene.head == "jal":
        return f"`jal` wants a register with a pointer: first `lip r5, {scene.found}`, if it is in the same segment, and then `jal r6, r5`"
    if scene.head in ("bz", "bnz"):
        return None
    if scene.found in BY_SHORT:
        return f"a permission is its number in a register: for `{scene.found}` first `ldi r5, {BY_SHORT[scene.found].code}`"
    return f"a name is not an operand of `{scene.head}`: a pointer to `{scene.found}` comes from `.reg 5 ptr rw {scene.found}` after the `.thread`, or, if it is in the same segment, by `lip r5, {scene.found}`"


def _label(scene: Scene) -> Optional[str]:
    if scene.fault == 3 and scene.found == scene.head and re.fullmatch(r"[A-Za-z_]\w*", scene.head):
        first = scene.rest.split()[:1]
        if not scene.rest or (first and first[0] in OPERANDS):
            return f"if `{scene.head}` is a label, write `:` after it"
    if scene.fault == 2 and scene.found == ":" and scene.head == "":
        return "a label is a name and `:`"
    return None


def _numbers(scene: Scene) -> Optional[str]:
    value = value_of_digits(scene.found) if scene.head == "ldi" and scene.fault == 4 else BEYOND
    if abs(value) < 1 << 64:
        high, low = value >> 32 & 0xFFFFFFFF, value & 0xFFFFFFFF
        return f"`ldi` takes 32 bits: write `ldi r1, 0x{high:x}` and then `ldhi r1, 0x{low:x}`"
    if scene.head == "evt" and scene.fault == 4:
        return "an event fills four registers, this one and the three after it: r12 is the last that can be named"
    if scene.fault == 2 and re.match(r"\+\s*\d", scene.code[scene.column - 1 :]):
        return "a number has no plus sign before it"
    instead = {"addi": "`add`", "leai": "`lea`", "ld": "`lea` before the `ld`", "st": "`lea` before the `st`"}
    if scene.head in instead and scene.fault == 4:
        return f"put the number into a register by `ldi` and `ldhi` (mm help idioms), and write {instead[scene.head]}"
    return None


HINTS: list[Callable[[Scene], Optional[str]]] = [
    _label_letters,
    _digits,
    _offset_in_brackets,
    _quotes,
    _marks,
    _other,
    _register_name,
    _commas,
    _conditions,
    _immediate,
    _register_for_number,
    _two_operands,
    _two_statements,
    _label,
    *DIRECTIVE_MISTAKES,
    _numbers,
    _words_after,
    _name_as_operand,
]


def hint_of(scene: Scene) -> Optional[str]:
    """The first hint that fits, or none."""
    return next(filter(None, (hint(scene) for hint in HINTS)), None)
