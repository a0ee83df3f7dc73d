"""Programs in LLVM's text with integers of more than 128 bits: all operations on two numbers of a width, and what comes of
them by Python's own."""

from __future__ import annotations

from random import Random
from typing import Iterator

WIDTHS = (129, 136, 192, 511)
CONDITIONS = ("eq", "ne", "ult", "ule", "ugt", "uge", "slt", "sle", "sgt", "sge")
MASK = (1 << 64) - 1
PRODUCT_HIGH = """define i64 @__mm_product_high(i64 %a, i64 %b) {
  %al = and i64 %a, 4294967295
  %ah = lshr i64 %a, 32
  %bl = and i64 %b, 4294967295
  %bh = lshr i64 %b, 32
  %ll = mul i64 %al, %bl
  %lh = mul i64 %al, %bh
  %hl = mul i64 %ah, %bl
  %hh = mul i64 %ah, %bh
  %l = lshr i64 %ll, 32
  %m = add i64 %hl, %l
  %ml = and i64 %m, 4294967295
  %mh = lshr i64 %m, 32
  %n = add i64 %ml, %lh
  %nh = lshr i64 %n, 32
  %o = add i64 %hh, %mh
  %r = add i64 %o, %nh
  ret i64 %r
}
"""


def with_sign(number: int, bits: int) -> int:
    number &= (1 << bits) - 1
    return number - (1 << bits) if number >> bits - 1 else number


class Wide:
    """One program: two numbers in memory, operations on them, and a sum of all words of their results."""

    def __init__(self, bits: int, a: int, b: int) -> None:
        self.bits, self.a, self.b = bits, a & (1 << bits) - 1, b & (1 << bits) - 1
        self.lines = [f"%a = load i{bits}, ptr @a, align 8", f"%b = load i{bits}, ptr @b, align 8"]
        self.wanted, self.count, self.last = 0, 0, "0"

    def fresh(self) -> str:
        self.count += 1
        return f"%v{self.count}"

    def put(self, text: str) -> str:
        name = self.fresh()
        self.lines.append(f"{name} = {text}")
        return name

    def fold(self, name: str, bits: int, number: int) -> None:
        """Adds the words of a result, by way of memory."""
        number &= (1 << bits) - 1
        self.lines.append("store [9 x i64] zeroinitializer, ptr @r, align 8")
        self.lines.append(f"store i{bits} {name}, ptr @r, align 8")
        for at in range(-(-bits // 64)):
            place = self.put(f"getelementptr i64, ptr @r, i64 {at}")
            word = self.put(f"load i64, ptr {place}, align 8")
            self.last = self.put(f"add i64 {self.put(f'mul i64 {self.last}, 31')}, {word}")
            self.wanted = (self.wanted * 31 + (number >> 64 * at)) & MASK

    def operations(self) -> None:
        type_, a, b, bits = f"i{self.bits}", self.a, self.b, self.bits
        signed_a, signed_b = with_sign(a, bits), with_sign(b, bits)
        for op, number in (("add", a + b), ("sub", a - b), ("mul", a * b), ("and", a & b), ("or", a | b), ("xor", a ^ b)):
            self.fold(self.put(f"{op} {type_} %a, %b"), bits, number)
        self.fold(self.put(f"sub {type_} {-(1 << bits - 2)}, %b"), bits, -(1 << bits - 2) - b)
        for by in (1, 63, 64, 65, 128, bits - 1):
            for op, number in (("shl", a << by), ("lshr", a >> by), ("ashr", signed_a >> by)):
                self.fold(self.put(f"{op} {type_} %a, {by}"), bits, number)
        for condition in CONDITIONS:
            one, other = (signed_a, signed_b) if condition[0] == "s" else (a, b)
            holds = {"eq": a == b, "ne": a != b, "lt": one < other, "le": one <= other, "gt": one > other, "ge": one >= other}
            truth = self.put(f"icmp {condition} {type_} %a, %b")
            chosen = holds[condition[-2:]]
            self.fold(self.put(f"select i1 {truth}, {type_} %a, {type_} {bits}"), bits, a if chosen else bits)
            self.fold(self.put(f"zext i1 {truth} to {type_}"), bits, chosen)

    def overflows(self) -> None:
        for kind, sides in (("s", (with_sign(self.a, self.bits), with_sign(self.b, self.bits))), ("u", (self.a, self.b))):
            for op, number in (("add", sides[0] + sides[1]), ("sub", sides[0] - sides[1]), ("mul", sides[0] * sides[1])):
                name = f"llvm.{kind}{op}.with.overflow.i{self.bits}"
                pair = self.put(f"call {{ i{self.bits}, i1 }} @{name}(i{self.bits} %a, i{self.bits} %b)")
                self.fold(self.put(f"extractvalue {{ i{self.bits}, i1 }} {pair}, 0"), self.bits, number)
                fits = number == (with_sign(number, self.bits) if kind == "s" else number & (1 << self.bits) - 1)
                self.fold(self.put(f"extractvalue {{ i{self.bits}, i1 }} {pair}, 1"), 1, not fits)

    def widths(self) -> None:
        for bits in (1, 7, 32, 64, 65, 128, 129, 192):
            if bits < self.bits:
                narrow = self.put(f"trunc i{self.bits} %a to i{bits}")
                self.fold(narrow, bits, self.a)
                self.fold(self.put(f"zext i{bits} {narrow} to i{self.bits}"), self.bits, self.a & (1 << bits) - 1)
                self.fold(self.put(f"sext i{bits} {narrow} to i{self.bits}"), self.bits, with_sign(self.a, bits))

    def loop(self) -> None:
        """A number that is turned four times to the left, by a value of a loop."""
        self.lines += [f"br label %loop\nloop:\n  %x = phi i{self.bits} [ %a, %0 ], [ %y, %loop ]\n  %i = phi i64 [ 0, %0 ], [ %j, %loop ]",
                       f"%up = shl i{self.bits} %x, 9", f"%down = lshr i{self.bits} %x, {self.bits - 9}", f"%y = or i{self.bits} %up, %down",
                       "%j = add i64 %i, 1", "%more = icmp ult i64 %j, 4", "br i1 %more, label %loop, label %out\nout:"]
        self.fold("%y", self.bits, self.a << 36 | self.a >> self.bits - 36)

    def text(self) -> str:
        words = ("[" + ", ".join(f"i64 {number >> 64 * at & MASK}" for at in range(9)) + "]" for number in (self.a, self.b))
        globals_ = "".join(f"@{name} = global [9 x i64] {each}\n" for name, each in zip("ab", words))
        return (f"{globals_}@r = global [9 x i64] zeroinitializer\n" + PRODUCT_HIGH + "define i64 @main() {\n"
                + "".join(f"  {line}\n" for line in self.lines) + f"  ret i64 {self.last}\n}}\n")


def programs() -> Iterator[tuple[str, int, str]]:
    """The title of each, the wanted bits of r0, and the text."""
    random = Random(129)
    for bits in WIDTHS:
        least, some = 1 << bits - 1, [random.getrandbits(bits) for _ in range(2)]
        for a, b in ((some[0], some[1]), (least, -1), (least - 1, 2), (some[1] >> 70, -3)):
            for part in ("operations", "overflows", "widths", "loop"):
                made = Wide(bits, a, b)
                getattr(made, part)()
                yield f"{part} of {a:x} and {b:x}, {bits} bits", made.wanted, made.text()
