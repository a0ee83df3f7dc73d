"""Random programs in C: many functions each, whose results are put out, and which C defines with -fwrapv."""

from __future__ import annotations

from typing import Callable

from mm.tests.cexpressions import NARROW, TYPES, WIDE, Array, Expressions, Scope, Structure, plain

INPUTS = (0, 1, 2**64 - 1, 2**63, 2**31, 0xFFFFFFFF, 0x0123456789ABCDEF, 100)
RUNS = 4
PRELUDE = """#include <stdio.h>
#include <string.h>
#define NOINLINE static __attribute__((noinline))
typedef unsigned long ul;
volatile long zero;
static long opaque(long x) { return x + zero; }
"""


class Generator(Expressions):
    """Makes one program of a seed."""

    def program(self) -> str:
        parts = [PRELUDE]
        parts += [self.divisions(type_) for type_ in (TYPES if self.wide else NARROW)]
        parts += [self.walks(type_) for type_ in NARROW]
        parts += [self.structure(number) for number in range(3)]
        parts += [self.helper(number) for number in range(4)]
        functions = [self.function(number) for number in range(self.count)]
        return "\n".join([*parts, *self.globals, *functions, self.main()]) + "\n"

    # What all functions share

    @staticmethod
    def divisions(type_: str) -> str:
        """A quotient and a rest that C defines for all numbers."""
        apart = "b == 0 || b == -1" if TYPES[type_][1] else "b == 0"
        return "\n".join(f"static {type_} {name}_{plain(type_)}({type_} a, {type_} b) {{ return {apart} ? a : a {op} b; }}"
                         for name, op in (("quotient", "/"), ("rest", "%")))

    @staticmethod
    def walks(type_: str) -> str:
        """Sums from the middle of an array, upwards and downwards; the first that is not zero; and the length of what
        two pointers hold."""
        name = plain(type_)
        return f"""NOINLINE ul up_{name}(const {type_} *m, long n, int o)
{{ ul h = 0; for (const {type_} *q = m - n; q < m + o; q++) h = h * 33 + (ul)*q; return h; }}
NOINLINE ul down_{name}(const {type_} *m, int n, long o)
{{ ul h = 0; const {type_} *q = m + o, *low = m - n; while (q > low) h = h * 35 + (ul)*--q; return h; }}
NOINLINE ul around_{name}({type_} *m, int r)
{{ ul h = 0; for ({type_} *p = m - r; p <= m + r; ++p) {{ h = h * 31 + (ul)*p; if (p != m) *p ^= ({type_})h; }} return h; }}
NOINLINE long span_{name}(const {type_} *m, long n, long o)
{{ const {type_} *p = m, *q = m; while (p > m - n && *p) p--; while (q < m + o && *q) q++; return p < q ? q - p : p - q - 1; }}"""

    def structure(self, number: int) -> str:
        """A structure, some of them packed, with bit-fields and arrays; what gives it back changed; and its sum."""
        fields: list[tuple[str, str, int]] = []
        text = ""
        for at in range(self.random.randint(1, 7)):
            type_ = self.type()
            kind = self.random.random()
            many = self.random.randint(1, 9) if 0.25 <= kind < 0.45 else 0
            bits = f" : {self.random.randint(1, TYPES[type_][0])}" if kind < 0.25 else ""
            align = "_Alignas(16) " if not bits and self.chance(0.05) else ""
            text += f" {align}{type_} f{at}{f'[{many}]' if many else ''}{bits};"
            fields.append((f"f{at}", type_, many))
        made = Structure(f"S{number}", fields)
        self.structures.append(made)
        packed = "__attribute__((packed)) " if self.chance(0.25) and "_Alignas" not in text else ""
        changed = " ".join(f"x.{name}{f'[{many - 1}]' if many else ''} += ({type_})e;" for name, type_, many in fields[:2])
        sums = " ".join(
            f"for (int i = 0; i < {many}; i++) h = h * 43 + (ul)p->{name}[i];" if many else f"h = h * 43 + (ul)p->{name};"
            for name, _, many in fields)
        return f"""struct {packed}{made.name} {{{text} }};
NOINLINE struct {made.name} changed_{made.name}(struct {made.name} x, long e) {{ {changed} return x; }}
NOINLINE ul sum_{made.name}(const struct {made.name} *p) {{ ul h = 1; {sums} return h; }}"""

    def helper(self, number: int) -> str:
        first, second, result = self.type(), self.type(), self.type()
        self.scope, self.depth = Scope(["x", "y"]), 0
        text = f"NOINLINE {result} help{number}({first} x, {second} y) {{ return ({result}){self.expression(3)}; }}"
        self.helpers.append((f"help{number}", first, second))
        return text

    # Statements

    def statement(self, depth: int) -> str:
        self.depth = 0
        ways: list[tuple[float, Callable[[int], str]]] = [
            (30, self.assignment), (10, self.change), (8, self.branch), (8, self.loop), (10, self.walk),
            (6, self.movement), (6, self.whole_structure), (4, self.switch), (3, self.block_moved), (3, self.kept),
            (3, self.two_views), (2, self.overflowing), (7, self.folded)]
        way = self.random.choices([each for _, each in ways], [weight for weight, _ in ways])[0]
        return way(depth)

    def statements(self, depth: int, most: int) -> str:
        return " ".join(self.statement(depth) for _ in range(self.random.randint(1, most)))

    def assignment(self, depth: int) -> str:
        return f"{self.place()} = {self.expression(self.random.randint(1, 4))};"

    def change(self, depth: int) -> str:
        if self.chance(0.25):
            return f"{self.place()}{self.random.choice(('++', '--'))};"
        return f"{self.place()} {self.random.choice('+-*&|^')}= {self.expression(self.random.randint(1, 3))};"

    def folded(self, depth: int) -> str:
        return f"h = (h ^ (ul){self.expression(3)}) * 0x100000001b3ul;"

    def branch(self, depth: int) -> str:
        if not depth:
            return self.folded(depth)
        return f"if ({self.expression(2)}) {{ {self.statement(depth - 1)} }} else {{ {self.statement(depth - 1)} }}"

    def loop(self, depth: int) -> str:
        """A loop that counts, upwards or downwards."""
        if not depth:
            return self.folded(depth)
        name, type_ = self.scope.fresh("i"), self.random.choice(("int", "unsigned char", "long", "short", "unsigned"))
        most, body = self.random.randint(1, 6), self.statements(depth - 1, 3)
        if self.chance(0.5):
            return f"for ({type_} {name} = 0; {name} < {most}; {name}++) {{ h = h * 31 + {name}; {body} }}"
        return f"for ({type_} {name} = {most}; {name} > 0; {name}--) {{ h = h * 29 + {name}; {body} }}"

    def walk(self, depth: int) -> str:
        """A pointer that goes through a part of an array."""
        if not self.scope.arrays:
            return self.folded(depth)
        array, name = self.random.choice(self.scope.arrays), self.scope.fresh("w")
        middle = self.random.randrange(array.count)
        low, high = self.random.randint(0, middle), self.random.randint(middle, array.count)
        type_, at, before, after = array.type, array.name, middle - low, high - middle
        radius = min(middle, array.count - 1 - middle)
        ways = [
            f"{{ {type_} *{name}m = {at} + opaque({middle}); for ({type_} *{name} = {name}m - opaque({before}); "
            f"{name} < {name}m + opaque({after}); {name}++) h = h * 33 + (ul)*{name}; }}",
            f"{{ {type_} *{name} = {at} + opaque({high}); while ({name} > {at} + {low}) h = h * 37 + (ul)*--{name}; }}",
            f"{{ {type_} *{name} = {at} + opaque({low}), *{name}e = {at} + opaque({high}); while ({name} != {name}e) "
            f"{{ h = h * 37 + (ul)*{name}; {name}++; }} }}",
            f"{{ {type_} *{name}a = {at}, *{name}b = {at} + {array.count} - 1; while ({name}a < {name}b) "
            f"{{ {type_} t = *{name}a; *{name}a++ = *{name}b; *{name}b-- = t; }} }}",
            f"h += up_{plain(type_)}({at} + {middle}, {before}, {after});",
            f"h += down_{plain(type_)}({at} + opaque({middle}), {before}, {after});",
            f"h += around_{plain(type_)}({at} + {middle}, {radius});",
            f"h += span_{plain(type_)}({at} + {middle}, {middle}, {array.count - middle});",
        ]
        return self.random.choice(ways)

    def movement(self, depth: int) -> str:
        if not self.scope.pointers:
            return self.folded(depth)
        name, array = self.random.choice(self.scope.pointers)
        if self.chance(0.6):
            return f"{name} = {array.name} + {self.index(array.count)};"
        return f"{name} += (long)({self.index(array.count)}) - ({name} - {array.name});"

    def whole_structure(self, depth: int) -> str:
        if len(self.scope.structures) < 2:
            return self.folded(depth)
        (name, made), (other, _) = self.random.sample(self.scope.structures, 2)
        kind = self.random.random()
        if kind < 0.4:
            return f"{name} = {other};"
        if kind < 0.8:
            return f"{name} = changed_{made.name}({other}, {self.expression(1)});"
        return f"memmove(&{name}, &{other}, sizeof {name});"

    def switch(self, depth: int) -> str:
        if not depth:
            return self.folded(depth)
        numbers = sorted(self.random.sample(range(-2, 12), self.random.randint(2, 7)))
        cases = " ".join(f"case {number}: {self.statement(0)} break;" for number in numbers)
        by = self.random.choice(("& 7", "% 9", "& 15"))
        return f"switch ((int)({self.expression(2)} {by})) {{ {cases} default: {self.statement(0)} }}"

    def block_moved(self, depth: int) -> str:
        if not self.scope.arrays:
            return self.folded(depth)
        array = self.random.choice(self.scope.arrays)
        size = self.random.randint(1, array.count)
        to, source = (self.random.randint(0, array.count - size) for _ in range(2))
        if self.chance(0.3):
            return f"memset({array.name} + {to}, (int)({self.expression(1)}), {size} * sizeof *{array.name});"
        return f"memmove({array.name} + {to}, {array.name} + {source}, {size} * sizeof *{array.name});"

    def kept(self, depth: int) -> str:
        """A pointer that goes through memory."""
        if not self.scope.pointers:
            return self.folded(depth)
        name, array = self.random.choice(self.scope.pointers)
        return f"{{ {array.type} *volatile kept = {name}; {name} = kept; h += (ul)({name} - {array.name}); }}"

    def two_views(self, depth: int) -> str:
        """A number by its bytes."""
        if not self.scope.arrays:
            return self.folded(depth)
        array = self.random.choice(self.scope.arrays)
        size = TYPES[array.type][0] // 8
        return (f"{{ union {{ {array.type} x; unsigned char b[{size}]; }} u; u.x = {array.name}[{self.index(array.count)}]; "
                f"u.b[{self.index(size)}] ^= (unsigned char){self.expression(1)}; h = h * 41 + (ul)u.x; }}")

    def overflowing(self, depth: int) -> str:
        """A sum, a difference or a product that tells whether it fits."""
        type_ = self.any_type()
        # Two of 128 bits, of which one has a sign, want 129.
        first, second = (self.random.choice(list(WIDE)) if type_ in WIDE else self.type() for _ in range(2))
        op = self.random.choice(("add", "sub", "mul"))
        return (f"{{ {type_} r; h = h * 47 + __builtin_{op}_overflow(({first}){self.expression(1)}, "
                f"({second}){self.expression(1)}, &r); h = h * 3 + (ul)r; }}")

    # Functions

    def array(self, number: int, at: int) -> str:
        """Declares an array; its text, or nothing for a global."""
        type_, count = self.type(), self.random.randint(1, 20)
        align = self.random.choice((16, 32)) if self.chance(0.15) else 0
        said = f"_Alignas({align}) " if align else ""
        if self.chance(0.3):
            name = f"g{number}_{at}"
            values = ", ".join(str(self.random.randrange(-100, 100)) for _ in range(self.random.randint(1, count)))
            self.globals.append(f"static {said}{type_} {name}[{count}] = {{{values}}};")
            self.scope.arrays.append(Array(name, type_, count, align))
            return ""
        self.scope.arrays.append(Array(f"r{at}", type_, count, align))
        by = self.random.randrange(99)
        if self.chance(0.2):
            return f"{said}{type_} r{at}[opaque({count})]; " + self.filled(at, type_, count, by)
        return f"{said}{type_} r{at}[{count}]; " + self.filled(at, type_, count, by)

    @staticmethod
    def filled(at: int, type_: str, count: int, by: int) -> str:
        return f"for (int i = 0; i < {count}; i++) r{at}[i] = ({type_})(a * (i + {by}) + (b >> i));"

    def function(self, number: int) -> str:
        scope = self.scope = Scope(["a", "b"])
        self.depth = 0
        lines: list[str] = []
        for at in range(self.random.randint(2, 5)):
            type_ = self.any_type()
            start = self.random.choice(("a", "b", "(a ^ b)", f"(a + {self.random.randrange(1000)})",
                                        f"(b >> {self.random.randrange(64)})", self.literal()))
            lines.append(f"{type_} v{at} = ({type_}){start};")
            scope.numbers.append(f"v{at}")
        lines += [self.array(number, at) for at in range(self.random.randint(0, 2))]
        for at in range(self.random.randint(0, 3)):
            if scope.arrays:
                array = self.random.choice(scope.arrays)
                lines.append(f"{array.type} *p{at} = {array.name} + {self.index(array.count)};")
                scope.pointers.append((f"p{at}", array))
        if self.chance(0.5):
            made = self.random.choice(self.structures)
            for at in range(self.random.randint(1, 2)):
                fill = self.random.choice(("a", "b", str(self.random.randrange(256))))
                lines.append(f"struct {made.name} s{at}; memset(&s{at}, (int)({fill} & 255), sizeof s{at});")
                scope.structures.append((f"s{at}", made))
        lines += [self.statement(2) for _ in range(self.random.randint(2, 7))]
        lines += [f"h = (h ^ (ul){name}) * 0x100000001b3ul;" for name in scope.numbers]
        lines += [f"for (int i = 0; i < {array.count}; i++) h = h * 1000003 + (ul){array.name}[i];" for array in scope.arrays]
        lines += [f"h = h * 7 + (ul)({name} - {array.name});" for name, array in scope.pointers]
        lines += [f"h += sum_{made.name}(&{name});" for name, made in scope.structures]
        body = "\n    ".join(line for line in lines if line)
        return f"NOINLINE ul f{number}(ul a, ul b)\n{{\n    ul h = 14695981039346656037ul;\n    {body}\n    return h;\n}}"

    def main(self) -> str:
        """Calls each function with some numbers, and puts out a line for it."""
        inputs = [self.random.choice((*INPUTS, self.random.getrandbits(64), self.random.getrandbits(64)))
                  for _ in range(2 * RUNS)]
        pairs = ", ".join(f"{{{a}ul, {b}ul}}" for a, b in zip(inputs[::2], inputs[1::2]))
        table = ", ".join(f"f{number}" for number in range(self.count))
        return f"""static ul (*const table[{self.count}])(ul, ul) = {{{table}}};
static const ul in[{RUNS}][2] = {{{pairs}}};
int main(void)
{{
    for (int k = 0; k < {self.count}; k++) {{
        ul h = 0;
        for (int i = 0; i < {RUNS}; i++)
            h = h * 17 + table[k](in[i][0], in[i][1]);
        printf("%d %lx\\n", k, h);
    }}
    return 0;
}}"""
