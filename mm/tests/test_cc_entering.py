"""Calls of doors of others: a hostile program behind a door gets the arguments, and nothing else of its caller; nor can it
come back but as a call of that door returns, once, in the slot of the call."""

import json
import unittest

from mm.tests.support import folder, mm, needs_program, write
from mm.tests.test_cc_clang import needs_clang

# A door in C that reads and changes whatever its stack leads to, and a caller with money.
CALLEE = """#include <mm.h>
long reveal(void) MM_DOOR(reveal);
long reveal(void)
{
    long **f = __builtin_frame_address(0);
    for (int i = 0; i < 12; i++) {
        if (!mm_can_read(f + i, 8))
            break;
        long *s = f[i];
        if (mm_can_write(s, 64))
            for (int j = 0; j < 8; j++)
                if (s[j] == 1000)
                    s[j] = 0;
    }
    return 0;
}
"""
VICTIM = """#include <mm.h>
#include <stdio.h>
long reveal(void) MM_DOOR(reveal);
int main(void) { volatile long money = 1000; reveal(); printf("%ld", money); return 0; }
"""
# A caller with pointers in all registers, and what a door in assembly gets of it.
FULL = """#include <mm.h>
MM_THREAD(0, 0, -1);
long peek(long *p, long n) MM_DOOR(peek);
static long (*volatile through)(long *, long) = peek;
static long mine[8] = {1, 2, 3, 4, 5, 6, 7, 8}, given = 5;
int main(void)
{
    volatile long local = 1000;
    long *volatile keep = mine;
    long *a = keep, *b = keep + 1, *c = keep + 2, *d = keep + 3, *e = keep + 4, *f = keep + 5;
    long s = 0;
    for (int i = 0; i < 3; i++) {
        s += CALLED(&given, i) + *a + *b + *c + *d + *e + *f;
        *a = s;
    }
    return s + local;
}
"""
PEEK = ".segment door_peek 9\n nop\n nop\n halt\n"
# Doors in assembly: one returns with a pointer of its own in each register, one keeps the way back, one goes back by what was
# kept, and one keeps it and takes its time.
JUNK = """.segment door_junk 9
  .ptr rw kept
  nop
  lip r5, -2
  ld r5, r5, 0, any, keep
""" + "".join(f"  mov r{register}, r5\n" for register in range(16) if register not in (5, 14)) + """  ldi r0, 7
  jmp r14
.segment kept 12
"""
KEEP = """.segment door_keep 9
  .ptr rw kept
  nop
  lip r5, -2
  ld r5, r5, 0, any, keep
  st r5, r14, 0, any, keep
  ldi r0, 1
  jmp r14
.segment door_late 9
  .ptr rw kept
  nop
  lip r5, -2
  ld r5, r5, 0, any, keep
  ld r6, r5, 0, any, keep
  ldi r0, 66
  jmp r6
.segment door_hold 9
  .ptr rw kept
  nop
  lip r5, -2
  ld r5, r5, 0, any, keep
  st r5, r14, 0, any, keep
  ldi r1, 100
  addi r1, r1, -1
  bnz r1, -1
  ldi r0, 1
  jmp r14
.segment kept 3
"""
# A thread that waits for a way back, and takes it.
THIEF = """.segment thief 6
again: ld r5, r4, 0, any, keep
  isptr r6, r5
  bz r6, again
  ldi r0, 66
  jmp r5
.thread 1 1 none xu thief
.reg 4 ptr rw kept
"""
SAY = """#include <mm.h>
MM_THREAD(0, 0, -1);
long junk(void) MM_DOOR(junk);
long keep(void) MM_DOOR(keep);
long late(void) MM_DOOR(late);
long hold(void) MM_DOOR(hold);
long back(void) MM_DOOR(back);
static long mine[5] = {1, 2, 3, 4, 5};
static void say(long n) { __mm_op_out('0' + n); }
BACK
int main(void)
{
    long *volatile from = mine;
    long *a = from, *b = from + 1, *c = from + 2, *d = from + 3, *e = from + 4;
    MADE
    say(*a + *b + *c + *d + *e - 6);
    return 0;
}
"""
# What a caller does, and what it puts out: the last 9 says that it has its registers and came to its end.
SAID = (
    ("what is in the registers", JUNK, "", "say(junk());", "79"),
    ("the way back of an earlier call of another door", KEEP, "", "say(keep()); say(late());", "1"),
    ("the way back of an earlier call of the same door", KEEP, "", "say(keep()); say(keep());", "119"),
    ("a return in another slot", KEEP + THIEF, "", "say(hold());", "19"),
    ("a return in another slot, when the call is over", KEEP + THIEF, "", "say(keep()); for (volatile int i = 0; i < 50; i++) ;", "19"),
    ("a return of the outer call from within a call back",
     KEEP.replace("  ldi r1, 100\n  addi r1, r1, -1\n  bnz r1, -1\n  ldi r0, 1\n  jmp r14\n",
                  "  lip r6, 5\n  ld r6, r6, 0, any, keep\n  jmp r6\n  halt\n  halt\n  .ptr eu door_back+16\n"),
     "long back(void) { say(8); late(); say(7); return 1; }", "say(hold() - 60);", "869"),
)
# Three programs whose calls go through each other, two of them with a thread, so that one program has two calls at once.
ROUND = ("""#include <mm.h>
MM_THREAD(0, 0, -1);
long serve(long n) MM_DOOR(serve);
long slow(long n, long (*again)(long)) MM_DOOR(slow);
long far(long n) MM_DOOR(far);
static long calls;
long serve(long n) { volatile long t[3] = {n, n + 1, n + 2}; calls++; long r = far(t[1]); return r + t[2]; }
int main(void)
{
    long sum = 0;
    for (volatile long i = 0; i < 20; i++)
        sum += slow(i, serve);
    return sum;
}
""", """#include <mm.h>
long serve(long n) MM_DOOR(serve);
long slow(long n, long (*again)(long)) MM_DOOR(slow);
long slow(long n, long (*again)(long)) { long x = again(n) + serve(2 * n); return x + n; }
""", """#include <mm.h>
long far(long n) MM_DOOR(far);
long far(long n) { for (volatile int i = 0; i < n % 7; i++) ; return 3 * n; }
""", """#include <mm.h>
MM_THREAD(1, 1, -1);
long serve(long n) MM_DOOR(serve);
int main(void)
{
    long sum = 0;
    for (volatile long i = 0; i < 30; i++)
        sum += serve(100 * i);
    return sum;
}
""")
# A caller of which `mm keeps` shows that it keeps all that it has, whatever is behind the door.
KEEPER = """#include <mm.h>
MM_THREAD(0, 0, -1);
long peek(long n) MM_DOOR(peek);
static long money = 1000;
int main(void)
{
    volatile long own = 77;
    for (int i = 0; i < 3; i++)
        money += mm_number(peek(own));
    return 0;
}
"""
TELLS = ".segment door_peek 9\n .ptr rw kept\n nop\n halt\n.segment kept 3\n"
OTHER = ".segment other 3\n halt\n.thread 1 1 none xu other\n.reg 5 ptr rw kept\n"
# Calls through pointers: to a function of the program, to a door of another, to its own, and to what is no function.
POINTERS = """#include <mm.h>
#include <stdarg.h>
MM_THREAD(0, 0, -1);
long five(long n) MM_DOOR(five);
long own(long n) MM_DOOR(own);
long own(long n) { return n + 3; }
static long plus(long n, ...) { va_list l; va_start(l, n); return n + va_arg(l, long); }
static long one(long n) { return n + 1; }
static long (*const table[])(long) = {one, five, own};
int main(void)
{
    long (*volatile f)(long) = one;
    long (*volatile v)(long, ...) = plus;
    __mm_op_out('0' + f(1));
    for (volatile int i = 0; i < 3; i++)
        __mm_op_out('0' + table[i](i));
    f = five;
    __mm_op_out('0' + f(7) + own(-3));
    __mm_op_out('0' + v(2, 4l));
    f = (long (*)(long))(void *)&table;
    return f(1);
}
"""
FIVE = ".segment door_five 9\n nop\n nop\n ldi r0, 5\n jmp r14\n"
# Narrow numbers that another program has not extended as C wants it, given back and handed over.
NARROW = """#include <mm.h>
MM_THREAD(0, 0, -1);
TYPE narrow(void) MM_DOOR(narrow);
int main(void) { return narrow() == WANTED && (long)narrow() == WANTED && ((long)narrow() & 4095) == (WANTED & 4095); }
"""
GIVES = ".segment door_narrow 9\n nop\n nop\n ldi r0, {}\n ldhi r0, {}\n jmp r14\n"
NARROWS = (("int", 1, 5, 5), ("int", 0, -1, -1), ("unsigned", 1, 5, 5), ("unsigned char", 0, 0x105, 5), ("signed char", 0, 0xFF, -1),
           ("short", 0, 0x18000, -0x8000), ("_Bool", 0, 3, 1))
TAKES = """#include <mm.h>
long takes(int a, unsigned char b, _Bool c, unsigned d) MM_DOOR(takes);
long takes(int a, unsigned char b, _Bool c, unsigned d) { return (long)a + b * 10 + c * 100 + (long)d * 1000; }
"""
TAKEN = ".segment caller 5\n jal r14, r5\n halt\n.thread 0 0 none xu caller\n.reg 5 ptr eu door_takes+16\n" + "".join(
    f".reg {register} int {value}\n" for register, value in enumerate((0x100000001, 0x102, 3, 0x100000004)))
# A caller that hands a local to a door, which keeps the pointer and looks later what is there: a way back, and what the caller
# has saved. Each line says what `mm cc` warns of.
LENDS = """#include <mm.h>
MM_THREAD(0, 0, -1);
long lend(long *p) MM_DOOR(lend);
long again(void) MM_DOOR(again);
static long secret = 4711;
static __attribute__((noinline)) long first(void) { HELD room[8] = {1}; lend(room); return room[0]; }
static __attribute__((noinline)) long deep(long n, long *p)
{
    long t[3] = {n, 1, 2};
    long *volatile q = p;
    again();
    return n ? deep(n - 1, t + 1) + *q : *q;
}
int main(void) { first(); return deep(3, &secret); }
"""
KEEPS = """#include <mm.h>
long lend(long *p) MM_DOOR(lend);
long again(void) MM_DOOR(again);
static long *kept;
static long found;
long lend(long *p) { kept = p; return 0; }
long again(void) { for (int i = 0; i < 8; i++) found += __mm_op_isptr((void *)kept[i]); return 0; }
"""
LENT = (
    ("long a[2] = {1, 2}; lend(a + 1);", "the local `a`"), ("long a = 1; lend(&a);", "the local `a`"),
    ("struct { long a, b; } s = {1, 2}; lend(&s.b);", "the local `s`"), ("lend((long[]){1, 2});", "a local"),
    ("long a[n + 2]; *a = 1; lend(a);", "a local"), ("static long a; lend(&a);", ""), ("own(&n);", ""),
)
LENDING = """#include <mm.h>
MM_THREAD(0, 0, -1);
long lend(long *p) MM_DOOR(lend);
long own(long *p) MM_DOOR(own);
long own(long *p) { return *p; }
int run(long n) { LENT return n; }
int main(void) { return run(3); }
"""
# What no door can have: structures would be in memory of whoever enters.
LARGE = """#include <mm.h>
struct large { long a, b; };
RESULT whole(TYPE x) MM_DOOR(whole);
"""
LARGER = ("struct large", "long"), ("long", "struct large")
DEFINES = "RESULT whole(TYPE x) { struct large made = {1, 2}; return RETURNED; }\n"
CALLS = "int main(void) { struct large made = {1, 2}; whole(HANDED); return made.a; }\n"
INSIDE = """#include <mm.h>
#include <stdarg.h>
MM_THREAD(0, 0, -1);
struct large { long a, b; };
long peek(long n) MM_DOOR(peek);
static long by_value(struct large x) { return x.a; }
static struct large made(long n) { return (struct large){n, n + 1}; }
static long seventh(long a, long b, long c, long d, long e, long f, long g) { return g; }
static long second(long n, ...) { va_list l; va_start(l, n); return va_arg(l, long); }
int main(void)
{
    struct large x = {1, 2};
    long (*volatile a)(struct large) = WHERE by_value;
    struct large (*volatile b)(long) = WHERE made;
    long (*volatile c)(long, long, long, long, long, long, long) = WHERE seventh;
    long (*volatile d)(long, ...) = WHERE second;
    return CALL;
}
"""
# Calls of functions of the program through pointers, and what they give.
STAY = (("a(x)", 1), ("b(2).b", 3), ("c(0, 0, 0, 0, 0, 0, 7)", 7), ("d(1, 5l)", 5))
MANY = """#include <mm.h>
long many(long a, long b, long c, long d, long e, long f, long g) MM_DOOR(many);
int main(void) { return many(1, 2, 3, 4, 5, 6, 7); }
"""


@needs_program
@needs_clang
class Entering(unittest.TestCase):
    def form(self, level, *texts):
        """How programs end; those that begin with a dot are in assembly."""
        with folder() as room:
            paths = [write(room, f"p{number}.{'asm' if text[0] == '.' else 'c'}", text) for number, text in enumerate(texts)]
            ended = mm("run", "--json", f"-O{level}", "--clang", "-w", *paths)
            self.assertTrue(ended.out, ended.err)
            return json.loads(ended.out)

    def test_a_door_in_c_does_not_reach_its_caller(self):
        for level in "012":
            self.assertEqual(self.form(level, VICTIM, CALLEE)["groups"][0]["output"]["text"], "1000", level)

    def test_what_a_door_gets(self):
        """The argument, an enter pointer to itself, and one to the way back: nothing that loads, stores, moves or shows code."""
        for called, back in (("peek", "from_peek"), ("through", "from_pointer")):
            for level in "02":
                slot = self.form(level, FULL.replace("CALLED", called), PEEK)["slots"][0]
                wanted = {"r0": ("rw", "given"), "r12": ("eu", "door_peek+16"), "r14": ("eu", back)}
                found = {name: (word.get("permission"), word.get("name")) for name, word in slot["registers"].items()}
                self.assertEqual(found, wanted, f"{called} {level}")

    def test_ways_back(self):
        for number, (title, others, back, made, wanted) in enumerate(SAID):
            form = self.form("012"[number % 3], SAY.replace("BACK", back).replace("MADE", made), others)
            texts = [group["output"]["text"] for group in form["groups"]]
            self.assertEqual(texts, [wanted, *[""] * (len(texts) - 1)], title)
            self.assertEqual({slot["state"] for slot in form["slots"]}, {"halted"}, title)

    def test_calls_of_a_program_in_two_slots(self):
        # The sums of each slot: 20 calls of `slow` with two of `serve` in them, and 30 of `serve` alone.
        sums = [sum(13 * i + 10 for i in range(20)), sum(400 * i + 5 for i in range(30))]
        for level in "02":
            form = self.form(level, *ROUND)
            self.assertEqual([(slot["state"], slot["registers"]["r0"]["integer"]) for slot in form["slots"]],
                             [("halted", each) for each in sums], level)
            self.assertEqual([cell["name"] for cell in form["cells"] if "_calls+" in (cell["name"] or "")], [], level)

    def test_a_caller_keeps_what_it_has(self):
        with folder() as room:
            paths = write(room, "keeper.c", KEEPER), write(room, "peek.asm", TELLS), write(room, "other.asm", OTHER)
            ended = mm("keeps", *paths, "text", "stack", "calls", "money")
        self.assertTrue(ended.out.startswith("yes: the kernel keeps stack, text, calls and money\n"), ended.out + ended.err)
        self.assertRegex(ended.out, "\nfrom_peek +group 0, group 1 ")

    def test_calls_through_pointers(self):
        for level in "02":
            form = self.form(level, POINTERS, FIVE)
            self.assertEqual((form["groups"][0]["output"]["text"], form["slots"][0]["fault"]["name"]), ("215556", "Perm"), level)

    def test_narrow_numbers(self):
        for type_, high, low, wanted in NARROWS:
            gives = GIVES.format(high if high or low >= 0 else low, low)
            form = self.form("1", NARROW.replace("TYPE", type_).replace("WANTED", str(wanted)), gives)
            self.assertEqual(form["slots"][0]["registers"]["r0"]["integer"], 1, f"{type_} {low}")
        form = self.form("1", TAKES, TAKEN)
        self.assertEqual(form["slots"][0]["registers"]["r0"]["integer"], 1 + 20 + 100 + 4000)

    def test_locals_that_a_door_keeps(self):
        for held, is_reached in (("long", True), ("static long", False)):
            form = self.form("1", LENDS.replace("HELD", held), KEEPS)
            found = any(cell["name"].endswith("_found") for cell in form["cells"] if cell["name"])
            self.assertEqual((form["slots"][0]["state"], found), ("halted", is_reached), held)
        with folder() as room:
            for lines, local in LENT:
                for level in "02":
                    ended = mm("cc", f"-O{level}", write(room, "lending.c", LENDING.replace("LENT", lines)))
                    said = f"warning: this hands {local} to the door `lend`, which can keep the pointer"
                    self.assertEqual((ended.err.count("warning: this hands"), said in ended.err), (bool(local), bool(local)), f"{lines} {ended.err}")

    def test_structures_at_doors(self):
        with folder() as room:
            for result, type_ in LARGER:
                text = LARGE.replace("RESULT", result).replace("TYPE", type_)
                made = "made" if result != "long" else "x.a"
                defines = text + DEFINES.replace("RESULT", result).replace("TYPE", type_).replace("RETURNED", made)
                calls = text + CALLS.replace("HANDED", "made" if type_ != "long" else "1")
                for name, said in (("defines", defines), ("calls", calls)):
                    ended = mm("cc", "--clang", "-w", write(room, f"{name}.c", said))
                    self.assertEqual(ended.status, 2, f"{name} {result}")
                    self.assertIn("a door that takes or gives a structure is left out", ended.err)

    def test_calls_that_stay_in_the_program(self):
        for call, wanted in STAY:
            slot = self.form("1", INSIDE.replace("WHERE", "").replace("CALL", call), PEEK)["slots"][0]
            self.assertEqual((slot["state"], slot["registers"]["r0"]["integer"]), ("halted", wanted), call)
            slot = self.form("1", INSIDE.replace("WHERE", "(void *)peek; //").replace("CALL", call), PEEK)["slots"][0]
            self.assertEqual((slot["state"], slot["instruction"]), ("faulted", "trap 9"), call)

    def test_more_arguments_than_a_door_can_have(self):
        with folder() as room:
            ended = mm("run", write(room, "many.c", MANY))
        self.assertEqual(ended.status, 2)
        self.assertIn("many.c:3:25: error: a call of a door with more than six arguments, or with variable ones, is left out", ended.err)


if __name__ == "__main__":
    unittest.main()
