"""Doors of programs in C: their stack holds nothing of the last caller, and words that come through them are numbers if they are made so."""

import json
import re
import unittest

from mm.cc.handed import warnings
from mm.cc.options import Options
from mm.cc.parse import read_module
from mm.cc.program import Program
from mm.cc.source import write_source
from mm.tests.support import folder, mm, needs_program, write
from mm.tests.test_cc_clang import needs_clang

# A door with a frame that is cleared word by word, one with a longer frame, and one with an array whose length is known at the run alone.
# All call a function that has a frame too.
FRAMES = """
declare i64 @__mm_op_isptr(ptr)
define i64 @mm_door_few(i64 %n, ptr %p) {
  %t = alloca [4 x ptr], align 8
  %a = getelementptr inbounds [4 x ptr], ptr %t, i64 0, i64 %n
  store ptr %p, ptr %a, align 8
  %w = call i64 @inner(ptr %a)
  ret i64 %w
}
define i64 @mm_door_many(i64 %n, ptr %p) {
  %t = alloca [40 x ptr], align 8
  %a = getelementptr inbounds [40 x ptr], ptr %t, i64 0, i64 %n
  store ptr %p, ptr %a, align 8
  %w = call i64 @inner(ptr %a)
  ret i64 %w
}
define i64 @mm_door_any(i64 %n, ptr %p) {
  %t = alloca ptr, i64 %n, align 8
  store ptr %p, ptr %t, align 8
  %w = call i64 @inner(ptr %t)
  ret i64 %w
}
define i64 @__mm_log_of_array(i64 %size) {
  ret i64 6
}
define internal i64 @inner(ptr %q) {
  %o = alloca ptr, align 8
  %p = load ptr, ptr %q, align 8
  store ptr %p, ptr %o, align 8
  %w = call i64 @test(ptr %o)
  ret i64 %w
}
define internal i64 @test(ptr %q) {
  %p = load ptr, ptr %q, align 8
  %w = call i64 @__mm_op_isptr(ptr %p)
  ret i64 %w
}
"""
CALLER = """.segment caller 5
  jal r14, r5
  halt
.segment mine 3
  .int 7
.thread 0 0 none xu caller
.reg 0 int 3
.reg 1 ptr rw mine
.reg 5 ptr eu door_{}+16
.reg 7 ptr rw mine
.reg 9 ptr ro mine
"""
STORES = """
@kept = global i64 0
@other = global [4 x i32] zeroinitializer
declare i64 @mm_door_away(i64)
declare i64 @__mm_op_number(i64)
declare i64 @__mm_op_isptr(ptr)
define void @mm_door_in(i64 %first, i64 %second, i32 %third) {
  SAID
  ret void
}
define internal void @keep(ptr %at, i64 %x) {
  store i64 %x, ptr %at, align 8
  ret void
}
define internal i64 @same(i64 %x) {
  ret i64 %x
}
"""
IN = "comes through the door `in`, and is stored as it came: it may be a pointer, with all its rights"
# What a door does, and what is warned of.
SAID = (
    ("store i64 %first, ptr @kept", [f"`first` {IN}"]),
    ("%a = add i64 %first, 1\n  store i64 %a, ptr @kept", []),
    ("%a = call i64 @__mm_op_number(i64 %first)\n  store i64 %a, ptr @kept", []),
    ("%a = select i1 true, i64 0, i64 %second\n  store i64 %a, ptr @kept", [f"`second` {IN}"]),
    ("%a = sext i32 %third to i64\n  store i64 %a, ptr @kept", [f"`third` {IN}"]),
    ("%a = zext i32 %third to i64\n  store i64 %a, ptr @kept", []),
    ("%a = trunc i64 %first to i32\n  store i32 %a, ptr @other", []),
    ("%a = alloca i64\n  store i64 %first, ptr %a\n  %b = load i64, ptr %a\n  store i64 %b, ptr @kept", [f"`first` {IN}"]),
    ("%a = alloca i64\n  store i64 %first, ptr %a\n  %b = load i64, ptr @kept\n  store i64 %b, ptr @kept", []),
    ("call void @keep(ptr @kept, i64 %second)", [f"`second` {IN}"]),
    ("%a = call i64 @same(i64 %first)\n  store i64 %a, ptr @kept", [f"`first` {IN}"]),
    ("%a = inttoptr i64 %first to ptr\n  %b = call i64 @__mm_op_isptr(ptr %a)\n  store i64 %first, ptr @kept", []),
    ("%a = call i64 @mm_door_away(i64 %first)", []),
    ("%a = call i64 @mm_door_away(i64 %first)\n  store i64 %a, ptr @kept",
     ["what the door `away` gives is stored as it came: it may be a pointer, with all its rights"]),
)
RESIDUE = """#include <mm.h>
#include <setjmp.h>
long door(long n, void *p) MM_DOOR(door);
static jmp_buf buf;
static __attribute__((noinline)) long deep(long n, void *p)
{
    void *t[40];
    for (int i = 0; i < 40; i++)
        t[i] = p;
    if (n == 3)
        longjmp(buf, 1);
    return t[n] == p;
}
long door(long n, void *p)
{
    if (setjmp(buf))
        return 7;
    for (int j = 0; j < 2; j++) {
        void *t[n * 20];
        for (long i = 0; i < n * 20; i++)
            t[i] = p;
        if (t[n] != p)
            return 0;
    }
    void *t[n];
    for (long i = 0; i < n; i++)
        t[i] = p;
    return deep(n, t[0]) + (t[n - 1] == p);
}
"""
VISITOR = """#include <mm.h>
long door(long n, void *p) MM_DOOR(door);
static long here;
int main(void)
{
    long a = door(5, &here), b = door(3, &here);
    __mm_op_out(48 + a);
    __mm_op_out(48 + b);
    return 0;
}
"""
# A careless door, which hands out a local that is not set, after another one had pointers of a client there; the second
# client comes when the first one has gone.
CARELESS = """#include <mm.h>
long keep(long *p) MM_DOOR(keep);
long *oops(void) MM_DOOR(oops);
static __attribute__((noinline)) long use(long **q) { __asm__ volatile("" : : : "memory"); return *q[3]; }
long keep(long *p) { long *t[8] = {p, p, p, p, p, p, p, p}; return use(t); }
long *oops(void) { long *t[8]; long *volatile *v = t; return v[3]; }
"""
FIRST = """#include <mm.h>
long keep(long *p) MM_DOOR(keep);
MM_THREAD(0, 0, -1);
static long secret = 4711;
int main(void) { keep(&secret); return secret != 4711; }
"""
SECOND = """#include <mm.h>
long *oops(void) MM_DOOR(oops);
MM_THREAD(1, 1, -1);
int main(void)
{
    for (volatile int i = 0; i < 400; i++)
        ;
    long *p = oops();
    __mm_op_out('0' + __mm_op_isptr(p));
    return *p = 666;
}
"""
# Two programs that each count in a byte of their own of one word, and what helps: atomic bytes, a word for each, or to take
# the word; and whether `mm cc` warns.
COUNTED = """#include <mm.h>
SHARED
MM_THREAD(NUMBER, NUMBER, -1);
int main(void) { for (int i = 0; i < 100; i++) { COUNT } return 0; }
"""
COUNTING = (
    ("extern volatile char box[8] MM_SHARED(box);", "volatile char box[8] = {0};", "box[NUMBER]++;", False, True),
    ("extern volatile long box[2] MM_SHARED(box);", "volatile long box[2] = {0};", "box[NUMBER]++;", True, False),
    ("extern long box MM_SHARED(box);", "long box = 0;", "mm_put(&box, mm_take(&box) + (1 << 8 * NUMBER));", True, False),
    ("extern _Atomic unsigned char box[8] MM_SHARED(box);", "_Atomic unsigned char box[8] = {0};", "box[NUMBER]++;", True, False),
    ("extern _Atomic short box[4] MM_SHARED(box);", "_Atomic short box[4] = {0};", "box[3 - NUMBER] = box[3 - NUMBER] + 1;", True, False),
    ("extern _Atomic int box[2] MM_SHARED(box);", "_Atomic int box[2] = {0};",
     "int n = box[NUMBER]; while (!__atomic_compare_exchange_n((int *)&box[NUMBER], &n, n + 1, 1, 5, 5)) ;", True, False),
    ("extern _Atomic char box[8] MM_SHARED(box);", "_Atomic char box[8] = {0};",
     "_Atomic char *volatile at = box + NUMBER; *at = *at + 1;", True, False),
)
# Two programs that add to the same object, of each width.
ADDED = """#include <mm.h>
extern _Atomic TYPE box[8] MM_SHARED(box);
DEFINED
MM_THREAD(NUMBER, NUMBER, -1);
int main(void) { for (int i = 0; i < 60; i++) box[1] += NUMBER + 1; return 0; }
"""
# A door whose parameter goes from one client to another.
HOLDS = """#include <mm.h>
void put(long x) MM_DOOR(put);
long get(void) MM_DOOR(get);
static long word;
void put(long x) { word = MADE; }
long get(void) { return word; }
"""
HANDS = """#include <mm.h>
void put(long x) MM_DOOR(put);
long get(void) MM_DOOR(get);
static long mine;
int main(void) { put((long)&mine); long x = get(); __mm_op_out(48 + __mm_op_isptr((void *)x) + 2 * (x == (long)&mine)); return 0; }
"""


# Globals with the names of a program's own segments, and of what others know.
NAMES = """#include <mm.h>
extern long box[2] MM_SHARED(shared);
long box[2];
static long text = 1, stack = 2, heap = 3, turn = 4, door_stack = 5, door_f = 6, shared = 7;
long f(void) MM_DOOR(f);
long f(void) { return text++ + stack++ + heap++ + turn++ + door_stack++ + door_f++ + shared++ + box[0]++; }
int main(void) { return f(); }
"""
# What is no door: another name of a function, and a variable.
NO_DOORS = ("long f(void) { return 1; } long door(void) MM_DOOR(door) __attribute__((alias(\"f\")));", "long door MM_DOOR(door) = 1;")
# Doors that test what they are handed, as the page says, and what hostile callers hand over: a segment in which there is no
# word, and pointers that nobody can move. The last is an atomic operation on a word that somebody has put a key into.
TESTS = """#include <mm.h>
long first(const char *p) MM_DOOR(first);
long second(const long *p) MM_DOOR(second);
long more(long *p) MM_DOOR(more);
long first(const char *p) { return mm_can_read(p, 1) ? *p : -1; }
long second(const long *p) { return mm_can_read(p + 1, 8) ? p[1] : -1; }
long more(long *p) { return mm_can_write(p, 8) ? mm_number(__atomic_fetch_add(p, 8, 5)) != 0 : -1; }
"""
HOSTILE = """.segment hostile 6
  MADE
  jal r14, r5
  halt
.segment mine 4
  .int 7
  .int 8
.segment held 3
  .ptr WHAT mine
.thread 1 1 none xu hostile
.reg 0 ptr WHAT PLACE
.reg 1 ptr rw held
.reg 5 ptr eu door_DOOR+16
"""
SHORT = "ldi r2, 2\n  subseg r0, r0, r2"
TESTED = (
    ("first", "rw", "nop", 7), ("first", "rw", SHORT, -1), ("second", "rw", "nop", 8), ("second", "xp", "nop", 8),
    ("second", "eu", "nop", -1), ("second", "ep", "nop", -1), ("second", "key", "nop", -1),
    ("more", "rw", "mov r0, r1", 1), ("more", "key", "mov r0, r1", 1), ("more", "eu", "mov r0, r1", 1),
)


def program_of(text: str) -> Program:
    return Program([read_module(text, "test")], Options())


def left(form):
    """The words of the stack of doors that are not as they were."""
    return [cell["name"] for cell in form["cells"] if "door_stack" in (cell["name"] or "")]


class Warned(unittest.TestCase):
    def test_what_is_stored_as_it_came(self):
        for text, wanted in SAID:
            program = program_of(STORES.replace("SAID", text))
            write_source(program, Options())
            told = [line.splitlines() for line in warnings(program)]
            self.assertEqual([lines[0] for lines in told], [f"test: warning: {line}" for line in wanted], text)
            for lines, line in zip(told, wanted):
                name = re.match("`(.*?)`", line)
                self.assertEqual(lines[1], f"    `mm_number({name[1] if name else '..'})` makes a number of it")

    def test_programs_without_doors(self):
        program = program_of("@kept = global i64 0\ndefine i64 @main(i64 %a) {\n  store i64 %a, ptr @kept\n  ret i64 0\n}")
        write_source(program, Options())
        self.assertEqual(list(warnings(program)), [])


@needs_program
class Left(unittest.TestCase):
    def test_frames(self):
        source = write_source(program_of(FRAMES), Options())
        with folder() as room:
            kernel = write(room, "kernel.asm", source)
            for door in ("few", "many", "any"):
                ended = mm("run", "--json", kernel, write(room, "caller.asm", CALLER.format(door)))
                form = json.loads(ended.out)
                slot = form["slots"][0]
                held = {name: word["name"] for name, word in slot["registers"].items() if word["tagged"] and name != "r14"}
                self.assertEqual((slot["state"], slot["registers"]["r0"]["integer"], left(form)), ("halted", 1, []), door)
                self.assertEqual(held, {"r7": "mine", "r9": "mine"}, door)

    @needs_clang
    def test_jumps_and_arrays(self):
        with folder() as room:
            paths = write(room, "kernel.c", RESIDUE), write(room, "visitor.c", VISITOR)
            for level in "012":
                form = json.loads(mm("run", "--json", f"-O{level}", *paths).out)
                self.assertEqual((form["groups"][0]["output"]["text"], left(form)), ("27", []), level)

    @needs_clang
    def test_a_careless_door_has_nothing_of_another_client(self):
        with folder() as room:
            paths = write(room, "serv.c", CARELESS), write(room, "first.c", FIRST), write(room, "second.c", SECOND)
            for level in "012":
                form = json.loads(mm("run", "--json", f"-O{level}", "--clang", "-w", *paths).out)
                first, second = form["slots"]
                self.assertEqual((first["state"], first["registers"].get("r0"), second["state"]), ("halted", None, "faulted"), level)
                self.assertEqual([group["output"]["text"] for group in form["groups"]], ["", "0"], level)

    @needs_clang
    def test_names_of_segments(self):
        with folder() as room:
            for words in ((), ("--prefix", "own")):
                source = write(room, "names.asm", mm("cc", *words, write(room, "names.c", NAMES)).out)
                slot = json.loads(mm("run", "--json", source).out)["slots"][0]
                self.assertEqual((slot["state"], slot["registers"]["r0"]["integer"]), ("halted", 28), words)
            # A program without doors has no such segments.
            self.assertIn(".segment turn 3\n", mm("cc", write(room, "plain.c", "int turn; int main(void) { return turn++; }")).out)

    @needs_clang
    def test_what_is_no_door(self):
        with folder() as room:
            for text in NO_DOORS:
                ended = mm("cc", write(room, "none.c", "#include <mm.h>\n" + text))
                self.assertEqual(ended.status, 2, text)
                self.assertIn("none.c: door: a door that is no function of its own is left out", ended.err)

    @needs_clang
    def test_what_hostile_callers_hand_over(self):
        with folder() as room:
            for level in "02":
                made = mm("cc", f"-O{level}", write(room, "tests.c", TESTS))
                door = write(room, "tests.asm", made.out)
                for name, what, before, wanted in TESTED:
                    text = HOSTILE.replace("DOOR", name).replace("WHAT", what).replace("PLACE", "mine").replace("MADE", before)
                    form = json.loads(mm("run", "--json", door, write(room, "hostile.asm", text)).out)
                    slot = form["slots"][0]
                    self.assertEqual((slot["state"], slot["registers"]["r0"]["integer"]), ("halted", wanted), f"{name} {what} {level}")
                    self.assertTrue(all(cell["full"] for cell in form["cells"]), f"{name} {what} {level}")

    @needs_clang
    def test_bytes_of_one_word_that_two_programs_count(self):
        """As the page says of shared words: what another program wrote to the other bytes of a word is lost, and what helps."""
        for declared, defined, count, all_are_there, is_warned_of in COUNTING:
            with folder() as room:
                paths = [write(room, f"p{number}.c", COUNTED.replace("SHARED", declared + "\n" + ("" if number else defined))
                               .replace("COUNT", count).replace("NUMBER", str(number))) for number in (0, 1)]
                ended = mm("run", "--json", *paths)
                self.assertEqual(ended.err.count("warning: this stores a whole word of `box`, which is shared"), 2 * is_warned_of, ended.err)
                form = json.loads(ended.out)
                self.assertEqual([slot["state"] for slot in form["slots"]], ["halted"] * 2, count)
                box = [int(cell["word"]["bits"], 16) for cell in form["cells"] if (cell["name"] or "").startswith("box")]
                numbers = [byte for word in box for byte in word.to_bytes(8, "little") if byte]
                self.assertEqual(numbers == [100, 100], all_are_there, f"{count} {numbers}")

    @needs_clang
    def test_an_atomic_object_that_two_programs_change(self):
        for type_, size in (("char", 1), ("short", 2), ("int", 4), ("long", 8)):
            with folder() as room:
                texts = [ADDED.replace("DEFINED", "" if number else "_Atomic TYPE box[8] = {1, 2, 3};") for number in (0, 1)]
                paths = [write(room, f"p{number}.c", text.replace("TYPE", type_).replace("NUMBER", str(number))) for number, text in enumerate(texts)]
                form = json.loads(mm("run", "--json", "-O0", *paths).out)
            cell = next(cell for cell in form["cells"] if cell["name"] == ("box+8" if size == 8 else "box"))
            value = cell["word"]["integer"] >> (0 if size == 8 else 8 * size) & (1 << 8 * size) - 1
            self.assertEqual((value, cell["full"]), (2 + 180, True), type_)

    @needs_clang
    def test_numbers(self):
        with folder() as room:
            hands = write(room, "hands.c", HANDS)
            for made, shown, warned in (("x", "3", True), ("mm_number(x)", "2", False)):
                ended = mm("run", write(room, "holds.c", HOLDS.replace("MADE", made)), hands)
                self.assertIn(f'output "{shown}"', ended.out)
                self.assertEqual("holds.c:5:25: warning: `x` comes through the door `put`" in ended.err, warned, ended.err)

    @needs_clang
    def test_what_the_library_stores(self):
        text = HOLDS.replace("word = MADE", "mm_put(&word, x)")
        with folder() as room:
            ended = mm("cc", write(room, "holds.c", text))
        self.assertIn("holds.c:5:20: warning: `x` comes through the door `put`, and is handed to `mm_put`, which stores it:", ended.err)


if __name__ == "__main__":
    unittest.main()
