"""`mm keeps` and `mm audit --doors-shut` with the built program."""

import json
import os
import unittest

from mm.tests.support import folder, mm, needs_program, read, write


@needs_program
class Audits(unittest.TestCase):
    def test_doors_shut(self):
        ended = mm("audit", "--doors-shut", "examples/counter.asm")
        self.assertEqual((ended.status, ended.err), (0, ""))
        self.assertTrue(ended.out.startswith("with the doors shut: each enter pointer counts as a key"))
        self.assertNotIn("count", ended.out.replace("counts", ""))
        self.assertIn("  read and write  box     8 bytes  0x100100", ended.out)
        kernel = json.loads(mm("audit", "--doors-shut", "--json", "examples/kernel.asm").out)
        self.assertTrue(kernel["doors_shut"])
        self.assertEqual([[each["name"] for each in group["touch"]] for group in kernel["groups"]], [["client_a"], ["client_b"]])
        self.assertFalse(json.loads(mm("audit", "--json", "examples/kernel.asm").out)["doors_shut"])
        self.assertIn("there is no enter pointer", mm("audit", "--doors-shut", "examples/hello.asm").err)

    def test_the_hint(self):
        out = mm("audit", "examples/counter.asm").out.splitlines()
        self.assertEqual(out[-1], "  mm keeps examples/counter.asm gate count")
        self.assertEqual(mm("audit", "examples/kernel.asm").out.splitlines()[-1],
                         "  mm keeps examples/kernel.asm kernel 'gate_*' 'credits_*'")
        with folder() as room:
            path = write(room, "privileged.asm", read("examples", "kernel.asm").replace("eu door_b", "ep door_b"))
            self.assertNotIn("mm keeps", mm("audit", path).out)
            path = write(room, "leak.asm", read("examples", "kernel.asm") + ".reg 4 ptr rw credits_a\n")
            self.assertEqual(mm("audit", path).out.splitlines()[-1], f"  mm keeps {path} kernel 'gate_*' credits_b")
        self.assertNotIn("mm keeps", mm("audit", "examples/letterbox.asm").out)
        self.assertNotIn("mm keeps", mm("audit", "--doors-shut", "examples/counter.asm").out)
        named = mm("audit", "examples/counter.img", "--names", "examples/counter.asm").out.splitlines()
        self.assertEqual(named[-1], "  mm keeps examples/counter.img --names examples/counter.asm gate count")


@needs_program
class Asked(unittest.TestCase):
    def test_yes(self):
        ended = mm("keeps", "examples/counter.asm", "count", "gate")
        self.assertEqual((ended.status, ended.err), (0, ""))
        self.assertTrue(ended.out.startswith("yes: the kernel keeps gate and count\n"))
        self.assertEqual(ended.out, mm("keeps", "examples/counter.img", "1048768/6,1048840/3").out)

    def test_no(self):
        with folder() as room:
            path = write(room, "leak.asm", read("examples", "counter.asm").replace("ldi r7, 0", "nop"))
            ended = mm("keeps", path, "gate", "count")
        self.assertEqual(ended.status, 0)
        self.assertIn("leak.asm:26: jmp r6\n  it can leave the kernel with what no caller may hold\n    r7   rw 2^3 count\n"
                      "  mend  clear r7 before it: `ldi r7, 0`", ended.out)

    def test_a_handler(self):
        with folder() as room:
            path = write(room, "served.asm", read("examples", "kernel.asm").replace(".thread 0 0 none", ".thread 0 0 1"))
            out = mm("keeps", path, "gate*", "credits*").out
        self.assertIn("out r2\n  it can fault, and the caller's handler then gets (slot 1 for slot 0)\n"
                      "    r7   rw 2^3 credits_a or rw 2^3 credits_b\n", out)

    def test_a_handler_of_the_kernel(self):
        """It is a caller's as long as its code is not named, and then the cure has that name. One of the same group is the caller's."""
        source, rest = read("examples", "leases.asm"), ("*_gate", "*_lease", "leases", "pool", "block_*")
        cure = "  mend  or, if slot 0 is the kernel's own, keep its code too: name keeper\n"
        with folder() as room:
            path = write(room, "leases.asm", source)
            self.assertEqual(mm("keeps", path, "use", "*_gate").out.count(cure), 4)
            yes = mm("keeps", path, "keeper", "use", *rest).out
            own = source.replace(".thread 3 3 0", ".thread 3 3 4") + ".segment own 4\n  evt r4\n  halt\n.thread 4 3 none xu own\n"
            no = mm("keeps", write(room, "own.asm", own), "keeper", "use", *rest).out
        self.assertTrue(yes.startswith("yes: "), yes)
        self.assertIn("\npool          rw 2^4 block_one or rw 2^4 block_two\nblock_one     an integer\n", yes)
        self.assertIn("the caller's handler then gets (slot 4 for slot 3)\n", no)
        self.assertNotIn("kernel's own", no)

    def test_a_client_that_counts_as_the_kernel(self):
        """A client with a pointer too many at the start is told below a yes, and no slot whose code is kept."""
        source = read("examples", "counter.asm").replace(".thread 1 1 none xu cons\n", ".thread 1 1 none xu cons\n.reg 9 ptr rw count\n")
        with folder() as room:
            path = write(room, "extra.asm", source)
            out = mm("keeps", path, "gate", "count").out
            kept = mm("keeps", path, "gate", "count", "cons").out
        self.assertIn("\n  slot 1 counts as the kernel: r9 holds rw 2^3 count, and its code, cons, is not kept\n", out)
        self.assertTrue(kept.startswith("yes: ") and "slot 1  the kernel" in kept, kept)
        self.assertNotIn("counts as", kept)

    def test_who_handles_across(self):
        """A group stands apart though the kernel handles its faults, and that is said; nothing of it without such a handler."""
        rest = ("*_gate", "*_lease", "leases", "pool", "block_*")
        out = mm("keeps", "examples/leases.asm", "keeper", "use", *rest).out
        self.assertEqual(out.count("no fault is handled across but by the kernel\n"), 4)
        box = mm("keeps", "examples/mailbox.asm", "code", "put_gate", "take_gate", "box").out
        self.assertIn("no fault is handled across\n", box)
        self.assertNotIn("but by the kernel", box)

    def test_threads(self):
        words = ("keeps", "examples/scheduler.asm", "scheduler", "first", "second")
        self.assertIn("more than 400 threads", mm(*words, "--threads", "400").out)
        self.assertTrue(mm(*words).out.startswith("yes"))
        self.assertEqual(mm(*words, "--threads", "0").status, 1)

    def test_privileged(self):
        self.assertIn("ip of slot 0  xp", mm("keeps", "examples/pager.asm", "*").out)

    def test_words(self):
        for words, part in (
            (["examples/counter.asm"], "only doors lead to gate and count: `mm keeps examples/counter.asm gate count`"),
            (["examples/letterbox.asm"], "missing SEGMENT"),
            (["examples/counter.asm", "gate", "examples/kernel.asm"], "`examples/kernel.asm` is a file, and files come before"),
            (["examples/counter.asm", "gaet"], "do you mean `gate`?"),
        ):
            ended = mm("keeps", *words)
            self.assertEqual((ended.status, ended.out), (1, ""), words)
            self.assertIn(part, ended.err)
        self.assertEqual(mm("keeps", "nowhere.asm", "gate").status, 3)
        self.assertEqual(mm("keeps").status, 1)

    def test_on_a_page(self):
        with folder() as room:
            path = os.path.join(room, "a.html")
            self.assertEqual(mm("view", "examples/counter.asm", "--keeps", "gate,count", "-o", path).status, 0)
            with open(path, encoding="utf-8") as file:
                page = file.read()
            self.assertEqual(mm("view", "examples/counter.asm", "-o", path).status, 0)
            with open(path, encoding="utf-8") as file:
                plain = file.read()
        self.assertIn("yes: the kernel keeps gate and count", page)
        self.assertIn("buildKeeps();", page)
        self.assertNotIn("buildKeeps", plain)


if __name__ == "__main__":
    unittest.main()
