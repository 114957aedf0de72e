"""What the steps of ./build wasm refuse, and how they change the few instructions that they change."""

import subprocess
import sys
import tempfile
import unittest
from pathlib import Path

STEPS = Path(__file__).resolve().parents[1] / "build"
sys.path.append(str(STEPS))
sys.dont_write_bytecode = True

import drop_table
import lower
import retarget

HEAD = ['target datalayout = "e-m:e-p270:32:32-p271:32:32-p272:64:64-i64:64-i128:128-f80:128-n8:16:32:64-S128"', 'target triple = "x86_64-unknown-linux-gnu"']


def retargeted(*body, more=()):
    """A module with a function of these lines, for wasm64."""
    lines = [*HEAD, "define i32 @f(ptr noundef %p) #0 {", "start:", *body, "}", *more]
    return list(retarget.retargeted(lines))


def lowered(*body, memory="  (memory (;0;) i64 17 65280)", more=()):
    """A module with a function of these lines and a memory, lowered."""
    module = lower.Module()
    head = ["(module", "  (type (;0;) (func (param i64 i32) (result i64)))", "  (func (;0;) (type 0) (param i64 i32) (result i64)", *body]
    for line in [*head, memory, *more, '  (export "f" (func 0)))']:
        module.add(line)
    return "\n".join(module.lines())


class Retarget(unittest.TestCase):
    """retarget.py."""

    def test_what_changes(self):
        """The target, and the attributes of a processor."""
        attributes = 'attributes #0 = { nounwind "frame-pointer"="all" "probe-stack"="inline-asm" "target-cpu"="x86-64" memory(argmem: write) }'
        out = retargeted("  ret i32 0", more=[attributes])
        self.assertIn('target triple = "wasm64-unknown-unknown"', out)
        self.assertIn("attributes #0 = { nounwind memory(argmem: write) }", out)
        self.assertEqual(out[2:6], ["define i32 @f(ptr noundef %p) #0 {", "start:", "  ret i32 0", "}"])

    def test_another_processor(self):
        """For aarch64, too."""
        group = 'attributes #0 = { nounwind "probe-stack"="inline-asm" "stack-probe-size"="3072" "target-cpu"="x86-64-v2" }'
        out = list(retarget.retargeted([*HEAD, group], "aarch64"))
        # (as the toolchain writes it for aarch64)
        own = 'attributes #0 = { nounwind "frame-pointer"="non-leaf" "probe-stack"="inline-asm" "stack-probe-size"="3072" "target-cpu"="generic" }'
        self.assertIn(own, out)
        self.assertIn('target triple = "aarch64-unknown-linux-gnu"', out)
        self.assertNotIn("f80", out[0])

    def test_counts(self):
        """The steps on the counts of shared maps stay, in one order with all others."""
        rows = [
            "  %r7 = atomicrmw sub ptr %a0, i64 %a1 seq_cst, align 8",
            "  %r11 = load atomic i64, ptr %a0 seq_cst, align 8",
            "  %r33 = cmpxchg ptr %a0, i64 %r27, i64 %r28 seq_cst seq_cst, align 8",
        ]
        for row in rows:
            self.assertIn(row, retargeted(row))
            with self.subTest(row), self.assertRaises(SystemExit):
                retargeted(row.replace("seq_cst", "monotonic"))
            with self.subTest(row), self.assertRaises(SystemExit):
                retargeted(row.replace("i64", "i32"))
        barrier = '  call void asm sideeffect "", "~{memory}"()'
        self.assertIn(barrier, retargeted(barrier))
        with self.assertRaises(SystemExit):
            retargeted(barrier.replace('""', '"nop"'))

    def test_what_is_refused(self):
        """Code of one processor, other threads, exceptions, pointers to functions, and what nobody has looked at."""
        rows = [
            "  %x = call i32 @llvm.x86.sse42.crc32.32.8(i32 0, i8 0)",
            '  call void asm sideeffect "nop", ""()',
            "  %x = atomicrmw add ptr %p, i32 1 seq_cst",
            "  %x = load atomic i32, ptr %p seq_cst, align 4",
            "  %x = load volatile i32, ptr %p",
            "  %x = cmpxchg ptr %p, i32 0, i32 1 seq_cst seq_cst",
            "  fence seq_cst",
            "  %x = call i32 %p(i32 0)",
            "  %x = invoke i32 @g() to label %a unwind label %b",
            "  call void @g(ptr byval(i32) %p)",
            "  %x = va_arg ptr %p, i32",
            "  %x = fadd x86_fp80 %a, %b",
            "  %x = load i32, ptr addrspace(1) %p",
            "  %x = call ptr @llvm.frameaddress.p0(i32 0)",
        ]
        for row in rows:
            with self.subTest(row), self.assertRaises(SystemExit):
                retargeted(row)

    def test_what_is_refused_outside_of_functions(self):
        """Other targets, attributes and kinds of globals."""
        rows = ['attributes #0 = { nounwind "target-abi"="x" }', "attributes #0 = { naked }", "@x = thread_local global i32 0", "@x = external global i32", "@f = alias i32, ptr @g", 'module asm "nop"', "%t = type { i32 }"]
        for row in rows:
            with self.subTest(row), self.assertRaises(SystemExit):
                retargeted("  ret i32 0", more=[row])
        with self.assertRaises(SystemExit):
            list(retarget.retargeted(['target triple = "x86_64-pc-windows-msvc"']))


class Lower(unittest.TestCase):
    """lower.py."""

    def test_addresses_are_cut(self):
        """Where an instruction uses them, below what it stores."""
        out = lowered("    local.get 0", "    i64.load offset=8", "    local.get 0", "    i32.store8 align=1", "    memory.copy", "    memory.fill", "    memory.grow", "    memory.size)")
        self.assertIn("i32.wrap_i64\ni64.load offset=8", out)
        self.assertIn("local.set $lower_i32\ni32.wrap_i64\nlocal.get $lower_i32\ni32.store8 align=1", out)
        copy = "i32.wrap_i64 local.set $lower_length i32.wrap_i64 local.set $lower_value i32.wrap_i64 local.get $lower_value local.get $lower_length memory.copy"
        fill = "i32.wrap_i64 local.set $lower_length local.set $lower_value i32.wrap_i64 local.get $lower_value local.get $lower_length memory.fill"
        self.assertIn(f"{copy} {fill} i32.wrap_i64 memory.grow i64.extend_i32_s memory.size i64.extend_i32_u", " ".join(out.split("\n")))
        self.assertIn("(memory (;0;) 17 65280)", out)

    def test_exports_take_numbers_of_32_bits(self):
        """Pointers without a sign."""
        out = lowered("    local.get 0)")
        self.assertIn('(func (export "call") (param i32 i32 i32) (result i32)\n', out)
        self.assertIn("block block local.get 0 br_table 0 1 end\n    local.get 1 i64.extend_i32_u local.get 2 call 0 i32.wrap_i64 return end\n    unreachable)", out)

    def test_it_is_a_module(self):
        """wat2wasm reads it."""
        out = lowered("    local.get 0", "    i64.load offset=8", "    local.get 0", "    v128.load", "    drop)", memory="  (memory (;0;) i64 1 2)")
        with tempfile.NamedTemporaryFile("w", suffix=".wat") as file:
            file.write(out)
            file.flush()
            ran = subprocess.run(["wat2wasm", file.name, "-o", "/dev/null"], text=True, capture_output=True, check=False)
        self.assertEqual((ran.returncode, ran.stderr), (0, ""))

    def test_what_is_refused(self):
        """Other uses of memory, and what nobody has looked at."""
        rows = ["i64.atomic.load", "memory.init 0", "memory.atomic.notify", "table.get 0", "call_indirect (type 0)", "ref.func 0", "i32.load_new", "return_call 0", "v128.load7_lane 0", "try", "data.drop 0"]
        for row in rows:
            with self.subTest(row), self.assertRaises(SystemExit):
                lowered(f"    {row})")

    def test_what_is_refused_outside_of_functions(self):
        """Imports, tables, a memory that reaches 4 GiB or has no end."""
        rows = ['  (import "a" "b" (func))', "  (table (;0;) 1 1 funcref)", "  (elem (;0;) (i32.const 0) func 0)", "  (start 0)", "  (global (;0;) (mut i64) (global.get 0))", '  (export "g" (global 0))']
        for row in rows:
            with self.subTest(row), self.assertRaises(SystemExit):
                lowered("    local.get 0)", more=[row])
        for row in ["  (memory (;0;) i64 17 65281)", "  (memory (;0;) i64 17)", "  (memory (;0;) 17 65280)", "  (memory (;0;) i64 17 65280 shared)"]:
            with self.subTest(row), self.assertRaises(SystemExit):
                lowered("    local.get 0)", memory=row)


class DropTable(unittest.TestCase):
    """drop_table.py."""

    HEAD = b"\0asm\1\0\0\0"
    EMPTY = b"\x04\x05\x01\x70\x05\x01\x01"
    OTHER = b"\x0a\x02\x00\x00"

    def test_the_empty_table_goes(self):
        """And custom sections; all else stays."""
        module = self.HEAD + self.OTHER + self.EMPTY + b"\0\x03\x01ab"
        self.assertEqual(drop_table.without_table(module), self.HEAD + self.OTHER)

    def test_what_is_refused(self):
        """A table that is used."""
        for it in [b"\x09\x01\x00", b"\x04\x05\x01\x70\x05\x02\x02", b"\x04\x05\x01\x6f\x05\x01\x01", b"\x04\x09\x02\x70\x05\x01\x01\x70\x05\x01\x01"]:
            with self.subTest(it), self.assertRaises(SystemExit):
                drop_table.without_table(self.HEAD + it)
        with self.assertRaises(SystemExit):
            drop_table.without_table(b"\0asm\2\0\0\0")


if __name__ == "__main__":
    unittest.main()
