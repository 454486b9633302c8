#!/usr/bin/env python3
"""What retarget.py takes and refuses."""

import os
import sys
import unittest

sys.path.insert(0, os.path.dirname(os.path.abspath(__file__)))
from retarget import LAYOUT, TRIPLE, Unknown, retargeted  # noqa: E402

HEAD = f'source_filename = "rattle"\ntarget datalayout = "{LAYOUT}"\ntarget triple = "{TRIPLE}"\n'
BODY = 'define internal i64 @"a::b"(ptr noundef %a0, i64 %a1) #0 {\nstart:\n  %r0 = add i64 %a1, 1\n  ret i64 %r0\n}\n'
DECLARED = "declare { i64, i64 } @rattle_alloc(i64 noundef, i64 noundef) #1\ndeclare void @llvm.trap() #1\n"
ATTRIBUTES = (
    'attributes #0 = { nounwind "probe-stack"="inline-asm" "stack-probe-size"="3072" "target-cpu"="x86-64-v2" }\n'
    "attributes #1 = { nocallback nofree nounwind willreturn memory(argmem: readwrite) }\n"
)
NAMES = {"rattle_alloc"}

REFUSED = {
    "an intrinsic of x86": ("declare <2 x i64> @llvm.x86.pclmulqdq(<2 x i64>, <2 x i64>, i8)", "an intrinsic of x86"),
    "a function that isn't its host's": ("declare i32 @puts(ptr)", "declares puts"),
    "an intrinsic that isn't known": ("declare i64 @llvm.readcyclecounter()", "declares llvm.readcyclecounter"),
    "assembly": ('  call void asm sideeffect "pause", ""()', "has 'asm'"),
    "assembly of the module": ('module asm "nop"', "begins in an unknown way"),
    "a pointer made of a number": ("  %r1 = inttoptr i64 %r0 to ptr", "has 'inttoptr'"),
    "a number made of a pointer": ("  %r1 = ptrtoint ptr %r0 to i64", "has 'ptrtoint'"),
    "a vector of pointers": ("  %r1 = load <4 x ptr>, ptr %r0", "a vector of 4 ptr"),
    "a vector of any length": ("  %r1 = add <vscale x 4 x i32> %r0, %r0", "has 'vscale'"),
    "a vector of an odd length": ("  %r1 = add <3 x i32> %r0, %r0", "a vector of 3 i32"),
    "an instruction that isn't known": ("  %r1 = atomicrmw add ptr %r0, i64 1 seq_cst", "the instruction atomicrmw"),
    "a float of 80 bits": ("  %r1 = alloca x86_fp80", "has 'x86_fp80'"),
    "another space of addresses": ("@g = addrspace(1) global i8 0", "has 'addrspace'"),
    "a variable of a thread": ("@g = thread_local global i8 0", "has 'thread_local'"),
    "a calling convention": ("define x86_64_sysvcc void @f() {", "has 'x86_64_sysvcc'"),
    "a width that isn't known": ("  %r1 = add i7 %r0, 1", "an integer of 7 bits"),
    "an attribute that isn't known": ("attributes #2 = { naked }", "has the attribute naked"),
    "features of a processor": ('attributes #2 = { nounwind "target-features"="+avx2" }', "has the attribute"),
    "another processor": ('attributes #2 = { nounwind "target-cpu"="x86-64-v3" }', "has the attribute"),
    "another target": ('target triple = "aarch64-unknown-linux-gnu"', "names another target"),
}


class Retarget(unittest.TestCase):
    def test_only_the_names_of_the_target_change(self) -> None:
        text = retargeted(HEAD + BODY + DECLARED + ATTRIBUTES, NAMES)
        self.assertIn('target triple = "wasm64-unknown-unknown"\n', text)
        self.assertIn("attributes #0 = { nounwind }\n", text)
        self.assertIn(BODY + DECLARED, text)
        self.assertNotIn("x86", text)

    def test_vectors_and_switches(self) -> None:
        text = "  %r1 = add <32 x i16> %r0, %r0\n  switch i8 %r1, label %a [\n    i8 0, label %b\n  ]\n  ret void\n"
        self.assertIn(text, retargeted(HEAD + BODY + text, NAMES))

    def test_floats(self) -> None:
        text = "  %r1 = fmul <8 x float> %r0, %r0\n  %r2 = fpext float %r3 to double\n  ret void\n"
        text += "}\ndeclare float @llvm.sqrt.f32(float) #1\n"
        self.assertIn(text, retargeted(HEAD + BODY + text, NAMES))
        with self.assertRaisesRegex(Unknown, "declares llvm.fma.f32"):
            retargeted(HEAD + BODY + text.replace("sqrt", "fma"), NAMES)

    def test_what_only_keeps_an_order(self) -> None:
        text = '  call void asm sideeffect "", "~{memory}"()\n'
        self.assertIn(text, retargeted(HEAD + BODY + text, NAMES))
        with self.assertRaisesRegex(Unknown, "has 'asm'"):
            retargeted(HEAD + BODY + text.replace('""', '"nop"'), NAMES)

    def test_names_and_texts_may_be_anything(self) -> None:
        text = '@"x86::asm<4 x i32>" = constant [3 x i8] c"asm"\n'
        self.assertIn(text, retargeted(HEAD + text, NAMES))

    def test_what_is_not_known_is_refused(self) -> None:
        for what, (line, word) in REFUSED.items():
            with self.subTest(what), self.assertRaisesRegex(Unknown, word):
                retargeted(HEAD + BODY + line + "\n", NAMES)

    def test_a_module_of_no_target_is_refused(self) -> None:
        with self.assertRaisesRegex(Unknown, "no target"):
            retargeted(BODY, NAMES)


if __name__ == "__main__":
    unittest.main()
