#!/usr/bin/env python3
"""Makes of an LLVM module for x86-64, as text, one for WebAssembly with pointers of 64 bits.

usage: retarget.py MODULE.ll OUT.ll

Both processors have pointers of 64 bits and the low byte first, so numbers and structs lie alike. What the
module says of x86 is taken out: its target, its processor's features, and one instruction, pshufb, which is
written out in LLVM's own words. The module may call nothing of the system but the three calls of the heap.
Whatever else there were, it refuses."""

import re
import sys

LAYOUT = "e-m:e-p:64:64-p10:8:8-p20:8:8-i64:64-i128:128-n32:64-S128"
TARGET = "wasm64-unknown-unknown"
HEAP = {"rattle_alloc", "rattle_realloc", "rattle_dealloc"}
PSHUFB = "@llvm.x86.ssse3.pshuf.b.128"
# What the backend says of a function for x86, and for its own checks of the stack.
OF_X86 = r' ?"(probe-stack|stack-probe-size|target-cpu|target-features|frame-pointer)"="[^"]*"'


def pshufb():
    """The instruction: byte K is the one that index K's low four bits name, or 0 where its highest bit is set."""
    lines = ["define internal <16 x i8> @pshufb(<16 x i8> %bytes, <16 x i8> %indices) nounwind {"]
    before = "poison"
    for k in range(16):
        lines += [
            f"  %index{k} = extractelement <16 x i8> %indices, i64 {k}",
            f"  %low{k} = and i8 %index{k}, 15",
            f"  %place{k} = zext i8 %low{k} to i64",
            f"  %byte{k} = extractelement <16 x i8> %bytes, i64 %place{k}",
            f"  %none{k} = icmp slt i8 %index{k}, 0",
            f"  %kept{k} = select i1 %none{k}, i8 0, i8 %byte{k}",
            f"  %done{k} = insertelement <16 x i8> {before}, i8 %kept{k}, i64 {k}",
        ]
        before = f"%done{k}"
    return "\n".join([*lines, f"  ret <16 x i8> {before}", "}"])


def retargeted(text):
    for word, value in (("datalayout", LAYOUT), ("triple", TARGET)):
        text, count = re.subn(rf'(?m)^target {word} = ".*"$', f'target {word} = "{value}"', text)
        if count != 1:
            sys.exit(f"retarget: {count} lines say the {word}")
    text = re.sub(OF_X86, "", text)
    # A group of attributes that is empty now can't be read.
    text = re.sub(r"(?m)^(attributes #\d+ = \{) *\}", r"\1 nounwind }", text)
    text = re.sub(rf"(?m)^declare <16 x i8> {re.escape(PSHUFB)}\(.*$", lambda _: pshufb(), text)
    return text.replace(PSHUFB, "@pshufb")


def refuse_others(text):
    of_x86 = set(re.findall(r"@llvm\.x86[\w.]*", text)) | set(re.findall(r"\basm\b.*", text))
    if of_x86:
        sys.exit(f"retarget: this is of x86: {sorted(of_x86)}")
    called = set(re.findall(r"(?m)^declare [^@\n]*@([A-Za-z_]\w*)\(", text)) - HEAP
    if called:
        sys.exit(f"retarget: the module calls {sorted(called)}")


def main(source, target):
    with open(source, encoding="utf-8") as it:
        text = retargeted(it.read())
    refuse_others(text)
    with open(target, "w", encoding="utf-8") as it:
        it.write(text)


if __name__ == "__main__":
    main(*sys.argv[1:])
