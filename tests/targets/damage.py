"""Damaged modules, each of which targets/portable.py must refuse: one for every rule that it has."""
import re

import portable

# What is wrong; the text that is changed, where it stands first; the text in its place.
DAMAGES = [
    ("addresses by the size of a number", r"getelementptr i8, ptr (%\w+), i64 8", r"getelementptr i64, ptr \1, i64 1"),
    ("addresses by the size of a pointer", r"getelementptr i8, ptr (%\w+), i64 8", r"getelementptr ptr, ptr \1, i64 1"),
    ("an address in an array", r"getelementptr i8, ptr (%\w+), i64 8", r"getelementptr [2 x i64], ptr \1, i64 0, i64 1"),
    ("an index of 32 bits", r"getelementptr i8, ptr (%\w+), i64 8", r"getelementptr i8, ptr \1, i32 8"),
    ("a pointer made a number", r"(%\w+) = load i64, ptr (%\w+), align 8, !noundef !1", r"\1 = ptrtoint ptr \2 to i64"),
    ("a number made a pointer", r"(%\w+) = load ptr, ptr (%\w+), align 8, !noundef !1", r"\1 = inttoptr i64 8 to ptr"),
    ("pointers compared", r"icmp ult i64 (%\w+), (%\w+)", r"icmp ult ptr \1, \2"),
    ("a load without alignment", r"load i64, ptr (%\w+), align 8, !noundef !1", r"load i64, ptr \1, !noundef !1"),
    ("a store without alignment", r"store i64 (%\w+), ptr (%\w+), align 8", r"store i64 \1, ptr \2"),
    ("more alignment than the type has", r"load i16, ptr (%\w+), align 2", r"load i16, ptr \1, align 4"),
    ("a load of 16 bytes", r"load i64, ptr (%\w+), align 8", r"load i128, ptr \1, align 8"),
    ("a load of a vector", r"load i64, ptr (%\w+), align 8", r"load <2 x i32>, ptr \1, align 8"),
    ("a load in one step for threads", r"load i64, ptr (%\w+), align 8", r"load atomic i64, ptr \1 monotonic, align 8"),
    ("a number read from a pointer's variable", r"load ptr, ptr (%\w+), align 8", r"load i64, ptr \1, align 8"),
    ("a number written where a pointer stands", r"(store ptr %\w+, ptr (%\w+), align 8)", r"\1\n  store i64 0, ptr \2, align 8"),
    ("half of a pointer read", r"(store ptr %\w+, ptr (%\w+), align 8)", r"\1\n  %half = load i32, ptr \2, align 4"),
    ("a pointer's variable handed on", r"(( +)(%\w+) = alloca ptr, align 8)", r"\1\n\2call void @llvm.memmove.p0.p0.i64(ptr \3, ptr \3, i64 8, i1 false)"),
    ("an address within a pointer's variable", r"(( +)(%\w+) = alloca ptr, align 8)", r"\1\n\2%within = getelementptr i8, ptr \3, i64 4"),
    ("a variable of a type whose size differs", r"alloca \[16 x i8\], align 8", r"alloca { ptr, i64 }, align 8"),
    ("a variable array of pointers", r"alloca \[16 x i8\], align 8", r"alloca [2 x ptr], align 8"),
    ("an intrinsic that is not known", r"call i64 @llvm\.cttz\.i64\(i64 (%\w+), i1 false\)", r"call i64 @llvm.ctpop.i64(i64 \1)"),
    ("a known intrinsic of another width", r"call void @llvm\.memmove\.p0\.p0\.i64\(", r"call void @llvm.memmove.p0.p0.i32("),
    ("a known intrinsic with another width's length", r"(call void @llvm\.memset\.p0\.i64\(ptr [^,]*, i8 [^,]*, )i64", r"\1i32"),
    ("an intrinsic declared", r"^declare void @llvm\.trap\(\)", "declare void @llvm.x86.sse2.pause()"),
    ("a C function that is not known", r"^declare void @llvm\.trap\(\)", "declare ptr @malloc(i64 noundef)"),
    ("a call through a pointer", r'call i64 @"[^"]*"\(', "call i64 %pointer("),
    ("a call of what is not there", r'call i64 @"[^"]*"\(', 'call i64 @"nowhere"('),
    ("assembly in a function", r"call void @llvm\.trap\(\)", 'call void asm sideeffect "ud2", ""()'),
    ("assembly beside the functions", r"\A", 'module asm "nop"\n'),
    ("the layout of x86-64", r"\A", 'target datalayout = "e-m:e-p270:32:32-i64:64"\n'),
    ("the triple of x86-64", r"\A", 'target triple = "x86_64-unknown-linux-gnu"\n'),
    ("a processor", r"attributes #0 = \{ nounwind", 'attributes #0 = { nounwind "target-cpu"="x86-64"'),
    ("a processor's feature", r"attributes #0 = \{ nounwind", 'attributes #0 = { nounwind "target-features"="+sse2"'),
    ("stack probes", r"attributes #0 = \{ nounwind", 'attributes #0 = { nounwind "probe-stack"="inline-asm"'),
    ("data that could be written", r"\A", "@counter = internal global i64 0, align 8\n"),
    ("another calling convention", r"^define internal ", "define internal fastcc "),
    ("a parameter by its size", r"^(define internal [^(]*\()ptr noundef", r"\1ptr noundef byval([16 x i8])"),
    ("a number with a sign, divided", r"udiv i64", "sdiv i64"),
    ("a floating-point number", r"= add (?:nuw )?(?:nsw )?i64", "= fadd double"),
    ("a pointer behind another value", r"load \{ i8, i8 \}, ptr (%\w+), align 1", r"load { i8, ptr }, ptr \1, align 8"),
    ("two values of more alignment than they have", r"load \{ i8, i8 \}, ptr (%\w+), align 1", r"load { i8, i8 }, ptr \1, align 4"),
    ("a pointer compared with another", r"icmp eq ptr (%\w+), null", r"icmp eq ptr \1, \1"),
    ("it ends within a function", r"^\}\n[^\0]*", ""),
    ("no function", r"[^\0]+", ""),
]


def refused(text):
    try:
        portable.check(text)
    except portable.NotPortable:
        return True
    return False


def main(module, made_by_kit):
    """Tries every damage on a module; `made_by_kit` is the same before x86-64 was taken out of it. Gives a line, or fails."""
    wrong = [] if not refused(module) else ["the module itself is refused"]
    wrong += [] if refused(made_by_kit) else ["the kit's module, with x86-64 in it, is not refused"]
    for what, old, new in DAMAGES:
        damaged, count = re.subn(old, new, module, count=1, flags=re.M)
        if count != 1 or damaged == module:
            wrong.append(f"{what}: there is nothing to damage")
        elif not refused(damaged):
            wrong.append(f"{what}: not refused")
    if wrong:
        raise SystemExit("\n".join(wrong))
    return f"{len(DAMAGES) + 1} damaged modules refused"
