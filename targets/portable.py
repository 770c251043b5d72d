"""Whether a module means the same on every processor: portable.py FILE ...

The kit compiles for x86-64 alone, but the module that it compiles is made of few kinds of lines. Every line must be one of them, so that what
a later kit lowers otherwise is refused:

- Addresses are in bytes (`getelementptr i8`), and no number is made a pointer or a pointer a number.
- Numbers have 1, 8, 16, 32 or 64 bits. Every load and store says its alignment, and none asks for more than its type has.
- A pointer has eight bytes in memory, of which a processor with shorter ones uses the first. So a variable that is one pointer is read and
  written as a pointer alone, and no number is read or written where a pointer stands.
- Of two values together the second stands behind the first, as far on as its own size asks; the first may be a pointer. Only 0 is a pointer's null.
- Calls go to a function by its name: one of the module, the four intrinsics below, or those that a program has of its surroundings.
- Nothing of x86-64 is left: no layout of data, no triple, no processor, no feature, no assembly."""
import pathlib
import re
import sys

ALIGNMENT = {"i8": 1, "i16": 2, "i32": 4, "i64": 8, "ptr": 8}
INTRINSICS = {
    "llvm.memmove.p0.p0.i64": "void (ptr, ptr, i64, i1)",
    "llvm.memset.p0.i64": "void (ptr, i8, i64, i1)",
    "llvm.cttz.i64": "i64 (i64, i1)",
    "llvm.trap": "void ()",
}
# What a program is given by the machine that it runs on. A library is given nothing.
SURROUNDINGS = {
    "read": "i64 (i32, ptr, i64)",
    "write": "i64 (i32, ptr, i64)",
    "close": "i32 (i32)",
    "open": "i32 (ptr, i32, ...)",
    "rattle_errno": "i32 ()",
    "rattle_set_errno": "void (i32)",
}

VARIABLE = r'%(?:"[^"]*"|[\w.]+)'
TEXT = r"@static\.\d+"  # bytes that nothing writes
PAIR = r"\{ (?:ptr|i1|i8|i16|i32|i64), (?:ptr|i1|i8|i16|i32|i64) \}"
FUNCTION = r'@(?:"[^"]*"|[\w.]+)'
NUMBER = r"(?:i1|i8|i16|i32|i64)"
TYPE = rf"(?:{NUMBER}|ptr)"
VALUE = rf"(?:{VARIABLE}|{TEXT}|-?\d+|true|false)"
ARGUMENTS = rf"(?:{TYPE} (?:align \d+ )?{VALUE}(?:, )?)*"

MEMORY = re.compile(rf"(?:(?P<to>{VARIABLE}) = load (?P<loaded>{TYPE})|store (?P<stored>{TYPE}) (?P<value>{VALUE})), ptr (?P<at>{VARIABLE}), align (?P<align>\d+)(?:, !\w+ !\d+)*")
ADDRESS = re.compile(rf"(?P<to>{VARIABLE}) = getelementptr (?:inbounds nuw )?i8, ptr (?P<base>{VARIABLE}), i64 (?P<offset>{VALUE})")
PAIR_READ = re.compile(rf"{VARIABLE} = load \{{ (?P<first>ptr|i8|i16|i32|i64), (?P<second>i8|i16|i32|i64) \}}, ptr (?P<at>{VARIABLE}), align (?P<align>\d+)")
CALL = re.compile(rf"(?:{VARIABLE} = )?call (?P<result>{TYPE}|{PAIR}|void)(?: \(ptr, i32, \.\.\.\))? (?P<name>{FUNCTION})\((?P<arguments>{ARGUMENTS})\)")
SLOT = re.compile(rf"(?P<to>{VARIABLE}) = alloca (?P<type>{TYPE}|\[\d+ x i8\]), align [1248]")
OTHERS = [re.compile(shape) for shape in (
    rf"{VARIABLE} = (?:add|sub|mul)(?: nuw)? {NUMBER} {VALUE}, {VALUE}",
    rf"{VARIABLE} = (?:udiv|urem|and|or|xor|shl|lshr) {NUMBER} {VALUE}, {VALUE}",
    rf"{VARIABLE} = icmp (?:eq|ne|ult|ule|slt|sle) {NUMBER} {VALUE}, {VALUE}",
    rf"{VARIABLE} = icmp eq ptr {VARIABLE}, null",
    rf"{VARIABLE} = extractvalue {PAIR} {VARIABLE}, [01]",
    rf"{VARIABLE} = insertvalue {PAIR} (?:poison|{VARIABLE}), {TYPE} {VARIABLE}, [01]",
    rf"{VARIABLE} = (?:zext|trunc(?: nuw)?) {NUMBER} {VALUE} to {NUMBER}",
    rf"br label {VARIABLE}|br i1 {VALUE}, label {VARIABLE}, label {VARIABLE}",
    rf"switch (?:i8|i32|i64) {VALUE}, label {VARIABLE} \[|  (?:i8|i32|i64) \d+, label {VARIABLE}|\]",
    rf"ret void|ret {TYPE} {VALUE}|ret {PAIR} {VARIABLE}|unreachable",
)]

DEFINITION = re.compile(rf"define (?:internal )?(?:noundef )?(?:zeroext )?(?P<result>{TYPE}|{PAIR}|void) (?P<name>{FUNCTION})\((?:{TYPE} (?:noundef )?(?:zeroext )?{VARIABLE}(?:, )?)*\) #\d+ \{{")
DECLARATION = re.compile(rf"declare (?:noundef )?(?P<result>{TYPE}|{PAIR}|void) (?P<name>{FUNCTION})\((?P<parameters>[^)]*(?:\(none\)[^)]*)*)\) #\d+")
ATTRIBUTE = r"(?:alwaysinline|noinline|nounwind|nobuiltin|nocallback|nofree|nosync|noreturn|willreturn|speculatable|cold|memory\([\w: ,]+\))"
OUTSIDE = [re.compile(shape) for shape in (
    r"; Function Attrs: .*",
    rf"attributes #\d+ = \{{(?: {ATTRIBUTE})+ \}}",
    rf'{TEXT} = private unnamed_addr constant \[\d+ x i8\] (?:c"[^"]*"|zeroinitializer), align 1',
    r'!llvm\.ident = !\{!\d+\}|!\d+ = !\{!"rattle logic=[0-9a-f]+"\}|!\d+ = !\{\}|!\d+ = !\{i8 0, i8 \d+\}',
)]
LABEL = re.compile(r'(?:"[^"]*"|[\w.]+):(?: +; (?:preds = .*|No predecessors!))?')
ARGUMENT = re.compile(rf"{TYPE} (?:align \d+ )?({VALUE})")


class NotPortable(Exception):
    """A line that is none of those known, with its reason."""


def without_machine(text):
    """The module without what the kit says of x86-64: the layout of data, the triple, the processor, the stack probes; and without its file's name."""
    text = re.sub(r"^(?:target (?:datalayout|triple) = .*|source_filename = .*|; ModuleID = .*)\n", "", text, flags=re.M)
    # A program starts by looking at its processor, which must have what x86-64-v2 has, and at how Linux takes a closed pipe.
    text = re.sub(r"^(define i32 @main\(\) #\d+ \{\n)start:\n  %r0 = call i64 @__sysv_signal\(i32 13, i64 1\)\n.*?(  (%r\d+) = call i32 @\"[\w:]+\+start\"\(\)\n  ret i32 \3\n).*?^\}\n",
                  r"\1start:\n\2}\n", text, flags=re.M | re.S)
    text = re.sub(r"^(?:; Function Attrs: .*\n)?declare .* @(?:__sysv_signal|__x86_get_cpuid_feature_leaf|__write)\(.*\n", "", text, flags=re.M)
    # A pointer behind another value stands eight bytes on, also where a processor has shorter ones: it is read by itself.
    text = re.sub(r"^  (%[\w.]+) = load \{ (i8|i16|i32|i64|ptr), ptr \}, ptr (%[\w.]+), align 8$",
                  r"  \1.first = load \2, ptr \3, align 1\n  \1.place = getelementptr i8, ptr \3, i64 8\n  \1.second = load ptr, ptr \1.place, align 8\n"
                  r"  \1.half = insertvalue { \2, ptr } poison, \2 \1.first, 0\n  \1 = insertvalue { \2, ptr } \1.half, ptr \1.second, 1", text, flags=re.M)
    # So has a variable that is one pointer and is cleared as eight bytes.
    def cleared(function):
        for name in re.findall(r"@llvm\.memset\.p0\.i64\(ptr (%[\w.]+), i8 0, i64 8, ", function[0]):
            function = [re.sub(rf"^(  {re.escape(name)} = alloca )ptr, align 8$", r"\1[8 x i8], align 8", function[0], flags=re.M)]
        return function[0]
    text = re.sub(r"^define .*?^\}$", cleared, text, flags=re.M | re.S)
    return re.sub(r' ?"(?:probe-stack"="inline-asm|stack-probe-size"="\d+|target-cpu"="x86-64(?:-v2)?)"', "", text)


def bits(kind):
    return 64 if kind == "ptr" else int(kind[1:])


class Function:
    """What is known of a function's pointers while its lines are read: for each where it leads to, as a variable and bytes from there."""

    def __init__(self):
        self.places, self.pointer_slots, self.seen = {}, set(), {}

    def place(self, pointer):
        return self.places.get(pointer, (pointer, 0))

    def slot(self, found):
        if found["type"] == "ptr":
            self.pointer_slots.add(found["to"])

    def address(self, found):
        if found["base"] in self.pointer_slots:
            raise NotPortable("an address within a variable that is one pointer")
        base, offset = self.place(found["base"])
        if offset is not None and re.fullmatch(r"\d+", found["offset"]):
            self.places[found["to"]] = base, offset + int(found["offset"])
        else:
            self.places[found["to"]] = found["to"], 0  # another place, of which no more is known

    def memory(self, found):
        kind = found["loaded"] or found["stored"]
        if kind == "i1" or not 1 <= int(found["align"]) <= ALIGNMENT[kind]:
            raise NotPortable(f"an alignment of {found['align']} for {kind}")
        if found["at"] in self.pointer_slots and kind != "ptr":
            raise NotPortable("a variable that is one pointer, as a number")
        if found["value"] in self.pointer_slots:
            raise NotPortable("the address of a variable that is one pointer, stored")
        base, offset = self.place(found["at"])
        at = self.seen.setdefault(base, {})
        for byte in range(offset, offset + bits(kind) // 8):
            if at.setdefault(byte, kind == "ptr") != (kind == "ptr"):
                raise NotPortable("a number where a pointer stands")

    def pair(self, found):
        """Two values at once, the second as far on as its own size asks."""
        if found["at"] in self.pointer_slots:
            raise NotPortable("a variable that is one pointer, as two values")
        size = bits(found["second"]) // 8
        further = max(bits(found["first"]) // 8, size)
        if int(found["align"]) > further:
            raise NotPortable(f"an alignment of {found['align']} for {found['first']} and {found['second']}")
        base, offset = self.place(found["at"])
        at = self.seen.setdefault(base, {})
        for start, kind in ((offset, found["first"]), (offset + further, found["second"])):
            for byte in range(start, start + bits(kind) // 8):
                if at.setdefault(byte, kind == "ptr") != (kind == "ptr"):
                    raise NotPortable("a number where a pointer stands")

    def call(self, found, known):
        name = found["name"][1:]
        if name.startswith("llvm.") and name not in INTRINSICS:
            raise NotPortable(f"the intrinsic {name} is not known")
        if found["name"] not in known:
            raise NotPortable(f"a call of {name}, which is not there")
        for value in ARGUMENT.findall(found["arguments"]):
            if value in self.pointer_slots:
                raise NotPortable("a variable that is one pointer, handed on")
        signature = {**INTRINSICS, **SURROUNDINGS}.get(name)
        given = ", ".join(re.findall(rf"(?:^|, )({TYPE})", found["arguments"]))
        if signature and name == "open":
            given = re.sub("^ptr, i32(?:, i32)?$", "ptr, i32, ...", given)
        if signature and signature != f"{found['result']} ({given})":
            raise NotPortable(f"{name} is {signature}")


def check_line(line, function, known):
    """One line within a function."""
    for shape, take in ((SLOT, function.slot), (ADDRESS, function.address), (MEMORY, function.memory), (PAIR_READ, function.pair)):
        found = shape.fullmatch(line)
        if found:
            return take(found)
    found = CALL.fullmatch(line)
    if found:
        return function.call(found, known)
    if not any(shape.fullmatch(line) for shape in OTHERS):
        raise NotPortable("a line of no known kind")


def check(text):
    """Refuses a module that is not what its machine code for other processors rests on. Gives how many lines of functions it has."""
    lines = text.splitlines()
    known = {found["name"] for found in map(DEFINITION.fullmatch, lines) if found} | {f"@{name}" for name in (*INTRINSICS, *SURROUNDINGS)}
    function, count = None, 0
    for number, line in enumerate(lines, 1):
        try:
            found = DECLARATION.fullmatch(line)
            if function and line == "}":
                function = None
            elif function and line.startswith("  "):
                check_line(line[2:], function, known)
                count += 1
            elif function:
                if line and not LABEL.fullmatch(line):
                    raise NotPortable("a line of no known kind")
            elif DEFINITION.fullmatch(line):
                function = Function()
            elif found:
                signature = f"{found['result']} ({', '.join(re.findall(rf'(?:^|, )({TYPE}|[.]{{3}})', found['parameters']))})"
                name = found["name"][1:]
                if {**INTRINSICS, **SURROUNDINGS}.get(name) != signature:
                    raise NotPortable(f"{name} is not known as {signature}")
            elif line and not any(shape.fullmatch(line) for shape in OUTSIDE):
                raise NotPortable("a line of no known kind")
        except NotPortable as wrong:
            raise NotPortable(f"the module cannot be compiled for other processors (docs/TARGETS.md): line {number}, {wrong}: {line.strip()[:160]}") from None
    if function or not count:
        raise NotPortable("the module cannot be compiled for other processors (docs/TARGETS.md): " + ("it ends within a function" if function else "it has no function"))
    return count


if __name__ == "__main__":
    for file in sys.argv[1:]:
        print(f"{file}: {check(pathlib.Path(file).read_text())} lines of known kinds")
