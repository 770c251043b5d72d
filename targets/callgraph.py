"""How much stack a call takes at most, from object code: the compiler's own sizes of frames (.stack_sizes) over the calls in the machine code.

It refuses code for which that would not be a bound: recursion (but where a depth is given), a call through a pointer, a function whose
address is taken, a function without a frame size (the compiler gives none to a frame that grows as it runs)."""
import bisect
import collections
import re
import struct
import subprocess
import tempfile

X86_64, AARCH64, ARM, RISCV = 62, 183, 40, 243  # as ELF numbers them
RETURN_ADDRESS = collections.defaultdict(int, {X86_64: 8})  # pushed by the call itself, in no frame
METADATA = (".eh_frame", ".ARM.exidx", ".ARM.extab")
VECTORS = ".vectors"  # a firmware's: the functions whose addresses the processor takes, and calls itself
# Relocations that are no reference: what the linker may shorten, a word's alignment, the lower half of an address whose upper half has one.
NO_REFERENCE = {RISCV: {24, 25, 43, 51}, ARM: {0, 40}}


class Unbounded(Exception):
    """Why there is no bound."""


Section = collections.namedtuple("Section", "name kind flags at size link info data")
Symbol = collections.namedtuple("Symbol", "name value size kind section")
# Kind: call, jump, pointer call, other; lowers: the bytes by which it lowers the stack pointer; below: how far below it it reaches.
Instruction = collections.namedtuple("Instruction", "at size kind target lowers below", defaults=(0, 0))


class Sections:
    """The sections of an ELF file."""

    def __init__(self, data, name="it"):
        if data[:4] != b"\x7fELF" or data[5] != 1:
            raise Unbounded(f"{name} is no little-endian ELF file")
        self.data, self.name, self.wide = data, name, data[4] == 2
        self.machine = struct.unpack_from("<H", data, 18)[0]
        start, = struct.unpack_from("<Q" if self.wide else "<I", data, 40 if self.wide else 32)
        size, count, names = struct.unpack_from("<HHH", data, 58 if self.wide else 46)
        rows = [struct.unpack_from("<IIQQQQIIQQ" if self.wide else "<IIIIIIIIII", data, start + size * i) for i in range(count)]
        table = data[rows[names][4]:]
        self.sections = [Section(text(table, row[0]), row[1], row[2], row[4], row[5], row[6], row[7], data[row[4]:row[4] + row[5]] if row[1] != 8 else b"") for row in rows]


class Object(Sections):
    """An object file: its functions, their frames, code and references."""

    def __init__(self, data, name):
        super().__init__(data, name)
        self.read_symbols()
        self.read_references()
        self.read_frames()

    def read_symbols(self):
        self.symbols, form = [], "<IBBHQQ" if self.wide else "<IIIBBH"
        for section in self.sections:
            if section.kind == 2:
                names = self.sections[section.link].data
                for row in struct.iter_unpack(form, section.data):
                    name, kind, where, value, size = (row[0], row[1], row[3], row[4], row[5]) if self.wide else (row[0], row[3], row[5], row[1], row[2])
                    self.symbols.append(Symbol(text(names, name), value, size, kind & 15, where))
        # A function is where its symbol points to; a Thumb symbol is odd.
        self.functions = {}
        for symbol in self.symbols:
            if symbol.kind == 2 and symbol.section:
                at = (symbol.section, symbol.value & ~1 if self.machine == ARM else symbol.value)
                self.functions.setdefault(at, []).append(symbol)

    def read_references(self):
        """For each section its references: offset, kind, the symbol, what is added."""
        self.references = collections.defaultdict(list)
        for section in self.sections:
            if section.kind in (4, 9):
                target = self.sections[section.info]
                form = {(4, True): "<QQq", (4, False): "<IIi", (9, True): "<QQ", (9, False): "<II"}[section.kind, self.wide]
                for row in struct.iter_unpack(form, section.data):
                    symbol, kind = (row[1] >> 32, row[1] & 0xffffffff) if self.wide else (row[1] >> 8, row[1] & 0xff)
                    added = row[2] if section.kind == 4 else struct.unpack_from("<i", target.data + bytes(4), row[0])[0]
                    self.references[section.info].append((row[0], kind, self.symbols[symbol], added))
        for rows in self.references.values():
            rows.sort(key=lambda row: row[0])

    def read_frames(self):
        """The sizes of frames by function, as the compiler wrote them down: an address and a number in groups of seven bits."""
        self.frames, width = {}, 8 if self.wide else 4
        for index, section in enumerate(self.sections):
            if section.name == ".stack_sizes":
                references = {at: (symbol, added) for at, _, symbol, added in self.references[index]}
                at = 0
                while at < section.size:
                    symbol, added = references[at]
                    place = (symbol.section, (symbol.value + added) & (~1 if self.machine == ARM else ~0))
                    at, shift, size = at + width, 0, 0
                    while True:
                        size, shift, at = size | (section.data[at] & 127) << shift, shift + 7, at + 1
                        if not section.data[at - 1] & 128:
                            break
                    self.frames[place] = size

    def stretches(self, section):
        """The stretches of a section that are code, where there are marks for code and data (`$t`, `$x`, `$d`)."""
        marks = sorted((symbol.value, symbol.name[1]) for symbol in self.symbols if symbol.section == section and re.match(r"\$[atxd](\.|$)", symbol.name))
        size = self.sections[section].size
        if not marks:
            return [(0, size)]
        ends = [value for value, _ in marks[1:]] + [size]
        return [(value, end) for (value, kind), end in zip(marks, ends) if kind != "d"]


def text(table, at):
    return table[at:table.index(b"\0", at)].decode()


def objects_in(path):
    """The objects of a file: one, or those of an archive."""
    data = path.read_bytes()
    if not data.startswith(b"!<arch>\n"):
        return [Object(data, path.name)]
    found, at = [], 8
    while at < len(data):
        name, size = data[at:at + 16].decode().strip(), int(data[at + 48:at + 58])
        if name not in ("/", "//", "/SYM64/"):
            found.append(Object(data[at + 60:at + 60 + size], f"{path.name}({name.rstrip('/')})"))
        at += 60 + size + size % 2
    return found


# Machine code: calls, jumps, and what lowers the stack pointer by a number that it names. A frame that is too large for that is made with
# a register; it is in the compiler's size.

def signed(value, bits):
    return value - (1 << bits) if value >> (bits - 1) else value


def ones(value):
    return bin(value).count("1")


def thumb_number(bits):
    """The twelve bits of a number in a Thumb instruction of 32 bits."""
    if bits >> 10:
        return (128 | bits & 127) << (32 - (bits >> 7))
    return [1, 0x10001, 0x1000100, 0x1010101][bits >> 8] * (bits & 255)


def thumb(code, at, end):
    while at < end:
        first = struct.unpack_from("<H", code, at)[0]
        if first >> 11 < 0b11101:
            kind, target, lowers = "other", None, 0
            if first & 0xff80 == 0x4780:
                kind = "pointer call"
            elif first & 0xf800 == 0xe000:
                kind, target = "jump", at + 4 + signed(first & 0x7ff, 11) * 2
            elif first & 0xf000 == 0xd000 and first & 0xe00 != 0xe00:
                kind, target = "jump", at + 4 + signed(first & 0xff, 8) * 2
            elif first & 0xfe00 == 0xb400:
                lowers = 4 * ones(first & 0x1ff)
            elif first & 0xff80 == 0xb080:
                lowers = 4 * (first & 127)
            yield Instruction(at, 2, kind, target, lowers)
            at += 2
            continue
        second = struct.unpack_from("<H", code, at + 2)[0]
        kind, target, lowers = "other", None, 0
        if first & 0xf800 == 0xf000 and second & 0x8000:
            sign, i1, i2 = first >> 10 & 1, second >> 13 & 1, second >> 11 & 1
            far = signed(sign << 24 | (1 - (i1 ^ sign)) << 23 | (1 - (i2 ^ sign)) << 22 | (first & 0x3ff) << 12 | (second & 0x7ff) << 1, 25)
            if second & 0xd000 == 0xd000:
                kind, target = "call", at + 4 + far
            elif second & 0xd000 == 0x9000:
                kind, target = "jump", at + 4 + far
            elif second & 0xd000 == 0x8000 and first & 0x380 != 0x380:
                near = signed(sign << 20 | i2 << 19 | i1 << 18 | (first & 0x3f) << 12 | (second & 0x7ff) << 1, 21)
                kind, target = "jump", at + 4 + near
        elif first == 0xe92d:
            lowers = 4 * ones(second)
        elif first == 0xf84d and second & 0xf00 == 0xd00:
            lowers = second & 255
        elif first & 0xfbef in (0xf1ad, 0xf2ad) and second & 0x8f00 == 0xd00:
            number = (first >> 10 & 1) << 11 | (second >> 12 & 7) << 8 | second & 255
            lowers = number if first & 0x200 else thumb_number(number)
        yield Instruction(at, 4, kind, target, lowers)
        at += 4


def riscv(code, at, end):
    while at < end:
        first = struct.unpack_from("<H", code, at)[0]
        if first & 3 != 3:
            kind, target, lowers, quarter, group = "other", None, 0, first & 3, first >> 13
            if quarter == 1 and group in (1, 5):
                bits = first >> 2
                far = signed((bits >> 10 & 1) << 11 | (bits >> 6 & 1) << 10 | (bits >> 7 & 3) << 8 | (bits >> 4 & 1) << 7 | (bits >> 5 & 1) << 6 | (bits & 1) << 5 | (bits >> 9 & 1) << 4 | (bits >> 1 & 7) << 1, 12)
                kind, target = ("call" if group == 1 else "jump"), at + far
            elif quarter == 1 and group in (6, 7):
                kind, target = "jump", None  # a branch: within its function, or it has a relocation
            elif first & 0xf07f == 0x9002 and first >> 7 & 31:
                kind = "pointer call"
            elif first & 0xef83 == 0x6101:
                lowers = -signed((first >> 12 & 1) << 9 | (first >> 3 & 3) << 7 | (first >> 5 & 1) << 6 | (first >> 2 & 1) << 5 | (first >> 6 & 1) << 4, 10)
            elif first & 0xef83 == 0x0101:
                lowers = -signed((first >> 12 & 1) << 5 | first >> 2 & 31, 6)
            yield Instruction(at, 2, kind, target, max(lowers, 0))
            at += 2
            continue
        word = struct.unpack_from("<I", code, at)[0]
        kind, target, lowers, low, to, source = "other", None, 0, word & 127, word >> 7 & 31, word >> 15 & 31
        if low == 0x6f:
            far = signed(word >> 31 << 20 | (word >> 12 & 255) << 12 | (word >> 20 & 1) << 11 | (word >> 21 & 1023) << 1, 21)
            kind, target = ("jump" if to == 0 else "call"), at + far
        elif low == 0x63:
            kind = "jump"
        elif low == 0x67 and to != 0:
            kind = "pointer call"  # of `auipc` and `jalr` with one relocation see Graph.edges
        elif word & 0xfffff == 0x10113:
            lowers = -signed(word >> 20, 12)
        yield Instruction(at, 4, kind, target, max(lowers, 0))
        at += 4


def aarch64(code, at, end):
    for at in range(at, end, 4):
        word = struct.unpack_from("<I", code, at)[0]
        kind, target, lowers = "other", None, 0
        if word & 0x7c000000 == 0x14000000:
            kind, target = ("call" if word >> 31 else "jump"), at + signed(word & 0x3ffffff, 26) * 4
        elif word & 0xff000010 == 0x54000000 or word & 0x7e000000 == 0x34000000:
            kind, target = "jump", at + signed(word >> 5 & 0x7ffff, 19) * 4
        elif word & 0x7e000000 == 0x36000000:
            kind, target = "jump", at + signed(word >> 5 & 0x3fff, 14) * 4
        elif word & 0xfffffc1f == 0xd63f0000:
            kind = "pointer call"
        elif word & 0xff8003ff == 0xd10003ff:
            lowers = (word >> 10 & 0xfff) << (12 if word >> 22 & 1 else 0)
        elif word & 0x3bc003e0 == 0x298003e0:  # a pair is stored below the stack pointer, which goes there
            lowers = -signed(word >> 15 & 127, 7) * (16 if word >> 30 == 2 and word >> 26 & 1 else 8 if word >> 30 or word >> 26 & 1 else 4)
        elif word & 0x3b200fe0 == 0x38000fe0:  # one register is
            lowers = -signed(word >> 12 & 0x1ff, 9)
        yield Instruction(at, 4, kind, target, max(lowers, 0))


def x86_64(listing):
    """From the disassembly of binutils, since there instructions have many lengths."""
    for line in listing:
        found = re.match(r"\s*([0-9a-f]+):\t([0-9a-f ]+?)\s*(?:\t(\S+)\s*(.*))?$", line)
        if found:
            at, size, name, words = int(found[1], 16), len(found[2].split()), found[3] or "", found[4] or ""
            while name in ("data16", "rex.W", "notrack", "bnd", "cs", "addr32") and words:
                name, _, words = words.partition(" ")
            direct = re.match(r"\s*([0-9a-f]+)( |$)", words)
            kind, target, lowers = "other", None, 0
            if name.startswith("call"):
                kind, target = ("call", int(direct[1], 16)) if direct else ("pointer call", None)
            elif name.startswith("j"):
                kind, target = "jump", int(direct[1], 16) if direct else None
            elif name.startswith("push"):
                lowers = 8
            elif name.startswith("sub") and re.match(r"\$0x[0-9a-f]+,%rsp", words):
                lowers = int(words[1:].split(",")[0], 16)
            below = max((int(far, 16) for far in re.findall(r"-0x([0-9a-f]+)\(%rsp[,)]", words)), default=0)
            yield Instruction(at, size, kind, target, lowers, below)


class Graph:
    """The functions of some objects, with their frames and what they call."""

    def __init__(self, paths):
        self.objects = [found for path in paths for found in objects_in(path)]
        self.machine = self.objects[0].machine
        self.named, self.frame, self.calls, self.name = {}, {}, {}, {}
        self.lowered = collections.Counter()
        self.red_zone = collections.Counter()  # what a function uses below its frame; the compiler's size leaves it out (x86-64)
        for number, object in enumerate(self.objects):
            for place, symbols in object.functions.items():
                key = (number, *place)
                self.name[key] = symbols[0].name
                for symbol in symbols:
                    self.named.setdefault(symbol.name, key)
        for number, object in enumerate(self.objects):
            self.read(number, object)

    def read(self, number, object):
        listings = disassembled(object) if object.machine == X86_64 else {}
        places = collections.defaultdict(list)
        for section, value in sorted(object.functions):
            places[section].append(value)
        for index, section in enumerate(object.sections):
            if not section.flags & 2 or section.name.startswith(METADATA):
                continue
            references = object.references[index]
            used = set()
            if index in places:
                for at, end in object.stretches(index):
                    if object.machine == X86_64:
                        code = x86_64(listings.get(section.name, []))
                    else:
                        code = {ARM: thumb, RISCV: riscv, AARCH64: aarch64}[object.machine](section.data, at, end)
                    self.edges(number, object, index, places[index], code, references, used)
            for at, kind, symbol, added in references:
                if section.name != VECTORS and at not in used and kind not in NO_REFERENCE.get(object.machine, ()) and (self.is_function(object, symbol, added) or in_code(object, section, symbol)):
                    raise Unbounded(f"{object.name}: the address of {symbol.name or 'a function'} is taken in {section.name}")

        for place in object.functions:
            key = (number, *place)
            if place not in object.frames:
                raise Unbounded(f"{object.name}: {self.name[key]} has no frame size")
            # The compiler's size leaves out the arguments that are pushed for a call; all that is ever pushed is a bound on them.
            self.frame[key] = max(object.frames[place], self.lowered[key]) + RETURN_ADDRESS[object.machine]

    def is_function(self, object, symbol, added):
        if not symbol.section:
            return symbol.name in self.named
        if symbol.kind not in (2, 3):
            return False
        return (symbol.section, (symbol.value + added if symbol.kind == 3 else symbol.value) & ~(object.machine == ARM)) in object.functions

    def owner(self, number, section, starts, at):
        """The function that an address is in; `starts` has those of the section in order."""
        return number, section, starts[max(bisect.bisect_right(starts, at) - 1, 0)]

    def edges(self, number, object, section, starts, code, references, used):
        """Notes the calls of a stretch of code, and by how much its instructions lower the stack pointer, all of them together."""
        offsets = [row[0] for row in references]
        paired = None
        for step in code:
            owner = self.owner(number, section, starts, step.at)
            calls = self.calls.setdefault(owner, set())
            rows = references[bisect.bisect_left(offsets, step.at):bisect.bisect_left(offsets, step.at + step.size)]
            rows = [row for row in rows if row[1] not in NO_REFERENCE.get(object.machine, ())]
            kind = step.kind
            if object.machine == RISCV:
                # A far call is two instructions and one relocation, at the first.
                if paired == step.at and kind in ("pointer call", "other"):
                    kind = "other"
                elif any(row[1] in (18, 19) for row in rows):
                    kind, paired = "call", step.at + 4
            if object.machine == X86_64 and kind == "pointer call" and any(row[1] in (9, 41, 42) for row in rows):
                kind = "call"  # through the table of a linker, to the function that is named
            if kind == "pointer call":
                raise Unbounded(f"{object.name}: {self.name[owner]} calls through a pointer")
            if kind in ("call", "jump"):
                used.update(row[0] for row in rows)
                for _, _, symbol, added in rows:
                    if symbol.section == 0:
                        calls.add(symbol.name)
                    elif symbol.kind == 2:
                        calls.add((number, symbol.section, symbol.value & ~(object.machine == ARM)))
                    elif symbol.kind == 3 and symbol.section != section:
                        calls.add((number, symbol.section, (symbol.value + added + (4 if object.machine in (X86_64, ARM) else 0)) & ~(object.machine == ARM)))
                    elif symbol.section != section:
                        raise Unbounded(f"{object.name}: {self.name[owner]} jumps into the middle of another function")
                if not rows and step.target is not None:
                    place = (number, section, step.target)
                    if place in self.name and (kind == "call" or place != owner):
                        calls.add(place)
                    elif kind == "call" and (object.machine != ARM or self.owner(number, section, starts, step.target) != owner):
                        # On a Cortex-M0 `bl` is also the far jump within a function.
                        raise Unbounded(f"{object.name}: {self.name[owner]} calls an address without a name")
            self.lowered[owner] += step.lowers
            self.red_zone[owner] = max(self.red_zone[owner], step.below)

    def bound(self, name, depths=None, outside=None):
        """The bytes of stack that a call of a function takes at most. `depths` has how often a function that calls itself may stand on the
        stack, `outside` the bytes for functions that are in none of the objects."""
        depths, outside, known = depths or {}, outside or {}, {}

        def of(place, way):
            if isinstance(place, str):
                if place not in self.named:
                    if place not in outside:
                        raise Unbounded(f"{way[-1]} calls {place}, which is in no object")
                    return outside[place]
                place = self.named[place]
            if place in known:
                return known[place]
            if self.name[place] in way:
                raise Unbounded("recursion: " + " -> ".join([*way[way.index(self.name[place]):], self.name[place]]))
            times, below = 1, 0
            for callee in self.calls.get(place, ()):
                if callee == place or callee in self.named and self.named.get(callee) == place:
                    times = depths.get(self.name[place], 0)
                    if not times:
                        raise Unbounded(f"recursion: {self.name[place]} calls itself")
                else:
                    below = max(below, of(callee, (*way, self.name[place])))
            known[place] = times * self.frame[place] + max(below, self.red_zone[place])
            return known[place]

        return of(name, ())

    def reached(self, name):
        """The functions that a call of one may reach, and the names outside."""
        found, todo = set(), [name]
        while todo:
            place = todo.pop()
            place = self.named.get(place, place) if isinstance(place, str) else place
            if place not in found:
                found.add(place)
                todo += self.calls.get(place, ())
        return found


def in_code(object, section, symbol):
    """Whether code refers to code by its section. On x86-64 what is added counts from the end of the instruction, so it is any function."""
    return object.machine == X86_64 and symbol.kind == 3 and bool(section.flags & object.sections[symbol.section].flags & 4)


def disassembled(object):
    """The lines of each section's disassembly, by binutils."""
    with tempfile.NamedTemporaryFile(suffix=".o") as file:
        file.write(object.data)
        file.flush()
        lines = subprocess.run(["objdump", "-d", "-w", file.name], stdout=subprocess.PIPE, text=True, check=True).stdout.splitlines()
    listings, section = collections.defaultdict(list), None
    for line in lines:
        found = re.match(r"Disassembly of section (.*):$", line)
        section = found[1] if found else section
        listings[section].append(line)
    return listings
