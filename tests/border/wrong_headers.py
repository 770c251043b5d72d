"""Wrong headers, made from the right one: each has one thing in another way than the library has it."""
import itertools
import re


def swapped(text, one, other):
    """The text with two stretches of it, (start, end), in each other's place."""
    (a, b), (c, d) = sorted([one, other])
    return text[:a] + text[c:d] + text[b:c] + text[a:b] + text[d:]


def constants(text):
    """Each constant one less and one more; a stack that is too small; no version."""
    found = list(re.finditer(r"#define PASTASPUR_(\w+) (?:UINT32_C\()?(\d+)\b", text))
    for one in found:
        if one[1] == "STACK_BYTES":
            continue  # any number that is enough is right
        for by in (-1, 1):
            yield f"{one[1]} {int(one[2]) + by}", text[:one.start(2)] + str(int(one[2]) + by) + text[one.end(2):]
    stack = next(one for one in found if one[1] == "STACK_BYTES")
    yield "STACK_BYTES 40960", text[:stack.start(2)] + "40960" + text[stack.end(2):]
    version = re.search(r'#define PASTASPUR_VERSION "([^"]*)"', text)
    yield "VERSION none", text[:version.start(1)] + "none" + text[version.end(1):]


def enums(text):
    """The values of each two neighbours of an enum swapped, and each value one more."""
    for enum in re.finditer(r"enum (pastaspur_\w+) \{(.*?)\}", text, re.S):
        values = [m for m in re.finditer(r"PASTASPUR_(\w+) = (\d+)", text) if enum.start() < m.start() < enum.end()]
        for one, other in zip(values, values[1:]):
            yield f"{one[1]} and {other[1]} swapped", swapped(text, one.span(2), other.span(2))
        last = values[-1]
        yield f"{last[1]} one more", text[:last.start(2)] + str(int(last[2]) + 1) + text[last.end(2):]


def fields(text):
    """Each two fields of a result swapped, names, types and all; and the names alone."""
    for struct in re.finditer(r"typedef struct \{\n(.*?)\} (pastaspur_\w+);", text, re.S):
        found = list(re.finditer(r"    (\w+ (\w+)(?:\[\w+\])?);", struct[1]))
        for one, other in itertools.combinations(found, 2):
            for what, group in (("fields", 1), ("names", 2)):
                at = struct.start(1)
                spans = [(m.start(group) + at, m.end(group) + at) for m in (one, other)]
                yield f"{struct[2]}: {what} {one[2]} and {other[2]} swapped", swapped(text, *spans)


def parameters(text):
    """Each two parameters of a call swapped; the names alone swapped; const put in and left out; a type of another width; a name changed."""
    for call in re.finditer(r"uint32_t (pastaspur_\w+)\(([^)]*)\);", text):
        found = [(m.start(1) + call.start(2), m.end(1) + call.start(2)) for m in re.finditer(r"\s*([^,]+)", call[2])]
        for one, other in zip(found, found[1:]):
            if text[slice(*one)] != text[slice(*other)]:
                yield f"{call[1]}: '{text[slice(*one)]}' and '{text[slice(*other)]}' swapped", swapped(text, one, other)
        pointers = [m for m in re.finditer(r"(const )?(uint\d+_t|pastaspur_\w+) (\*?)(\w+)", call[2])]
        slices = [m for m in pointers if m[3]]
        for one, other in itertools.combinations(slices, 2):
            at = call.start(2)
            yield f"{call[1]}: names {one[4]} and {other[4]} swapped", swapped(text, (one.start(4) + at, one.end(4) + at), (other.start(4) + at, other.end(4) + at))
        for one in pointers:
            start, end = call.start(2) + one.start(), call.start(2) + one.end()
            if one[3]:
                with_or_without = one[0][len("const "):] if one[1] else "const " + one[0]
                yield f"{call[1]}: '{with_or_without}' for '{one[0]}'", text[:start] + with_or_without + text[end:]
            wider = re.sub(r"uint\d+_t|pastaspur_\w+(?= )", lambda m: {"uint8_t": "uint16_t", "uint16_t": "uint32_t"}.get(m[0], "uint8_t"), one[0], count=1)
            yield f"{call[1]}: '{wider}' for '{one[0]}'", text[:start] + wider + text[end:]
        yield f"{call[1]} left out", text[:call.start()] + text[call.end():]
        yield f"{call[1]} under another name", text[:call.start(1)] + call[1] + "_2" + text[call.end(1):]


def lists(text):
    """Each call's list of refusals with another last number, and with one more."""
    for found in re.finditer(r"refusals? (\d[\d, to\n*]*?)(?: \([a-z ]+\)(?:, \d+)*)?(?=[.;]| \*/)", text):
        listed = " ".join(re.findall(r"[\d,to]+", found[1]))
        if text[max(0, found.start() - 8):found.start()].strip().endswith("on"):
            continue  # 'on refusals ..': not what a call may answer
        number = re.search(r"\d+$", found[1])
        yield f"refusals {listed} with {int(number[0]) + 1} last", text[:found.start(1) + number.start()] + str(int(number[0]) + 1) + text[found.end(1):]
        yield f"refusals {listed}, 22", text[:found.end(1)] + ", 22" + text[found.end(1):]


def all_of(text):
    for kind in (constants, enums, fields, parameters, lists):
        for what, wrong in kind(text):
            assert wrong != text, what
            yield what, wrong
