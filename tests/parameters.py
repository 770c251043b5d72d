"""No parameter is there for a contract alone: each is read by the body of its function, or handed on to one that reads it. And a function with more
than nine parameters has its reason in docs/DECISIONS.md."""
import pathlib
import re
import sys

# Found in this: `x` of `leaf`, which nobody reads, and so `y` of `middle` and `z` of `top`, but not `z` of `other`.
SAMPLE = """
fn leaf(a: u8, x: &[u8])
    requires { ⌜ length (now x) ≡ 3 ⌝ }
{
    use_up(a)
}
fn middle(y: &[u8]) { leaf(3, y); }
fn top(z: &[u8]) { if 1 < 2 { middle(z) } }
fn other(z: &[u8]) { middle(&z[1..]) }
"""


def closing(text, at):
    """The place behind the bracket that closes the one before `at`."""
    depth = 1
    while depth:
        depth += (text[at] in "([{") - (text[at] in ")]}")
        at += 1
    return at


def split(text):
    """The parts between the commas that stand in no bracket."""
    parts, depth, start = [], 0, 0
    for at, letter in enumerate(text):
        depth += (letter in "([{") - (letter in ")]}")
        if letter == "," and depth == 0:
            parts.append(text[start:at])
            start = at + 1
    return [part.strip() for part in parts + [text[start:]] if part.strip()]


class Function:
    def __init__(self, file, name, parameters, body):
        self.file, self.name, self.body = file, name, body
        self.parameters = [part.split(":")[0].replace("mut ", "").strip() for part in split(parameters) if ":" in part]
        self.calls = []
        for call in re.finditer(r"(?<![\w.])((?:\w+::)*\w+)\(", body):
            end = closing(body, call.end())
            self.calls.append((call[1].split("::"), split(body[call.end():end - 1])))


def functions(file, text):
    text = re.sub(r"//[^\n]*", "", text)
    text = re.sub(r"^\s*(requires|ensures)\b[^\n]*$", "", text, flags=re.M)
    for found in re.finditer(r"\bfn (\w+)\(", text):
        end = closing(text, found.end())
        first = text.index("{", end) + 1
        yield Function(file, found[1], text[found.end():end - 1], text[first:closing(text, first) - 1])


def meant(caller, path, known, brought):
    """The functions that a call may mean: of its file, of a line that brings it in, or of a crate or module that it names."""
    if len(path) == 1:
        here = [f for f in known.get(path[0], []) if f.file == caller.file]
        if here or (caller.file, path[0]) not in brought:
            return here
        path = brought[caller.file, path[0]]
    return [f for f in known.get(path[-1], []) if path[-2] in f.file.parts + (f.file.stem,)]


def unread(every, brought):
    """The parameters that nothing reads: none by itself, then those that are only handed on to such ones."""
    known = {}
    for function in every:
        known.setdefault(function.name, []).append(function)
    found, before = set(), None
    while before != len(found):
        before = len(found)
        for function in every:
            for name in function.parameters:
                uses = len(re.findall(rf"(?<!\w)(?:(?<=\.\.)|(?<!\.)){name}\b", function.body))  # no field: `.name`; a bound: `..name`
                for path, arguments in function.calls:
                    for at, argument in enumerate(arguments):
                        if re.fullmatch(rf"(&mut |&)?{name}", argument):
                            targets = meant(function, path, known, brought)
                            uses -= bool(targets) and all(at < len(f.parameters) and (f, f.parameters[at]) in found for f in targets)
                if uses <= 0:
                    found.add((function, name))
    return found


sample = list(functions(pathlib.Path("crates/sample/src/lib.rt"), SAMPLE))
assert {(f.name, name) for f, name in unread(sample, {})} == {("leaf", "x"), ("middle", "y"), ("top", "z")}, "the check itself"

every, brought = [], {}
for file in sorted(pathlib.Path("crates").glob("*/src/**/*.rt")):
    text = file.read_text()
    every += functions(file, text)
    for path, names in re.findall(r"^(?:pub )?use ([\w:]+)::(?:\{([^}]*)\})?;?", text, re.M):
        for name in filter(None, map(str.strip, names.split(","))):
            brought[file, name] = path.split("::") + [name]
    for path in re.findall(r"^(?:pub )?use ([\w:]+);", text, re.M):
        brought[file, path.split("::")[-1]] = path.split("::")

wrong = [f"{f.file}: `{f.name}` does not read `{name}`" for f, name in sorted(unread(every, brought), key=lambda found: (str(found[0].file), found[0].name))]
decided = pathlib.Path("docs/DECISIONS.md").read_text()
reasons = "\n".join(re.findall(r"^(?:110|122)\. .*$", decided, re.M))
for function in every:
    if len(function.parameters) > 9 and "test" not in function.file.parts[1] and not re.search(rf"`[\w:]*\b{function.name}`", reasons):
        wrong.append(f"{function.file}: `{function.name}` has {len(function.parameters)} parameters, and docs/DECISIONS.md, 110 and 122, no reason")
print("\n".join(wrong) or f"{sum(len(f.parameters) for f in every)} parameters of {len(every)} functions, each read")
sys.exit(bool(wrong))
