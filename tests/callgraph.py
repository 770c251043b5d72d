"""Whether targets/callgraph.py refuses code that has no bound, and finds the bound of code that has one, on every target with objects."""
import pathlib
import sys
import tempfile

ROOT = pathlib.Path(__file__).resolve().parent.parent
sys.path.insert(0, str(ROOT / "targets"))
import callgraph  # noqa: E402
import common  # noqa: E402

KEEP = "__attribute__((noinline)) void keep(volatile char *p) { p[0] = 1; }\n"
REFUSED = {
    "recursion": "int again(int n) { volatile char b[64]; keep(b); return n ? again(n - 1) + b[0] : 0; } int asked(int n) { return again(n) + 1; }",
    "recursion by two": "int other(int n); __attribute__((noinline)) int one(int n) { volatile char b[64]; keep(b); return n ? other(n - 1) + b[0] : 0; }"
                        "__attribute__((noinline)) int other(int n) { volatile char b[8]; keep(b); return n ? one(n - 1) + b[0] : 1; } int asked(int n) { return one(n) + 1; }",
    "a call through a pointer": "int asked(int (*f)(int)) { return f(3) + 1; }",
    "an address taken": "static int one(int n) { return n + 1; } int (*asked(void))(int) { return one; }",
    "an address in data": "int one(int n) { return n + 1; } int (*const table[2])(int) = {one, one}; int asked(void) { return 1; }",
    "a frame that grows": "int asked(int n) { volatile char b[n]; keep(b); return b[0]; }",
    "a function outside": "int far(int); int asked(int n) { return far(n) + 1; }",
}
# Two frames of 1,000 and 300 bytes, one below the other, and a call with many arguments.
BOUNDED = """__attribute__((noinline)) int last(int a, int b, int c, int d, int e, int f, int g, int h, int i, int j, int k, int l) {
volatile char p[300]; keep(p); return p[0] + a + b * c + d * e + f * g + h * i + j * k + l; }
__attribute__((noinline)) int asked(int n) { volatile char p[1000]; keep(p); return last(n, 1, 2, 3, 4, 5, 6, 7, 8, 9, 10, p[0]) + p[1]; }"""
LEAST, MOST = 1300, 1300 + 300  # what stands beside the bytes: registers, arguments, alignment


def bound(kit, target, text, folder):
    target = common.TARGETS[target]
    (folder / "it.c").write_text(KEEP + text)
    common.run(str(kit.clang), f"--target={target.triple}", *target.flags, "-Os", "-w", "-ffreestanding", "-fno-optimize-sibling-calls", "-c", str(folder / "it.c"), "-o", str(folder / "it.o"))
    return callgraph.Graph([folder / "it.o"]).bound("asked")


kit, wrong, tried = common.find_kit(), [], 0
with tempfile.TemporaryDirectory() as folder:
    for target in common.TARGETS:
        if target == "wasm32":
            continue
        for what, text in REFUSED.items():
            tried += 1
            try:
                wrong.append(f"{target}, {what}: a bound of {bound(kit, target, text, pathlib.Path(folder))}")
            except callgraph.Unbounded:
                pass
        tried += 1
        found = bound(kit, target, BOUNDED, pathlib.Path(folder))
        if not LEAST <= found <= MOST:
            wrong.append(f"{target}: a bound of {found} for two frames of {LEAST} bytes")
print("\n".join(wrong))
print(f"{tried} tried, {len(wrong)} wrong")
sys.exit(1 if wrong else 0)
