"""What the scripts here share: the kit, the module of a proved crate, the processors, and a module's machine code for each."""
import collections
import contextlib
import fcntl
import hashlib
import os
import pathlib
import re
import shutil
import subprocess
import sys
import tempfile

import portable

ROOT = pathlib.Path(__file__).resolve().parent.parent
KEPT = ROOT / "target" / "module"  # where modules are kept
PASSED = ROOT / "target" / "passed"  # what `rt ci` has passed on
LIBRARY = "pastaspur_c"  # the crate that is the static library
STACK_BYTES = 131_072  # in the memory of a module for wasm32

Target = collections.namedtuple("Target", "triple flags level what")
ELF = ("-ffunction-sections", "-fdata-sections", "-fstack-size-section")
# The level of optimization is the better one by bench/targets (bench/README.md).
TARGETS = {
    "x86_64": Target("x86_64-unknown-linux-gnu", (*ELF, "-fPIC"), "-O3", "64-bit x86, Linux"),
    "aarch64": Target("aarch64-unknown-linux-gnu", (*ELF, "-fPIC"), "-O3", "64-bit ARM, Linux"),
    "thumbv6m": Target("thumbv6m-none-eabi", ELF, "-O3", "ARM Cortex-M0, M0+ and M1"),
    "thumbv7m": Target("thumbv7m-none-eabi", ELF, "-Os", "ARM Cortex-M3 and above"),
    "rv32imac": Target("riscv32-unknown-elf", (*ELF, "-march=rv32imac", "-mabi=ilp32"), "-O3", "32-bit RISC-V microcontrollers"),
    "wasm32": Target("wasm32-unknown-unknown", ("-mbulk-memory",), "-O3", "WebAssembly, in a browser or node"),
}


class Wrong(Exception):
    """What the user can put right, as a line."""


def run_script(main):
    """Runs `main` on the script's arguments. A wrong input is one line and status 2; where a proof, a tool or the module's check fails, its words and status 1."""
    script = pathlib.Path(sys.argv[0]).resolve().relative_to(ROOT)

    def stop(status, line):
        print(f"{script}: {line}", file=sys.stderr)
        sys.exit(status)
    try:
        main(sys.argv[1:])
    except Wrong as wrong:
        stop(2, wrong)
    except OSError as wrong:
        stop(2, f"{wrong.filename}: {wrong.strerror}")
    except portable.NotPortable as wrong:
        stop(1, wrong)
    except subprocess.CalledProcessError as failed:
        sys.stderr.write(failed.stdout or "")
        stop(1, f"`{' '.join(map(str, failed.cmd))}` failed")


def run(*words, **more):
    """Runs a tool. What it says is kept for the case that it fails."""
    return subprocess.run(words, stdout=subprocess.PIPE, stderr=subprocess.STDOUT, text=True, check=True, **more).stdout


# The kit

Kit = collections.namedtuple("Kit", "home clang linker archiver")


def find_kit():
    """The Rattle kit: its folder, and its compiler, linker and archiver."""
    rt = shutil.which("rt")
    if not rt:
        raise Wrong("there is no `rt`: unpack the Rattle kit and link its bin/rt into a folder of PATH")
    home = pathlib.Path(rt).resolve().parent.parent
    tools = [home / "toolchain" / "bin" / name for name in ("clang", "ld.lld", "llvm-ar")]
    for tool in tools:
        if not os.access(tool, os.X_OK):
            raise Wrong(f"the Rattle kit in {home} has no {tool.name}: unpack the kit anew")
    return Kit(home, *tools)


def link_all(folder, target, *without):
    """Links what a folder has into another."""
    target.mkdir(parents=True, exist_ok=True)
    for entry in folder.iterdir():
        if entry.name not in without:
            (target / entry.name).symlink_to(entry)


# A clang that leaves a copy of the module that it is given.
KEEPING_CLANG = """#!/bin/sh
for word; do case $word in *.bc) cp "$word" "{kept}" ;; esac; done
exec "{clang}" "$@"
"""


def linked_kit(kit, folder, kept):
    """A kit made of links, whose clang keeps the module. The scripts in bin/ find the kit by their own place, so they alone are copied, for the time of a run."""
    link_all(kit.home, folder, "bin", "toolchain")
    own = folder / "bin"
    own.mkdir()
    for entry in (kit.home / "bin").iterdir():
        if entry.read_bytes()[:4] == b"\x7fELF":
            (own / entry.name).symlink_to(entry)
        else:
            shutil.copy(entry, own)
    tools = folder / "toolchain"
    link_all(kit.home / "toolchain", tools, "bin")
    link_all(kit.home / "toolchain" / "bin", tools / "bin", "clang")
    clang = tools / "bin" / "clang"
    clang.write_text(KEEPING_CLANG.format(kept=kept, clang=kit.clang))
    clang.chmod(0o755)


# The crates

def dependencies():
    """What crates.txt has: for each crate those that it depends on."""
    lines = (line.split("#")[0].split(":") for line in (ROOT / "crates.txt").read_text().splitlines())
    return {line[0].split()[0]: line[1].split() for line in lines if len(line) == 2}


def reached(name, crates):
    """The repository's crates that a crate rests on, itself among them."""
    found, todo = set(), [name]
    while todo:
        crate = todo.pop()
        if crate in crates and crate not in found:
            found.add(crate)
            todo += crates[crate]
    return sorted(found)


def source_key(kit, name, crates):
    """A number for all that the module of a crate is made from: the kit, and the crates that it rests on."""
    key = hashlib.sha256((kit.home / "KIT-ID").read_bytes())
    for crate in reached(name, crates):
        key.update(f"{crate}: {crates[crate]}\n".encode())
        for part in ("src", "specs", "proofs"):
            for file in sorted((ROOT / "crates" / crate / part).rglob("*")):
                if file.is_file():
                    key.update(str(file.relative_to(ROOT)).encode() + b"\n" + hashlib.sha256(file.read_bytes()).digest())
    return key.hexdigest()


# The module

@contextlib.contextmanager
def locked(name):
    """One at a time makes what has the name."""
    KEPT.mkdir(parents=True, exist_ok=True)
    with open(KEPT / f"{name}.lock", "w") as lock:
        fcntl.flock(lock, fcntl.LOCK_EX)
        yield


def all_sources(kit):
    """A number for what anything is made from: the kit, and all crates."""
    crates = dependencies()
    return hashlib.sha256("".join(source_key(kit, name, {name: crates[name]}) for name in sorted(crates)).encode()).hexdigest()


def passed(key):
    """Whether `rt ci` has passed on these sources, so that the libraries in the crates' folders are what it proved."""
    return PASSED.exists() and PASSED.read_text() == key


def build(kit, name, to, toolchain):
    """Proves a crate over the libraries that `rt ci` left, and compiles it into the file `to`."""
    sys.path.insert(0, str(kit.home / "bin"))
    import rtlib  # the kit's own
    folder = ROOT / "crates" / name
    words = rtlib.Crate(str(folder), str(ROOT), {}).words(["--jobs", "2"], keeps=False)
    run(kit.home / "bin" / "rattle", "build", *words, "--toolchain", toolchain, "--backend", "llvm", "-o", to, cwd=folder, errors="replace")


def prove(kit, name):
    """Proves a crate, and gives the module that the kit compiles for it, as text."""
    folder = ROOT / "crates" / name
    is_program = (folder / "src" / "main.rt").exists()
    with tempfile.TemporaryDirectory() as place, made_alone():
        place = pathlib.Path(place)
        linked_kit(kit, place / "kit", place / "module.bc")
        if passed(all_sources(kit)):
            build(kit, name, place / "made", place / "kit" / "toolchain")
            return run(kit.clang, "-w", "-S", "-emit-llvm", "-Xclang", "-disable-llvm-passes", "-x", "ir", "module.bc", "-o", "-", cwd=place)
        if is_program:
            (folder / "out" / f"{name}.stamp").unlink(missing_ok=True)  # what it names would not be compiled again
        run(place / "kit" / "bin" / "rt", "run" if is_program else "lib", cwd=folder, stdin=subprocess.DEVNULL, errors="replace")
        return run(kit.clang, "-w", "-S", "-emit-llvm", "-Xclang", "-disable-llvm-passes", "-x", "ir", "module.bc", "-o", "-", cwd=place)


@contextlib.contextmanager
def made_alone():
    """Nothing else proves and compiles at the same time: the lock of .ci/make."""
    (ROOT / "target").mkdir(exist_ok=True)
    with open(ROOT / "target" / "make.lock", "w") as lock:
        fcntl.flock(lock, fcntl.LOCK_EX)
        yield


def made_by_kit(kit, name):
    """The module of a crate as the kit made it, as text. It is made once for what it is made from, and kept under target/."""
    crates = dependencies()
    if name not in crates or not (ROOT / "crates" / name / "src").is_dir():
        raise Wrong(f"there is no crate '{name}': crates.txt names them")
    with locked(name):
        file = KEPT / f"{name}-{source_key(kit, name, crates)}.ll"
        if not file.exists():
            text = prove(kit, name)
            for old in KEPT.glob(f"{name}-*.ll"):
                old.unlink()
            write(file, text.encode())
        return file.read_text()


def module(kit, name):
    """The module of a crate, free of x86-64 and checked, as text."""
    text = portable.without_machine(made_by_kit(kit, name))
    portable.check(text)
    return text


def write(file, content):
    """Writes a file whole or not at all."""
    made = file.with_name(f".{file.name}.{os.getpid()}")
    try:
        made.write_bytes(content)
        made.rename(file)
    finally:
        made.unlink(missing_ok=True)


# Machine code

def compile_module(kit, target, text, made, level=None):
    """Writes the object code of a module for a target to the file `made`. The compiler sees no path, so none is in it."""
    target = TARGETS[target]
    run(kit.clang, f"--target={target.triple}", *target.flags, level or target.level, "-w", "-c", "-x", "ir", "-", "-o", made.name, cwd=made.parent, input=text)


def exported(text):
    """The calls that a module exports."""
    return sorted(re.findall(r"^define (?!internal|private)[^@]*@(pastaspur_\w+)\(", text, re.M))


def link_wasm(kit, made, stack, exports, *words):
    """Links a WebAssembly module into the file `made`. lld does so where it is called by the name wasm-ld."""
    with tempfile.TemporaryDirectory() as place:
        linker = pathlib.Path(place, "wasm-ld")
        linker.symlink_to(kit.linker)
        run(str(linker), "--no-entry", "--gc-sections", "--strip-all", "-z", f"stack-size={stack}", *(f"--export-if-defined={name}" for name in exports),
            *map(str, words), "-o", str(made))


def file_name(target):
    return "pastaspur.wasm" if target == "wasm32" else "libpastaspur.a"


def library(kit, target, text, level=None):
    """The library for a target, as bytes, from the module of the library's crate."""
    with tempfile.TemporaryDirectory() as place:
        place = pathlib.Path(place)
        compile_module(kit, target, text, place / "pastaspur.o", level)
        made = place / file_name(target)
        if target == "wasm32":
            link_wasm(kit, made, STACK_BYTES, (*exported(text), "__heap_base"), place / "pastaspur.o")
        else:
            run(kit.archiver, "rcsD", made.name, "pastaspur.o", cwd=place)
        return made.read_bytes()
