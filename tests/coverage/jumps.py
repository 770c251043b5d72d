"""The conditional jumps of the library's functions in a program, and the programs that make calls over it."""
import collections
import pathlib
import re
import subprocess
import tempfile

ROOT = pathlib.Path(__file__).resolve().parent.parent.parent
HERE = ROOT / "tests" / "coverage"
ARCHIVE = ROOT / "target" / "staticlib" / "libpastaspur.a"
BUILT = ROOT / "target" / "tests" / "coverage"
CORPUS = HERE / "corpus.xz"
WAYS = ("taken", "passed")

# `ordinal` counts the jumps of a function from 1. It and the two instructions, without addresses, do not change where a program is linked anew.
Jump = collections.namedtuple("Jump", "address function ordinal instruction before")


def lines_of(*words):
    return subprocess.run(words, capture_output=True, text=True, check=True).stdout.splitlines()


def without_addresses(instruction):
    """An instruction without what the linker decides."""
    return " ".join(re.sub(r"\s*[#<].*", "", re.sub(r"-?0x[0-9a-f]+\(%rip\)", "(%rip)", instruction)).split())


def jumps_of(program, archive=ARCHIVE):
    """The conditional jumps in a program of the functions that an archive has."""
    names = {words[2] for words in (line.split(maxsplit=2) for line in lines_of("nm", str(archive))) if len(words) == 3 and words[1] in "tT"}
    found, function, ordinal, before = [], None, 0, ""
    for line in lines_of("objdump", "-d", "--no-show-raw-insn", str(program)):
        if match := re.match(r"[0-9a-f]+ <(.+)>:$", line):
            function, ordinal, before = match[1], 0, ""
        elif function in names and (match := re.match(r"\s+([0-9a-f]+):\s+(\S.*)", line)):
            mnemonic = match[2].split()[0]
            if mnemonic.startswith("j") and mnemonic != "jmp":
                ordinal += 1
                found.append(Jump(int(match[1], 16), function, ordinal, mnemonic, before))
            else:
                before = without_addresses(match[2])
    return found


def key(jump, way):
    """A direction of a jump, as lists have it."""
    return f"{jump.function} {jump.ordinal} {jump.instruction} {way} after ({jump.before})"


def name(jump):
    """A jump, as lists have it."""
    return f"{jump.function} {jump.ordinal} {jump.instruction} after ({jump.before})"


def build(name, archive=ARCHIVE):
    """Links `play` or `trace` with an archive. The addresses are those of the file."""
    BUILT.mkdir(parents=True, exist_ok=True)
    made = BUILT / name
    subprocess.run(["gcc", "-std=c11", "-Wall", "-Wextra", "-Wpedantic", "-Werror", "-O2", "-no-pie", f"-I{ROOT / 'include'}", str(HERE / f"{name.split('-')[0]}.c"),
                    str(HERE / "calls.c"), str(archive), "-o", str(made)], check=True)
    return made


def turned(flip, some, lines, milliseconds):
    """For each of some jumps the jump, the line that notices it turned round (from 1; 0 where none does) and why, by the program `flip`."""
    with tempfile.TemporaryDirectory() as place:
        places, calls = pathlib.Path(place, "jumps"), pathlib.Path(place, "calls")
        places.write_text("".join(f"{jump.address:x}\n" for jump in some))
        calls.write_text("".join(line + "\n" for line in lines))
        said = subprocess.run([flip, places, calls, str(milliseconds)], capture_output=True, text=True, check=True)
    answers = [line.split(maxsplit=2) for line in said.stdout.splitlines()]
    return [(jump, int(words[1]), words[2] if len(words) > 2 else "") for jump, words in zip(some, answers)]
