"""The boards: how a firmware is built for one, and how it runs in its emulator. For firmware/build, firmware/run, the tests and the benchmark."""
import collections
import pathlib
import shutil
import subprocess
import sys

ROOT = pathlib.Path(__file__).resolve().parent.parent
sys.path.insert(0, str(ROOT / "targets"))
import callgraph  # noqa: E402
import common  # noqa: E402

HERE = ROOT / "firmware"
MADE = ROOT / "target" / "firmware"
END_KEY = b"\x04"  # port.h has it too
SLOT_LENGTH_BYTES = 4  # before the card in the slot
# The board's one recursion goes once for each digit of a 32-bit number.
DEPTHS = {"writing::decimal::write_number": 10}
# What the processor itself pushes when it traps; the handler begins with a new stack.
TRAP_BYTES = 40
SECONDS = 120  # that a run may take

KB = 1024
Board = collections.namedtuple("Board", "what target source flags rom ram slot emulator package machine")
BOARDS = {
    "arm": Board("ARM Cortex-M3, qemu's mps2-an385", "thumbv7m", "mps2", (), 32 * KB, 192 * KB, 0x21000000, "qemu-system-arm", "qemu-system-arm",
                 ("-M", "mps2-an385", "-semihosting-config", "enable=on,target=native")),
    "riscv": Board("32-bit RISC-V, qemu's virt", "rv32imac", "virt", ("-march=rv32imac_zicsr",), 64 * KB, 192 * KB, 0x81000000, "qemu-system-riscv32",
                   "qemu-system-misc", ("-M", "virt", "-bios", "none")),
}
# The code of a Cortex-M0 on the Cortex-M3, which has all its instructions: the emulator has no board with a Cortex-M0 and as much memory.
MEASURED = {**BOARDS, "cortex-m0": BOARDS["arm"]._replace(what="ARM Cortex-M0, its code on qemu's mps2-an385", target="thumbv6m", rom=64 * KB)}
STRICT = ("-std=c11", "-Wall", "-Wextra", "-Wpedantic", "-Wconversion", "-Werror", "-Os", "-ffreestanding", "-fno-builtin")
Sizes = collections.namedtuple("Sizes", "rom rom_bytes stack data ram_bytes")


def module(crate):
    """The LLVM module of a proved crate, as a file."""
    MADE.mkdir(parents=True, exist_ok=True)
    file = MADE / f"{crate}.ll"
    subprocess.run([ROOT / "targets" / "module", crate, file], check=True)
    return file


def compile_module(kit, target, crate, made, level=None):
    """The object code of a proved crate."""
    target = common.TARGETS[target]
    file = made / f"{crate}.o"
    common.run(str(kit.clang), f"--target={target.triple}", *target.flags, level or target.level, "-w", "-c", "-x", "ir", str(module(crate)), "-o", str(file))
    return file


def compile_c(kit, target, source, made, flags=()):
    """The object code of a C file."""
    target = common.TARGETS[target]
    file = made / f"{source.stem}.o"
    common.run(str(kit.clang), f"--target={target.triple}", *target.flags, *STRICT, *flags, f"-I{HERE / 'include'}", f"-I{ROOT / 'include'}", f"-I{HERE}", "-c", str(source), "-o", str(file))
    return file


def sections(elf):
    """The sizes of an ELF file's sections, by name."""
    return {section.name: section.size for section in callgraph.Sections(elf.read_bytes()).sections}


def link(kit, board, objects, elf, depths):
    """Links a firmware, with as much stack as the call graph says. The linker says what does not fit."""
    stack = callgraph.Graph(objects).bound("reset", depths) + TRAP_BYTES
    common.run(str(kit.linker), "-T", str(HERE / f"{board.source}.ld"), "--gc-sections", "--fatal-warnings", f"--defsym=stack_bytes={stack}",
               f"--defsym=rom_bytes={board.rom}", f"--defsym=ram_bytes={board.ram}", *map(str, objects), "-o", str(elf))
    sizes = sections(elf)
    return Sizes(sizes[".rom"], board.rom, sizes[".stack"], sizes.get(".ram", 0), board.ram)


def build(name, program="board", sources=(), ram=None, label=None, depths=None):
    """Builds the firmware of a board from a proved crate, or C sources with the function `main`, or both. Gives the file and the sizes."""
    board, kit, label = MEASURED[name], common.find_kit(), label or program
    board = board._replace(ram=ram or board.ram)
    made = MADE / name / label
    made.mkdir(parents=True, exist_ok=True)
    objects = [compile_c(kit, board.target, source, made, board.flags) for source in [HERE / "port.c", HERE / f"{board.source}.c", HERE / "runtime.c", *sources]]
    if program:
        objects.append(compile_module(kit, board.target, program, made))
    elf = made / f"{label}.elf"
    return elf, link(kit, board, objects, elf, depths or DEPTHS)


def memory(sizes):
    """Where memory went, in bytes."""
    used = sizes.stack + sizes.data
    return (f"ROM {sizes.rom:,} of {sizes.rom_bytes:,}; RAM {used:,} of {sizes.ram_bytes:,}, of which the stack {sizes.stack:,} at most by the call graph, "
            f"data {sizes.data:,}")


def emulator(name):
    """A board's emulator, or the line that installs it."""
    board = MEASURED[name]
    found = shutil.which(board.emulator)
    if not found:
        raise common.Wrong(f"there is no {board.emulator}, which runs the board '{name}': apt-get install --no-install-recommends {board.package}")
    return found


def loaded(board, card):
    """The arguments that put a card into the slot; none leaves the slot empty."""
    if not card:
        return []
    slot = MEASURED[board].slot
    return ["-device", f"loader,addr={slot:#x},data={card.stat().st_size},data-len={SLOT_LENGTH_BYTES}",
            "-device", f"loader,addr={slot + SLOT_LENGTH_BYTES:#x},file={card},force-raw=on"]


def command(name, elf, card=None, more=()):
    """The command that runs a firmware with its UART on standard input and output."""
    return [emulator(name), *MEASURED[name].machine, *more, "-display", "none", "-serial", "stdio", "-monitor", "none", *loaded(name, card), "-kernel", str(elf)]


def run(name, elf, card, lines, more=()):
    """Types the lines on the keypad and then 'end'. Gives the status, 0 where the firmware ended by itself, and what was shown."""
    if END_KEY in lines:
        raise common.Wrong("the input has byte 4, which is the key 'end'")
    done = subprocess.run(command(name, elf, card, more), input=lines + END_KEY, stdout=subprocess.PIPE, stderr=subprocess.STDOUT, timeout=SECONDS)
    return done.returncode, done.stdout


def rewrite(file, name, lines):
    """Puts lines between the markers of a table."""
    begin, end = f"<!-- {name}: begin -->", f"<!-- {name}: end -->"
    text = file.read_text()
    before, rest = text.split(begin)
    file.write_text(before + "\n".join([begin, "", *lines, "", end]) + rest.split(end)[1])


def run_script(main):
    """Runs `main` on the script's arguments. A wrong input is one line and status 2; where a proof, a tool or the stack's bound fails, why and status 1."""
    name = pathlib.Path(sys.argv[0]).resolve().relative_to(ROOT)
    try:
        main(sys.argv[1:])
    except common.Wrong as wrong:
        print(f"{name}: {wrong}", file=sys.stderr)
        sys.exit(2)
    except callgraph.Unbounded as why:
        print(f"{name}: the stack has no bound: {why}", file=sys.stderr)
        sys.exit(1)
    except subprocess.CalledProcessError as failed:
        sys.stderr.write(failed.stdout or "")
        print(f"{name}: `{' '.join(map(str, failed.cmd))}` failed", file=sys.stderr)
        sys.exit(1)
