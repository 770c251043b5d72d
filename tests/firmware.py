"""The board as firmware: all cases of tests/board, tests/data and demo on both boards in their emulators, byte for byte; a trap and a stack that
overflows are reported and stop the run; a card that is pulled out after it was read does not matter."""
import concurrent.futures
import pathlib
import re
import socket
import struct
import subprocess
import sys
import tempfile
import time

ROOT = pathlib.Path(__file__).resolve().parent.parent
sys.path.insert(0, str(ROOT / "firmware"))
import boards  # noqa: E402
from boards import common  # noqa: E402

PROGRAMS = ROOT / "tests" / "firmware"


def cases():
    found = sorted(file.parent for folder in ("tests/board", "tests/data", "demo") for file in (ROOT / folder).glob("*/stdin"))
    assert len(found) > 30, found
    return found


def try_case(name, elf, place):
    card = place / "card.bin"
    began = time.monotonic()
    status, shown = boards.run(name, elf, card if card.exists() else None, (place / "stdin").read_bytes())
    wrong = []
    if status:
        wrong = [f"status {status}: {shown[-200:]!r}"]
    elif shown != (place / "stdout").read_bytes():
        right = (place / "stdout").read_bytes()
        at = next((i for i, (a, b) in enumerate(zip(shown, right)) if a != b), min(len(shown), len(right)))
        wrong = [f"differs from stdout at byte {at}: {shown[at:at + 60]!r} for {right[at:at + 60]!r}"]
    return f"{name}, {place.relative_to(ROOT)}", wrong, time.monotonic() - began


def small(name, program, depths=None):
    """Runs a small program of tests/firmware on a board."""
    elf, _ = boards.build(name, None, [PROGRAMS / f"{program}.c"], label=program, depths=depths)
    return boards.run(name, elf, None, b"")


def try_small(name):
    """What is wrong with the functions for the compiler, a trap, and a stack that overflows: its bound is made for ten calls, not a million."""
    wrong, found = [], small(name, "runtime_check")
    if found != (0, b"0\n"):
        wrong.append(f"{name}: runtime_check.c ends with {found}")
    if name in boards.BOARDS:
        for program in ("trap", "overflow"):
            status, shown = small(name, program, {"deeper": 10})
            if status != 1 or not re.fullmatch(rb"\nfault at [0-9a-f]{8}\n", shown):
                wrong.append(f"{name}: {program}.c ends with status {status} and shows {shown[-200:]!r}")
    return wrong


def packet(text):
    return b"$%s#%02x" % (text, sum(text) % 256)


def try_pulled(name, elf):
    """Pulls the card out after the first answer, by the emulator's debugger: the slot reads as a bus does that nothing drives. The others have to come out right."""
    place = ROOT / "demo" / "tag"
    first, others = (place / "stdin").read_bytes().split(b"\n", 1)
    with tempfile.TemporaryDirectory() as folder:
        door = f"{folder}/debugger"
        more = ("-chardev", f"socket,id=debugger,path={door},server=on,wait=off", "-gdb", "chardev:debugger")
        process = subprocess.Popen(boards.command(name, elf, place / "card.bin", more), stdin=subprocess.PIPE, stdout=subprocess.PIPE)
        try:
            process.stdin.write(first + b"\n")
            process.stdin.flush()
            shown = process.stdout.readline()
            with socket.socket(socket.AF_UNIX) as debugger:
                debugger.settimeout(boards.SECONDS)
                debugger.connect(door)
                for text in (b"M%x,%x:%s" % (boards.BOARDS[name].slot, 512, b"ff" * 512), b"D"):
                    debugger.sendall(packet(text))
                    said = b""
                    while b"$OK#" not in said:
                        more = debugger.recv(4096)
                        if not more or b"$E" in said:
                            return [f"{name}: the debugger says {said!r}"]
                        said += more
                    debugger.sendall(b"+")
            shown += process.communicate(others + boards.END_KEY, timeout=boards.SECONDS)[0]
        finally:
            process.kill()
            process.wait()
    return [] if shown == (place / "stdout").read_bytes() else [f"{name}: with the card pulled out after the first answer it shows {shown!r}"]


def try_call():
    """A firmware with `pastaspur_optimize` fits into 32 KB of ROM and 128 KB of RAM, work and answer slices in it, on the Cortex-M3: else it does not
    link. It answers the first line of demo/tag: accepted, four pairs."""
    elf, sizes = boards.build("arm", common.LIBRARY, [ROOT / "bench" / "on_board.c"], ram=128 * boards.KB, label="calls")
    print(f"arm, pastaspur_optimize alone: {boards.memory(sizes)}")
    card, ranking, word = (ROOT / "demo" / "tag" / "card.bin").read_bytes(), bytes([0, 1, 2]), bytes([1, 2, 3])
    with tempfile.NamedTemporaryFile() as slot:
        slot.write(struct.pack("<4I", 1, len(card), len(ranking), len(word)) + card + ranking + word)
        slot.flush()
        status, shown = boards.run("arm", elf, None, b"", ("-device", f"loader,addr={boards.BOARDS['arm'].slot:#x},file={slot.name},force-raw=on"))
    return [] if status == 0 and shown.startswith(b"0 4 ") and sizes.rom_bytes == 32 * boards.KB else [f"arm, pastaspur_optimize alone: status {status}, {shown!r}"]


def main():
    for name in boards.BOARDS:
        boards.emulator(name)
    built = {name: boards.build(name) for name in boards.BOARDS}
    for name, (_, sizes) in built.items():
        print(f"{name}: {boards.memory(sizes)}")
    failed, slow = 0, []
    for wrong in [try_call(), *(try_small(name) for name in boards.MEASURED), *(try_pulled(name, elf) for name, (elf, _) in built.items())]:
        for line in wrong:
            failed += 1
            print(line)
    with concurrent.futures.ThreadPoolExecutor(2) as pool:
        jobs = [pool.submit(try_case, name, elf, place) for name, (elf, _) in built.items() for place in cases()]
        for job in jobs:
            what, wrong, seconds = job.result()
            slow.append((seconds, what))
            for line in wrong:
                failed += 1
                print(f"{what}: {line}")
    for seconds, what in sorted(slow)[-5:]:
        print(f"{what}: {seconds:.1f} s")
    print(f"{len(jobs)} cases, {failed} wrong")
    return failed


try:
    sys.exit(1 if main() else 0)
except common.Wrong as wrong:
    print(wrong)
    sys.exit(1)
