#!/usr/bin/env python3
"""robustness.py PROGRAM: the board's program on what a device may give it. A stream of 100 MB, lines of any length, an output that is closed or full,
signals, a slow pipe: the answers are right, it ends as it should, and its memory stays flat. Figures are printed."""
import os
import pathlib
import signal
import subprocess
import sys
import tempfile
import threading
import time

ROOT = pathlib.Path(__file__).resolve().parent.parent
PLACE = ROOT / "demo" / "tag"  # a card and lines
STREAM = 100_000_000  # bytes
GROWTH = 256  # kB that the memory may differ by between a short input and any other
wrong = []


def expect(what, condition):
    print(f"{'right' if condition else 'WRONG'}: {what}")
    if not condition:
        wrong.append(what)


def start(program, **more):
    return subprocess.Popen([program], cwd=PLACE, stdin=subprocess.PIPE, **{"stdout": subprocess.PIPE, **more})


def ended(process, limit=60):
    """The status of a process that ends by itself. One that does not end is killed."""
    killer = threading.Timer(limit, process.kill)
    killer.start()
    process.wait()
    killer.cancel()
    return process.returncode


def memory_of(process):
    """The most memory that a process had until now, in kB; 0 if it has ended."""
    try:
        found = [line.split()[1] for line in pathlib.Path(f"/proc/{process.pid}/status").read_text().splitlines() if line.startswith("VmHWM:")]
    except OSError:
        found = []
    return int(found[0]) if found else 0


def feed(process, blocks, most=None):
    """Writes blocks to a process and closes its input; the most memory that it had meanwhile goes to the list `most`. One that has ended takes no more."""
    try:
        for block in blocks:
            process.stdin.write(block)
            process.stdin.flush()
            if most is not None:
                most.append(memory_of(process))
        time.sleep(0.05)  # for what is still in the pipe
        if most is not None:
            most.append(memory_of(process))
        process.stdin.close()
    except BrokenPipeError:
        pass


def run(program, blocks):
    """What a program printed for blocks of input: its first bytes and how many there are, its status, its memory, and the seconds."""
    process, began, most = start(program), time.monotonic(), [0]
    feeder = threading.Thread(target=feed, args=(process, blocks, most))
    feeder.start()
    kept, size = b"", 0
    while block := process.stdout.read(1 << 16):
        size += len(block)
        kept = kept + block if len(kept) < 1 << 20 else kept
    feeder.join()
    return kept, size, ended(process), max(most), time.monotonic() - began


def main(program):
    program = str(pathlib.Path(program).resolve())
    lines, answers = (PLACE / "stdin").read_bytes(), (PLACE / "stdout").read_bytes()
    out, _, status, short, _ = run(program, [lines])
    expect(f"a short input is answered; memory {short} kB", out == answers and status == 0)

    # A stream of 100 MB, in two ways: long lines among short ones, since the thousandth line is the last that is answered; and one line.
    short_lines = lines.split(b"\n")[:3]
    long_line = b"1" * (STREAM // 500) + b"\n"
    few = run(program, [b"".join(short_lines[i % 3] + b"\n" + b"1" * 300 + b"\n" for i in range(499))])
    out, size, status, memory, seconds = run(program, (short_lines[i % 3] + b"\n" + long_line for i in range(499)))
    expect(f"a stream of {499 * len(long_line):,} bytes in {seconds:.1f} s, {size:,} bytes printed; memory {memory} kB", status == 0 and 0 < memory <= short + GROWTH)
    expect("it is answered as with shorter lines", (out, size) == few[:2])
    out, size, status, memory, seconds = run(program, [b"1" * 1_000_000] * 100 + [b"\n" + lines])
    expect(f"a line of 100,000,000 bytes in {seconds:.1f} s; memory {memory} kB", status == 0 and out.startswith(few[0].split(b"\n")[1]) and 0 < memory <= short + GROWTH)

    # One line of any length, and many short ones.
    for length in (1, 63, 64, 65, 4095, 4096, 4097, 65_535, 65_536, 10_000_000):
        out, _, status, memory, _ = run(program, [b"1" * length + b"\n" + lines])
        first = out.split(b"\n")[0]
        expect(f"a line of {length:,} bytes is answered by '{first.decode()[:40]}'; memory {memory} kB", status == 0 and first and 0 < memory <= short + GROWTH)
    out, _, status, _, _ = run(program, [b"\n" * 1_000_000])
    expect("a million empty lines are answered up to the thousandth", status == 0 and b"refused 22" in out)
    out, _, status, _, _ = run(program, [bytes(range(256)) * 4_000])
    expect("every byte, a million of them, is answered up to the thousandth line", status == 0 and b"refused 22" in out)

    # A slow pipe: the same answers, each before the next line is written.
    out, _, status, _, _ = run(program, (time.sleep(0.002) or lines[place:place + 1] for place in range(min(len(lines), 200))))
    whole = run(program, [lines[:200]])[0]
    expect("a slow pipe, byte by byte, gives the same answers", out == whole and status == 0)

    block = lines * (1_000_000 // len(lines))

    # A closed output: it ends, by the signal or by itself, and does not run on.
    for name, handler in (("ending it", signal.SIG_DFL), ("ignored", signal.SIG_IGN)):
        process = start(program, preexec_fn=lambda: signal.signal(signal.SIGPIPE, handler))
        process.stdout.close()
        feed(process, (block for _ in range(3)))
        status = ended(process, 20)
        expect(f"a closed output, SIGPIPE {name}: it ends, status {status}", status != -signal.SIGKILL)

    block = short_lines[0] + b"\n" + b"1" * 4_000 + b"\n"

    # Signals: stopped and continued in the middle of a stream, it gives the same answers; asked to end, it ends.
    process = start(program)
    feeder = threading.Thread(target=feed, args=(process, (block * 40 for _ in range(10))))
    feeder.start()
    said = process.stdout.read(1 << 16)
    for _ in range(20):
        os.kill(process.pid, signal.SIGSTOP)
        time.sleep(0.005)
        os.kill(process.pid, signal.SIGCONT)
        said += process.stdout.read(1 << 12)
    said += process.stdout.read()
    feeder.join()
    status = ended(process)
    plain = run(program, (block * 40 for _ in range(10)))
    expect("stopped and continued twenty times, it prints the same", status == 0 and len(said) == plain[1] and said[:len(plain[0])] == plain[0][:len(said)])
    for number in (signal.SIGTERM, signal.SIGINT, signal.SIGHUP):
        # Whoever runs the tests may ignore a signal, and a program inherits that.
        process = start(program, preexec_fn=lambda: signal.signal(number, signal.SIG_DFL))
        process.stdin.write(lines)
        process.stdin.flush()
        process.stdout.read1(1)
        process.send_signal(number)
        status = ended(process, 20)
        process.stdout.close()
        expect(f"{number.name} ends it", status == -number)
    sys.exit(1 if wrong else 0)


main(*sys.argv[1:])
