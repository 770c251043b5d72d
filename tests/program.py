"""The program's loop, which no contract can speak of in full: program.py BOARD.

A line is answered before the next one is sent; bytes may come one at a time; after a write that failed nothing more is read or written; a read that
fails ends the input; a program that is stopped and continued reads on. What it reads and writes is seen from outside: by the other ends of its pipes,
and by where it has got to in a file that is its input."""
import fcntl
import os
import pathlib
import select
import signal
import subprocess
import sys
import tempfile
import time

board = os.path.abspath(sys.argv[1])
CASE = pathlib.Path("demo/card_b")
LINES = CASE.joinpath("stdin").read_bytes().splitlines(keepends=True)
ANSWERS = CASE.joinpath("stdout").read_bytes().splitlines(keepends=True)
CLOSING = b"answered 0 refused 0\ntotal 0,0,0\n"
SECONDS = 20


def must(holds, what):
    """The first thing that is wrong ends the test."""
    if not holds:
        sys.exit(what)


def start(stdin, stdout=subprocess.PIPE):
    return subprocess.Popen([board], cwd=CASE, stdin=stdin, stdout=stdout, bufsize=0)


def read_line(pipe):
    """A line, or what came of it within some seconds."""
    line, end = b"", time.monotonic() + SECONDS
    while not line.endswith(b"\n") and select.select([pipe], [], [], max(0, end - time.monotonic()))[0]:
        byte = os.read(pipe.fileno(), 1)
        if byte == b"":
            break
        line += byte
    return line


def line_by_line(pieces, what):
    """Each line is answered before the next is sent, however its bytes come."""
    process = start(subprocess.PIPE)
    for line, due in zip(LINES, ANSWERS):
        for piece in pieces(line):
            process.stdin.write(piece)
        answered = read_line(process.stdout)
        must(answered == due, f"{what}: {line!r} is answered by {answered!r}")
    process.stdin.close()
    must(process.stdout.read() == b"".join(ANSWERS[len(LINES):]), f"{what}: other closing lines")
    must(process.wait(SECONDS) == 0, f"{what}: another status")


def stopped_and_continued():
    process = start(subprocess.PIPE)
    process.stdin.write(LINES[0])
    must(read_line(process.stdout) == ANSWERS[0], "stopped: no answer before")
    for _ in range(3):
        process.send_signal(signal.SIGSTOP)
        time.sleep(0.05)
        process.send_signal(signal.SIGCONT)
        time.sleep(0.05)
    process.stdin.write(LINES[1])
    must(read_line(process.stdout) == ANSWERS[1], "stopped and continued: the input ended")
    process.stdin.close()
    process.wait(SECONDS)


def failed_write(out, what):
    """The input is a file of 900 lines, more than one piece: it is read no further than the piece whose answer could not be written. How far is
    told by the place in the file, which the program shares."""
    with tempfile.TemporaryFile() as file:
        file.write(b"012 2,1,2,1,2,1,2,1\n" * 900)
        file.seek(0)
        process = start(file, out)
        must(process.wait(SECONDS) == 0, f"{what}: another status")
        must(os.lseek(file.fileno(), 0, os.SEEK_CUR) == 4096, f"{what}: read on to byte {os.lseek(file.fileno(), 0, os.SEEK_CUR)}")


def full_device():
    """A full device takes nothing."""
    with open("/dev/full", "wb") as full:
        failed_write(full, "/dev/full")


def full_pipe():
    """A pipe that is full and does not wait: the first answer finds no room. The program ends, though its input is open, and has put nothing in."""
    from_program, to_pipe = os.pipe()
    fcntl.fcntl(to_pipe, fcntl.F_SETFL, os.O_NONBLOCK)
    put = 0
    try:
        while True:
            put += os.write(to_pipe, b"." * 4096)
    except BlockingIOError:
        pass
    process = start(subprocess.PIPE, to_pipe)
    os.close(to_pipe)
    process.stdin.write(LINES[0])
    try:
        process.wait(SECONDS)
    except subprocess.TimeoutExpired:
        process.kill()
        must(False, "a full pipe: the program reads on")
    left = b""
    while piece := os.read(from_program, 65536):
        left += piece
    must(left == b"." * put, f"a full pipe: {left[put:]!r} was written after a write that failed")
    process.stdin.close()


def failed_reads():
    directory = os.open(".", os.O_RDONLY)
    process = start(directory)
    must(process.stdout.read() == CLOSING and process.wait(SECONDS) == 0, "a directory as input: other closing lines")
    os.close(directory)
    process = subprocess.Popen(["/bin/sh", "-c", 'exec "$0" <&-', board], cwd=CASE, stdout=subprocess.PIPE)
    must(process.stdout.read() == CLOSING and process.wait(SECONDS) == 0, "a closed input: other closing lines")
    from_test, to_program = os.pipe()
    fcntl.fcntl(from_test, fcntl.F_SETFL, os.O_NONBLOCK)
    process = start(from_test)
    must(process.stdout.read() == CLOSING and process.wait(SECONDS) == 0, "an input that does not wait and has no bytes: other closing lines")
    os.close(to_program)
    os.close(from_test)
    from_test, to_program = os.pipe()
    fcntl.fcntl(from_test, fcntl.F_SETFL, os.O_NONBLOCK)
    os.write(to_program, LINES[0].rstrip(b"\n"))  # no line end: it is held when the next read fails
    process = start(from_test)
    printed = process.stdout.read()
    must(printed.startswith(ANSWERS[0]) and printed[len(ANSWERS[0]):].startswith(b"answered 1 refused 0\n") and process.wait(SECONDS) == 0,
         "a read that fails with a line held: it is not answered")
    os.close(to_program)
    os.close(from_test)


line_by_line(lambda line: [line], "a line at a time")
line_by_line(lambda line: [line[i:i + 1] for i in range(len(line))], "a byte at a time")
stopped_and_continued()
full_device()
full_pipe()
failed_reads()
print("the program's loop is as docs/FORMAT.md says")
