"""readers.py slow|ignored PROGRAM FOLDER: runs the program in the folder with its output on a pipe, and prints what arrives.

slow: the pipe does not wait, and the reader is slower than the program. ignored: the reader leaves after one line, and the
signal that tells a writer so is ignored."""
import fcntl
import os
import signal
import subprocess
import sys
import time


def slow(program, folder):
    """A small non-blocking pipe, read in pieces with pauses at first."""
    out, into = os.pipe()
    fcntl.fcntl(into, fcntl.F_SETFL, fcntl.fcntl(into, fcntl.F_GETFL) | os.O_NONBLOCK)
    child = subprocess.Popen([program], cwd=folder, stdout=into)
    os.close(into)
    pieces = 0
    while True:
        if pieces < 40:
            time.sleep(0.01)
        piece = os.read(out, 30000)
        if not piece:
            break
        pieces += 1
        sys.stdout.buffer.write(piece)
    return child.wait()


def ignored(program, folder):
    """The first line, then nobody reads."""
    signal.signal(signal.SIGPIPE, signal.SIG_IGN)
    child = subprocess.Popen([program], cwd=folder, stdout=subprocess.PIPE, restore_signals=False)
    line = b""
    while not line.endswith(b"\n"):
        line += os.read(child.stdout.fileno(), 1)
    child.stdout.close()
    sys.stdout.buffer.write(line)
    return child.wait()


if __name__ == "__main__":
    status = {"slow": slow, "ignored": ignored}[sys.argv[1]](sys.argv[2], sys.argv[3])
    sys.stdout.buffer.flush()
    sys.exit(status)
