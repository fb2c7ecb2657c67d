"""The digest program over pipes and sockets: single bytes, a read that fails after others, and reads and writes that a signal breaks off.

Usage: pipes.py PROGRAM MESSAGE LINES. MESSAGE is a file of a few hundred bytes, LINES its four lines. The first case that fails ends it.

The program handles no signal, and yet one breaks a call off: Linux gives EINTR where a process is stopped and continued while it waits in a
read or a write of a socket that has a timeout (signal(7)). The timeout here is an hour, and never runs out.
"""
import fcntl
import os
import signal
import socket
import struct
import subprocess
import sys
import termios
import time

PROGRAM, MESSAGE, LINES = sys.argv[1], open(sys.argv[2], "rb").read(), open(sys.argv[3], "rb").read()
HOUR = struct.pack("ll", 3600, 0)


def started(**streams):
    return subprocess.Popen([PROGRAM], stderr=subprocess.PIPE, **streams)


def wait_until(what, holds):
    deadline = time.monotonic() + 20
    while not holds():
        if time.monotonic() > deadline:
            sys.exit(f"luffasum: {what}: waited too long")
        time.sleep(0.002)


def ended(process):
    return process.poll() is not None


def waits(process):
    """Whether the program sleeps in a call: three looks in a row."""
    for _ in range(3):
        if open(f"/proc/{process.pid}/stat").read().rpartition(")")[2].split()[0] != "S":
            return False
        time.sleep(0.005)
    return True


def unread(sender):
    """The bytes that the other end of a socket hasn't read yet."""
    return struct.unpack("i", fcntl.ioctl(sender, termios.TIOCOUTQ, b"\0" * 4))[0]


def broken_off(process):
    """Stops the program while it waits in a call, and continues it."""
    if ended(process):
        return
    process.send_signal(signal.SIGSTOP)
    os.waitpid(process.pid, os.WUNTRACED)
    process.send_signal(signal.SIGCONT)


def hold(what, process, printed, expected):
    said = process.stderr.read()
    if process.wait() != 0:
        sys.exit(f"luffasum: {what}: exit status {process.returncode}")
    if said:
        sys.exit(f"luffasum: {what}: {said.decode().strip()}")
    if printed != expected:
        sys.exit(f"luffasum: {what}: {printed!r} is printed")


def single_bytes(what):
    reads, sends = os.pipe()
    process = started(stdin=reads, stdout=subprocess.PIPE)
    os.close(reads)
    for byte in MESSAGE:
        os.write(sends, bytes([byte]))
    os.close(sends)
    hold(what, process, process.stdout.read(), LINES)


def failed_later(what):
    """A pipe that doesn't wait: its second read fails, since the writer still holds it open."""
    reads, sends = os.pipe()
    os.write(sends, MESSAGE)
    os.set_blocking(reads, False)
    process = started(stdin=reads, stdout=subprocess.PIPE)
    hold(what, process, process.stdout.read(), b"")
    os.close(sends)
    os.close(reads)


def broken_reads(what):
    """A signal in the first read, in the next, and again in that one."""
    reads, sends = socket.socketpair()
    reads.setsockopt(socket.SOL_SOCKET, socket.SO_RCVTIMEO, HOUR)
    process = started(stdin=reads, stdout=subprocess.PIPE)
    reads.close()
    for piece in (b"", MESSAGE[:100], b"", MESSAGE[100:]):
        if ended(process):
            break
        sends.sendall(piece)
        wait_until(what, lambda: ended(process) or (unread(sends) == 0 and waits(process)))
        broken_off(process)
    wait_until(what, lambda: ended(process) or waits(process))
    sends.close()
    hold(what, process, process.stdout.read(), LINES)


def broken_write(what):
    """A signal in the write, to a socket that was full before: nothing has moved then, and the lines come whole."""
    takes, writes = socket.socketpair()
    writes.setsockopt(socket.SOL_SOCKET, socket.SO_SNDTIMEO, HOUR)
    os.set_blocking(writes.fileno(), False)
    before = 0
    try:
        while True:
            before += os.write(writes.fileno(), b"." * 4096)
    except BlockingIOError:
        pass
    os.set_blocking(writes.fileno(), True)
    reads, sends = os.pipe()
    os.write(sends, MESSAGE)
    os.close(sends)
    process = started(stdin=reads, stdout=writes.fileno())
    os.close(reads)
    writes.close()
    wait_until(what, lambda: ended(process) or waits(process))
    broken_off(process)
    wait_until(what, lambda: ended(process) or waits(process))
    printed = b""
    while part := takes.recv(65536):
        printed += part
    hold(what, process, printed[before:], LINES)


single_bytes("one byte at a time")
failed_later("a read that fails after others")
broken_reads("a signal in a read")
broken_write("a signal in a write")
