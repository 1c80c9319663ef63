"""Runs a program with a fault, by faults.c, which is built and loaded before the C library. It needs a C compiler."""
import os
import subprocess
import tempfile
import threading
from contextlib import contextmanager
from pathlib import Path
from typing import NamedTuple

TOP = Path(__file__).resolve().parent.parent
CLOSING = (b"ok", b"none", b"bad", b"refused")


class Run(NamedTuple):
    output: bytes
    told: bytes
    status: int
    requests: int
    reads: int
    writes: int
    met: int
    after: int


class Harness:
    """Counts the runs, those that met a fault, and those that went wrong."""

    def __init__(self, library):
        self.library = library
        self.runs = self.faults = 0
        self.wrong = []
        self.lock = threading.Lock()

    def run(self, command, given=b"", fault=None, most=None, first_read=False, marks=False):
        """Runs the command on these bytes, with this fault. Allocations are counted from the start, from the first read, or between
        the marks of its output."""
        out, into = os.pipe()
        names = {"LD_PRELOAD": self.library, "COUNTS": str(into)}
        if fault is not None:
            names["FAULT"] = fault
        if most is not None:
            names["MOST"] = str(most)
        if first_read:
            names["FROM"] = "read"
        if marks:
            names["MARKS"] = "output"
        # from a file, since the size of a read from a pipe depends on timing
        with tempfile.TemporaryFile() as source:
            source.write(given)
            source.seek(0)
            done = subprocess.run(command, stdin=source, capture_output=True, env=names, pass_fds=[into], timeout=60)
        os.close(into)
        with os.fdopen(out, "rb") as counts:
            run = Run(done.stdout, done.stderr, done.returncode, *map(int, counts.read().split()))
        with self.lock:
            self.runs += 1
            self.faults += run.met > 0
        return run

    def expect(self, holds, *what):
        if not holds:
            self.wrong.append(" ".join(map(str, what)))

    def verdict(self, line):
        """Prints the errors and the line, and returns the exit status."""
        for wrong in self.wrong[:20]:
            print(wrong)
        print(f"{line}, {len(self.wrong)} wrong")
        return 1 if self.wrong else 0


def replies_of(output):
    """The replies of an output, each with the line that closes it."""
    replies, reply = [], []
    for line in output.splitlines(keepends=True):
        reply.append(line)
        if line.rstrip(b"\n") in CLOSING:
            replies.append(b"".join(reply))
            reply = []
    return replies


@contextmanager
def harness(kind=Harness):
    with tempfile.TemporaryDirectory() as folder:
        library = os.path.join(folder, "faults.so")
        source = str(TOP / "faults" / "faults.c")
        subprocess.run(["cc", "-O2", "-Wall", "-shared", "-fPIC", "-o", library, source], check=True)
        yield kind(library)
