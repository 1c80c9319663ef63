"""The state of a daemon, in a file that `recipes/service status` reads."""
import atexit
import collections
import contextlib
import os
import re
import sys
import threading
import time

from common import open_to_write

COMMITTED = re.compile(rb"^(?:set|unset) [^\n]*\nok$", re.MULTILINE)


class State:
    """Lines `NAME VALUE`, which replace the file's content each second. All that comes to standard error goes there as before, and its
    last line is the value `error`, after the time."""

    def __init__(self, path, **values):
        self.path, self.values = path, {"error": "-", **values}
        self.error = os.fdopen(os.dup(2), "wb", buffering=0)
        read, write = os.pipe()
        os.dup2(write, 2)
        os.close(write)
        self.copying = threading.Thread(target=self.copy, args=(os.fdopen(read, "rb"),), daemon=True)
        self.copying.start()
        threading.Thread(target=self.repeat, daemon=True).start()
        atexit.register(self.end)

    def copy(self, said):
        """Programs that write here go on, though nobody takes their lines."""
        for line in said:
            with contextlib.suppress(OSError):
                self.error.write(line)
            self.values["error"] = f"{time.time():.0f} {line.decode(errors='backslashreplace').strip()}"

    def repeat(self):
        while True:
            self.write()
            time.sleep(1)

    def write(self):
        try:
            with open_to_write(f"{self.path}.new", "w") as file:
                file.writelines(f"{name} {value}\n" for name, value in {**self.values, "time": f"{time.time():.0f}"}.items())
            os.replace(f"{self.path}.new", self.path)
        except OSError:
            pass  # `status` sees that the file is old

    def end(self):
        """Waits for the last line. Programs that were started here may still have standard error open."""
        sys.stderr.flush()
        os.dup2(self.error.fileno(), 2)
        self.copying.join(0.5)
        self.write()


class Progress:
    """How much of a log is carried out: after each `sync`, and after each reply with changes, the installer writes a batch."""

    def __init__(self, values):
        self.values, self.marks, self.lock = values, collections.deque(), threading.Lock()
        self.last, self.size, self.due, self.done, self.is_synced = b"", 0, 0, 0, False
        values["bytes"] = 0

    def gave(self, lines, size):
        """These lines of the log were given to the installer, and with them this many bytes."""
        with self.lock:
            if self.is_synced:
                self.due += len(COMMITTED.findall(self.last + lines))
            self.last, self.size = lines[lines.rfind(b"\n", 0, -1) + 1:] or self.last, size
            self.mark()

    def asked(self):
        """A `sync` was given to it."""
        with self.lock:
            self.due, self.is_synced = self.due + 1, True
            self.mark()

    def mark(self):
        self.marks.append((self.due, self.size))
        self.settle()

    def did(self):
        """A batch is carried out."""
        with self.lock:
            self.done += 1
            self.values["batches"] += 1
            self.settle()

    def settle(self):
        while self.is_synced and self.marks and self.marks[0][0] <= self.done:
            self.values["bytes"] = self.marks.popleft()[1]

    def see(self, size):
        """The log has this many bytes."""
        with self.lock:
            if self.is_synced and not self.marks and self.size == size:
                self.values["level"] = time.time()
