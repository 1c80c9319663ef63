"""Runs programs, takes their times, and tells what else the machine did meanwhile. Every part of bench/RESULTS.md is measured by this."""
import datetime
import os
import shutil
import subprocess
import sys
import tempfile
import time
from collections import namedtuple

# The cost of a run of a program, or of the best of several: CPU seconds, peak resident memory, and the ratio of the slowest run's time to
# the fastest's.
Measure = namedtuple("Measure", "seconds kilobytes spread", defaults=(1,))

TICKS = os.sysconf("SC_CLK_TCK")


def fail(text):
    """Ends the run with a message."""
    sys.exit(f"bench: {text}")


def run(command, **more):
    """The lines that a command prints. The command must not fail."""
    told = subprocess.run(list(map(str, command)), capture_output=True, text=True, **more)
    if told.returncode != 0:
        fail(f"{' '.join(map(str, command))}: {(told.stderr or told.stdout).strip()}")
    return told.stdout.splitlines()


def once(command, source, sink):
    """One run from file to file. The seconds are user and system time, from `wait4`. The memory is from `time`, since a child of this
    program would start with the memory of this program."""
    with open(source, "rb") as given, open(sink, "wb") as taken, tempfile.NamedTemporaryFile("r") as told:
        command = ["/usr/bin/time", "-o", told.name, "-f", "%M", *map(str, command)]
        process = subprocess.Popen(command, stdin=given, stdout=taken)
        _, status, usage = os.wait4(process.pid, 0)
        process.returncode = os.waitstatus_to_exitcode(status)
        if status != 0:
            fail(f"{' '.join(command[5:])} failed on {source}")
        return Measure(usage.ru_utime + usage.ru_stime, int(told.read()))


def in_turns(runs, sides):
    """The results of each side in each round; in a round, the sides run in turns."""
    seen = {name: [] for name in sides}
    for _ in range(runs):
        for name, side in sides.items():
            seen[name].append(side())
    return seen


def least(seen):
    """The least time and the greatest memory of some runs."""
    seconds = [one.seconds for one in seen]
    return Measure(min(seconds), max(one.kilobytes for one in seen), max(seconds) / min(seconds))


def built(root, folder, name, uses):
    """The program bench/NAME.rattle, proved and built on a copy of the crates that it depends on, since it isn't one of the crates."""
    lines = [line for line in (root / "crates.txt").read_text().splitlines() if not line.startswith("#")]
    names = [line.split(":")[0] for line in lines]
    under = 1 + max(names.index(use) for use in uses)
    for crate in names[:under]:
        shutil.copytree(root / "crates" / crate, folder / "crates" / crate, dirs_exist_ok=True)
    (folder / "crates" / name / "src").mkdir(parents=True)
    shutil.copy(root / "bench" / f"{name}.rattle", folder / "crates" / name / "src/main.rt")
    (folder / "crates.txt").write_text("\n".join([*lines[:under], f"{name}: {' '.join(uses)}", ""]))
    run(["rt", "run"], cwd=folder / "crates" / name, input="\n\n")
    return folder / "crates" / name / "out" / name


def spent():
    """Seconds: wall time, busy time of all processors, time that the host took away (steal), CPU time of this program and its children."""
    with open("/proc/stat", encoding="ascii") as file:
        user, nice, system, _, _, irq, softirq, stolen = map(int, file.readline().split()[1:9])
    return time.monotonic(), (user + nice + system + irq + softirq) / TICKS, stolen / TICKS, sum(os.times()[:4])


class Others:
    """The load of other programs during a `with`, in processors: the busy time of all processors (/proc/stat), without that of this program
    and its children; and the time that the host took away (steal)."""

    def __enter__(self):
        self.begun = spent()
        return self

    def __exit__(self, *_):
        elapsed, busy, stolen, own = (now - then for now, then in zip(spent(), self.begun))
        self.work, self.stolen = max(busy - own, 0) / elapsed, stolen / elapsed

    def told(self, runs):
        """The last lines of a part: where and when it was measured, and what else ran."""
        text = f"Measured on {datetime.date.today():%-d %B %Y} on {machine()}: the least of {runs} runs. Meanwhile other work took "
        text += f"{self.work:.2f} of the {os.cpu_count()} processors, and the host withheld {self.stolen:.2f}."
        if self.work + self.stolen > 0.1:
            text += " That is more than a tenth of a processor, so rely on the ratios: the programs took turns."
        return text


def machine():
    """The model and number of processors, and the kit."""
    with open("/proc/cpuinfo", encoding="utf-8") as file:
        model = next((line.split(":")[1].strip() for line in file if line.startswith("model name")), "an unknown processor")
    kit = subprocess.run(["rt", "version"], capture_output=True, text=True).stdout.splitlines() if shutil.which("rt") else []
    return ", ".join([model, f"{os.cpu_count()} cores", *kit[:1]])
