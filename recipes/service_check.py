"""The check of recipes/service: the daemons by the commands of their units, in a network namespace and a small file system."""
import contextlib
import errno
import fcntl
import os
import random
import re
import shutil
import signal
import subprocess
import sys
import tempfile
import threading
import time
from collections import Counter
from pathlib import Path

from common import FIB_KERNEL, HERE, PROGRAM, fault, is_number, needs, pass_over, refused, routes, same, tool
from live_check import wait_for

UNITS = ("lead", "keep", "mirror")
ALONE = "JOLMIDDA_ALONE"


def command(unit, folder, run):
    """The command of a unit, with the folders of the check."""
    line = re.search(r"^ExecStart=(.*)$", (HERE / f"jolmidda-{unit}.service").read_text(), re.MULTILINE)[1]
    line = line.replace("/var/lib/jolmidda", folder).replace("/run/jolmidda", run).replace("${TABLE}", "77")
    return re.sub(r"^jolmidda-", f"{HERE}/", line).split()


class Daemon(threading.Thread):
    """Starts a daemon, and starts it again a second after its end, as systemd does."""

    def __init__(self, unit, folder, run):
        super().__init__(daemon=True)
        self.command, self.said, self.is_ending, self.starts = command(unit, folder, run), open(f"{run}/said.{unit}", "ab"), False, 0
        self.process = None
        self.start()

    def run(self):
        while not self.is_ending:
            self.process = subprocess.Popen(self.command, stderr=self.said)
            self.starts += 1
            self.process.wait()
            time.sleep(1)

    def end(self):
        self.is_ending = True
        self.process.terminate()
        self.join()

    def processes(self):
        """Its own number, and those of the programs that it runs."""
        found = [self.process.pid]
        for pid in found:
            found += map(int, subprocess.run(["ps", "-o", "pid=", "--ppid", str(pid)], capture_output=True, text=True).stdout.split())
        return found

    def kill_one(self, draw, killed):
        pid = draw.choice(self.processes())
        try:
            name = Path(f"/proc/{pid}/comm").read_text().strip()
            os.kill(pid, signal.SIGKILL)
            killed[name] += 1
        except (FileNotFoundError, ProcessLookupError):
            pass


class Source(threading.Thread):
    """Appends commands to a file, which it locks as the recipes with a `feed` do. When the disk is full, it waits for room."""

    def __init__(self, path, draw):
        super().__init__(daemon=True)
        self.file, self.draw, self.is_ending, self.count, self.waits = open(path, "ab", buffering=0), draw, False, 0, 0
        fcntl.flock(self.file, fcntl.LOCK_EX | fcntl.LOCK_NB)
        self.start()

    def any_command(self):
        network = f"10.{self.draw.randrange(4)}.{self.draw.randrange(256)}.0/{self.draw.choice((12, 14, 16, 20, 22, 24))}"
        hop = self.draw.choice(("1", "2", "3", "4", "drop"))
        return f"del {network} {hop}\n" if self.draw.random() < 0.4 else f"add {network} {hop} {self.draw.randrange(90, 110)}\n"

    def run(self):
        with self.file:
            while not self.is_ending:
                count = self.draw.choice((1, 2, 50))
                self.append("".join(self.any_command() for _ in range(count)).encode())
                self.count += count
                time.sleep(0.1)

    def append(self, given):
        while given:
            try:
                given = given[os.write(self.file.fileno(), given):]
            except OSError as error:
                same("the error", error.errno, errno.ENOSPC)
                self.waits += 1
                time.sleep(0.1)

    def end(self):
        self.is_ending = True
        self.join()


def flat(given):
    return [line for line in routes("lead", given + "flat\n") if line.startswith("flat ")]


def await_leader(folder, what, seconds=120):
    """Waits until the kernel has the leader's hops, and the log and its copy have all replies."""
    commands = Path(folder, "commands").read_text()
    wanted, log = flat(commands), tool(PROGRAM, "lead", given=commands)
    end = time.monotonic() + seconds
    while True:
        listed = tool(FIB_KERNEL, "list", f"{folder}/hops", "77")
        is_kernel = flat(listed.replace("have ", "add ").replace("ok\n", "")) == wanted
        is_log = Path(folder, "log").exists() and Path(folder, "log").read_text() == log
        copy = subprocess.run([HERE / "mirror", "log", f"{folder}/parts/now"], capture_output=True, text=True).stdout
        if is_kernel and is_log and copy == log:
            return print(f"{what}: the kernel has the leader's hops, {len(wanted):,} blocks in {listed.count('have '):,} routes; the log "
                         f"and its copy have the replies to {commands.count(chr(10)):,} commands")
        if time.monotonic() > end:
            fault(f"{what}: kernel {is_kernel}, log {is_log}, copy {copy == log}")
        time.sleep(0.5)


def check_kills(folder, daemons, seconds):
    draw, killed = random.Random(1), Counter()
    source = Source(f"{folder}/commands", random.Random(2))
    end = time.monotonic() + seconds
    while time.monotonic() < end:
        time.sleep(draw.uniform(0.5, 6))
        draw.choice(list(daemons.values())).kill_one(draw, killed)
    source.end()
    await_leader(folder, f"{sum(killed.values())} kills in {seconds} s")
    print(f"killed: {dict(killed)}; starts: {({unit: daemon.starts for unit, daemon in daemons.items()})}")


def check_full(folder):
    source, filler = Source(f"{folder}/commands", random.Random(3)), Path(folder, "filler")
    with open(filler, "wb", buffering=0) as file:
        end = time.monotonic() + 15
        while time.monotonic() < end:
            try:
                file.write(b"0" * 4096)
            except OSError:
                time.sleep(0.05)
    filler.unlink()
    time.sleep(2)
    source.end()
    if not source.waits:
        fault("the disk was not full")
    await_leader(folder, f"a full disk for 15 s, {source.waits} writes of the source refused")


def metrics(run):
    return dict(line.rsplit(" ", 1) for line in tool(sys.argv[0], "metrics", run).splitlines())


def check_status(folder, run, daemons):
    """The last lines, the metrics, and a daemon that doesn't run. The daemons write their states each second."""
    level = {'jolmidda_lag_bytes{part="keep"}': "0", 'jolmidda_lag_seconds{part="keep"}': "0", 'jolmidda_rejected_total{part="lead"}': "0",
             'jolmidda_replies_total{part="lead"}': str(Path(folder, "commands").read_text().count("\n"))}
    level |= {f'jolmidda_up{{part="{unit}"}}': "1" for unit in UNITS}
    wait_for(f"{level}", lambda: metrics(run).items() >= level.items())
    print("refused:", refused(sys.argv[0], "lead", folder, "/none"))
    print(tool(sys.argv[0], "status", run), end="")
    daemons["keep"].end()
    same("the status of a stop", daemons["keep"].process.returncode, 143)
    with open(f"{folder}/commands", "a") as file:
        file.write("add 10.0.0.0/8 1\nnonsense\n")
    lost = {'jolmidda_up{part="keep"}': "0", 'jolmidda_up{part="lead"}': "1", 'jolmidda_rejected_total{part="lead"}': "1"}
    wait_for(f"{lost}", lambda: metrics(run).items() >= lost.items())
    done = subprocess.run([sys.argv[0], "status", run], capture_output=True, text=True)
    same("the status without an installer", [done.returncode, "installer, DOESN'T RUN" in done.stdout, "`bad`" in done.stdout], [1, True, True])
    same("the lag of an installer that doesn't run", float(metrics(run)['jolmidda_lag_seconds{part="keep"}']) > 4, True)


def check_other_commands(folder, run, daemons):
    """Shorter and other commands: a new log takes the old one's place, and the kernel follows."""
    daemons["lead"].end()
    same("the status of a stop", daemons["lead"].process.returncode, 143)
    Path(folder, "commands").write_text("add 10.0.0.0/8 1\nadd 10.0.0.0/9 2\n")
    daemons |= {unit: Daemon(unit, folder, run) for unit in ("lead", "keep")}
    await_leader(folder, "other commands")


def check_silenced(run):
    """A standard error that takes nothing ends neither the daemon nor a program of it, and the state has the last line."""
    code = "import os, sys, state; state.State(sys.argv[1]); sys.exit(any(os.system('exec echo line >&2') for _ in range(2)))"
    with open("/dev/full", "w") as full:
        done = subprocess.run([sys.executable, "-c", code, f"{run}/silenced"], env=os.environ | {"PYTHONPATH": str(HERE)}, stderr=full)
    same("without a standard error", [done.returncode, Path(run, "silenced").read_text().split()[2]], [0, "line"])


def check_links():
    """A link or a pipe in the place of a file that a daemon writes: nothing is written or deleted behind it."""
    with tempfile.TemporaryDirectory() as run:
        folder, other, kept = Path(run, "links"), Path(run, "mine"), Path(run, "others/kept")
        kept.mkdir(parents=True)
        other.write_text("ok\n")
        for unit, name, target in (("lead", "lead.lock", other), ("lead", "lead.lock", None), ("lead", "log", other),
                                   ("mirror", "parts", kept.parent), ("mirror", "parts/lock", other)):
            (folder / name).parent.mkdir(parents=True)
            (folder / "commands").write_text("add 10.0.0.0/8 1\n")
            if unit == "mirror":
                (folder / "log").write_text("")
            (folder / name).symlink_to(target) if target else os.mkfifo(folder / name)
            print("refused:", refused("timeout", "20", sys.argv[0], unit, str(folder), run).replace(run, "RUN"))
            shutil.rmtree(folder)
        same("what is behind the links", [other.read_text(), kept.is_dir()], ["ok\n", True])
        check_replaced(folder, other, run)


def check_replaced(folder, other, run):
    """A link in the place of a file that is written anew: the new file takes its place."""
    folder.mkdir()
    (folder / "commands").write_text("add 10.0.0.0/8 1\n")
    for path in (folder / "log.new", Path(run, "lead.new")):
        path.symlink_to(other)
    subprocess.run(["timeout", "2", sys.argv[0], "lead", folder, run], capture_output=True)
    same("what is behind the links, and the log", [other.read_text(), (folder / "log").read_text()],
         ["ok\n", tool(PROGRAM, "lead", given="add 10.0.0.0/8 1\n")])
    same("the state", Path(run, "lead").read_text().startswith("error "), True)


def check_units(folder):
    if not shutil.which("systemd-analyze"):
        return print("skipped the units: there is no systemd-analyze")
    for unit in UNITS:
        contents = (HERE / f"jolmidda-{unit}.service").read_text().replace("ExecStart=jolmidda-", f"ExecStart={HERE}/")
        Path(folder, f"jolmidda-{unit}.service").write_text(contents)
    paths = [f"{folder}/jolmidda-{unit}.service" for unit in UNITS]
    done = subprocess.run(["systemd-analyze", "verify", "--man=no", *paths], capture_output=True, text=True)
    said = [line for line in (done.stdout + done.stderr).splitlines() if "jolmidda" in line]
    same("systemd-analyze verify", [done.returncode, said], [0, []])
    return print("systemd-analyze verify accepts the units")


@contextlib.contextmanager
def small_disk():
    """A folder with a file system of its own."""
    with tempfile.TemporaryDirectory() as folder:
        tool("mount", "-t", "tmpfs", "-o", "size=6m", "none", folder)
        try:
            yield folder
        finally:
            tool("umount", "-l", folder)


def check(seconds="60"):
    needs("ip", "iproute2")
    if not is_number(seconds):
        fault(f"not a number of seconds: {seconds}")
    if os.geteuid():
        pass_over("a network namespace needs root")
    if ALONE not in os.environ:
        os.execvpe("unshare", ["unshare", "-mnpf", "--kill-child", "--mount-proc", sys.argv[0], "check", seconds], os.environ | {ALONE: "1"})
    with tempfile.TemporaryDirectory() as run, small_disk() as folder:
        for line in ("link set lo up", "link add lan type veth peer name far", "link set far up", "link set lan up",
                     "address add 192.0.2.254/24 dev lan"):
            tool("ip", *line.split())
        Path(folder, "hops").write_text("".join(f"{hop} via 192.0.2.{hop} dev lan\n" for hop in range(1, 5)))
        check_units(run)
        check_silenced(run)
        check_links()
        print("refused:", refused(sys.argv[0], "status", run))
        print("refused:", refused(sys.argv[0], "lead", "/none", run))
        daemons = {unit: Daemon(unit, folder, run) for unit in UNITS}
        try:
            check_kills(folder, daemons, int(seconds))
            check_full(folder)
            check_status(folder, run, daemons)
            check_other_commands(folder, run, daemons)
        finally:
            for daemon in daemons.values():
                daemon.end()
