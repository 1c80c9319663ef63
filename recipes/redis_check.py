"""Runs a server, a sender and three receivers in a network namespace, and restarts each of them. `recipes/redis check` runs this."""
import os
import random
import signal
import subprocess
import tempfile
import time
from pathlib import Path

from common import Page, fault, namespace, same, text, tool
from live_check import Changes, Leader, inside, networks, wait_for

DRAWN = random.Random(1)
COPIES = ("copy", "copy2", "copy3")


class Machines:
    """The processes of all machines, by name."""

    def __init__(self, page, own):
        self.page, self.own, self.folder, self.commands, self.running = page, own, page.folder, {}, {}
        self.leader, self.changes, self.log = Leader(), Changes(networks(400)), Path(page.folder, "log")

    def start(self, name, command=None):
        self.commands.setdefault(name, command)
        with open(f"{self.folder}/{name}.said", "a") as said:
            command = [*inside(self.own), "bash", "-c", f"exec {self.commands[name]}"]
            self.running[name] = subprocess.Popen(command, stdout=said, stderr=said, **self.page.where())

    def stop(self, name):
        process = self.running.pop(name)
        process.send_signal(signal.SIGKILL)
        process.wait()

    def restart(self, name, away=0.5):
        self.stop(name)
        self.change(100)
        time.sleep(away)
        self.start(name)

    def change(self, count):
        """Commands whose replies come to the log, in pieces that end anywhere."""
        replies = []
        for _ in range(count):
            self.leader.give(next(self.changes))
            replies += self.leader.reply()
        rest = text(replies).encode()
        with open(self.log, "ab", buffering=0) as file:
            while rest:
                size = DRAWN.randrange(1, 2000)
                file.write(rest[:size])
                rest = rest[size:]

    def are_same(self, title):
        log = self.log.read_bytes()
        try:
            wait_for(title, lambda: all(Path(self.folder, copy).read_bytes() == log for copy in COPIES))
        finally:
            for name in self.running:
                if self.running[name].poll() is not None:
                    print(name, "ended:", Path(f"{self.folder}/{name}.said").read_text())
        print(f"{title}: {len(COPIES)} copies have the {len(log):,} bytes of the log")

    def flat(self):
        """Each follower of a copy has the leader's table."""
        self.leader.give("flat")
        expected = self.leader.reply()
        for copy in COPIES:
            told = tool(f"{self.folder}/bin/routes", "follow", given=Path(self.folder, copy).read_text()).splitlines()
            same(f"the table of {copy}", told, expected)
        print(f"{len(COPIES)} followers have the leader's flat table of {len(expected) - 1:,} blocks")

    def close(self):
        for name in list(self.running):
            self.stop(name)
        self.leader.close()


def check_page(machines, page):
    for name, line in zip(("server", "send", "copy"), page.text().splitlines()):
        if name == "send":
            machines.log.write_text("")
        machines.start(name, line.rstrip("& "))
    for copy in COPIES[1:]:
        machines.start(copy, machines.commands["copy"].replace(" copy", f" {copy}"))
    page.run()
    wait_for("the copies", lambda: all(Path(page.folder, copy).exists() for copy in COPIES))
    machines.are_same("the page's commands")
    page.gives(page.run("routes follow < copy"))
    page.end()
    for line in ("add 10.0.0.0/8 1", "add 10.0.0.0/9 2"):
        machines.leader.give(line)
        machines.leader.reply()


def check_ends(machines):
    """Each process is killed while the log grows."""
    for at in range(3):
        machines.change(100)
        for copy in COPIES[:2]:
            machines.restart(copy)
        machines.restart("send")
    machines.are_same("receivers and sender killed")
    machines.restart("copy", 3)
    machines.change(500)
    machines.are_same("a receiver away for a while")
    for _ in range(5):
        machines.stop("copy")
        size = DRAWN.randrange(machines.log.stat().st_size)
        os.truncate(f"{machines.folder}/copy", size)
        machines.change(20)
        machines.start("copy")
        machines.are_same(f"a copy cut off at {size:,} bytes")
    machines.restart("server", 2)
    machines.change(200)
    machines.are_same("the server killed and started again")
    machines.stop("server")
    for path in Path(machines.folder, "appendonlydir").iterdir():
        path.unlink()
    machines.change(200)
    machines.start("server")
    machines.are_same("the server without all it had")


def check_wrong(machines, page):
    url = "redis://:secret@192.0.2.254"
    Path(page.folder, "other").write_text("set 10.0.0.0/8 9\nok\n" * 10000)
    Path(page.folder, "short").write_text("")
    before = Path(page.folder, "other").read_bytes()
    inner = " ".join(inside(machines.own))
    for words in (f"send {url} routes other", f"receive {url} routes other", f"send {url} routes short", f"send {url} routes nosuch",
                  "send nonsense routes log", f"receive {url} routes nosuch/copy", f"receive {url} routes copy"):
        page.refuses(f"timeout 60 {inner} recipes/redis {words}")
    Path(page.folder, "empty").write_text("")
    Path(page.folder, "link").symlink_to("empty")
    page.refuses(f"timeout 20 {inner} recipes/redis receive {url} routes link")
    same("the file behind a link", Path(page.folder, "empty").read_text(), "")
    for name, new in (("cut", "truncate -s 10 log.{0}"), ("replaced", "cp log.{0} log.new; mv log.new log.{0}"), ("begun", "echo ok > log.{0}")):
        Path(page.folder, f"log.{name}").write_text("set 10.0.0.0/8 9\nok\n" * 100)
        machines.start(name, f"recipes/redis send {url} {name} log.{name}")
        asked = [*inside(machines.own), "redis-cli", "-h", "192.0.2.254", "-a", "secret", "--no-auth-warning", "xlen", name]
        wait_for("the sender", lambda: tool(*asked) == "1\n")
        tool("sh", "-c", new.format(name), cwd=page.folder)
        same(f"the status for {new}", machines.running.pop(name).wait(), 1)
        print("refused:", Path(page.folder, f"{name}.said").read_text().splitlines()[-1])
    same("the other log", Path(page.folder, "other").read_bytes(), before)


def measure(machines):
    """The time from a line of the log to the same line of a copy."""
    copy, found = Path(machines.folder, "copy"), []
    for _ in range(100):
        machines.leader.give(next(machines.changes))
        reply = text(machines.leader.reply()).encode()
        size = machines.log.stat().st_size + len(reply)
        begun = time.monotonic()
        with open(machines.log, "ab", buffering=0) as file:
            file.write(reply)
        while copy.stat().st_size < size:
            time.sleep(0.0002)
            if time.monotonic() - begun > 60:
                fault("a line did not come to the copy")
        found.append((time.monotonic() - begun) * 1000)
    found.sort()
    with open("/proc/loadavg") as file:
        load = file.read().split()[0]
    print(f"from a line of the log to the copy, {len(found)} times: median {found[49]:.1f} ms, 99th {found[98]:.1f} ms, "
          f"most {found[99]:.1f} ms; load {load} on {os.cpu_count()} processors")


def check():
    with tempfile.TemporaryDirectory() as folder, namespace("address add 192.0.2.254/24 dev lan") as own:
        page = Page(f"{folder}/page")
        machines = Machines(page, own)
        try:
            check_page(machines, page)
            check_ends(machines)
            check_wrong(machines, page)
            measure(machines)
            machines.are_same("all that was sent")
            machines.flat()
        finally:
            machines.close()
