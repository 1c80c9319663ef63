"""Drives a kernel in network namespaces by routes_fib and fib_kernel, and asks it between single operations: `recipes/live check`."""
import contextlib
import ctypes
import errno
import ipaddress
import os
import random
import re
import resource
import shutil
import signal
import socket
import struct
import subprocess
import sys
import tempfile
import threading
import time
from collections import Counter
from pathlib import Path
from typing import NamedTuple
from unittest import mock

import netlink
from common import FIB_KERNEL, INSTALLER, PROGRAM, Page, any_addresses, bird, fault, namespace, needs, refused, same, text, tool


def inside(own, *families):
    """The words that run a command in this namespace, without sockets of these families."""
    before = [sys.executable, __file__, *map(str, map(int, families)), "--"] if families else []
    return [*before, "nsenter", f"--net=/run/netns/{own}"]


def refuse_sockets(*families):
    """Refuses this process sockets of these families: seccomp(2), on x86-64."""
    load, is_equal, end, count = 0x20, 0x15, 0x06, len(families)
    steps = [(load, 0, 0, 0), (is_equal, 0, count + 1, 41), (load, 0, 0, 16),
             *((is_equal, count - at, 0, family) for at, family in enumerate(families)),
             (end, 0, 0, 0x7FFF0000), (end, 0, 0, 0x50000 | errno.EAFNOSUPPORT)]
    code = ctypes.create_string_buffer(b"".join(struct.pack("=HBBI", *step) for step in steps))
    program, library = struct.pack("@HP", len(steps), ctypes.addressof(code)), ctypes.CDLL(None)
    for words in ((38, 1, 0, 0, 0), (22, 2, program, 0, 0)):  # PR_SET_NO_NEW_PRIVS; PR_SET_SECCOMP, SECCOMP_MODE_FILTER
        same("prctl", library.prctl(*words), 0)


class Kernel:
    """The table 77 of a namespace, by `fib_kernel`, which carries out one operation after another."""

    def __init__(self, own, hops):
        self.own, self.hops = own, hops
        self.process = subprocess.Popen([*inside(own), FIB_KERNEL, "load", hops, "77"], stdin=subprocess.PIPE, stdout=subprocess.PIPE,
                                        text=True)

    def have(self):
        *have, end = tool(*inside(self.own), FIB_KERNEL, "list", self.hops, "77").splitlines()
        same("the end of a list", end, "ok")
        return have

    def carry_out(self, batch):
        carry_out(self.process, *batch)

    def close(self):
        self.process.stdin.close()
        same("the status of fib_kernel", self.process.wait(), 0)
        self.process.stdout.close()


def batches(file):
    """The batches of an installer, each once its `ok` has come."""
    batch = []
    for line in file:
        if line == "ok\n":
            yield batch
            batch = []
        else:
            batch.append(line[:-1])


class Asked:
    """The kernel of a namespace, asked by rtnetlink: the hop that it takes for an address, None where it drops or has no route."""

    def __init__(self, own):
        self.socket, self.count = socket_in(own), 0

    def ask(self, addresses):
        """The hops of these packed addresses."""
        found = []
        for at in range(0, len(addresses), 64):
            part = addresses[at:at + 64]
            for address in part:
                self.socket.send(question(address))
            found += [answer(self.socket.recv(8192)) for _ in part]
        self.count += len(addresses)
        return found


def socket_in(own):
    """A socket of this namespace. The thread is in its own one again then."""
    library = ctypes.CDLL(None, use_errno=True)
    with open("/proc/thread-self/ns/net") as home, open(f"/run/netns/{own}") as there:
        same("setns", library.setns(there.fileno(), 0), 0)
        made = socket.socket(socket.AF_NETLINK, socket.SOCK_RAW, socket.NETLINK_ROUTE)
        same("setns", library.setns(home.fileno(), 0), 0)
    made.bind((0, 0))
    return made


def question(address):
    """RTM_GETROUTE with the address that a packet goes to."""
    family, bits = (socket.AF_INET, 32) if len(address) == 4 else (socket.AF_INET6, 128)
    asked = struct.pack("=8BI", family, bits, 0, 0, 0, 0, 0, 0, 0) + struct.pack("=HH", 4 + len(address), 1) + address
    return struct.pack("=IHHII", 16 + len(asked), 26, 1, 1, 0) + asked


def answer(told):
    """The last byte of the gateway is the number of the hop here. An error, RTN_BLACKHOLE and the like are None."""
    length, kind = struct.unpack_from("=IH", told)
    if kind == 2 or told[23] != 1:
        return None
    at = 28
    while at + 4 <= length:
        size, name = struct.unpack_from("=HH", told, at)
        if name in (5, 18):  # RTA_GATEWAY, RTA_VIA
            return told[at + size - 1]
        at += size + 3 & ~3
    return None


def packed(address):
    return ipaddress.ip_address(address).packed


def edges(networks):
    """The first and the last address of each network, and the addresses beside it."""
    found = set()
    for network in map(ipaddress.ip_network, networks):
        first, last = int(network.network_address), int(network.broadcast_address)
        size = network.max_prefixlen // 8
        found |= {at.to_bytes(size, "big") for at in (first - 1, first, last, last + 1) if 0 <= at < 1 << 8 * size}
    return found


def usable(address):
    """The kernel has rules of its own on 0/8, 127/8, 224/3, ::/8 and ff00::/8."""
    return address[0] not in (0, 127) and address[0] >> 5 != 7


class Leader:
    """A leader, command by command."""

    def __init__(self):
        self.process = subprocess.Popen([PROGRAM, "lead"], stdin=subprocess.PIPE, stdout=subprocess.PIPE, text=True)

    def give(self, command):
        self.process.stdin.write(command + "\n")
        self.process.stdin.flush()

    def reply(self):
        lines = []
        while not lines or lines[-1] not in ("ok", "none", "bad", "refused"):
            lines.append(self.process.stdout.readline()[:-1])
        return lines

    def hops(self, addresses):
        """What `get` answers for these packed addresses."""
        found = []
        for at in range(0, len(addresses), 64):
            part = addresses[at:at + 64]
            for address in part:
                self.give(f"get {ipaddress.ip_address(address)}/{8 * len(address)}")
            for reply in (self.reply() for _ in part):
                hop = reply[0].split()[2] if reply[0].startswith("route ") else "drop"
                found.append(None if hop == "drop" else int(hop))
        return found

    def close(self):
        self.process.stdin.close()
        self.process.wait()


class Installer:
    """An installer, line by line."""

    def __init__(self, lines):
        self.process = subprocess.Popen([INSTALLER], stdin=subprocess.PIPE, stdout=subprocess.PIPE, text=True)
        self.give(*lines)

    def give(self, *lines):
        self.process.stdin.write(text(lines))
        self.process.stdin.flush()

    def batch(self):
        return next(batches(self.process.stdout), None)

    def close(self):
        self.process.stdin.close()
        same("operations without an end", [self.process.stdout.read(), self.process.wait()], ["", 0])


class Session:
    """A leader, an installer and a kernel, which is asked after each single operation."""

    def __init__(self, own, hops, points):
        self.kernel, self.asked = Kernel(own, hops), Asked(own)
        self.leader, self.log, self.points = Leader(), [], points
        self.counts, self.installer, self.told = Counter(), None, set()

    def start(self):
        self.have = self.kernel.have()
        self.installer = Installer([*self.have, *self.log])
        return self.sync()

    def sync(self):
        self.installer.give("sync")
        return self.installer.batch()

    def change(self, command):
        """The batch of a command, None where its reply changes nothing."""
        self.leader.give(command)
        reply = self.leader.reply()
        self.log += reply
        if self.installer:
            self.installer.give(*reply)
            if reply[-1] == "ok" and len(reply) > 1:
                return self.installer.batch()
        return None

    def carry_out(self, batch, most=None):
        """One operation at a time. How many addresses turned; none may turn twice, and in the end all have the leader's hops."""
        networks = [operation.split()[1] for operation in batch]
        points = list(self.points | {point for point in edges(networks) if usable(point)})
        first = last = self.asked.ask(points)
        turns = [0] * len(points)
        for operation in batch[:most]:
            self.kernel.carry_out([operation])
            now = self.asked.ask(points)
            turns = [count + (a != b) for count, a, b in zip(turns, last, now)]
            last = now
        self.counts.update(batches=1, operations=len(batch[:most]), turned=turns.count(1), twice=sum(count > 1 for count in turns))
        hops = self.leader.hops(points)
        if most is None:
            self.counts["wrong"] += sum(a != b for a, b in zip(last, hops))
            return turns.count(1)
        return sum(a not in (b, c) for a, b, c in zip(last, first, hops))

    def stop(self):
        self.installer.close()
        self.installer = None

    def close(self):
        self.leader.close()
        self.kernel.close()


DRAWN = random.Random(1)
HOPS = (1, 2, 3, 4)
LONG = 120  # seconds that a program has for a change, on a busy machine
MOST_MEMORY = 4096  # kB
MOST_TIME, MOST_TIME_BUSY = 10, 40  # us of the processor for an operation
LEAST_SINGLE, LEAST_LARGE = 50000, 100000  # operations a second, each in a batch of its own, and all in one batch


def networks(count):
    """Nested ones of both families, many with first or last addresses in common."""
    found = []
    for at in range(count):
        if at % 2:
            length = DRAWN.choice((8, 9, 10, 12, 14, 16, 16, 18, 20, 22, 24, 24, 28, 32))
            number, size = 20 << 24 | DRAWN.getrandbits(24) & 0xFF7FFF, 4
        else:
            length = DRAWN.choice((16, 20, 24, 28, 32, 32, 36, 40, 44, 48, 48, 56, 64, 128))
            number, size = 0x2A00 << 112 | DRAWN.getrandbits(112) & ~((1 << 60) - 1 << 40), 16
        found.append(str(ipaddress.ip_network((number.to_bytes(size, "big"), length), strict=False)))
    return sorted(set(found))


class Changes:
    """Random commands on these networks, which know what is stored."""

    def __init__(self, nets):
        self.nets, self.held = nets, {}

    def __next__(self):
        while True:
            net = DRAWN.choice(self.nets)
            of_net = self.held.setdefault(net, set())
            hop = DRAWN.choice((*HOPS, *HOPS, "drop"))
            if hop in of_net and DRAWN.random() < 0.7:
                of_net.remove(hop)
                return f"del {net} {hop}"
            if len(of_net) < 3:
                of_net.add(hop)
                return f"add {net} {hop} {DRAWN.choice((50, 100, 200))}"


def table_of(have):
    return {line.split()[1]: line.split()[2] for line in have}


def installed(table, batch):
    """A table after these operations."""
    for operation in batch:
        word, network, *hop = operation.split()
        if word == "install":
            table[network] = hop[0]
        else:
            del table[network]
    return table


RULES = [f"-{family} {what}" for family in (4, 6) for what in (
    "rule add lookup 77", "route replace blackhole default metric 4294967295 table 77")]


def check_single(own, hops):
    """Changes, restarts and a sync, one operation at a time."""
    nets = networks(120)
    points = {point for point in edges(nets) | set(map(packed, any_addresses(40))) if usable(point)}
    session, changes = Session(own, hops, points), Changes(nets)
    for _ in range(150):
        session.change(next(changes))
    old = [f"install {net} {DRAWN.choice((*HOPS, 'drop'))}" for net in DRAWN.sample(nets, len(nets) // 2)]
    session.kernel.carry_out(old)
    first = session.start()
    table = installed(table_of(session.have), first)
    turned = session.carry_out(first)
    same("the kernel's list", table_of(session.kernel.have()), table)
    print(f"{len(session.have)} routes were installed; the first `sync` took {len(first)} operations, {turned:,} addresses turned")
    seen = 0
    for at in range(1, 241):
        batch = session.change(next(changes))
        if batch is not None:
            installed(table, batch)
            session.carry_out(batch)
        if at % 80 == 0:
            again = session.sync()
            installed(table, again)
            seen += session.carry_out(again)
            same("the kernel's list", table_of(session.kernel.have()), table)
    same("addresses that a later `sync` turned", seen, 0)
    part_of_a_reply(session, changes, table)
    many_blocks(session, table)
    told(session, "changes, four more times `sync`, one amid a reply, and replies of more than 256 blocks")
    return session, changes, nets


def many_blocks(session, table):
    """Routes around many networks come and go, so hundreds of blocks change at once."""
    inner = [f"21.{DRAWN.randrange(256)}.{DRAWN.randrange(256)}.0/24" for _ in range(40)]
    inner += [f"2b00:{DRAWN.randrange(1 << 16):x}:{DRAWN.randrange(1 << 16):x}::/48" for _ in range(20)]
    around = ("add 21.0.0.0/8 3", "add 2b00::/16 3", "del 21.0.0.0/8 3", "del 2b00::/16 3")
    for command in (*(f"add {net} 1" for net in inner), *around):
        before = len(session.log)
        batch = session.change(command)
        if batch is not None:
            session.carry_out(batch)
            same("the kernel's list", table_of(session.kernel.have()), installed(table, batch))
        session.counts["most"] = max(session.counts["most"], len(session.log) - before - 1)
    if session.counts["most"] <= 256:
        fault("no reply has so many blocks")


def part_of_a_reply(session, changes, table):
    """A `sync` amid a reply: its changes wait until it is closed."""
    while True:
        session.leader.give(next(changes))
        reply = session.leader.reply()
        session.log += reply
        if len(reply) > 2 and reply[-1] == "ok":
            break
        session.installer.give(*reply)
        if len(reply) == 2:
            batch = session.installer.batch()
            installed(table, batch)
            session.carry_out(batch)
    before = session.asked.ask(list(session.points))
    session.installer.give(*reply[:-2])
    batch = session.sync()
    installed(table, batch)
    session.kernel.carry_out(batch)
    same("hops amid a reply", session.asked.ask(list(session.points)), before)
    session.installer.give(*reply[-2:])
    batch = session.installer.batch()
    session.carry_out(batch)
    same("the kernel's list", table_of(session.kernel.have()), installed(table, batch))


def told(session, what):
    counts = session.counts
    print(f"{what}: {counts['operations']:,} operations in {counts['batches']:,} batches, one at a time; {session.asked.count:,} "
          f"answers of the kernel, {counts['turned']:,} addresses turned once in a batch, {counts['twice']} more often, "
          f"{counts['wrong']} had another hop than `get` in the end")
    same("addresses that turned twice, and that were wrong", [counts["twice"], counts["wrong"]], [0, 0])


def check_restarts(session, changes):
    """A batch is cut off, and a link goes down, which takes routes out of the kernel and tells of none."""
    kernel, ip = session.kernel, ("ip", "-n", session.kernel.own)
    session.stop()
    for _ in range(150):
        session.change(next(changes))
    batch = session.start()
    odd = session.carry_out(batch, len(batch) * 2 // 5)
    session.stop()
    again = session.start()
    session.carry_out(again)
    same("a hop that is neither the old one nor the new one", odd, 0)
    print(f"cut off after {len(batch) * 2 // 5} of {len(batch)} operations; the restart took {len(again)}")
    session.stop()
    before = len(kernel.have())
    tool(*ip, "link", "set", "lan", "down")
    down = len(kernel.have())
    tool(*ip, "link", "set", "lan", "up")
    up = session.start()
    session.carry_out(up)
    print(f"a link went down, and of {before} routes {down} stayed; once it was up again the restart took {len(up)} operations")
    told(session, "with both restarts")
    session.stop()


class Watch(threading.Thread):
    """Asks these addresses over and over, and keeps the hops of each in order."""

    def __init__(self, own, points):
        super().__init__(daemon=True)
        self.asked, self.points, self.ended = Asked(own), points, threading.Event()
        self.seen, self.rounds = [[] for _ in points], 0

    def run(self):
        is_last = False
        while not is_last:
            is_last = self.ended.is_set()
            for seen, hop in zip(self.seen, self.asked.ask(self.points)):
                if not seen or seen[-1] != hop:
                    seen.append(hop)
            self.rounds += 1

    def end(self):
        self.ended.set()
        self.join()


def is_part(part, whole):
    """Whether these are some of the others, in their order."""
    rest = iter(whole)
    return all(one in rest for one in part)


@contextlib.contextmanager
def kept(own, hops, log, folder, *families):
    """`keep`, in the background, once its first `sync` is carried out. Its lines on standard error are printed in the end."""
    said = Path(folder, "said")
    with open(said, "w") as file:
        process = subprocess.Popen([*inside(own, *families), sys.argv[0], "keep", hops, "77", log], stderr=file)
        try:
            wait_for("the first sync", lambda: "first `sync`" in said.read_text())
            yield process
        finally:
            process.terminate()
            process.wait()
    for line in said.read_text().splitlines():
        if "first `sync`" not in line and not line.endswith("ended by a signal"):
            print(f"said: {line}")


def wait_for(what, holds, seconds=LONG):
    for _ in range(10 * seconds):
        if holds():
            return
        time.sleep(0.1)
    fault(f"waited for {what}")


def check_kept(own, hops, nets, folder):
    """The whole chain at full speed, the kernel asked meanwhile; a restart, a link that goes down, and `sync` on demand."""
    log, changes = f"{folder}/log", Changes(nets)
    Path(log).write_text("")
    points = [point for point in edges(nets) if usable(point)][:300]
    leader, file = Leader(), open(log, "a")
    states = [[None] for _ in points]

    def change():
        leader.give(next(changes))
        file.write(text(leader.reply()))
        file.flush()
        for state, hop in zip(states, leader.hops(points)):
            if state[-1] != hop:
                state.append(hop)

    asked = Asked(own)
    with kept(own, hops, log, folder) as process:
        wait_for("an empty table", lambda: asked.ask(points) == [None] * len(points))
        watch = Watch(own, points)
        watch.start()
        for at in range(300):
            change()
            if at % 100 == 99:
                process.send_signal(signal.SIGHUP)
        wait_for("the leader's hops", lambda: asked.ask(points) == leader.hops(points))
        watch.end()
        wrong = [found for found in zip(watch.seen, states) if not is_part(*found)]
        same("hops that the leader did not tell in this order", wrong[:3], [])
        print(f"`keep` carried 300 commands out; meanwhile {len(points)} addresses were asked {watch.rounds} times each, and had "
              f"{sum(map(len, watch.seen)):,} hops one after another, of the {sum(map(len, states)):,} that the leader told, in its order")
        tool("ip", "-n", own, "link", "set", "lan", "down")
        change()
        tool("ip", "-n", own, "link", "set", "lan", "up")
        wait_for("the leader's hops after a link went down", lambda: asked.ask(points) == leader.hops(points))
        process.kill()
        for _ in range(50):
            change()
    with kept(own, hops, log, folder):
        wait_for("the leader's hops after a kill", lambda: asked.ask(points) == leader.hops(points))
    print("after a link went down and up, and after `keep` was killed and begun again, the kernel had the leader's hops")
    file.close()
    leader.close()


@contextlib.contextmanager
def background(page):
    """The next block of the page, whose processes go on until the end."""
    command = ["bash", "-euo", "pipefail", "-c", page.text()]
    shell = subprocess.Popen(command, start_new_session=True, stdout=subprocess.DEVNULL, stderr=subprocess.DEVNULL, **page.where())
    try:
        yield shell
    finally:
        os.killpg(shell.pid, signal.SIGTERM)
        shell.wait()


def show(page):
    return "".join(f"{line.strip()}\n" for line in page.run("ip route show table 77 2>/dev/null || true").splitlines())


def shows(page, wanted=None):
    """The kernel's table is the next block, or this, soon."""
    wanted = wanted or page.text()
    wait_for(f"the table {wanted}, and there is {show(page)}", lambda: show(page) == wanted)


START = 'log "/dev/null" all;\nrouter id 192.0.2.254;\nprotocol device { }\n'
STATIC = "protocol static {} {{ ipv4 {{ preference {}; }}; route {}; }}\n"
WEST = STATIC.format("west", 100, "198.51.100.0/24 via 192.0.2.2")
EAST = STATIC.format("east", 200, "198.51.100.0/24 via 192.0.2.1")


@contextlib.contextmanager
def page_of(folder, own, control):
    page = Page(f"{folder}/page", ip=f'{{}} -n {own} "$@"', birdc=f'{{}} -s "{control}" "$@"',
                fib_kernel=" ".join([*inside(own), FIB_KERNEL, '"$@"']))
    os.symlink(shutil.which(INSTALLER), f"{page.folder}/bin/routes_fib")
    before = os.environ.get("FIB_KERNEL")
    os.environ["FIB_KERNEL"] = f"{page.folder}/bin/fib_kernel"
    try:
        yield page
    finally:
        del os.environ["FIB_KERNEL"]
        os.environ |= {"FIB_KERNEL": before} if before else {}


def check_page(folder):
    """The page's example, commands from BIRD, a leader's restart, and the way back."""
    lines = ("address add 192.0.2.254/24 dev lan", "address add 2001:db8:5::254/64 dev lan nodad",
             "route add default via 192.0.2.1", "route add default via 2001:db8:5::1")
    with namespace(*lines) as own, bird(folder, START + WEST + EAST, *inside(own)) as control, page_of(folder, own, control) as page:
        page.text("hops")
        page.text("commands")
        with background(page), contextlib.ExitStack() as others:
            wait_for("the log", lambda: page.run("cat log 2>/dev/null || true").count("ok\n") == 3)
            others.enter_context(background(page))
            shows(page)
            check_rules(page, own)
            page.run()
            shows(page)
            page.gives(page.run())
            check_bird(folder, page, control)
            restart = others.enter_context(background(page))
            check_restart(page, restart)
            check_back(page)
        page.end()


def check_restart(page, restart):
    """The log has the whole history again, and the kernel the same table; then one more command."""
    same("the status of the restart", restart.wait(), 0)
    page.run("echo 'add 10.192.0.0/10 1 200' >> commands")
    wait_for("the command after a restart", lambda: way_out(page, "10.192.0.1").endswith("via 192.0.2.1 dev lan"))


def check_back(page):
    """The kernel has its own rules alone, and table 77 is empty and stays so."""
    page.run()
    same("the rules", page.run("ip rule | grep -c .; ip -6 rule | grep -c .").split(), ["3", "2"])
    wait_for("the end of `keep`", lambda: not is_running(int(page.run("cat keep.pid"))))
    same("the table", page.run("for six in '' -6; do ip $six route show table 77 2> /dev/null || true; done"), "")
    print("the page: commands from a file and from BIRD, a leader's restart, and the way back")


def way_out(page, address, *how):
    done = subprocess.run(["bash", "-c", f"ip route get {address} {' '.join(how)}"], capture_output=True, text=True, **page.where())
    words = done.stdout.split()
    return done.stderr.strip() or " ".join(words[words.index("dev") - 2 * ("via" in words):words.index("dev") + 2])


def check_rules(page, own):
    """Connected networks stay reachable when the page's rules come, and the leader's routes are used."""
    tool(*inside(own), "sysctl", "-q", "-w", "net.ipv4.ip_forward=1")
    page.run()
    for address, expected in (("192.0.2.7", "dev lan"), ("2001:db8:5::7", "dev lan"), ("10.64.0.1", "via 192.0.2.1 dev lan"),
                              ("10.1.0.1", "via 192.0.2.2 dev lan")):
        found = way_out(page, address)
        if not found.endswith(expected):
            fault(f"{address}: {found}, and not {expected}")
    same("an address without a hop", "Invalid argument" in way_out(page, "198.51.100.1"), True)
    page.run("ip rule del pref 101; ip rule add pref 101 iif lan lookup 77")
    same("the machine's own packets", way_out(page, "198.51.100.1"), "via 192.0.2.1 dev lan")
    same("forwarded packets", "Invalid argument" in way_out(page, "198.51.100.1", "from 192.0.2.7 iif lan"), True)
    page.run("ip route del default; ip -6 route del default; ip rule del pref 101; ip rule add pref 101 lookup 77")


def check_bird(folder, page, control):
    """A route of BIRD's comes, and the next takes over."""
    before, of_bird = show(page), "198.51.100.0/24 via 192.0.2.{} dev lan proto 77\n"
    check_append(folder, page.blocks[0].partition("until birdc")[0])
    with background(page):
        shows(page, before + of_bird.format(1))
        Path(folder, "bird.conf").write_text(START + WEST)
        tool("birdc", "-s", control, "configure")
        shows(page, before + of_bird.format(2))


def check_append(folder, function):
    """The page's `append` writes all lines to a disk that was full within one of them. The leader rejects what was cut off."""
    lines, place = text(f"add 10.0.{at}.0/24 12 100" for at in range(200)), Path(folder, "full")
    place.mkdir()
    Path(folder, "lines").write_text(lines)
    script = f"""mount -t tmpfs -o size=16k none "{place}"; cd "{place}"; head -c 12288 /dev/zero > filler; touch commands
        (sleep 2; rm filler) & {function}
        append "{folder}/lines"; cat commands"""
    cut, end, whole = tool("unshare", "-rm", "bash", "-euc", script).partition(" cut\n")
    same("lines on a full disk", [lines.startswith(cut), len(cut), end, whole], [True, 4096, " cut\n", lines])


LAN = ("address add 192.0.2.254/24 dev lan", "rule add pref 100 lookup main suppress_prefixlength 0", "rule add pref 101 lookup 77")


def put_log(log, *changes):
    """Adds a reply with these changes to a log."""
    with open(log, "a") as file:
        file.write(text([*changes, "ok"]))


class Grow(threading.Thread):
    """Adds a reply to a log every 0.3 s."""

    def __init__(self, log):
        super().__init__(daemon=True)
        self.log, self.is_ending = log, False
        self.start()

    def run(self):
        at = 0
        while not self.is_ending:
            put_log(self.log, f"set 10.200.{at % 256}.0/24 1")
            at += 1
            time.sleep(0.3)

    def end(self):
        self.is_ending = True
        self.join()


class Small:
    """A namespace, in which `keep` follows a log."""

    def __init__(self, own, folder, keep):
        self.own, self.log, self.hops, self.keep, self.asked = own, f"{folder}/log", f"{folder}/hops", keep, Asked(own)
        self.said = Path(folder, "said")

    def ip(self, line):
        tool("ip", "-n", self.own, *line.split())

    def starts(self):
        return self.said.read_text().count("it begins again")

    def syncs(self):
        return self.said.read_text().count("first `sync`")

    def end_one(self, at, how=signal.SIGKILL):
        """Ends one of the programs: `routes_fib`, `fib_kernel` or `tail`. Then `keep` pauses."""
        before = self.starts()
        os.kill(children(self.keep.pid)[at], how)
        wait_for("the end of the programs", lambda: self.starts() > before)

    def hops_of(self, *addresses):
        return self.asked.ask([packed(address) for address in addresses])

    def wait(self, **hops):
        """Until 10.N.0.1 has this hop for each word _N. 0 is none."""
        addresses = [f"10.{name[1:]}.0.1" for name in hops]
        wait_for(f"{hops}", lambda: [hop or 0 for hop in self.hops_of(*addresses)] == [*hops.values()])


@contextlib.contextmanager
def small(folder, *lines, families=(), log=(), hops=("1 via 192.0.2.1 dev lan", "2 via 192.0.2.2 dev lan", "3 via 203.0.113.3 dev lan")):
    """These lines for `ip`, these changes in the log."""
    with namespace(*LAN, *lines) as own, tempfile.TemporaryDirectory(dir=folder) as place:
        Path(place, "hops").write_text(text(hops))
        put_log(f"{place}/log", *log)
        with kept(own, f"{place}/hops", f"{place}/log", place, *families) as process:
            yield Small(own, place, process)


def check_refused(folder):
    """a next hop that the kernel refuses stops no other route, and is used once it is reachable, though no event and no line comes"""
    good = {f"_{at}": 2 for at in range(1, 11)}
    with small(folder, log=("set 10.200.0.0/16 3", *(f"set 10.{name[1:]}.0.0/16 2" for name in good))) as chain:
        chain.wait(_200=0, **good)
        line = "install 10.200.0.0/16 3 (via 203.0.113.3 dev lan): Nexthop has invalid gateway: Network is unreachable (ENETUNREACH)"
        same("the refused install", line in chain.said.read_text(), True)
        chain.ip("route add 203.0.113.3 dev lan")
        chain.wait(_200=3)
        put_log(chain.log, "set 10.201.0.0/16 9", "set 10.202.0.0/16 1")
        chain.wait(_201=0, _202=1)
        with open(chain.hops, "a") as file:
            file.write("9 via 192.0.2.9 dev lan\n")
        chain.wait(_201=9)


def check_silent(folder):
    """after the end of one of its programs `keep` begins again, though the log is silent; after a kill of `keep` none is left"""
    with small(folder, log=("set 10.1.0.0/16 1",)) as chain:
        for at, how in ((0, signal.SIGKILL), (1, signal.SIGKILL), (2, signal.SIGKILL), (1, signal.SIGTERM)):
            wait_for("the first `sync`", lambda: chain.syncs() > chain.starts())
            chain.wait(_1=1)
            before = children(chain.keep.pid)
            chain.end_one(at, how)
            wait_for("three other programs", lambda: len(set(children(chain.keep.pid)) - set(before)) == 3)
        chain.wait(_1=1)
        left = children(chain.keep.pid)
        chain.keep.kill()
        wait_for("the end of the programs", lambda: not any(map(is_running, left)))


def children(pid):
    return [int(child) for child in Path(f"/proc/{pid}/task/{pid}/children").read_text().split()]


def is_running(pid):
    with contextlib.suppress(FileNotFoundError, ProcessLookupError):
        return Path(f"/proc/{pid}/stat").read_text().rpartition(")")[2].split()[0] != "Z"
    return False


def check_events(folder):
    """each event after which the kernel has lost routes without notice, or another program has changed the table"""
    nexthop = "nexthop replace id 2 via 192.0.2.2 dev lan"
    with small(folder, nexthop, hops=("1 via 192.0.2.1 dev lan", "2 nhid 2"), log=("set 10.1.0.0/16 1", "set 10.2.0.0/16 2")) as chain:
        for lines in (("address del 192.0.2.254/24 dev lan", "address add 192.0.2.254/24 dev lan"),
                      ("nexthop del id 2", nexthop), ("link set lan down", "link set lan up", nexthop),
                      ("link set far down", "link set far up", nexthop), ("route del 10.1.0.0/16 table 77",),
                      ("route replace 10.1.0.0/16 via 192.0.2.2 dev lan table 77 proto 77",)):
            chain.wait(_1=1, _2=2)
            before = chain.starts()
            for line in lines:
                chain.ip(line)
            wait_for(f"a new start after {lines[0]}", lambda: chain.starts() > before)
            chain.wait(_1=1, _2=2)


def check_shorter(folder):
    """a leader's restart while `keep` runs or pauses: the log is emptied, or another file takes its name; only what differs turns"""
    log = [f"set 10.{at}.0.0/16 {1 + at % 2}" for at in range(50)]
    addresses = [f"10.{at}.0.1" for at in range(50)]
    with small(folder, log=log) as chain:
        wait_for("all routes", lambda: None not in chain.hops_of(*addresses))
        for count, is_new, is_pause in ((49, False, False), (48, True, False), (47, True, True)):
            watch = Watch(chain.own, list(map(packed, addresses)))
            watch.start()
            wait_for("a round", lambda: watch.rounds)
            if is_pause:
                chain.end_one(1)
            if is_new:
                os.rename(chain.log, f"{chain.log}.old")
            Path(chain.log).write_text("")
            for at in range(0, count, 2):
                put_log(chain.log, *log[at:min(at + 2, count)])
                time.sleep(0.1)
            expected = [1 + at % 2 if at < count else None for at in range(50)]
            wait_for("the new table", lambda: chain.hops_of(*addresses) == expected)
            watch.end()
            same("addresses that turned", [len(seen) > 1 for seen in watch.seen], [at == count for at in range(50)])


def check_busy(folder):
    """after a new start the first `sync` comes soon, though the log never rests"""
    with small(folder, log=("set 10.1.0.0/16 1",)) as chain:
        grow = Grow(chain.log)
        for at in range(3):
            syncs = chain.syncs()
            chain.end_one(at)
            wait_for("the first `sync` of a new start", lambda: chain.syncs() > syncs)
        grow.end()


def check_polling(folder):
    """where no more inotify instances are left, `tail` looks at the log each second, and `keep` goes on"""
    tail = Path(folder, "tools", "tail")
    tail.parent.mkdir()
    tail.write_text("#!/bin/sh\necho 'tail: inotify cannot be used, reverting to polling: Too many open files' >&2\n"
                    f'exec {shutil.which("tail")} ---disable-inotify "$@"\n')
    tail.chmod(0o755)
    with mock.patch.dict(os.environ, PATH=f"{tail.parent}:{os.environ['PATH']}"), small(folder, log=("set 10.1.0.0/16 1",)) as chain:
        put_log(chain.log, "set 10.2.0.0/16 1")
        chain.wait(_1=1, _2=1)
        same("new starts, and lines of `tail`", [chain.starts(), chain.said.read_text().count("inotify")], [0, 1])


def check_families(folder):
    """a family without the table, that is switched off, or without sockets does not stop the other one"""
    with small(folder, families=(socket.AF_INET6,), log=("set 10.1.0.0/16 1",)) as chain:
        chain.wait(_1=1)
        tool(*inside(chain.own), "sysctl", "-q", "-w", "net.ipv6.conf.all.disable_ipv6=1")
        put_log(chain.log, "set 10.2.0.0/16 1")
        chain.wait(_2=1)


def check_sandbox(folder):
    """a sandbox that refuses all sockets but those of netlink, as the unit does"""
    Path(folder, "way").write_text("1 via 192.0.2.1 dev lan\n")
    with namespace(*LAN) as own:
        for mode, given, wanted in (("load", "install 10.1.0.0/16 1\ninstall 2001:db8::/32 drop\nok\n", "ok\n"),
                                    ("list", "", "have 10.1.0.0/16 1\nhave 2001:db8::/32 drop\nok\n")):
            command = [*inside(own, socket.AF_UNIX, socket.AF_INET, socket.AF_INET6), FIB_KERNEL, mode, f"{folder}/way", "77"]
            done = subprocess.run(command, input=given, capture_output=True, text=True)
            same(f"`{mode}` with sockets of netlink alone", [done.returncode, done.stdout, done.stderr], [0, wanted, ""])


def check_options(folder):
    """default routes, a table above 255, and routes of another protocol"""
    hops = f"{folder}/way"
    Path(hops).write_text("1 via 192.0.2.1 dev lan\n")
    have = "have 0.0.0.0/0 drop\nhave 10.1.0.0/16 1\nhave 2001:db8::/32 drop\nhave ::/0 drop\nok\n"
    with namespace(*LAN) as own:
        command = [*inside(own), FIB_KERNEL]
        for words, given, wanted in (("load -p 50", have.replace("have", "install"), "ok\n"), ("list -p 50", "", have),
                                     ("list -p 51", "", "ok\n"), ("load -p 51", "remove 10.1.0.0/16\nok\n", "ok\n"),
                                     ("list -p 50", "", have)):
            same(words, tool(*command, *words.split(), hops, "1000", given=given), wanted)
        told = tool("ip", "-n", own, "route", "show", "10.1.0.0/16", "table", "1000").strip()
        same("the route", told, "10.1.0.0/16 via 192.0.2.1 dev lan proto 50")


def check_tries(folder):
    """refused installs are tried again with the hop that came last, but not after a removal or another install, and not with `-r 0`"""
    hops = f"{folder}/way"
    Path(hops).write_text("1 via 192.0.2.1 dev lan\n2 via 203.0.113.2 dev lan\n3 via 203.0.113.3 dev lan\n")
    given = ["install 10.1.0.0/16 2", "install 10.2.0.0/16 2", "install 10.3.0.0/16 2", "install 10.4.0.0/16 2",
             "remove 10.2.0.0/16", "install 10.3.0.0/16 1", "install 10.4.0.0/16 3"]
    with namespace(*LAN) as own:
        command = [*inside(own), FIB_KERNEL]
        tries = [subprocess.Popen([*command, "load", "-r", pause, hops, table], stdin=subprocess.PIPE, stdout=subprocess.PIPE,
                                  stderr=subprocess.DEVNULL, text=True) for pause, table in (("0", "77"), ("1", "78"))]
        for process in tries:
            carry_out(process, *given)
        tool("ip", "-n", own, "route", "add", "203.0.113.0/24", "dev", "lan")
        wait_for("another try", lambda: "10.4.0.0/16 3" in tool(*command, "list", hops, "78"))
        for table, (one, four) in (("77", ("drop", "drop")), ("78", ("2", "3"))):
            same("the list", tool(*command, "list", hops, table), f"have 10.1.0.0/16 {one}\nhave 10.3.0.0/16 1\nhave 10.4.0.0/16 {four}\nok\n")
        same("the end of both", [(process.communicate()[0], process.returncode) for process in tries], [("", 1), ("", 0)])


def check_permission(folder):
    """without the permission `keep` ends at once, though there is nothing to change"""
    Path(folder, "none").write_text("")
    with namespace() as own:
        words = ["setpriv", "--bounding-set", "-all", "--inh-caps", "-all", sys.argv[0], "keep", f"{folder}/none", "77", f"{folder}/none"]
        done = subprocess.run([*inside(own), *words], capture_output=True, text=True, timeout=LONG)
        same("`keep` without the permission", [done.returncode, "CAP_NET_ADMIN" in done.stderr], [1, True])


WRONG_HOPS = ("1 192.0.2.1", "1 via 192.0.2.1", "1 via 192.0.2.300 dev lan", "1 dev lan src 192.0.2.1", "1", "", "x dev lan",
              "4294967295 dev lan", "1 dev lan\r", "1 dev lan\n1 dev far", "1 nexthop dev lan nexthop weight 2")
WRONG_LINES = ("", "set 10.0.0.0/8 1", "install 10.0.0.0/8", "install 10.0.0.0/33 1", "install 10.0.0.0 1", "remove 10.0.0.0/8 1",
               "install 10.0.0.0/8 4294967296", "install 10.0.0.0/8 1 2", "install 10.0.0/8 drop", "install 10.0.0.1/8 1", "x" * 70000)


def check_lines(folder):
    """wrong lines, a signal and the end of the parent end fib_kernel as its manual page says"""
    hops = Path(folder, "wrong")
    with namespace(*LAN) as own:
        command = [*inside(own), FIB_KERNEL]
        for line in WRONG_HOPS:
            hops.write_text(f"{line}\n")
            print("refused:", refused(*command, "list", str(hops), "77").replace(folder, "folder"))
        hops.write_text("1 via 192.0.2.1 dev lan\n")
        for line in WRONG_LINES:
            print("refused:", refused(*command, "load", str(hops), "77", given=f"{line}\n")[:100])
        print("refused:", refused(*command, "list", f"{folder}/nosuch", "77").replace(folder, "folder"))
        for words in (("77", "-p", "0"), ("77", "-p", "256"), ("77", "-r", "x"), ("0",), ("4294967296",), ("1000",)):
            print("refused:", refused(*command, "load", str(hops), *words))
        same("the usage", tool(FIB_KERNEL, "--help").startswith("usage: fib_kernel"), True)
        same("no arguments", subprocess.run([FIB_KERNEL], capture_output=True).returncode, 2)
        same("a batch that is cut off", tool(*command, "load", str(hops), "77", given="install 10.1.0.0/16 1\nremove 10.1."), "")
        same("its route", tool(*command, "list", str(hops), "77"), "have 10.1.0.0/16 1\nok\n")
        done = subprocess.run([*command, "load", str(hops), "77"], input="install 10.2.0.0/16 2\nok\n", capture_output=True, text=True)
        same("an install that is refused to the end", [done.returncode, done.stdout, "not have this hop" in done.stderr], [1, "ok\n", True])
        tool(*command, "load", str(hops), "77", given="remove 10.2.0.0/16\nremove 10.2.0.0/16\nok\n")
        check_ends(own, [*command, "watch", str(hops), "77"])


def check_ends(own, command):
    """A signal, and the end of the parent."""
    for number in (signal.SIGTERM, signal.SIGINT):
        process = subprocess.Popen(command, stdin=subprocess.PIPE, stdout=subprocess.PIPE, text=True)
        same("the list", [process.stdout.readline(), process.stdout.readline()], ["have 10.1.0.0/16 1\n", "ok\n"])
        process.send_signal(number)
        same("the status after a signal", process.wait(LONG), 0)
    given = ["sh", "-c", 'exec 3<&0; "$@" <&3 & echo $!; wait', "sh", *command]
    shell = subprocess.Popen(given, stdin=subprocess.PIPE, stdout=subprocess.PIPE, text=True)
    lines = [shell.stdout.readline() for _ in range(3)]
    same("a list", "ok\n" in lines, True)
    pid = int(next(line for line in lines if line.strip().isdigit()))
    shell.kill()
    shell.wait()
    wait_for("the end of fib_kernel after its parent", lambda: not is_running(pid))


def check_own(folder):
    """its own changes, and those of other tables, links and lifetimes, are no events; a foreign one after them is; and so are lost ones"""
    hops, lost = f"{folder}/own", [f"address {word} 203.0.113.{at}/32 dev far" for at in range(1, 255) for word in ("add", "del")] * 8
    Path(hops).write_text("1 dev lan\n")
    with namespace(*LAN) as own:
        process = watching(own, hops)
        carry_out(process, *(f"install 10.{at >> 8}.{at & 255}.0/24 1" for at in range(20000)))
        for line in ("route add 10.0.7.0/24 dev lan table 78", "link set far mtu 1400", *lost[:2], "address add 192.0.2.253/24 dev lan",
                     "address change 192.0.2.254/24 dev lan valid_lft 3600 preferred_lft 3600"):
            tool("ip", "-n", own, *line.split())
        carry_out(process)  # it looks at events before each input
        tool("ip", "-n", own, "route", "del", "10.0.7.0/24", "table", "77")
        same("a foreign change", [process.wait(LONG), process.stderr.read()], [3, "fib_kernel: the table 77 was changed from outside\n"])
        tool("ip", "-n", own, "route", "flush", "table", "77")
        process = watching(own, hops)
        process.send_signal(signal.SIGSTOP)
        tool("ip", "-n", own, "-batch", "-", given=text(lost))
        process.send_signal(signal.SIGCONT)
        same("lost events", [process.wait(LONG), process.stderr.read()], [3, "fib_kernel: events were lost: No buffer space available\n"])


def watching(own, hops):
    """`fib_kernel watch`, once it has listed an empty table."""
    process = subprocess.Popen([*inside(own), FIB_KERNEL, "watch", hops, "77"], stdin=subprocess.PIPE, stdout=subprocess.PIPE,
                               stderr=subprocess.PIPE, text=True)
    same("the list", process.stdout.readline(), "ok\n")
    return process


def carry_out(process, *lines):
    """A batch of these operations, until its `ok` has come back."""
    process.stdin.write(text([*lines, "ok"]))
    process.stdin.flush()
    same("the end of a batch", process.stdout.readline(), "ok\n")


def check_made_again(folder):
    """a link that was made again has another index"""
    hops = f"{folder}/own"
    Path(hops).write_text("1 dev lan\n")
    with namespace(*LAN) as own:
        kernel = Kernel(own, hops)
        for line in ("link del lan", "link add lan type veth peer name far", "link set far up", "link set lan up"):
            tool("ip", "-n", own, *line.split())
        kernel.carry_out(["install 10.1.0.0/16 1"])
        same("the list", kernel.have(), ["have 10.1.0.0/16 1"])
        kernel.close()


def drawn_networks(six, count):
    """Different networks, most of them of a /24 or a /48."""
    found = {}
    while len(found) < count:
        length = DRAWN.choice((32, 40, 44, 48, 48, 48, 64) if six else (16, 19, 20, 21, 22, 23, 24, 24, 24, 24, 24))
        size, first = (128, 2 << 124) if six else (32, 1 << 29)
        number = (first | DRAWN.getrandbits(size - 3)) >> size - length << size - length
        found[str((ipaddress.IPv6Network if six else ipaddress.IPv4Network)((number, length)))] = None
    return list(found)


def peak(pid):
    """The most memory that a process has had, in kB."""
    return int(re.search(r"VmHWM:\s+(\d+)", Path(f"/proc/{pid}/status").read_text())[1])


class Cost(NamedTuple):
    """Of an operation: microseconds of the processor in the program and in the kernel, and of the clock. The most kB of the process."""
    user: float
    system: float
    clock: float
    memory: int

    @property
    def processor(self):
        return self.user + self.system


def cost(used, begun, batches, memory):
    count = sum(map(len, batches)) / 1e6
    return Cost(used[0] / count, used[1] / count, (time.monotonic() - begun) / count, memory)


def by_netlink(own, hops, batches):
    """Each batch is given once the `ok` of the batch before has come."""
    process = subprocess.Popen([*inside(own), FIB_KERNEL, "load", hops, "77"], stdin=subprocess.PIPE, stdout=subprocess.PIPE, bufsize=0)
    given, begun = [text([*batch, "ok"]).encode() for batch in batches], time.monotonic()
    for batch in given:
        process.stdin.write(batch)
        same("the end of a batch", process.stdout.read(3), b"ok\n")
    most = peak(process.pid)
    process.stdin.close()
    _, status, used = os.wait4(process.pid, 0)
    process.returncode = status
    same("the status of fib_kernel", status, 0)
    process.stdout.close()
    return cost((used.ru_utime, used.ru_stime), begun, batches, most)


def by_ip(own, _, batches):
    """The same by an `ip -batch -` for each batch. Its memory is at least that of this program."""
    before, begun = resource.getrusage(resource.RUSAGE_CHILDREN), time.monotonic()
    for batch in batches:
        lines = (f"route del {words[1]}" if words[0] == "remove" else f"route replace {words[1]} via inet6 fe80::{words[2]} dev lan"
                 for words in map(str.split, batch))
        tool("ip", "-n", own, "-batch", "-", given=text(f"{line} proto 77 table 77" for line in lines))
    after = resource.getrusage(resource.RUSAGE_CHILDREN)
    return cost((after.ru_utime - before.ru_utime, after.ru_stime - before.ru_stime), begun, batches, after.ru_maxrss)


def measured(own, hops, family, by, count, runs):
    """The least costs of so many runs, and the most memory: installs and removes, each in a batch of its own and all in one batch."""
    nets, found = drawn_networks(family == 6, 100000), {}
    lists = {"installs": [f"install {net} {DRAWN.choice(HOPS)}" for net in nets], "removes": [f"remove {net}" for net in nets]}
    for _ in range(runs):
        for title, batches in [(f"single {word}", [[one] for one in lines[:count]]) for word, lines in lists.items()] + \
                              [(f"{word} in one batch", [lines]) for word, lines in lists.items()]:
            found.setdefault(title, []).append(by(own, hops, batches))
    return {title: min(costs, key=lambda one: one.processor)._replace(clock=min(one.clock for one in costs),
                                                                      memory=max(one.memory for one in costs))
            for title, costs in found.items()}


@contextlib.contextmanager
def one_processor():
    """This thread, and the processes that it starts, are held on one processor: they need not wake another one, which costs a virtual
    machine some microseconds."""
    before = os.sched_getaffinity(0)
    os.sched_setaffinity(0, {max(before)})
    try:
        yield
    finally:
        os.sched_setaffinity(0, before)


def is_cheap(title, one, is_busy):
    """Whether these costs are those that recipes/live.md names. On a busy machine the clock does not count."""
    least = 0 if is_busy else LEAST_SINGLE if title.startswith("single") else LEAST_LARGE
    most = MOST_TIME_BUSY if is_busy else MOST_TIME
    return one.processor <= most and one.memory <= MOST_MEMORY and 1e6 / one.clock >= least


def figures(folder, runs, is_busy):
    """Prints the costs of fib_kernel, the least of so many runs, and those of `ip`, of one run. Fails if those of fib_kernel are too
    great."""
    dear = []
    hops = f"{folder}/few"
    Path(hops).write_text(text(f"{hop} via fe80::{hop} dev lan" for hop in HOPS))
    print(f"| load {load()} | us, fib_kernel | user | system | per s | kB | us, ip | kB |\n|---|---|---|---|---|---|---|---|")
    with namespace() as own, one_processor():
        for family in (4, 6):
            ours, theirs = measured(own, hops, family, by_netlink, 10000, runs), measured(own, hops, family, by_ip, 500, 1)
            for title, one in ours.items():
                other = theirs[title]
                print(f"| IPv{family}, {title} | {one.processor:.1f} | {one.user:.1f} | {one.system:.1f} | {1e6 / one.clock:,.0f} | "
                      f"{one.memory:,} | {other.processor:,.1f} | {'' if 'single' in title else f'{other.memory:,}'} |", flush=True)
                dear += [] if is_cheap(title, one, is_busy) else [f"IPv{family}, {title}"]
    print(f"least of {runs} runs of fib_kernel; load {load()} on {os.cpu_count()} processors")
    same("too slow, or too much memory", dear, [])


def load():
    return Path("/proc/loadavg").read_text().split()[0]


def check_measures(folder):
    """the processor's time for an operation, and the memory"""
    figures(folder, 1, True)


def check_memory(folder):
    """next hops of all kinds, and more refused installs than the list has room for"""
    hops = f"{folder}/many"
    lines = ["1 via 203.0.113.1 dev lan", "2 via inet6 fe80::2 dev lan onlink", "3 dev lan",
             "4 nexthop via 192.0.2.4 dev lan weight 3 nexthop via inet6 fe80::4 dev lan"]
    Path(hops).write_text(text(lines))
    nets = drawn_networks(False, 60000)
    with namespace(*LAN) as own:
        command = [*inside(own), FIB_KERNEL]
        process = subprocess.Popen([*command, "load", hops, "77"], stdin=subprocess.PIPE, stdout=subprocess.PIPE, stderr=subprocess.PIPE)
        said = threading.Thread(target=process.stderr.read, daemon=True)
        said.start()
        given = [f"install {net} {1 + at % 4}" for at, net in enumerate(nets)]
        process.stdin.write(text([*given, "ok"]).encode())
        process.stdin.flush()
        same("the end of a batch", process.stdout.readline(), b"ok\n")
        most = peak(process.pid)
        same("less memory than 4 MB", most < MOST_MEMORY, True)
        expected = {f"have {net} {'drop' if at % 4 == 0 else 1 + at % 4}" for at, net in enumerate(nets)}
        found = tool(*command, "list", hops, "77").splitlines()
        same("the list", [len(found), set(found) - {"ok"} == expected], [len(nets) + 1, True])
        tool("ip", "-n", own, "route", "add", "203.0.113.1", "dev", "lan")
        same("the status once more installs are taken than the list has", process.wait(LONG), 3)
        print(f"{len(nets):,} installs, of which {len(nets) // 4:,} were refused, in {most:,} kB: status 3 once the kernel takes them")


def check_gateways(folder):
    """hops of 256 gateways are installed, and are listed even if HOPS does not have them; a hop of 257 is a wrong line"""
    hops, other = Path(folder, "gateways"), Path(folder, "other")
    ways = [" ".join(f"nexthop via {address.format(at)} dev lan weight {at} onlink" for at in range(1, 257))
            for address in ("10.9.255.255", "inet6 fe80:ffff:ffff:ffff:ffff:ffff:ffff:{:04x}")]
    hops.write_text(text(f"{number} {words}" for number, words in enumerate(ways, 1)))
    other.write_text("")
    routes = [f"10.{at}.0.0/16 {hop}" for at, hop in enumerate((2, 1, "drop", 2))] + ["2001:db8::/48 2", "2001:db8:1::/48 drop"]
    with namespace(*LAN) as own:
        command = [*inside(own), FIB_KERNEL]
        tool(*command, "load", str(hops), "77", given=text([*(f"install {route}" for route in routes), "ok"]))
        for file, unknown in ((hops, None), (other, "4294967295")):
            wanted = {" ".join(["have", net, hop if hop == "drop" else unknown or hop]) for net, hop in map(str.split, routes)}
            same("the list", set(tool(*command, "list", str(file), "77").splitlines()) - {"ok"}, wanted)
        other.write_text(f"1 {ways[0]} nexthop dev lan\n")
        same("257 gateways", refused(*command, "list", str(other), "77").endswith("line 1: too many gateways"), True)
        other.write_text("1 dev lan".ljust(1 << 16) + "\n")
        same("a long line", refused(*command, "list", str(other), "77").endswith("line 1: too long"), True)


def attribute(kind, data):
    return netlink.ATTRIBUTE.pack(netlink.ATTRIBUTE.size + len(data), kind) + data


def put_gateways(own, network, count, table=77, protocol=77):
    """Another program puts a route over so many gateways into a table."""
    net, link, asked = ipaddress.ip_network(network), int(tool("ip", "-n", own, "-o", "link", "show", "lan").split(":")[0]), socket_in(own)
    first = int(ipaddress.ip_address({4: "198.19.0.1", 6: "fe80::1"}[net.version]))
    ways = [attribute(netlink.GATEWAY, (first + at).to_bytes(net.max_prefixlen // 8, "big")) for at in range(count)]
    ways = b"".join(netlink.NEXT_HOP.pack(netlink.NEXT_HOP.size + len(way), netlink.ONLINK, 0, link) + way for way in ways)
    body = netlink.ROUTE.pack({4: socket.AF_INET, 6: socket.AF_INET6}[net.version], net.prefixlen, 0, 0, 0, protocol, 0, netlink.UNICAST, 0)
    body += attribute(netlink.TABLE, struct.pack("=I", table)) + attribute(netlink.DST, net.network_address.packed)
    body += attribute(netlink.MULTIPATH, ways)
    with asked:
        asked.send(netlink.HEADER.pack(netlink.HEADER.size + len(body), netlink.NEWROUTE, 0x405, 1, 0) + body)  # REQUEST, ACK, CREATE
        same(f"a route over {count} gateways", struct.unpack_from("=i", asked.recv(1 << 17), netlink.HEADER.size)[0], 0)


def listed(command, hops, *more):
    """The list of table 77, the status, and the line on standard error."""
    done = subprocess.run([*command, "list", *more, hops, "77"], capture_output=True, text=True)
    return done.stdout.splitlines(), done.returncode, done.stderr.removeprefix("fib_kernel: ").strip()


FEW = ("10.0.0.0/16", "10.2.0.0/16", "2001:db8::/48", "2001:db8:2::/48")
IS_EXACT = tuple(map(int, os.uname().release.split(".")[:2])) >= (6, 10)  # Linux ends no list of IPv6 early without an error


def put_few(own):
    for network in FEW:
        tool("ip", "-n", own, *f"route add {network} dev lan table 77 proto 77".split())


def check_many_gateways(folder):
    """a route over more gateways than the kernel lists is a fault in the program's own routes, and is nothing in those of others"""
    hops, have = f"{folder}/few", [f"have {network} 1" for network in FEW]
    Path(hops).write_text("1 dev lan\n")
    with namespace(*LAN) as own:
        command = [*inside(own), FIB_KERNEL]
        put_few(own)
        for network, count, who in (("10.1.0.0/16", 2100, {"protocol": 78}), ("2001:db8:1::/48", 1200, {"protocol": 78}),
                                    ("10.1.0.0/16", 2100, {"table": 78}), ("2001:db8:1::/48", 1200, {"table": 78})):
            put_gateways(own, network, count, **who)
        same("a list beside routes of others", listed(command, hops), ([*have, "ok"], 0, ""))
        for at, network, count in ((3, "2001:db8:1::/48", 1200), (1, "10.1.0.0/16", 2100)):
            said = f"list: the route after {FEW[at - 1]} has too many gateways for the kernel to list it"
            unnamed = [*have[:at], f"have {network} 4294967295", *have[at:], "ok"]
            for number, wanted in ((1000, (unnamed, 0, "")), (count, (have[:at], 1, said))):
                tool("ip", "-n", own, "route", "del", network, "table", "77")
                put_gateways(own, network, number)
                if number == 1000 or IS_EXACT or at == 1:
                    same(f"{number} gateways", listed(command, hops), wanted)
            tool("ip", "-n", own, "route", "del", network, "table", "77")
        check_foreign(own, hops)


def check_foreign(own, hops):
    """A route of another table, with so many gateways that its event has more than 64 kB, is none of the program's business."""
    given = [*inside(own), FIB_KERNEL, "watch", "-p", "50", hops, "1000"]
    process = subprocess.Popen(given, stdin=subprocess.PIPE, stdout=subprocess.PIPE, stderr=subprocess.PIPE, text=True)
    same("the list", process.stdout.readline(), "ok\n")
    put_gateways(own, "10.1.0.0/16", 4094, 1001)
    carry_out(process)
    put_gateways(own, "10.1.0.0/16", 4094, 1000)
    same("a foreign change", [process.wait(LONG), process.stderr.read()], [3, "fib_kernel: the table 1000 was changed from outside\n"])


# Each case turns the end of a list, which comes in a part of its own, into another one, once. `small` makes the kernel use small parts, as
# when it is short of memory, and `old` gives such a part the end that an old kernel makes.
BAD_ENDS = """
#include <errno.h>
#include <linux/rtnetlink.h>
#include <stdlib.h>
#include <string.h>
#include <sys/socket.h>
#include <sys/syscall.h>
#include <unistd.h>
static int is(const char *name)
{
    return !strcmp(getenv("CASE"), name);
}
ssize_t recvmsg(int file, struct msghdr *into, int flags)
{
    static int is_done;
    struct nlmsghdr *head = into->msg_iov->iov_base;
    if (is("small"))
        into->msg_iov->iov_len = 4096;
    ssize_t size = syscall(SYS_recvmsg, file, into, flags);
    if (size <= 0 || head->nlmsg_type != NLMSG_DONE || is_done)
        return size;
    is_done = 1;
    into->msg_flags |= is("truncated") ? MSG_TRUNC : 0;
    head->nlmsg_flags |= is("changed") ? NLM_F_DUMP_INTR : 0;
    *(int *)NLMSG_DATA(head) = is("error") ? -ENOMEM : is("size") ? -EMSGSIZE : 0;
    head->nlmsg_type = is("answer") ? NLMSG_ERROR : NLMSG_DONE;
    errno = ENOBUFS;
    return is("memory") ? -1 : is("empty") ? 0 : is("cut") ? size - 4 : size;
}
ssize_t recv(int file, void *into, size_t size, int flags)
{
    return syscall(SYS_recvfrom, file, into, is("small") ? 4096 : size, flags, 0, 0);
}
int getsockopt(int file, int level, int name, void *value, socklen_t *length)
{
    int result = syscall(SYS_getsockopt, file, level, name, value, length);
    if (level == SOL_SOCKET && name == SO_MEMINFO && is("old"))
        *(unsigned *)value = 4352;
    return result;
}
"""
LAST, SHORT = "2001:db8:2::/48", "list: the kernel is short of memory, and "
LISTS = (("memory", 1, f"list: the part after {LAST} did not come: No buffer space available"),
         ("truncated", 1, f"list: the part after {LAST} is longer than 65536 bytes"),
         ("error", 1, f"list: the kernel ended it after {LAST}: Cannot allocate memory"),
         ("changed", 3, "the table changed while it was listed"),
         ("empty", 1, f"list: the route after {LAST} has too many gateways for the kernel to list it"),
         ("size", 1, f"list: the route after {LAST} has too many gateways for the kernel to list it"),
         ("cut", 1, f"list: a message is cut off after {LAST}"), ("answer", 1, "list: an answer without a list"),
         ("old", 1, f"{SHORT}may have left out routes after {LAST}"))


def shim(folder, name, code):
    """A library for LD_PRELOAD. None if there is no compiler."""
    if shutil.which("cc") is None:
        return print(f"passed over: {name}, since there is no cc")
    tool("cc", "-x", "c", "-shared", "-fPIC", "-o", f"{folder}/{name}.so", "-", given=code)
    return f"{folder}/{name}.so"


def check_bad_ends(folder):
    """each end of a list that may be too early is a fault, and so is a list of a kernel that is short of memory"""
    hops, ends = f"{folder}/few", shim(folder, "ends", BAD_ENDS)
    Path(hops).write_text("1 dev lan\n")
    have = [f"have {network} 1" for network in FEW]
    with namespace(*LAN) as own:
        put_few(own)
        command = [*inside(own), "env", f"LD_PRELOAD={ends}", FIB_KERNEL]
        for case, status, said in LISTS if ends else ():
            with mock.patch.dict(os.environ, CASE=case):
                same(f"the case {case}", listed(command, hops), (have, status, said))
        for network, count in (("2001:db8:1::/48", 200), ("10.1.0.0/16", 250)):
            put_gateways(own, network, count)
            with mock.patch.dict(os.environ, CASE="small"):
                _, status, said = listed(command, hops) if ends else ((), 1, SHORT)
            same(f"small parts, and {count} gateways: {said}", [status, said.startswith(SHORT)], [1, True])


def check_unlisted(folder):
    """while the kernel can't list a route, no `sync` comes; once somebody has removed the route, the table is in sync again"""
    with small(folder, log=("set 10.1.0.0/16 1", "set 10.3.0.0/16 1")) as chain:
        chain.wait(_1=1, _3=1)
        put_gateways(chain.own, "10.2.0.0/16", 2100)
        wait_for("the fault", lambda: "the route after 10.1.0.0/16 has too many gateways" in chain.said.read_text())
        put_log(chain.log, "unset 10.3.0.0/16")
        same("syncs", chain.syncs(), 1)
        chain.ip("route del 10.2.0.0/16 table 77")
        chain.wait(_1=1, _2=0, _3=0)


WITHOUT_SIX = """
#include <linux/rtnetlink.h>
#include <sys/socket.h>
#include <sys/syscall.h>
#include <unistd.h>
ssize_t sendto(int file, const void *data, size_t size, int flags, const struct sockaddr *to, socklen_t length)
{
    const struct nlmsghdr *head = data;
    struct rtmsg *route = NLMSG_DATA(head);
    if (head->nlmsg_type >= RTM_NEWROUTE && head->nlmsg_type <= RTM_GETROUTE && route->rtm_family == AF_INET6)
        route->rtm_family = AF_X25;
    return syscall(SYS_sendto, file, data, size, flags, to, length);
}
"""


def check_without_six(folder):
    """a kernel without IPv6 takes all routes of IPv4; here it gets messages for IPv6 as those of a family that it doesn't have"""
    hops, without = f"{folder}/way", shim(folder, "without_six", WITHOUT_SIX)
    if not without:
        return
    Path(hops).write_text("1 via 192.0.2.1 dev lan\n2 via fe80::2 dev lan\n")
    six = [f"install 2001:db8:{at}::/48 {hop}" for at, hop in enumerate((2, "drop", 9))] + ["remove 2001:db8::/48"]
    with namespace(*LAN) as own:
        command = [*inside(own), "env", f"LD_PRELOAD={without}", FIB_KERNEL]
        for mode, given, wanted in (("list", "", ""), ("load", text([*six, "install 10.1.0.0/16 1"]), ""),
                                    ("watch", text(six), "have 10.1.0.0/16 1\nok\n")):
            done = subprocess.run([*command, mode, hops, "77"], input=f"{given}ok\n", capture_output=True, text=True)
            said = "fib_kernel: the kernel has no IPv6, so networks of IPv6 are passed over\n" * bool(given)
            same(f"`{mode}` without IPv6", [done.returncode, done.stdout, done.stderr], [0, f"{wanted}ok\n", said])


def check(is_figures):
    needs("ip", "iproute2")
    needs(FIB_KERNEL, "libmnl-dev, after which `make -C netlink` builds it,")
    if is_figures:
        with tempfile.TemporaryDirectory() as folder:
            return figures(folder, 10, False)
    needs("birdc", "bird2")
    with tempfile.TemporaryDirectory() as folder:
        hops = f"{folder}/hops"
        check_page(folder)
        for one in (check_lines, check_gateways, check_many_gateways, check_bad_ends, check_unlisted, check_refused, check_silent,
                    check_events, check_shorter, check_busy, check_polling, check_families, check_without_six, check_sandbox, check_options,
                    check_tries, check_permission, check_own, check_made_again, check_memory, check_measures):
            one(folder)
            print(f"seen: {one.__doc__}")
        Path(hops).write_text(text(f"{hop} via fe80::{hop} dev lan" for hop in HOPS))
        with namespace(*RULES) as own:
            session, changes, nets = check_single(own, hops)
            check_restarts(session, changes)
            session.close()
            check_kept(own, hops, nets, folder)


if __name__ == "__main__":
    words = sys.argv.index("--")
    refuse_sockets(*map(int, sys.argv[1:words]))
    os.execvp(sys.argv[words + 1], sys.argv[words + 1:])
