"""Runs the recipes that read a stream with their daemons, in network namespaces: `recipes/exabgp check` and so on. BIRD is the peer, and
gets its commands by its control socket. After each change the file of commands must come to the expected routes."""
import contextlib
import ipaddress
import json
import os
import random
import re
import select
import shutil
import signal
import socket
import stat
import struct
import subprocess
import tempfile
import time
from pathlib import Path

import netlink
import streams
from common import HERE, Numbers, Page, any_addresses, bird, ends, fault, hops_of, namespace, needs, same, text, tool
from live_check import BAD_ENDS, FEW, IS_EXACT, inside, put_gateways, shim, socket_in, wait_for
from streams import COMMAND

DRAWN = random.Random(1)
LONG = 180  # seconds that a daemon has for a change, on a busy machine
QUIET = {"exabgp": 10, "gobgp": 5, "frr": 60}  # seconds without a route, after which a dump is over here
LINES = ("address add 192.0.2.254/24 dev lan", "address add 2001:db8:5::254/64 dev lan nodad",
         *(f"address add 198.18.0.{at}/32 dev lo" for at in (1, 2, 253, 254)))
PEERS = {"a": ("198.18.0.1", "198.18.0.254"), "b": ("198.18.0.2", "198.18.0.253")}
ONES = [f"10.200.{at}.0/24" for at in range(100)]
DRAWN_FROM = ("10.", "11.", "2001:db8:1")
GATEWAYS = {4: "192.0.2.{}", 6: "2001:db8:5::{}"}
START = 'log "/dev/null" all;\nrouter id 198.18.0.1;\nprotocol device { }\n'
ONE = "protocol static one{} {{ disabled; ipv4 {{ table a4; }}; route {} via 192.0.2.1; }}\n"
BGP = """protocol bgp {0} {{
  local {1} as 64500; neighbor {2} as 64500; multihop 2; {3}
  ipv4 {{ table {0}4; import none; export all; next hop keep; }};
  ipv6 {{ table {0}6; import none; export all; next hop keep; }};
}}
"""


class Bird:
    """BIRD's peers, each with the routes of its own tables: gateway and local preference of a network."""

    def __init__(self, folder, control, peers, more):
        self.path, self.peers, self.more = Path(folder, "bird.conf"), peers, more
        self.socket = socket.socket(socket.AF_UNIX)
        self.socket.connect(control)
        self.reply()

    def reply(self):
        told = b""
        while not told.endswith(b"\n") or not told.splitlines()[-1][:5].replace(b" ", b"").isdigit():
            told += self.socket.recv(1 << 16)
        return told

    def say(self, command):
        self.socket.send(f"{command}\n".encode())
        told = self.reply()
        if told[:1] in b"89":
            fault(f"BIRD: {command}: {told.decode()}")

    def set(self, routes):
        self.path.write_text(configuration(self.peers, self.more, routes))
        self.say("configure")


def configuration(peers, more, routes):
    lines = [START, *(f"ipv4 table {name}4;\nipv6 table {name}6;\n" for name in peers)]
    for name, held in routes.items():
        for family in (4, 6):
            lines.append(f"protocol static s{name}{family} {{ ipv{family} {{ table {name}{family}; }};\n")
            lines += (f"  route {network} blackhole {{ bgp_next_hop = {gateway}; bgp_local_pref = {preference}; }};\n"
                      for network, (gateway, preference) in held.items() if (":" in network) == (family == 6))
            lines.append("}\n")
    lines += (ONE.format(at, network) for at, network in enumerate(ONES))
    lines += (BGP.format(name, *addresses, more) for name, addresses in peers.items())
    return "".join(lines)


@contextlib.contextmanager
def peer(folder, own, peers, routes, more="connect delay time 1;"):
    with bird(folder, configuration(peers, more, routes), *inside(own)) as control:
        yield Bird(folder, control, peers, more)


def any_network():
    if DRAWN.random() < 0.5:
        return f"10.{DRAWN.randrange(16)}.{DRAWN.randrange(256)}.0/24" if DRAWN.random() < 0.8 else f"10.{DRAWN.randrange(16)}.0.0/16"
    return f"2001:db8:{DRAWN.randrange(256, 272):x}:{DRAWN.randrange(1, 256):x}::/64"


def any_route(network, preferences):
    return GATEWAYS[6 if ":" in network else 4].format(DRAWN.randrange(1, 7)), DRAWN.choice(preferences)


def any_routes(count, preferences=(100,)):
    return {network: any_route(network, preferences) for network in (any_network() for _ in range(count))}


def changed(held, preferences=(100,)):
    """A third of the routes goes, a third has another next hop or preference, and some are new."""
    found = {}
    for network, route in held.items():
        draw = DRAWN.random()
        if draw > 0.33:
            found[network] = route if draw > 0.66 else any_route(network, preferences)
    return found | any_routes(len(held) // 3, preferences)


class Chain:
    """The page's commands, its two files, and the processes in the background."""

    def __init__(self, folder, own, *families):
        self.page, self.inside = Page(f"{folder}/page"), inside(own, *families)
        self.folder, self.own, self.processes = self.page.folder, own, {}
        self.shown = {}
        for name in ("ROUTES_FIB", "FIB_KERNEL"):
            os.environ.setdefault(name, str(HERE.parent / ("netlink/out/fib_kernel" if name == "FIB_KERNEL" else "routes_fib")))
        self.files = [f"{self.folder}/hops", f"{self.folder}/commands"]

    def start(self, name, command):
        """Runs a command in the namespace until the end."""
        where, said = self.page.where(), open(f"{self.folder}/{name}.said", "a")
        self.processes[name] = subprocess.Popen([*self.inside, "bash", "-c", f"exec {command}" if "|" not in command else command],
                                                start_new_session=True, stdout=said, stderr=said, **where)
        said.close()

    def said(self, name):
        return Path(f"{self.folder}/{name}.said").read_text()

    def stop(self, name, how=signal.SIGTERM):
        process = self.processes.pop(name)
        os.killpg(process.pid, how)
        os.killpg(process.pid, signal.SIGCONT)
        process.wait()

    def close(self):
        for name in list(self.processes):
            self.stop(name)

    def commands(self):
        """The whole lines of the file, which may grow meanwhile."""
        contents = Path(self.files[1]).read_text()
        return contents[:contents.rfind("\n") + 1]

    def state(self):
        """The preference of each next hop of each network, after all commands."""
        lines, found = self.commands().splitlines(), {}
        names = {"drop": "drop"} | Numbers(self.files[0]).names()
        for line in lines:
            word, network, hop, preference = COMMAND.fullmatch(line).groups()
            held = found.setdefault(network, {})
            if word == "add":
                held[names[hop]] = int(preference)
            else:
                del held[names[hop]]
        return {network: held for network, held in found.items() if held and network.startswith(DRAWN_FROM)}

    def comes_to(self, title, expected):
        """The file of commands gives each network these next hops, soon, and the leader then answers so for addresses."""
        until = time.monotonic() + LONG
        while (state := self.state()) != expected:
            if time.monotonic() > until:
                wrong = [(network, state.get(network), expected.get(network)) for network in state.keys() | expected.keys()
                         if state.get(network) != expected.get(network)]
                fault(f"{title}: {len(wrong)} networks have other routes, such as {wrong[:3]}")
            time.sleep(0.05)
        self.compare(title, expected)

    def compare(self, title, expected):
        numbers, addresses = Numbers(self.files[0]), ends(expected) + any_addresses(200)
        best, lengths = {}, {4: set(), 6: set()}
        for network, held in expected.items():
            one = ipaddress.ip_network(network)
            lengths[one.version].add(one.prefixlen)
            best[one] = min(held, key=lambda words: (-held[words], 1 << 32 if words == "drop" else numbers[words]))
        found = hops_of(self.commands(), addresses)
        for address, hop in zip(addresses, found):
            one = ipaddress.ip_address(address)
            nets = (ipaddress.ip_network((int(one) >> (one.max_prefixlen - length) << (one.max_prefixlen - length), length))
                    for length in sorted(lengths[one.version], reverse=True))
            words = next((best[net] for net in nets if net in best), None)
            if any(one in net for net in OTHERS):
                continue
            same(f"{title}: the next hop of {address}", hop, None if words in (None, "drop") else str(numbers[words]))
        print(f"{title}: {len(expected):,} networks have the expected routes; the leader answers {len(addresses):,} addresses so")

    def replaced(self, title, act, expected):
        """All networks get another route, and none is without a route for a moment."""
        before = len(self.commands().splitlines())
        act()
        self.comes_to(title, expected)
        lines = self.commands().splitlines()
        replies = tool(self.page.folder + "/bin/routes", "lead", given=text(lines)).splitlines()
        closed, tail = 0, []
        for line in replies:
            tail += [line] if closed >= before else []
            closed += line in ("ok", "none", "bad", "refused")
        counts = [sum(line.startswith(word) for line in tail) for word in ("set ", "unset ")]
        print(f"{title}: the leader's replies have {counts[0]:,} `set` and {counts[1]} `unset`")
        if not counts[0] or counts[1]:
            fault(f"{title}: a network was without a route")


OTHERS = [ipaddress.ip_network(net) for net in ("192.0.2.0/24", "198.18.0.0/24", "2001:db8:5::/64", "127.0.0.0/8")]


def by_peers(routes, has_preference=True):
    """The expected next hops of each network, by the routes of all peers, with the local preferences or their order."""
    found = {}
    for held in routes.values():
        for network, (gateway, preference) in held.items():
            words, of_net = f"via {gateway} dev lan", found.setdefault(network, {})
            of_net[words] = max(preference if has_preference else 100, of_net.get(words, 0))
    for of_net in found.values():
        if max(of_net.values()) > 65535:
            order = sorted(set(of_net.values()), reverse=True)
            of_net.update({words: 65535 - order.index(worth) for words, worth in of_net.items()})
    return found


def child_of(pid):
    return int(tool("pgrep", "-P", str(pid)).split()[0])


def cpu_of(pid):
    """The CPU seconds that a process has taken."""
    return sum(map(int, Path(f"/proc/{pid}/stat").read_text().rpartition(") ")[2].split()[11:13])) / os.sysconf("SC_CLK_TCK")


def many(chain, recipe, upstream, routes, has_preference=True):
    """The CPU time that many routes take."""
    begun, lines = cpu_of(recipe), len(chain.commands().splitlines())
    upstream.set(routes)
    chain.comes_to("many routes", by_peers(routes, has_preference))
    print(f"{len(chain.commands().splitlines()) - lines:,} commands took the recipe {cpu_of(recipe) - begun:.2f} s of CPU time")


def blocks(page, name):
    """The next block of the page, with the folders of this check."""
    block = page.text().replace("/usr/local/share/jolmidda/recipes", str(HERE)).replace("/var/lib/jolmidda", page.folder)
    block = re.sub(r"(exabgp|gobgp|frr) feed ", lambda found: f"{found[0]}-q {QUIET[found[1]]} ", block)
    if name:
        Path(page.folder, name).write_text(block)
    return block


def begin(chain, block, *names):
    """Runs the page's commands in their order. Those that go on in the background have these names."""
    names = iter(names)
    for line in block.splitlines():
        *before, last = line.rstrip("& ").split("; ") if line.endswith("&") else [line, ""]
        if before:
            chain.page.run("; ".join(before))
        if last:
            name = next(names)
            chain.shown[name] = last
            chain.start(name, last)


def begin_again(chain, block, *names):
    """All has ended, and the page's commands start it again, with a leader that takes its time. Table 77 loses no route."""
    events, program = socket_in(chain.own), Path(chain.folder, "bin/routes")
    real, before = program.resolve(), chain.said("keep").count("first `sync`")
    for group in (7, 11):  # RTNLGRP_IPV4_ROUTE, RTNLGRP_IPV6_ROUTE
        events.setsockopt(270, 1, group)  # SOL_NETLINK, NETLINK_ADD_MEMBERSHIP
    for name in names:
        chain.stop(name, signal.SIGKILL)
    program.unlink()
    program.write_text(f'#!/bin/sh\nsleep 2\nexec {real} "$@"\n')
    program.chmod(0o755)
    begin(chain, block, *names)
    wait_for("the first sync after all has ended", lambda: chain.said("keep").count("first `sync`") > before)
    program.unlink()
    program.symlink_to(real)
    gone = []
    while select.select([events], [], [], 1)[0]:
        gone += [netlink.route(body) for kind, _, _, body in netlink.messages(events.recv(1 << 17)) if kind == netlink.DELROUTE]
    events.close()
    same("routes that table 77 lost", [route.network for route in gone if route and route.table == 77], [])
    print("all ended and began again: table 77 lost no route")


def use(chain):
    """The page's rules: packets use table 77."""
    for rule in blocks(chain.page, None).splitlines():
        tool(*inside(chain.own), *rule.split())
    wait_for("a packet that uses table 77", lambda: " table 77 " in tool(*inside(chain.own), "ip", "route", "get", "10.0.0.1"))


def milliseconds(chain, change):
    """The time from each of a hundred changes to the event of the kernel for table 77: median, 99th, and the most."""
    events, found = socket_in(chain.own), []
    events.setsockopt(270, 1, 7)  # SOL_NETLINK, NETLINK_ADD_MEMBERSHIP, RTNLGRP_IPV4_ROUTE
    while select.select([events], [], [], 3)[0]:
        events.recv(1 << 17)
    for at, network in enumerate(ONES):
        begun, came = time.monotonic(), None
        change(at)
        while came is None:
            if not select.select([events], [], [], LONG)[0]:
                fault(f"{network} did not come to table 77: {chain.said('keep')}")
            for kind, _, _, body in netlink.messages(events.recv(1 << 17)):
                route = netlink.route(body) if kind == netlink.NEWROUTE else None
                if route and (route.network, route.table) == (network, 77):
                    came = time.monotonic()
        found.append((came - begun) * 1000)
    events.close()
    found.sort()
    with open("/proc/loadavg") as file:
        load = file.read().split()[0]
    print(f"from an update at the peer to the kernel, {len(found)} times: median {found[49]:.1f} ms, 99th {found[98]:.1f} ms, "
          f"most {found[99]:.1f} ms; load {load} on {os.cpu_count()} processors")


@contextlib.contextmanager
def chain_of(folder, own, *families):
    chain = Chain(folder, own, *families)
    try:
        yield chain
    finally:
        chain.close()


WRONG_FILES = (("hops", "1\n"), ("hops", "1 a\n1 b\n"), ("commands", "1 via 192.0.2.1 dev lan\n"), ("commands", "add 10.0.0.0/8\n\n"))


MINE = {"hops": "7 dev far\n", "commands": "add 10.9.0.0/16 7 100\n"}
FOREIGN = (lambda path, other: path.symlink_to(other), lambda path, other: path.symlink_to(f"{other}.new"), lambda path, _: os.mkfifo(path),
           lambda path, _: os.mknod(path, stat.S_IFCHR | 0o600, os.makedev(1, 3)))


def foreign_files(folder):
    """A link, a pipe or a device in the place of a file that a feed writes: it writes nothing there, and says so."""
    for at, (name, make) in enumerate((name, make) for name in MINE for make in FOREIGN):
        place, other = Path(folder, f"foreign{at}"), Path(folder, f"other{at}")
        place.mkdir()
        other.write_text(MINE[name])
        make(place / name, other)
        why = "a link, through which no recipe writes" if (place / name).is_symlink() else "not a regular file"
        same(f"the {name} of another user", said_by_table(place), f"{place / name}: {why}")
        same("the files of others", [path.read_text() for path in Path(folder).glob(f"other{at}*")], [MINE[name]])


def said_by_table(place):
    """Why a feed can't write a next hop and a route into these files."""
    try:
        table = streams.Table(f"{place}/hops", f"{place}/commands")
        table.put("10.0.0.0/8", "peer", "via 192.0.2.1 dev lan")
        table.flush()
    except OSError as error:
        return f"{error.filename}: {error.strerror}"
    return None


def wrong_files(chain, recipe, *before):
    """Files that the recipe refuses."""
    folder = chain.folder
    with tempfile.TemporaryDirectory() as foreign:
        foreign_files(foreign)
    for name, contents in WRONG_FILES:
        for one in ("hops", "commands"):
            Path(folder, f"{one}.wrong").write_text(contents if one == name else "")
        chain.page.refuses(f"recipes/{recipe} feed {' '.join(before)} hops.wrong commands.wrong < /dev/null > /dev/null")
    chain.page.refuses(f"recipes/{recipe} feed {' '.join(before)} hops.wrong nosuch/commands < /dev/null > /dev/null")
    chain.page.refuses(f"recipes/{recipe} feed {' '.join(before)} hops commands < /dev/null > /dev/null")
    for words in ("", "feed", "feed a", "feed -q 0 a b", "feed a b c d", "check more"):
        done = subprocess.run(f"{HERE}/{recipe} {words}", shell=True, capture_output=True, text=True)
        same(f"{recipe} {words}", [done.returncode, "usage:" in done.stderr], [1, True])
    same(f"{recipe} --help", "usage:" in tool(f"{HERE}/{recipe}", "--help"), True)


def exabgp():
    needs("exabgp", "exabgp")
    needs("bird", "bird2")
    first = {"a": {"10.0.0.0/8": ("192.0.2.1", 200)}, "b": {"10.0.0.0/8": ("192.0.2.2", 100)}}
    with tempfile.TemporaryDirectory() as folder, namespace(*LINES) as own, peer(folder, own, PEERS, {"a": {}, "b": {}}) as upstream, \
            chain_of(folder, own) as chain:
        check_ninth(chain)
        blocks(chain.page, "exabgp.conf")
        commands = blocks(chain.page, None)
        begin(chain, commands, "leader", "keep", "exabgp")
        for name in first:
            upstream.set({"a": {}, "b": {}} | {one: first[one] for one in first if one <= name})
            wait_for(f"the route of {name}", lambda: {"a": " 1 200\n", "b": " 2 100\n"}[name] in chain.commands())
        chain.page.gives(chain.commands())
        chain.page.gives(Path(chain.files[0]).read_text())
        upstream.say("disable a")
        wait_for("the route that goes", lambda: "del" in chain.commands())
        chain.page.gives(chain.commands().splitlines(keepends=True)[-1])
        chain.page.end()
        begin_again(chain, commands, "leader", "keep", "exabgp")
        upstream.say("enable a")
        exabgp_rounds(chain, upstream)
        exabgp_ends(chain, upstream)
        exabgp_inputs(chain)


PREFERENCES = (100, 100, 200, 300, 65535, 65536, 4294967295)


def exabgp_rounds(chain, upstream):
    """Random changes of both peers, a session that goes down, other routes for all networks, and a next hop that can't be reached at
    first."""
    routes = {name: any_routes(300, PREFERENCES) for name in PEERS}
    for at in range(4):
        upstream.set(routes)
        chain.comes_to(f"change {at + 1}", by_peers(routes))
        routes = {name: changed(held, PREFERENCES) for name, held in routes.items()}
    upstream.set(routes)
    upstream.say("disable b")
    chain.comes_to("a session down", by_peers({"a": routes["a"]}))
    upstream.say("enable b")
    chain.comes_to("the session up again", by_peers(routes))
    others = {name: {network: (GATEWAYS[6 if ":" in network else 4].format(7 + (name == "b")), 400) for network in held}
              for name, held in routes.items()}
    chain.replaced("other next hops for all networks", lambda: upstream.set(others), by_peers(others))
    far = {name: held | {"10.99.0.0/16": ("203.0.113.9", 100)} if name == "a" else held for name, held in others.items()}
    upstream.set(far)
    wait_for("the next hop that can't be reached", lambda: "no route to its next hop 203.0.113.9" in chain.said("exabgp"))
    chain.comes_to("a next hop that can't be reached", by_peers(others))
    tool("ip", "-n", chain.own, "route", "add", "203.0.113.0/24", "via", "192.0.2.77")
    chain.comes_to("the same, when it can", by_peers(others) | {"10.99.0.0/16": {"via 192.0.2.77 dev lan": 100}})
    chain.routes = others


def exabgp_ends(chain, upstream):
    """The recipe is killed, and ExaBGP with it; what changes meanwhile is in the commands afterwards."""
    routes = chain.routes
    for at in range(3):
        routes = {name: changed(held, PREFERENCES) for name, held in routes.items()}
        recipe = child_of(chain.processes["exabgp"].pid)
        os.kill(recipe, signal.SIGSTOP)
        upstream.set(routes)
        time.sleep(1)
        os.kill(recipe, signal.SIGKILL)
        chain.comes_to("the recipe killed with updates that it had not read", by_peers(routes))
    before = chain.commands()
    chain.stop("exabgp", signal.SIGKILL)
    same("commands after ExaBGP's end", chain.commands(), before)
    routes = {name: changed(held, PREFERENCES) for name, held in routes.items()}
    upstream.set(routes)
    chain.start("exabgp", chain.shown["exabgp"])
    chain.comes_to("ExaBGP killed and started again", by_peers(routes))
    many(chain, child_of(chain.processes["exabgp"].pid), upstream, {name: any_routes(5000) for name in PEERS})
    milliseconds(chain, lambda at: upstream.say(f"enable one{at}"))


def json_line(peer, gateway, network, preference=None):
    """An update as ExaBGP writes it; a withdrawal if there is no gateway."""
    told = {"attribute": {"local-preference": preference}, "announce": {"ipv4 unicast": {gateway: [{"nlri": network}]}}} if gateway else \
        {"withdraw": {"ipv4 unicast": [{"nlri": network}]}}
    return json.dumps({"type": "update", "neighbor": {"address": {"peer": peer}, "message": {"update": told}}})


def check_ninth(chain):
    """More peers than a network may have routes, by lines."""
    lines = [json_line(f"198.18.1.{at}", f"192.0.2.{at}", "10.0.0.0/8", 100 + at) for at in range(1, 11)]
    lines += [json_line(f"198.18.1.{at}", None, "10.0.0.0/8") for at in (10, 5, 9)]
    tool(*inside(chain.own), "recipes/exabgp", "feed", "hops", "commands", given=text(lines), cwd=chain.folder)
    expected = {f"via 192.0.2.{at} dev lan": 100 + at for at in (1, 2, 3, 4, 6, 7, 8)}
    same("ten next hops, of which three go", chain.state(), {"10.0.0.0/8": expected})
    most = max(len(chain_state(chain.commands().splitlines()[:at])) for at in range(len(chain.commands().splitlines())))
    same("the most routes of the network", most, 8)
    for path in chain.files:
        os.unlink(path)


def chain_state(lines):
    found = set()
    for line in lines:
        word, _, hop, _ = COMMAND.fullmatch(line).groups()
        (found.add if word == "add" else found.discard)(hop)
    return found


def exabgp_inputs(chain):
    for name in ("hops", "commands"):
        Path(chain.folder, f"{name}.new").write_text("")
    for line in ("x", "{}", "[]", '{"type": "update", "neighbor": {"message": {"update": {"announce": {"ipv4 unicast": 1}}}}}'):
        chain.page.refuses("recipes/exabgp feed hops.new commands.new > /dev/null", f"{line}\n")
    cut_off(chain, "recipes/exabgp feed hops.new commands.new > /dev/null")
    wrong_files(chain, "exabgp")


def cut_off(chain, command):
    """A last line without its end becomes one to which the leader answers `bad`, and the next starts pass it over."""
    path = Path(chain.folder, "commands.new")
    for line in ("a", "add 10.1.0.0/1", "add 10.1.0.0/16 1", "add 10.1.0.0/16 2 1", "add 10.1.0.0/16 drop", "add 10.1.0.0/16 2 100",
                 "del 10.0.0.0/8 1", "del 10.0.0.0/8 2 c"):
        path.write_text(f"add 10.0.0.0/8 1 100\n{line}")
        for _ in range(2):
            chain.page.run(f"{command} < /dev/null")
        same("a line that was cut off", path.read_text(), f"add 10.0.0.0/8 1 100\n{line} cut\n")
        same(f"the replies to the line {line} cut", chain.page.run(f"routes lead < {path}"), "set 10.0.0.0/8 1\nok\nbad\n")


def gobgp():
    needs("gobgpd", "gobgpd")
    needs("bird", "bird2")
    peers = {"a": PEERS["a"]}
    with tempfile.TemporaryDirectory() as folder, namespace(*LINES) as own, chain_of(folder, own) as chain, \
            peer(folder, own, peers, {"a": {}}, "passive;") as upstream:
        blocks(chain.page, "gobgpd.toml")
        chain.start("gobgpd", "gobgpd -f gobgpd.toml")
        wait_for("gobgpd", lambda: subprocess.run([*inside(own), "gobgp", "neighbor"], capture_output=True).returncode == 0)
        commands = blocks(chain.page, None)
        begin(chain, commands, "leader", "keep", "gobgp")
        for gateway in ("192.0.2.1", "192.0.2.2"):
            upstream.set({"a": {"10.0.0.0/8": (gateway, 100)}})
            wait_for(gateway, lambda: f"via {gateway} " in Path(chain.files[0]).read_text())
        wait_for("the route that goes", lambda: "del" in chain.commands())
        chain.page.gives(chain.commands())
        chain.page.gives(Path(chain.files[0]).read_text())
        chain.page.end()
        begin_again(chain, commands, "leader", "keep", "gobgp")
        gobgp_rounds(chain, upstream)


def gobgp_rounds(chain, upstream):
    """Random changes, a session that goes down, other next hops for all networks, and ends of the monitor and of gobgpd."""
    routes = {"a": any_routes(600)}
    for at in range(4):
        upstream.set(routes)
        chain.comes_to(f"change {at + 1}", by_peers(routes))
        routes = {"a": changed(routes["a"])}
    upstream.say("disable a")
    chain.comes_to("a session down", {})
    upstream.say("enable a")
    upstream.set(routes)
    chain.comes_to("the session up again", by_peers(routes))
    others = {"a": {network: (GATEWAYS[6 if ":" in network else 4].format(7), 100) for network in routes["a"]}}
    chain.replaced("other next hops for all networks", lambda: upstream.set(others), by_peers(others))
    for title, name in (("the recipe and the monitor killed", "gobgp"), ("gobgpd killed", "gobgpd")):
        before = chain.commands()
        chain.stop(name, signal.SIGKILL)
        routes = {"a": changed(others["a"])}
        upstream.set(routes)
        if name == "gobgpd":
            wait_for("the end of the recipe", lambda: "the routes stay" in chain.said("gobgp"))
            same("the recipe's status", chain.processes["gobgp"].wait(), 1)
            chain.start("gobgpd", "gobgpd -f gobgpd.toml")
            wait_for("its paths", lambda: "10." in tool(*inside(chain.own), "sh", "-c", "gobgp global rib || true"))
        same("commands after the end", chain.commands(), before)
        chain.start("gobgp", chain.shown["gobgp"])
        chain.comes_to(title, by_peers(routes))
    gobgp_inputs(chain)
    many(chain, recipe_of(chain, "gobgp"), upstream, {"a": any_routes(10000)})
    milliseconds(chain, lambda at: upstream.say(f"enable one{at}"))


def recipe_of(chain, name):
    """The process of the recipe in a pipe."""
    return int(tool("pgrep", "-g", str(chain.processes[name].pid), "-f", f"recipes/{name} feed").split()[-1])


def fed(chain, given):
    return subprocess.run([*inside(chain.own), "recipes/gobgp", "feed", "hops.new", "commands.new"], input=given, text=True,
                          capture_output=True, cwd=chain.folder)


def gobgp_inputs(chain):
    for name in ("hops", "commands"):
        Path(chain.folder, f"{name}.new").write_text("")
    path = '{"nlri":{"prefix":"10.0.0.0/8"},"attrs":[{"type":3,"nexthop":"192.0.2.1"}]}'
    for given in ("", "x\n", "{}\n", "[1]\n", '[{"nlri":{"prefix":"10.0.0.0/8"},"attrs":[]}]\n'):
        chain.page.refuses("recipes/gobgp feed hops.new commands.new", given)
    done = fed(chain, f"[{path}]\n[")
    same("a line that is cut off", [done.returncode, Path(chain.folder, "commands.new").read_text()], [1, "add 10.0.0.0/8 1 100\n"])
    far = f"[{path.replace('192.0.2.1', '203.0.113.9')}]\n"
    tool("ip", "-n", chain.own, "route", "add", "203.0.113.0/24", "via", "inet6", "2001:db8:5::77", "dev", "lan")
    fed(chain, far)
    same("the words of a next hop behind an IPv6 gateway", Path(chain.folder, "hops.new").read_text().splitlines()[1:],
         ["2 via inet6 2001:db8:5::77 dev lan"])
    tool("ip", "-n", chain.own, "route", "replace", "203.0.113.0/24", *"encap ip id 1 dst 192.0.2.9 via 192.0.2.77 dev lan".split())
    same("a next hop behind an encapsulation", "there is no route to its next hop 203.0.113.9" in fed(chain, far).stderr, True)
    never_rests(chain.folder)
    wrong_files(chain, "gobgp")


def never_rests(folder):
    """A source that never rests: after the longest time, here three seconds, the routes that it did not send go."""
    commands, (reader, writer) = Path(folder, "commands.restless"), os.pipe()
    commands.write_text("add 10.9.0.0/16 1 100\n")
    table = streams.Table(f"{folder}/hops.restless", commands)
    longest, streams.LONGEST = streams.LONGEST, 0.1
    os.write(writer, b"-")
    for _, _ in zip(range(3000), table.pieces(os.fdopen(reader, "rb"))):
        table.put("10.0.0.0/8", "peer", "via 192.0.2.1 dev lan")
        if not table.is_dump:
            break
        time.sleep(0.01)
        os.write(writer, b"-")
    streams.LONGEST = longest
    os.close(writer)
    same("routes after the longest time", commands.read_text(), "add 10.9.0.0/16 1 100\nadd 10.0.0.0/8 1 100\ndel 10.9.0.0/16 1\n")


BGPD = """router bgp 64500
 bgp router-id 198.18.0.254
 neighbor 198.18.0.1 remote-as 64500
 neighbor 198.18.0.1 update-source 198.18.0.254
 neighbor 198.18.0.1 timers connect 1
 address-family ipv6 unicast
  neighbor 198.18.0.1 activate
"""


@contextlib.contextmanager
def daemons(folder, own, *families):
    """FRR's daemons in this namespace. FRR's user must be able to find its sockets, whose folder is returned."""
    place = f"{folder}/frr"
    os.mkdir(place)
    os.chmod(folder, 0o755)
    shutil.chown(place, "frr", "frrvty")
    try:
        start_daemons(place, own, *families)
        yield place
    finally:
        stop_daemons(place, "-TERM")


def start_daemons(place, own, *families):
    for daemon, *more in (("zebra", "-M", "dplane_fpm_nl", "-s", "90000000"), ("staticd",), ("bgpd", "-p", "0")):
        tool(*inside(own, *families), f"/usr/lib/frr/{daemon}", *more, "-d", "-f", "/dev/null", "-P", "0", "-i", f"{place}/{daemon}.pid", "-z",
             f"{place}/zserv.api", "--vty_socket", place)


def stop_daemons(place, how):
    for path in Path(place).glob("*.pid"):
        subprocess.run(["kill", how, path.read_text().strip()], capture_output=True)
    time.sleep(1)


def configured(folder, place, lines):
    Path(folder, "frr.conf").write_text(lines)
    tool("vtysh", "--vty_socket", place, "-f", f"{folder}/frr.conf")


def frr():
    needs("vtysh", "frr")
    needs("bird", "bird2")
    peers = {"a": PEERS["a"]}
    with tempfile.TemporaryDirectory() as folder, namespace(LINES[0], "link set lan up") as own, daemons(folder, own) as place, \
            chain_of(folder, own) as chain:
        fpm, commands, static = (blocks(chain.page, None) for _ in range(3))
        chain.fpm = fpm
        configured(folder, place, fpm + static)
        begin(chain, commands, "leader", "keep", "frr")
        wait_for("the dump", lambda: "the dump is over" in chain.said("frr"), LONG)
        chain.page.gives("".join(sorted(chain.commands().splitlines(keepends=True))))
        chain.page.gives(Path(chain.files[0]).read_text())
        use(chain)
        chain.removal = blocks(chain.page, None).split()
        chain.page.end()
        begin_again(chain, commands, "leader", "keep", "frr")
        configured(folder, place, "".join(f"no {line}\n" for line in static.splitlines()))
        for line in LINES[1:]:
            tool("ip", "-n", own, *line.split())
        with peer(folder, own, peers, {"a": {}}, "passive;") as upstream:
            configured(folder, place, BGPD)
            frr_rounds(chain, upstream, folder, place)


def frr_rounds(chain, upstream, folder, place):
    """Random changes at the BGP peer, other next hops for all networks, routes over several gateways, and ends of the recipe and of
    zebra."""
    routes = {"a": any_routes(600)}
    for at in range(4):
        upstream.set(routes)
        chain.comes_to(f"change {at + 1}", by_peers(routes))
        routes = {"a": changed(routes["a"])}
    upstream.say("disable a")
    chain.comes_to("a session down", {})
    upstream.say("enable a")
    upstream.set(routes)
    chain.comes_to("the session up again", by_peers(routes))
    others = {"a": {network: (GATEWAYS[6 if ":" in network else 4].format(7), 100) for network in routes["a"]}}
    chain.replaced("other next hops for all networks", lambda: upstream.set(others), by_peers(others))
    several = [f"{'ipv6' if ':' in network else 'ip'} route {network} {GATEWAYS[6 if ':' in network else 4].format(at)}\n"
               for network in others["a"] for at in (8, 9)]
    both = {network: {" ".join(f"nexthop via {GATEWAYS[6 if ':' in network else 4].format(at)} dev lan" for at in (8, 9)): 100}
            for network in others["a"]}
    chain.replaced("two gateways for all networks", lambda: configured(folder, place, "".join(several)), both)
    chain.replaced("one gateway again", lambda: configured(folder, place, "".join(f"no {line}" for line in several)), by_peers(others))
    frr_ends(chain, upstream, others["a"], folder, place)
    frr_inputs(chain, folder, place)
    many(chain, chain.processes["frr"].pid, upstream, {"a": any_routes(10000)})
    milliseconds(chain, lambda at: upstream.say(f"enable one{at}"))


def frr_ends(chain, upstream, held, folder, place):
    routes = {"a": changed(held)}
    chain.stop("frr", signal.SIGKILL)
    upstream.set(routes)
    time.sleep(2)
    chain.start("frr", chain.shown["frr"])
    chain.comes_to("the recipe killed", by_peers(routes))
    for title in ("FRR killed and started again", "the same, with changes meanwhile"):
        before = chain.commands()
        stop_daemons(place, "-KILL")
        wait_for("zebra's end", lambda: "zebra has gone" in chain.said("frr"))
        routes = {"a": changed(routes["a"]) if "changes" in title else routes["a"]}
        upstream.set(routes)
        tool(*inside(chain.own), *chain.removal)
        start_daemons(place, chain.own)
        configured(folder, place, chain.fpm + BGPD)
        if "changes" in title:
            chain.comes_to(title, by_peers(routes))
        else:
            time.sleep(1.5 * QUIET["frr"])
            same("commands after FRR's restart", chain.commands()[len(before):], "")
            print(f"{title}: no command came")


def frame(*more):
    """A frame of dplane_fpm_nl with the route of 10.9.0.0/16 over the link `lo`, and with more attributes."""
    body = netlink.ROUTE.pack(socket.AF_INET, 16, 0, 0, 254, 11, 0, netlink.UNICAST, 0)
    for kind, data in ((netlink.DST, bytes((10, 9, 0, 0))), (netlink.OIF, struct.pack("=I", 1)), *more):
        body += netlink.ATTRIBUTE.pack(netlink.ATTRIBUTE.size + len(data), kind) + data
    message = netlink.HEADER.pack(netlink.HEADER.size + len(body), netlink.NEWROUTE, 0, 0, 0) + body
    return struct.pack(">BBH", 1, 1, 4 + len(message)) + message


def frr_inputs(chain, folder, place):
    for given in (b"GET / HTTP/1.0\r\n\r\n", b"\1\1\0\2", b"\1\1\0\x10" + bytes(12), frame((netlink.ENCAP, bytes(4)))):
        for name in ("hops", "commands"):
            Path(chain.folder, f"{name}.new").write_text("")
        recipe = subprocess.Popen([*inside(chain.own), "recipes/frr", "feed", "hops.new", "commands.new", "2621"], cwd=chain.folder,
                                  stderr=subprocess.PIPE, text=True)
        sending(chain, given).wait()
        said = recipe.communicate()[1].splitlines()
        same(f"the status for {given}", [recipe.returncode, Path(chain.folder, "commands.new").read_text()], [1, ""])
        print("refused:", said[-1])
    strangers(chain)
    wrong_files(chain, "frr")


SENDING = """import os, socket, time
os.setuid({})
end = socket.socket()
while end.connect_ex(("127.0.0.1", 2621)):
    time.sleep(0.1)
    end = socket.socket()
end.send({})
{} or end.recv(1)
"""


def sending(chain, given, user=0, is_short=False):
    """A program of this user that connects, sends this, and waits for the other end unless it is short."""
    return subprocess.Popen([*inside(chain.own), "python3", "-c", SENDING.format(user, given, is_short)], stderr=subprocess.DEVNULL)


def strangers(chain):
    """Other users' connections bring no route, also if they are closed before the recipe takes them. The feed goes on."""
    chain.start("strangers", "recipes/frr feed hops.new commands.new 2621")
    recipe, commands = chain.processes["strangers"].pid, Path(chain.folder, "commands.new")
    sending(chain, frame(), 65534).wait(LONG)
    os.kill(recipe, signal.SIGSTOP)
    sending(chain, frame(), 65534, True).wait(LONG)
    time.sleep(1)
    os.kill(recipe, signal.SIGCONT)
    same("commands of other users", commands.read_text(), "")
    own = sending(chain, frame())
    wait_for("the route of root", lambda: commands.read_text() == "add 10.9.0.0/16 1 100\n")
    chain.stop("strangers")
    own.wait()
    same("refused connections", chain.said("strangers").count("refused a connection of"), 2)


def rtnetlink():
    needs("jq", "jq")
    with tempfile.TemporaryDirectory() as folder, namespace(*LINES[:1]) as own, chain_of(folder, own) as chain:
        commands = blocks(chain.page, None)
        begin(chain, commands, "leader", "keep", "rtnetlink")
        wait_for("the connected network", lambda: "add 192.0.2.0/24" in chain.commands())
        for line in blocks(chain.page, None).splitlines():
            tool("ip", "-n", own, *line.split()[1:])
        wait_for("the last route", lambda: "10.1.0.0/16" in chain.commands())
        chain.page.gives(chain.commands())
        chain.page.gives(Path(chain.files[0]).read_text())
        use(chain)
        chain.page.end()
        begin_again(chain, commands, "leader", "keep", "rtnetlink")
        for line in ("rule del pref 99", "-6 rule del pref 99", "route flush root 10.0.0.0/8"):
            tool("ip", "-n", own, *line.split())
        rtnetlink_rounds(chain)
        for at in ("0", "x", "4294967296", "78"):
            chain.page.refuses(f"recipes/rtnetlink feed {at} hops.new commands.new") if at == "78" else None
        encapsulated(chain)
        many_gateways(chain)
        bad_ends(folder, own)
        wrong_files(chain, "rtnetlink", "254")


def many_gateways(chain):
    """A route over so many gateways that it needs a large part of a dump, and another route: the recipe gives both."""
    gateways = [word for at in range(1, 251) for word in ("nexthop", "via", f"192.0.2.{at}", "dev", "lan")]
    for network, words in (("10.0.0.0/8", gateways), ("10.6.0.0/16", ["via", "192.0.2.1"])):
        tool("ip", "-n", chain.own, "route", "add", network, "table", "79", *words)
    with tempfile.TemporaryDirectory() as folder:
        hops, commands = Path(folder, "hops"), Path(folder, "commands")
        hops.touch()
        command = ["nsenter", f"--net=/run/netns/{chain.own}", HERE / "rtnetlink", "feed", "79", hops, commands]
        with subprocess.Popen(command, stderr=subprocess.DEVNULL) as recipe:
            wait_for("a route over 250 gateways and another", lambda: commands.exists() and commands.read_text().count("add 10.") == 2)
            recipe.terminate()
    for network in ("10.0.0.0/8", "10.6.0.0/16"):  # a flush would not find them
        tool("ip", "-n", chain.own, "route", "del", network, "table", "79")


OLD = ("10.9.0.0/16", "2001:db8:9::/48")
NO_ROOM = "table 79: the kernel has no room to list the route after {}: it has too many gateways, or the kernel is short of memory"
BAD = {"truncated": "table 79: a message of the kernel is longer than 131072 bytes",
       "error": f"table 79: the kernel ended the list after {FEW[-1]}: Cannot allocate memory",
       "answer": f"table 79: the kernel ended the list after {FEW[-1]}: an answer without a list",
       "cut": "table 79: a message of 20 bytes, of which 16 came", "empty": NO_ROOM.format(FEW[-1]), "size": NO_ROOM.format(FEW[-1])}
SAID = {case: "the dump is over: 4 networks; 2 routes that were not in it are gone" for case in ("memory", "changed")}
SAID["old"] = "the kernel is short of memory, and may have left out IPv6 routes of table 79; the recipe reads all again"


def fed_by(folder, own, case, library=""):
    """The status of a feed, its first line, and the networks that it removes. Without an end of its own it has no status."""
    hops, commands, lines, is_ended = Path(folder, "hops.79"), Path(folder, "commands.79"), [], False
    hops.write_text("1 dev lan\n")
    commands.write_text(text(f"add {network} 1 {65535 if '.' in network else 64511}" for network in (*FEW, *OLD)))
    command = ["timeout", "20", *inside(own), "env", f"CASE={case}", f"LD_PRELOAD={library}", HERE / "rtnetlink", "feed", "79", hops,
               commands]
    with subprocess.Popen(command, stderr=subprocess.PIPE, text=True) as recipe:
        for line in recipe.stderr:
            lines.append(line.removeprefix("rtnetlink: ").strip())
            if lines[-1] == SAID.get(case):
                time.sleep(0.5)
                recipe.terminate()
                is_ended = True
    gone = [line.split()[1] for line in commands.read_text().splitlines() if line.startswith("del ")]
    return None if is_ended else recipe.returncode, lines[0], gone


def bad_ends(folder, own):
    """A list of the kernel that ends too early takes no network away: the feed ends, or it reads the routes again."""
    library = shim(folder, "ends", BAD_ENDS)
    for network in FEW:
        tool("ip", "-n", own, *f"route add {network} dev lan table 79".split())
    for case, said in BAD.items() if library else ():
        same(f"the case {case}", fed_by(folder, own, case, library), (1, said, []))
    for case, said in SAID.items() if library else ():
        same(f"the case {case}", fed_by(folder, own, case, library), (None, said, list(OLD[:1 if case == "old" else 2])))
    for case, network, count, said in (("", "10.1.0.0/16", 257, "10.1.0.0/16 has a route over 257 gateways, and a hop has at most 256"),
                                       ("", "10.1.0.0/16", 2100, NO_ROOM.format("10.0.0.0/16")),
                                       ("", "2001:db8:1::/48", 1200, NO_ROOM.format("2001:db8::/48")),
                                       ("small", "2001:db8:1::/48", 200, NO_ROOM.format("2001:db8::/48"))):
        put_gateways(own, network, count, 79)
        if (IS_EXACT or ":" not in network) and (library or not case):
            same(f"{count} gateways", fed_by(folder, own, case, library if case else ""), (1, said, []))
        tool("ip", "-n", own, "route", "del", network, "table", "79")
    for network in FEW:
        tool("ip", "-n", own, "route", "del", network, "table", "79")
    print(f"{len(BAD) + len(SAID) + 3} lists that end too early: none took a network away")


def encapsulated(chain):
    """A route with an encapsulation after a plain one: neither the recipe nor recipes/ip-route.jq gives a route."""
    ip, encap = ("ip", "-n", chain.own), "encap ip id 1 dst 192.0.2.9"
    for family, *networks, how in (("-4", "10.0.0.0/8", "10.6.0.0/16", f"{encap} via 192.0.2.1 dev lan"),
                                   ("-4", "10.0.0.0/8", "10.6.0.0/16", f"nexthop via 192.0.2.1 nexthop {encap} via 192.0.2.2"),
                                   ("-6", "2001:db8:8::/48", "2001:db8:9::/48", f"{encap} dev lan")):
        for network, words in zip(networks, ("dev lan", how)):
            tool(*ip, "route", "add", network, "table", "79", *words.split())
        chain.page.refuses(f"timeout 20 nsenter --net=/run/netns/{chain.own} recipes/rtnetlink feed 79 hops.new commands.new")
        chain.page.refuses(f"ip -n {chain.own} -j {family} route show table 79 | jq -rf recipes/ip-route.jq 2>/dev/null | "
                           "recipes/number adds hops.new")
        tool(*ip, family, "route", "flush", "table", "79")


def any_change(part):
    """A line for `ip -batch`, which may fail, on networks of one part of eight."""
    is_six = DRAWN.random() < 0.5
    network = f"10.{32 * part + DRAWN.randrange(32)}.{DRAWN.randrange(4)}.0/24"
    if is_six:
        network = f"2001:db8:1{part}{DRAWN.randrange(128):02x}::/48"
    gateway = [GATEWAYS[6 if is_six else 4].format(DRAWN.randrange(1, 7)) for _ in range(2)]
    word = DRAWN.choice(("add", "replace", "replace", "replace", "append", "change", "del", "del"))
    draw = DRAWN.random()
    if word == "del" and draw < 0.5:
        how = ""
    elif draw < 0.15:
        how = "unreachable"
    elif draw < 0.4 and gateway[0] != gateway[1]:
        how = f"nexthop via {gateway[0]} weight {DRAWN.randrange(1, 4)} nexthop via {gateway[1]}"
    else:
        how = f"via {gateway[0]}"
    kind, how = (how, "") if how == "unreachable" else ("", how)
    return f"route {word} {kind} {network} metric {DRAWN.choice((10, 20))} {how}"


def by_jq(chain):
    """The routes of the kernel, as `ip` and recipes/ip-route.jq have them."""
    found = {}
    for family in ("-4", "-6"):
        told = chain.page.run(f"ip -n {chain.own} -j {family} route show table main | jq -rf recipes/ip-route.jq")
        for network, preference, words in (line.split(" ", 2) for line in told.splitlines()):
            of_net = found.setdefault(network, {})
            of_net[words] = max(int(preference), of_net.get(words, 0))
    return {network: held for network, held in found.items() if network.startswith(DRAWN_FROM)}


def settled_to(chain, title):
    chain.comes_to(title, by_jq(chain))


def rtnetlink_rounds(chain):
    """Random changes, other next hops for all networks, objects, links, and an end of the recipe."""
    ip = ("ip", "-n", chain.own)
    tool(*ip, *LINES[1].split())

    def batch(lines):
        subprocess.run([*ip, "-force", "-batch", "-"], input=text(lines), text=True, capture_output=True)

    for at in range(8):
        tool(*ip, "route", "flush", "root", f"10.{32 * at}.0.0/11")
        tool(*ip, "-6", "route", "flush", "root", f"2001:db8:1{at}00::/40")
        batch(any_change(at) for _ in range(400))
        settled_to(chain, f"change {at + 1}")
    held = chain.state()
    batch(f"route del {network}" for network in held for _ in range(9))
    networks = [network for network in held if network.startswith("10.")]
    batch(f"route add {network} via 192.0.2.1" for network in networks)
    settled_to(chain, "one route for each network")
    chain.replaced("other next hops for all networks", lambda: batch(f"route replace {network} via 192.0.2.7" for network in networks),
                   {network: {"via 192.0.2.7 dev lan": 65535} for network in networks})
    batch(["nexthop add id 1 via 192.0.2.8 dev lan", "nexthop add id 2 via 192.0.2.9 dev lan", "nexthop add id 3 group 1/2",
           *(f"route replace {network} nhid 3" for network in networks)])
    several = "nexthop via 192.0.2.8 dev lan nexthop via 192.0.2.9 dev lan"
    chain.comes_to("a group of nexthop objects", {network: {several: 65535} for network in networks})
    objects_alone(chain, batch, networks)
    batch(["nexthop replace id 3 group 2"])
    chain.comes_to("another group", {network: {"via 192.0.2.9 dev lan": 65535} for network in networks})
    batch([*(f"route replace {network} via 192.0.2.7" for network in networks), "route add 10.99.0.0/16 dev lan"])
    settled_to(chain, "routes by their gateways again")
    dead_gateway(chain, batch)
    rtnetlink_ends(chain, ip, batch, networks)


def objects_alone(chain, batch, networks):
    """The kernel sends no gateways of objects any more."""
    for mode, words in ((0, "nhid 3"), (1, "nexthop via 192.0.2.8 dev lan nexthop via 192.0.2.9 dev lan")):
        tool("ip", "netns", "exec", chain.own, "sysctl", "-qw", f"net.ipv4.nexthop_compat_mode={mode}")
        batch(f"route replace {network} {how}" for how in ("via 192.0.2.7", "nhid 3") for network in networks)
        chain.comes_to(f"routes over an object in compat mode {mode}", {network: {words: 65535} for network in networks})
        settled_to(chain, "the same, by `ip`")


def dead_gateway(chain, batch):
    """One of two links goes down and comes up again: the route has the gateway that lives, and then both."""
    before, network = chain.state(), "10.98.0.0/16"
    batch(["link add lan2 type veth peer name far2", "link set far2 up", "link set lan2 up", "address add 198.18.0.129/25 dev lan2",
           f"route add {network} nexthop via 192.0.2.1 weight 2 nexthop via 198.18.0.130"])
    both = "nexthop via 192.0.2.1 dev lan weight 2 nexthop via 198.18.0.130 dev lan2"
    chain.comes_to("two gateways", before | {network: {both: 65535}})
    for title, word, words in (("one is dead", "down", "via 192.0.2.1 dev lan"), ("it lives again", "up", both)):
        batch([f"link set lan2 {word}"])
        chain.comes_to(title, before | {network: {words: 65535}})
        settled_to(chain, f"{title}, by `ip`")
    batch(["link del lan2", f"route del {network}"])
    chain.comes_to("the link gone", before)


def rtnetlink_ends(chain, ip, batch, networks):
    tool(*ip, "link", "set", "lan", "down")
    chain.comes_to("a link that goes down", {})
    tool(*ip, "link", "set", "lan", "up")
    batch(f"route replace {network} via 192.0.2.6" for network in networks)
    settled_to(chain, "the link up again")
    for at in range(3):
        chain.stop("rtnetlink", signal.SIGKILL)
        batch(any_change(at) for _ in range(200))
        chain.start("rtnetlink", chain.shown["rtnetlink"])
        settled_to(chain, "the recipe killed")
    many_events(chain, ip)
    gone_meanwhile(chain, ip, batch)
    tool(*ip, "route", "flush", "root", "10.192.0.0/11")
    settled_to(chain, "some networks gone")
    lines = subprocess.Popen([*ip, "-batch", "-"], stdin=subprocess.PIPE, text=True)

    def change(at):
        lines.stdin.write(f"route add {ONES[at]} via 192.0.2.1\n")
        lines.stdin.flush()

    milliseconds(chain, change)
    lines.stdin.close()
    lines.wait()


def gone_meanwhile(chain, ip, batch):
    """IPv6 routes go while the recipe reads all routes, and one comes: the kernel passes over others, and the recipe loses none of them."""
    recipe, networks = chain.processes["rtnetlink"].pid, [f"2001:db8:1:{at:x}::/64" for at in range(1, 16001)]
    batch([LINES[1], "link add other type veth peer name far2", *(f"route add {network} via 2001:db8:5::1" for network in networks)])
    settled_to(chain, "many IPv6 routes")
    for at in range(4):
        batch(["link set other up"])
        time.sleep(1)
        batch(["link set other down"])
        time.sleep(0.02 + 0.02 * at)
        os.kill(recipe, signal.SIGSTOP)
        batch([*(f"route del {network}" for network in networks[1000 * at:][:1000]), f"route add 2001:db8:1:ff0{at}::/64 dev lan"])
        os.kill(recipe, signal.SIGCONT)
        time.sleep(2)
        settled_to(chain, "IPv6 routes gone during a read")
    batch(["link del other"])
    tool(*ip, "-6", "route", "flush", "root", "2001:db8:1::/48")


def many_events(chain, ip):
    """More events than fit, while the recipe is stopped; then the CPU time of many routes."""
    recipe = chain.processes["rtnetlink"].pid
    networks = [f"11.{at >> 8}.{at & 255}.0/24" for at in range(1 << 14)]
    begun, lines = cpu_of(recipe), len(chain.commands().splitlines())
    tool(*ip, "-batch", "-", given=text(f"route add {network} via 192.0.2.1" for network in networks))
    settled_to(chain, "many routes")
    print(f"{len(chain.commands().splitlines()) - lines:,} commands took the recipe {cpu_of(recipe) - begun:.2f} s of CPU time")
    os.kill(recipe, signal.SIGSTOP)
    for gateway in (2, 3, 4, 5, 6, 7, 8, 9):
        tool(*ip, "-batch", "-", given=text(f"route replace {network} via 192.0.2.{gateway}" for network in networks))
    tool(*ip, "route", "flush", "root", "11.32.0.0/11")
    os.kill(recipe, signal.SIGCONT)
    settled_to(chain, "more events than fit")
