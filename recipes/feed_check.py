"""A full feed from a cold start: BIRD sends the networks of bench/real_feed, and they go through a daemon and its recipe to the kernel.
`recipes/exabgp check full` runs this, and so do gobgp and frr."""
import contextlib
import ipaddress
import os
import random
import re
import socket
import subprocess
import tempfile
import time
from pathlib import Path

from common import HERE, any_addresses, bird, fault, namespace, needs, same, text, tool
from live_check import FIB_KERNEL, Asked, inside, load, packed, peak, usable, wait_for
from streams_check import BGP, BGPD, GATEWAYS, LINES, PEERS, START, Bird, begin, blocks, chain_of, configured, daemons

HOPS, QUIET, TURN, LONGEST = 6, 10, 0.5, 3600  # next hops; seconds without a new command at the end, between two looks, in all
SIX = re.compile("-6|:.*:")
STATIC = "protocol static s{0}x{1} {{\n  ipv{0} {{ table a{0}; import filter {{ bgp_next_hop = {2}; bgp_local_pref = 100; accept; }}; }};\n"


def feed_of(count):
    """The number of the next hop for each network, of so many networks, or of all."""
    needs("location", "location")
    lines = [line.split() for line in tool(str(HERE.parent / "bench/real_feed")).splitlines() if line.startswith("add ")]
    held = {network: 1 + int(origin) % HOPS for _, network, origin in lines if usable(packed(network.split("/")[0]))}
    return held if not count else dict(random.Random(1).sample(sorted(held.items()), count))


def configuration(held, more):
    lines = [START, "ipv4 table a4;\nipv6 table a6;\n"]
    for family in (4, 6):
        for hop in range(1, HOPS + 1):
            lines.append(STATIC.format(family, hop, GATEWAYS[family].format(hop)))
            lines += (f"  route {network} blackhole;\n" for network, one in held.items() if (one, ":" in network) == (hop, family == 6))
            lines.append("}\n")
    return "".join([*lines, BGP.format("a", *PEERS["a"], more)])


def expected(held, addresses):
    """The hop of the longest match for each packed address."""
    tables = {4: {}, 16: {}}
    for network, hop in held.items():
        address, length = network.split("/")
        first = packed(address)
        tables[len(first)].setdefault(int(length), {})[int.from_bytes(first, "big") >> 8 * len(first) - int(length)] = hop
    found = []
    for address in addresses:
        number, bits = int.from_bytes(address, "big"), 8 * len(address)
        lengths = sorted(tables[len(address)], reverse=True)
        found.append(next((of_length[number >> bits - length] for length in lengths
                           if (number >> bits - length) in (of_length := tables[len(address)][length])), None))
    return found


def points_of(held, count):
    """Half of the addresses are in networks of the feed."""
    draw, found = random.Random(2), [packed(address) for address in any_addresses(count // 2)]
    for network in draw.choices(sorted(held), k=count - len(found)):
        net = ipaddress.ip_network(network)
        found.append(net[draw.randrange(net.num_addresses)].packed)
    return [address for address in found if usable(address)]


class Grown:
    """The lines of a file that grows."""

    def __init__(self, path):
        self.path, self.at, self.lines, self.last = path, 0, 0, time.monotonic()

    def look(self):
        with open(self.path, "rb") as file:
            file.seek(self.at)
            while piece := file.read(1 << 20):
                self.at, self.lines, self.last = self.at + len(piece), self.lines + piece.count(b"\n"), time.monotonic()


def state_of(path):
    with contextlib.suppress(FileNotFoundError, ValueError):
        return dict(line.split(" ", 1) for line in Path(path).read_text().splitlines())
    return {}


def carried_out(chain, count, begun):
    """Waits until the kernel has all. The seconds to the last command, and to the kernel's last route; the batches."""
    commands, level = Grown(chain.files[1]), None
    while not level or time.monotonic() - commands.last < QUIET:
        commands.look()
        values = state_of(f"{chain.folder}/state")
        is_level = commands.lines >= count and int(values.get("bytes", 0)) == os.path.getsize(f"{chain.folder}/log")
        level = (level or time.monotonic()) if is_level else None
        if time.monotonic() > begun + LONGEST:
            fault(f"after {LONGEST} s there are {commands.lines:,} commands, and `keep` says {values}")
        time.sleep(TURN)
    return commands.last - begun, level - begun, int(values["batches"])


def memories(own):
    """The most memory of each process in the namespace, in MB."""
    found = []
    for pid in tool("ip", "netns", "pids", own).split():
        with contextlib.suppress(FileNotFoundError, TypeError):
            words = Path(f"/proc/{pid}/cmdline").read_text().split("\0")
            path = Path(next(word for word in words if not re.fullmatch(r"\S*python\S*|-.*", word)))
            name = ("recipes/" if path.parent.name == "recipes" else "") + path.name
            found.append((peak(pid), name))
    return ", ".join(f"{name} {kilobytes / 1024:.0f}" for kilobytes, name in sorted(found, reverse=True)
                     if name not in ("bash", "sh", "tail", "nsenter"))


def start(chain, recipe, folder, place):
    """The page's commands, with a file for the state of `keep`, and longer times without a route."""
    if recipe == "frr":
        configured(folder, place, blocks(chain.page, None))
    else:
        blocks(chain.page, {"exabgp": "exabgp.conf", "gobgp": "gobgpd.toml"}[recipe])
    if recipe == "gobgp":
        chain.start("gobgpd", "gobgpd -f gobgpd.toml")
        wait_for("gobgpd", lambda: subprocess.run([*inside(chain.own), "gobgp", "neighbor"], capture_output=True).returncode == 0)
    commands = chain.page.text().replace("/usr/local/share/jolmidda/recipes", str(HERE)).replace("live keep", "live keep -s state")
    begin(chain, commands, "leader", "keep", recipe)
    wait_for("the first sync", lambda: "first `sync`" in chain.said("keep"))


def emptied(own, hops):
    """Removes the kernel's routes, since a namespace with many goes away slowly."""
    lines = tool(*inside(own), FIB_KERNEL, "list", hops, "77").splitlines()
    tool(*inside(own), FIB_KERNEL, "load", hops, "77", given=text(f"remove {line.split()[1]}" for line in lines[:-1]))


def check(recipe, count="0"):
    carry(recipe, feed_of(int(count)))


def check_four(recipe):
    """A machine without IPv6."""
    draw = random.Random(3)
    carry(recipe, {f"10.{draw.randrange(16)}.{draw.randrange(256)}.0/24": draw.randrange(1, 1 + HOPS) for _ in range(300)}, socket.AF_INET6)


def carry(recipe, held, *families):
    """The feed to the kernel, without sockets of these families."""
    needs("bird", "bird2")
    lines = [*LINES, "rule add pref 99 lookup 77", "-6 rule add pref 99 lookup 77"]
    lines = [line for line in lines if not families or not SIX.search(line)]
    more = "disabled; connect delay time 1;" if recipe == "exabgp" else "disabled; passive;"
    with tempfile.TemporaryDirectory() as folder, namespace(*lines) as own, contextlib.ExitStack() as rest:
        if families:
            tool(*inside(own), "sysctl", "-q", "-w", "net.ipv6.conf.all.disable_ipv6=1")
        place = rest.enter_context(daemons(folder, own, *families)) if recipe == "frr" else None
        chain = rest.enter_context(chain_of(folder, own, *families))
        control = rest.enter_context(bird(folder, configuration(held, more), *inside(own, *families)))
        start(chain, recipe, folder, place)
        if recipe == "frr":
            configured(folder, place, BGPD)
        measure(folder, held, own, chain, Bird(folder, control, PEERS, more), families)
        chain.close()
        emptied(own, chain.files[0])
    for path in chain.files if recipe == "exabgp" else ():
        Path(path).unlink(missing_ok=True)


def measure(folder, held, own, chain, upstream, families):
    what = " on a machine without IPv6" if families else f", {sum(':' in network for network in held):,} of IPv6"
    print(f"{len(held):,} networks{what}; load {load()}", flush=True)
    begun = time.monotonic()
    upstream.say("enable a")
    last, level, batches = carried_out(chain, len(held), begun)
    print(f"from the start of the session: the last command after {last:.0f} s, the kernel's last route after {level:.0f} s, in "
          f"{batches:,} batches; load {load()} on {os.cpu_count()} processors")
    print(f"MB at most: {memories(own)}", flush=True)
    points = [point for point in points_of(held, 10000) if not families or len(point) == 4]
    answers = zip(map(ipaddress.ip_address, points), Asked(own).ask(points), expected(held, points))
    wrong = [answer for answer in answers if answer[1] != answer[2]]
    same("wrong answers of the kernel", wrong[:3], [])
    print(f"{len(points):,} addresses, most of them in networks of the feed: the kernel uses the hop of the longest network for each")
