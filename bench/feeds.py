#!/usr/bin/env python3
"""Writes a feed for `routes lead` to standard output, the same for the same arguments.

usage: feeds.py load|churn|walks v4|v6 COUNT [SEED]
       feeds.py over FEED COUNT [SEED]
       feeds.py spread NET LENGTH COUNT [SEED]
       feeds.py deeper FEED v4|v6 [SEED]

    load    COUNT adds of distinct networks, then flat
    churn   COUNT adds, then COUNT lines: adds of new networks, adds of routes to stored ones, dels, gets; then flat
    walks   COUNT adds, then COUNT / 10 lines: list, cover, from, after and count; then flat
    over    COUNT changes of the networks that FEED adds, each with one hop: some are withdrawn, some are announced again, with any hop
            of FEED, and some get another hop, by an `add` and a `del`
    spread  COUNT adds of distinct networks of one length, drawn evenly from those inside NET
    deeper  the adds of FEED of one family, and for each fifth network one of a network inside it that is one to eight bits longer

The lengths are distributed as in a table of the public internet. Most networks are /24 (IPv4) or /48 (IPv6) and inside allocations, some
of which are announced themselves. There are few hops, and some are far more frequent than others. A route that is added to a
stored network has one of three preferences. No network gets a ninth hop."""
import ipaddress
import math
import random
import socket
import sys

LENGTHS = {
    "v4": {24: 600, 23: 100, 22: 110, 21: 50, 20: 45, 19: 25, 18: 15, 17: 9, 16: 14, 14: 2, 12: 1, 32: 10, 28: 4},
    "v6": {48: 450, 32: 150, 44: 110, 40: 95, 36: 50, 29: 40, 33: 20, 46: 15, 34: 12, 64: 12, 56: 6, 128: 6},
}
ALLOCATIONS = {"v4": range(11, 21), "v6": (20, 24, 28, 29, 32)}
WIDTH = {"v4": 32, "v6": 128}
HOPS = 24
MOST = 8
PREFERENCES = ("50", "100", "200")
MIXES = ("even", "Zipf", "anywhere")


class Networks:
    """Draws networks of one family."""

    def __init__(self, draw, family, count):
        self.draw, self.family, self.width = draw, family, WIDTH[family]
        self.lengths = list(LENGTHS[family])
        self.weights = list(LENGTHS[family].values())
        self.allocations = [self.allocation() for _ in range(max(20, count // 40))]

    def allocation(self):
        length = self.draw.choice(ALLOCATIONS[self.family])
        if self.family == "v4":
            first = self.draw.randrange(1 << 24, 224 << 24)
        else:
            first = 1 << 125 | self.draw.getrandbits(125)
        return first >> self.width - length << self.width - length, length

    def network(self):
        length = self.draw.choices(self.lengths, self.weights)[0]
        first, inside = self.allocations[int(len(self.allocations) * self.draw.random() ** 1.7)]
        if length > inside:
            first |= self.draw.getrandbits(length - inside) << self.width - length
        return first >> self.width - length << self.width - length, length

    def text(self, network):
        address = (ipaddress.IPv4Address if self.family == "v4" else ipaddress.IPv6Address)(network[0])
        return f"{address}/{network[1]}"

    def host(self, network):
        first, length = network
        return first | (self.draw.getrandbits(self.width - length) if length < self.width else 0), self.width


class Feed:
    """A feed, and the networks that its leader stores, with their hops."""

    def __init__(self, family, count, seed):
        self.draw = random.Random(f"{family} {count} {seed}")
        self.networks = Networks(self.draw, family, count)
        self.held, self.place, self.hops = [], {}, {}
        self.lines = []
        while len(self.held) < count:
            network = self.networks.network()
            if network not in self.place:
                self.store(network)

    def say(self, word, network, *more):
        self.lines.append(" ".join((word, self.networks.text(network), *more)) + "\n")

    def hop(self):
        return "drop" if self.draw.random() < 0.02 else hop(self.draw)

    def any(self):
        return self.draw.choice(self.held)

    def store(self, network):
        hop = self.hop()
        self.place[network] = len(self.held)
        self.held.append(network)
        self.hops[network] = [hop]
        self.say("add", network, hop)

    def add(self, network):
        hops = self.hops[network]
        hop = self.hop() if len(hops) < MOST else self.draw.choice(hops)
        if hop not in hops:
            hops.append(hop)
        self.say("add", network, hop, self.draw.choice(PREFERENCES))

    def delete(self):
        network = self.any()
        hops = self.hops[network]
        self.say("del", network, hops.pop(self.draw.randrange(len(hops))))
        if not hops:
            self.forget(network)

    def forget(self, network):
        del self.hops[network]
        place, last = self.place.pop(network), self.held.pop()
        if last != network:
            self.held[place], self.place[last] = last, place

    def change(self):
        kind = self.draw.random()
        if kind < 0.2:
            network = self.networks.network()
            if network in self.place:
                self.add(network)
            else:
                self.store(network)
        elif kind < 0.4:
            self.add(self.any())
        elif kind < 0.6 and len(self.held) > 1:
            self.delete()
        else:
            known = self.draw.random() < 0.8
            self.say("get", self.networks.host(self.any() if known else self.networks.network()))

    def walk(self):
        kind, network = self.draw.randrange(5), self.any()
        if kind == 0:
            length = max(network[1] - 8, 12)
            self.say("list", (network[0], length))
        elif kind == 1:
            self.say("cover", self.networks.host(network))
        elif kind == 4:
            self.lines.append("count\n")
        else:
            self.say("from" if kind == 2 else "after", network, "20")


def hop(draw):
    """A hop; some are far more frequent than others."""
    return str(1 + int(HOPS * draw.random() ** 3))


def numbers(text):
    """The family of a network, its first address as a number, and its length."""
    address, length = text.split("/")
    packed = socket.inet_pton(socket.AF_INET6 if ":" in address else socket.AF_INET, address)
    return "v6" if ":" in address else "v4", int.from_bytes(packed, "big"), int(length)


def text_of(family, first, length):
    """The text of a network."""
    packed = first.to_bytes(WIDTH[family] // 8, "big")
    return f"{socket.inet_ntop(socket.AF_INET6 if family == 'v6' else socket.AF_INET, packed)}/{length}"


def spread(inside, length, count, seed):
    """Adds of networks of one length."""
    draw = random.Random(f"spread {inside} {length} {count} {seed}")
    family, first, short = numbers(inside)
    return [f"add {text_of(family, first | place << WIDTH[family] - length, length)} {hop(draw)}\n"
            for place in draw.sample(range(1 << length - short), count)]


def deeper(path, family, seed):
    """The adds of a feed, with further networks inside its own."""
    draw = random.Random(f"deeper {family} {seed}")
    with open(path, encoding="ascii") as file:
        lines = [line for line in file if line.startswith("add ") and (":" in line) == (family == "v6")]
    known, more = {line.split()[1] for line in lines}, []
    for line in lines[::5]:
        _, first, length = numbers(line.split()[1])
        longer = min(length + draw.randint(1, 8), WIDTH[family])
        net = text_of(family, first | draw.getrandbits(longer - length) << WIDTH[family] - longer if longer > length else first, longer)
        if net not in known:
            known.add(net)
            more.append(f"add {net} {hop(draw)}\n")
    return lines + more


def over(path, count, seed):
    """The changes of the networks of a feed."""
    draw = random.Random(f"over {count} {seed}")
    with open(path, encoding="ascii") as file:
        held = dict(line.split()[1:3] for line in file if line.startswith("add "))
    networks, hops, gone, lines = list(held), list(held.values()), [], []
    while len(lines) < count:
        kind, network, hop = draw.random(), draw.choice(networks), draw.choice(hops)
        if kind < 0.35 and network in held:
            lines.append(f"del {network} {held.pop(network)}\n")
            gone.append(network)
        elif kind < 0.6 and gone:
            network = gone.pop(draw.randrange(len(gone)))
            held[network] = hop
            lines.append(f"add {network} {hop}\n")
        elif kind >= 0.6 and held.get(network, hop) != hop:
            lines += [f"add {network} {hop} 200\n", f"del {network} {held[network]}\n"]
            held[network] = hop
    return lines[:count]


def addresses(networks, mix, count, space=None):
    """Addresses to look up, each drawn uniformly from a network. For `even`, the network is drawn uniformly too. For `Zipf`, it is drawn by
    its rank in a random order: the first network r times as often as the network of rank r. For `anywhere`, it is always `space`."""
    draw = random.Random(f"{mix} {len(networks)}")
    networks = [space] if mix == "anywhere" else draw.sample(networks, len(networks))
    for _ in range(count):
        place = draw.random() * len(networks) if mix == "even" else math.exp(draw.random() * math.log(len(networks) + 1)) - 1
        family, first, length = numbers(networks[min(int(place), len(networks) - 1)])
        yield text_of(family, first | draw.getrandbits(128) & (1 << WIDTH[family] - length) - 1, WIDTH[family])


def main():
    if len(sys.argv) in (4, 5) and sys.argv[1] == "over":
        return sys.stdout.writelines(over(sys.argv[2], int(sys.argv[3]), sys.argv[4] if len(sys.argv) == 5 else "1"))
    if len(sys.argv) in (5, 6) and sys.argv[1] == "spread":
        return sys.stdout.writelines(spread(sys.argv[2], int(sys.argv[3]), int(sys.argv[4]), sys.argv[5] if len(sys.argv) == 6 else "1"))
    if len(sys.argv) in (4, 5) and sys.argv[1] == "deeper":
        return sys.stdout.writelines(deeper(sys.argv[2], sys.argv[3], sys.argv[4] if len(sys.argv) == 5 else "1"))
    if len(sys.argv) not in (4, 5) or sys.argv[1] not in ("load", "churn", "walks") or sys.argv[2] not in WIDTH:
        sys.exit(__doc__)
    kind, family, count = sys.argv[1], sys.argv[2], int(sys.argv[3])
    feed = Feed(family, count, sys.argv[4] if len(sys.argv) == 5 else "1")
    for _ in range({"load": 0, "churn": count, "walks": count // 10}[kind]):
        feed.change() if kind == "churn" else feed.walk()
    sys.stdout.writelines(feed.lines)
    print("flat")


if __name__ == "__main__":
    main()
