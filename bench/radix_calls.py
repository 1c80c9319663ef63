"""Times the calls of py-radix on networks and addresses from files. Prints the lines of c/bench.c.

usage: radix_calls.py NETWORKS ADDRESSES .."""
import sys
import time
from pathlib import Path

import radix

import maps

def add(tree, networks):
    for network in networks:
        tree.add(network)


def look_up(tree, addresses):
    for address in addresses:
        tree.search_best(address)


def walk(tree, _):
    for _ in tree:
        pass


def delete(tree, networks):
    for network in networks:
        tree.delete(network)


def timed(call, tree, given):
    """Nanoseconds for one network or address."""
    begun = time.process_time_ns()
    call(tree, given)
    return f"{(time.process_time_ns() - begun) / len(given):.2f}"


def main():
    networks, *asked = (Path(path).read_text().split() for path in sys.argv[1:])
    tree, place = radix.Radix(), {network: at for at, network in enumerate(networks)}
    print("add", 0, timed(add, tree, networks), len(tree.prefixes()))
    for file, addresses in enumerate(asked, 1):
        taken = timed(look_up, tree, addresses)
        found = [tree.search_best(address) for address in addresses]
        hops = 14695981039346656037
        for node in found:
            hops = (hops ^ place[node.prefix]) * 1099511628211 & (1 << 64) - 1
        print("match", file, taken, hops)
        print("matched", file, 0, sum(place[node.prefix] + node.prefixlen for node in found))
    print("walk", 0, timed(walk, tree, networks), sum(place[node.prefix] ^ node.prefixlen for node in tree))
    print("del", 0, timed(delete, tree, maps.shuffled(networks)[1]), len(tree.prefixes()))


main()
