"""The part on the calls of a map of prefixes: ours, in its own program (bench/map_calls.rattle), compared with other maps."""
import random
import subprocess
import sys
from math import gcd

import calls
import feeds
import measure
import page

SIDES = {"ours": "`PrefixMap`", "crate": "the crate's", "rib": "`rte_rib`", "fib": "`rte_fib`", "radix": "py-radix"}
ROWS = (("add", None, "insert"), ("match", "even", "longest match, even"), ("match", "Zipf", "longest match, Zipf"),
        ("walk", None, "walk"), ("del", None, "remove"))

TEXT = """`PrefixMap` in a program of its own over `prefix_trie`. A run stores the networks, looks up {asked} addresses of each mix, walks
all networks, and removes them in another order. Beside it is the map of the Rust crate `prefix-trie` 0.10.1, called from Rust. `rte_rib`
and `rte_fib` are DPDK's tables; the second finds a hop and no network. py-radix is called from Python, whose loop and parsing are part of
its times. Figures are nanoseconds of CPU time for one network or address. All sides stored as many networks and found the same in each
lookup. The last column is the crate's time over ours: above 1 we are faster.{missing}"""


def lists(family, count):
    """Networks to store, and the same in another order."""
    networks = feeds.Networks(random.Random(f"maps {family} {count}"), family, count)
    stored = {}
    while len(stored) < count:
        stored[networks.network()] = None
    return shuffled([networks.text(network) for network in stored])


def shuffled(stored):
    """The networks, and the same in another order, which c/bench.c and the crate's program use too."""
    step = 7_368_787 % len(stored)
    while gcd(step, len(stored)) != 1:
        step += 1
    return stored, [stored[place * step % len(stored)] for place in range(len(stored))]


def ours(program, pin, family, given):
    """The map's calls. The program prints the nanoseconds for all networks or addresses together, and their number."""
    with open(given, encoding="ascii") as file:
        lines = [line.split() for line in measure.run([*pin, program, family], stdin=file)]
    return calls.of_lines(f"{call} {mix} {int(taken) / int(count)} {result}" for call, mix, count, taken, result in lines)


def python_with_radix():
    """This Python or the system's, whichever has the module py-radix."""
    for python in (sys.executable, "/usr/bin/python3"):
        if subprocess.run([python, "-c", "import radix"], capture_output=True).returncode == 0:
            return python
    return None


def sides_of(bench, programs, family, count):
    """For each installed side, a function that runs it."""
    stored, taken = lists(family, count)
    asked = calls.asked(bench.folder, family, stored, bench.asked, ("even", "Zipf"))
    given, alone, routes = (bench.folder / name for name in ("given", "stored", "routes"))
    given.write_text("\n\n".join(["\n".join(stored), *(path.read_text().strip() for path in asked), "\n".join(taken)]))
    alone.write_text("\n".join(stored))
    routes.write_text("".join(f"{network} {place}\n" for place, network in enumerate(stored)))
    program, (c_program, c_sides), peer, python = programs
    found = {"ours": lambda: ours(program, bench.pin, family, given)}
    if peer:
        found["crate"] = lambda: calls.of_crate([*bench.pin, peer], family, alone, asked)
    for side in c_sides:
        found[side] = lambda side=side: calls.of_lines(measure.run([*bench.pin, c_program, side, family, routes, *asked]))
    if python:
        command = [*bench.pin, python, bench.root / "bench/radix_calls.py", alone, *asked]
        found["radix"] = lambda: calls.of_lines(measure.run(command))
    return found


def rows(family, count, least):
    """A row for each call."""
    for call, mix, title in ROWS:
        taken = {side: least.get((side, call, mix)) for side in SIDES}
        if call == "match":
            taken["fib"] = least.get(("fib", "index", mix))
        cells = [calls.nanoseconds(one) for one in taken.values()]
        yield [f"IP{family}, {count:,}", title, *cells, calls.times_as_fast(taken["crate"], taken["ours"])]


def measured(bench):
    """Measures the part."""
    programs = bench.map_calls(), calls.build(bench.root, bench.folder), bench.given.map_peer, python_with_radix()
    body, seen = [], {}
    with measure.Others() as others:
        for family in ("v4", "v6"):
            for count in bench.counts(100_000, 1_000_000):
                title = f"IP{family}, {count:,} networks"
                least = calls.timed(title, bench.runs, sides_of(bench, programs, family, count))
                seen |= least
                body += rows(family, count, least)
    text = page.filled(TEXT.format(asked=f"{bench.asked:,}", missing=calls.missing(SIDES, seen)))
    yield "Map calls", [text, page.table(["networks", "call", *SIDES.values(), "speed"], body), page.filled(others.told(bench.runs))]
