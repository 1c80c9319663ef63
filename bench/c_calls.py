"""The part on the calls of the C library on a real feed, timed by c/bench.c, compared with those of DPDK and of the Rust crate's map."""
import os
import shutil
import subprocess
import sys

import calls
import feeds
import measure
import page

SIDES = {"routes": "C library", "crate": "the crate's map", "rib": "`rte_rib`", "fib": "`rte_fib`"}
CHANGES = {"add": "add", "del": "del", "index_open": "make the index", "index_bytes": "index: bytes"}
LOOK_UPS = {"match": "longest match", "match_many": "longest match, 64", "index": "index", "index_many": "index, 64"}
# The ways that the index is compared with, and the calls that are compared.
WAYS = (("routes", "match", "index", "over the table"), ("crate", "match", "index", "over the crate's map"),
        ("rib", "match", "index", "over `rte_rib`"), ("fib", "index", "index", "over `rte_fib`"),
        ("fib", "index_many", "index_many", "64, over `rte_fib`"))

READERS = 8
SPACES = {"v4": "0.0.0.0/0", "v6": "2000::/3"}
# Other tables: a name, the block that contains all networks, their length, and their number.
SPREAD = (("/24", "0.0.0.0/0", 24, 1_000_000), ("/25", "0.0.0.0/0", 25, 1_000_000), ("/32", "0.0.0.0/0", 32, 1_000_000),
          ("/32 in 10.0.0.0/8", "10.0.0.0/8", 32, 1_000_000), ("/48 in 2000::/3", "2000::/3", 48, 100_000),
          ("/64 in fd00::/8", "fd00::/8", 64, 100_000), ("/64 in 2001:db8::/32", "2001:db8::/32", 64, 100_000))

TEXT = """The calls of the C library (docs/C.md) on the real feed, by `c/bench.c`. Each network of a family is added, in the feed's order.
{asked} addresses of each mix are looked up, one in a call or 64. Then each network is removed, in another order. Figures are nanoseconds
of CPU time for one network or address. The crate's map has one number a network, and is called from Rust. Our table has up to eight
routes, and its `add` and `del` return the hop before and after. `rte_rib` and `rte_fib` are DPDK's{version}, for IPv6 `rte_rib6` and
`rte_fib6`, without huge pages. The fib is DIR24_8, for IPv6 TRIE, with four bytes a hop. Like an index it finds hops alone; unlike an
index it takes changes. All sides stored as many networks and found the same hop for each address, the crate's map the same network. A
side without a call has `-`. The bytes of an index for a network are those of its allocations, by glibc's account.{missing}"""

RATIOS = """How many times as fast the index is as the other ways, for one address in a call; in the last column for 64. Below 1 it is
slower."""

OTHER_RATIOS = """How many times as fast the index is in these tables, as above."""

OTHERS = """Nanoseconds for one address by the same calls, in tables of other kinds. Most have networks of one length, drawn evenly from a
block. The last is the IPv4 feed with a network more inside each fifth of its networks, one to eight bits longer. Addresses are drawn
from the networks, or anywhere from the block."""

MADE = """These indexes, each of a table of one family, are made in {made:.0f} ms together. That is {ratio:.3f} of the {lead:.2f} s in which
`routes lead` loads the feed beside them, its output to a file."""

TOGETHER = """{readers} threads look up addresses in one index at the same time on {cores}. Each has a handle of its own, and looks up 64
in a call. By the clock they make {v4:.1f} times as many lookups as one thread for IPv4, and {v6:.1f} times as many for IPv6."""


def adds_of(feed, family):
    """The adds of a family."""
    with open(feed, encoding="ascii") as file:
        return [line for line in file if line.startswith("add ") and (":" in line) == (family == "v6")]


def networks_of(adds, family, folder):
    """The networks, and two files of them: with their hops, and without."""
    lines = [line.removeprefix("add ") for line in adds]
    networks = [line.split()[0] for line in lines]
    routes, alone = folder / f"routes-{family}", folder / f"stored-{family}"
    routes.write_text("".join(lines))
    alone.write_text("\n".join(networks))
    return networks, routes, alone


def timed(bench, program, sides, adds, family, mixes, space):
    """The number of networks of the family, and the least times."""
    networks, routes, alone = networks_of(adds, family, bench.folder)
    asked = calls.asked(bench.folder, family, networks, bench.asked, mixes, space)
    found = {}
    for side in sides:
        found[side] = lambda side=side: calls.of_lines(measure.run([*bench.pin, program, side, family, routes, *asked]), mixes)
    if bench.given.map_peer:
        found["crate"] = lambda: calls.of_crate([*bench.pin, bench.given.map_peer], family, alone, asked, mixes)
    return len(networks), calls.timed(f"IP{family}", bench.runs, found)


def led(bench, feed):
    """The seconds that the leader needs to load the feed."""
    leader = {"lead": lambda: measure.once([*bench.pin, bench.programs["ours"], "lead"], feed, bench.folder / "led")}
    return measure.least(measure.in_turns(bench.runs, leader)["lead"]).seconds


def made(parts, lead):
    """The time for making the indexes, compared with the leader's time."""
    seconds = sum(count * least["routes", "index_open", None] for count, least in parts.values()) / 1e9
    return MADE.format(made=1000 * seconds, ratio=seconds / lead, lead=lead)


def together(parts, cores):
    """How many times as many lookups several readers make in a time on so many processors, compared with one."""
    times = {family: READERS * least["routes", "reader", "even"] / least["routes", "readers", "even"] for family, (_, least) in parts.items()}
    return TOGETHER.format(readers=READERS, cores="one processor" if cores == 1 else f"{cores} processors", **times)


def changes(parts):
    """A row for each family and change."""
    for family, (count, least) in parts.items():
        for call, title in CHANGES.items():
            yield [f"IP{family}, {count:,}", title, *(calls.nanoseconds(least.get((side, call, None))) for side in SIDES)]


def look_ups(parts):
    """A row for each family, mix and lookup. A fib is compared with the index."""
    for family, (_, least) in parts.items():
        for mix in feeds.MIXES:
            for call, title in LOOK_UPS.items():
                yield [f"IP{family}, {mix}", title, *(calls.nanoseconds(least.get((side, call, mix))) for side in SIDES)]


def compared(mix, least, ways=WAYS):
    """The cells of a row: how many times as fast the index is as each other way."""
    return [calls.times_as_fast(least.get((side, way, mix)), least["routes", of, mix]) for side, way, of, _ in ways]


def ratios(parts):
    """A row for each family and mix: how many times as fast the index is as each other way."""
    for family, (_, least) in parts.items():
        for mix in feeds.MIXES:
            yield [f"IP{family}, {mix}", *compared(mix, least)]


def other_tables(bench, feed):
    """The names, families, adds and blocks of the other tables."""
    for name, inside, length, count in SPREAD:
        count //= bench.part
        yield f"{count:,} {name}", "v6" if ":" in inside else "v4", feeds.spread(inside, length, count, "1"), inside
    yield "IPv4 feed, and a fifth inside", "v4", feeds.deeper(feed, "v4", "1"), SPACES["v4"]


def others(bench, program, sides, feed):
    """Two items for each other table, by network and anywhere: the first cells of its row, the mix, and the least times."""
    for name, family, adds, space in other_tables(bench, feed):
        mixes = ("even", "anywhere")
        _, least = timed(bench, program, sides, adds, family, mixes, space)
        for mix in mixes:
            yield [name, "of a network" if mix == "even" else mix], mix, least


def other_times(seen):
    """A row for each of these items, with the bytes and the making of the index for a network."""
    ways = (("routes", "index"), ("routes", "index_many"), ("routes", "match"), ("crate", "match"), ("fib", "index"), ("fib", "index_many"))
    for first, mix, least in seen:
        cells = [calls.nanoseconds(least.get((side, way, mix))) for side, way in ways]
        cells += [calls.nanoseconds(least.get(("routes", call, None))) for call in ("index_bytes", "index_open")]
        yield [*first, *cells]


def version():
    """The version of DPDK, if it is installed."""
    told = subprocess.run(["pkg-config", "--modversion", "libdpdk"], capture_output=True, text=True) if shutil.which("pkg-config") else None
    return f", {told.stdout.strip()}" if told and told.returncode == 0 else ""


def measured(bench):
    """Measures the part, or returns None without the real feed or a C compiler."""
    feed, (program, sides) = bench.real(), calls.build(bench.root, bench.folder, bench.library())
    if not feed or not program:
        print("bench: the calls from C are left out, which need the real feed and a C compiler", file=sys.stderr)
        return
    with measure.Others() as load:
        parts = {family: timed(bench, program, sides, adds_of(feed, family), family, feeds.MIXES, SPACES[family]) for family in SPACES}
        lead = led(bench, feed)
    seen = {key for _, least in parts.values() for key in least}
    text = TEXT.format(asked=f"{bench.asked:,}", version=version(), missing=calls.missing(SIDES, seen))
    yield "From C", [
        page.filled(text),
        page.table(["networks", "call", *SIDES.values()], changes(parts)),
        page.filled(made(parts, lead)),
        page.table(["addresses", "look-up", *SIDES.values()], look_ups(parts)),
        page.filled(RATIOS),
        page.table(["addresses", *(title for *_, title in WAYS)], ratios(parts)),
        page.filled(together(parts, 1 if bench.pin else os.cpu_count())),
        page.filled(load.told(bench.runs)),
    ]
    with measure.Others() as load:
        seen = [*others(bench, program, [side for side in sides if side != "rib"], feed)]
    head = ["networks", "addresses", "index", "index, 64", "longest match", "the crate's map", "`rte_fib`", "`rte_fib`, 64"]
    ways = [way for way in WAYS if way[0] != "rib"]
    ratio_rows = ([*first, *compared(mix, least, ways)] for first, mix, least in seen)
    yield "Lookups in other tables", [
        page.filled(OTHERS),
        page.table([*head, "index: bytes a network", "index: ns a network"], other_times(seen)),
        page.filled(OTHER_RATIOS),
        page.table([*head[:2], *(title for *_, title in ways)], ratio_rows),
        page.filled(load.told(bench.runs)),
    ]
