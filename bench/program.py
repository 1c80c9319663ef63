"""The parts on the program: its modes on feeds, compared with another program with the same modes."""
import os
import subprocess
import tempfile
from collections import namedtuple
from pathlib import Path

import measure
import page

MODES = ("lead", "follow", "least")
COUNTS = (100_000, 1_000_000)

# A feed: its lines and bytes, those of the leader's output, {mode: {program: Measure}}, and the lengths of the lists.
Row = namedtuple("Row", "title given answered modes counts")
Counts = namedtuple("Counts", "flat least drops")

TIMES = """`routes lead` reads each feed, and `routes follow` and `routes least` read its output; all output goes to files. Each feed ends
with `flat`. The follower's output is the same as the leader's reply to it, and so is the flat list of a leader of the least table. No line
was answered `bad` or `refused`. MB/s counts the bytes that the leader reads and writes.{real}"""
REAL = " The real feed has {v4:,} networks of IPv4 and {v6:,} of IPv6."

LEAST = """The blocks of the flat list, and the routes of the least table with the same hops, some of them `drop`. The time of `routes
least` includes the reading of the leader's output."""

BESIDE = """The peer is a plain Rust program with the same modes over the crate `prefix-trie` 0.10.1. Its leader has a network's routes in
an array of eight too. Its outputs are the same as ours, its least tables of the same length. Speed is its time over ours (above 1 we
are faster), memory ours over its (above 1 we use more). The peer writes each reply by itself; in the second column it writes when its
buffer is full, as ours does while more lines are here. Very short runs get no ratio (`-`). Single runs are noisy: the slowest took up to
{spread:.2f} times the fastest of the same program on the same feed."""


def sizes(path):
    """The number of lines and of bytes of a file."""
    lines = total = 0
    with open(path, "rb") as file:
        while piece := file.read(1 << 20):
            lines += piece.count(b"\n")
            total += len(piece)
    return lines, total


def drops(path):
    """The number of lines that give a network no hop."""
    with open(path, "rb") as file:
        return sum(line.endswith(b" drop\n") for line in file)


def accepted(title, led):
    """Checks that each line of the feed was a command, and that memory didn't run out."""
    found = subprocess.run(["grep", "-nxE", "-m", "1", "bad|refused", led], capture_output=True, text=True)
    if found.returncode != 1:
        measure.fail(f"{title}: line {found.stdout.strip() or found.stderr.strip()} of the leader's output")


def check(led, followed):
    """Checks that the follower's output is the leader's last reply."""
    length = os.path.getsize(followed)
    with open(led, "rb") as left, open(followed, "rb") as right:
        left.seek(-length, os.SEEK_END)
        while piece := right.read(1 << 20):
            if left.read(1 << 20) != piece:
                measure.fail(f"the follower's output is not the leader's flat list ({led})")


def rebuilt(program, table, followed):
    """Checks that a leader that is given this table has the same flat list."""
    with tempfile.NamedTemporaryFile() as given, tempfile.NamedTemporaryFile() as led:
        given.write(table + b"flat\n")
        given.flush()
        measure.once([program, "lead"], given.name, led.name)
        check(led.name, followed)


def in_mode(bench, mode, programs, source):
    """The cost of each program in this mode, {program: Measure}, and its output."""
    paths = {name: bench.folder / f"{mode}-{name}" for name in programs}
    sides = {name: lambda name=name: measure.once([*bench.pin, programs[name], mode], source, paths[name]) for name in programs}
    return {name: measure.least(seen) for name, seen in measure.in_turns(bench.runs, sides).items()}, paths


def of_feed(bench, title, feed, programs):
    """Runs the programs on a feed. The leader that buffers its replies runs only in this mode."""
    lead, led = in_mode(bench, "lead", programs, feed)
    accepted(title, led["ours"])
    whole = {name: program for name, program in programs.items() if name != "unflushed"}
    follow, followed = in_mode(bench, "follow", whole, led["ours"])
    least, shortened = in_mode(bench, "least", whole, led["ours"])
    for name in programs:
        if subprocess.run(["cmp", "-s", led["ours"], led[name]]).returncode != 0:
            measure.fail(f"the two leaders differ on {title}")
    for name in whole:
        check(led["ours"], followed[name])
        if sizes(shortened[name])[0] != sizes(shortened["ours"])[0]:
            measure.fail(f"two least tables of {title} differ in length")
    rebuilt(programs["ours"], shortened["ours"].read_bytes(), followed["ours"])
    counts = Counts(sizes(followed["ours"])[0] - 1, sizes(shortened["ours"])[0], drops(shortened["ours"]))
    return Row(title, sizes(feed), sizes(led["ours"]), dict(zip(MODES, (lead, follow, least))), counts)


def times(row):
    """A row of the first table."""
    lead, follow = row.modes["lead"]["ours"], row.modes["follow"]["ours"]
    return [
        row.title,
        f"{row.given[0]:,}",
        f"{row.answered[0]:,}",
        f"{lead.seconds:.2f}",
        f"{row.given[0] / lead.seconds:,.0f}",
        f"{(row.given[1] + row.answered[1]) / 1e6 / lead.seconds:.0f}",
        f"{lead.kilobytes / 1024:.1f}",
        f"{follow.seconds:.2f}",
        f"{row.answered[0] / follow.seconds:,.0f}",
        f"{follow.kilobytes / 1024:.1f}",
    ]


def shortest(row):
    """A row of the table on least tables."""
    least = row.modes["least"]["ours"]
    return [row.title, *(f"{count:,}" for count in row.counts), f"{least.seconds:.2f}", f"{least.kilobytes / 1024:.1f}"]


def is_told(*measures):
    """Whether a run is long enough for a ratio."""
    return min(one.seconds for one in measures) >= 0.05


def spread(rows):
    """The greatest ratio of the slowest to the fastest run of one program on one feed."""
    return max((one.spread for row in rows for mode in row.modes.values() for one in mode.values() if is_told(one)), default=1)


def ratios(row):
    """Their time divided by ours, and our memory divided by theirs."""
    lead, follow, least = row.modes.values()
    for mode, name in ((lead, "peer"), (lead, "unflushed"), (follow, "peer"), (least, "peer")):
        told = name in mode and is_told(mode[name], mode["ours"])
        yield f"{mode[name].seconds / mode['ours'].seconds:.2f}" if told else "-"
    for mode in row.modes.values():
        yield f"{mode['ours'].kilobytes / mode['peer'].kilobytes:.2f}"


def rows_of(bench, programs, real):
    """A row for each feed of the tables."""
    if real:
        yield of_feed(bench, page.REAL, real, programs)
    for kind, counts in (("churn", COUNTS[:1]), ("walks", COUNTS[:1]), ("load", COUNTS)):
        for family in ("v4", "v6"):
            for count in bench.counts(*counts):
                yield of_feed(bench, f"{kind}, IP{family}, {count:,}", bench.made(kind, family, count), programs)


def networks_of(feed):
    """The number of networks of each family that a feed adds."""
    adds = [line for line in Path(feed).read_bytes().splitlines() if line.startswith(b"add ")]
    v6 = sum(b":" in line for line in adds)
    return {"v4": len(adds) - v6, "v6": v6}


def measured(bench):
    """Measures the parts; the comparison with another program only if it is installed."""
    programs, real = bench.programs, bench.real()
    with measure.Others() as others:
        rows = list(rows_of(bench, programs, real))
    told = page.filled(others.told(bench.runs))
    text = page.filled(TIMES.format(real=REAL.format(**networks_of(real)) if real else ""))
    head = ["feed", "lines in", "lines out", "lead s", "commands/s", "lead MB/s", "lead MB", "follow s", "lines/s", "follow MB"]
    yield "Times and memory", [text, page.table(head, map(times, rows)), told]
    head = ["feed", "flat blocks", "routes", "of them `drop`", "least s", "least MB"]
    yield "Least tables", [page.filled(LEAST), page.table(head, map(shortest, rows)), told]
    if "peer" in programs:
        head = ["feed", "lead", "lead, replies together", "follow", "least", "memory of lead", "memory of follow", "memory of least"]
        text = page.filled(BESIDE.format(spread=spread(rows)))
        yield "Beside a Rust program", [text, page.table(head, ([row.title, *ratios(row)] for row in rows)), told]
