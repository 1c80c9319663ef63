"""The part on the installer: `routes_fib` on the leader's output, at its start and while it keeps a table in sync."""
import subprocess
import sys
from collections import namedtuple

import measure
import page
import program

CHANGES = 162_000

# The results for the changes of a table: the operations of each kind at the first `sync`; (operations, routes after them) for each batch;
# the time and memory of the installer and of a follower.
Changed = namedtuple("Changed", "begun batches kept follow")

TEXT = """`routes_fib` reads the leader's output, and `routes follow` the same lines. *Kept* has `sync` first, so each change is a batch of
its own. *At once* has `sync` last, as at a start, so one batch installs the least table. The operations make a table with the leader's hops
each time."""

CHANGED = """If all networks of the real feed are installed as announced, a first `sync` takes {installs:,} installs and {removes:,}
removes. In another run its least table of {least:,} routes is installed, and {commands:,} commands follow (`bench/feeds.py over`). They
withdraw networks, announce them again, and give them another hop. They give {batches:,} batches with {operations:,} operations. All but one
in a thousand batches have at most {usual:,} operations, and the largest has {largest:,}. After them {before:,} routes are installed; a
second `sync`, of {last:,} operations, leaves {after:,}. For the feed, these commands and both `sync`, `routes_fib` took
{kept.seconds:.2f} s and {kept_mb:.1f} MB. `routes follow` took {follow.seconds:.2f} s and {follow_mb:.1f} MB for the same replies."""


def replayed(path):
    """The `add` lines of the table that an installer's operations make, and for each batch the number of operations and of routes that are
    installed after it."""
    table, operations, batches = {}, 0, []
    with open(path, "rb") as file:
        for line in file:
            word, *rest = line.split()
            operations += word != b"ok"
            if word == b"install":
                table[rest[0]] = rest[1]
            elif word == b"remove":
                del table[rest[0]]
            else:
                batches.append((operations, len(table)))
                operations = 0
    return b"".join(b"add %s %s\n" % route for route in table.items()), batches


def words(path):
    """The number of operations of each kind that an installer wrote."""
    with open(path, "rb") as file:
        found = [line[:1] for line in file]
    return found.count(b"i"), found.count(b"r")


def beside(bench, led, sessions):
    """The time and memory of a follower of the leader's output, and of an installer of each session, whose table has the follower's hops;
    and the batches of each session."""
    ours, installer, followed = bench.programs["ours"], bench.installer(), bench.folder / "followed"
    sides = {"follow": lambda: measure.once([*bench.pin, ours, "follow"], led, followed)}
    given, done = ({name: bench.folder / f"{kind}-{name}" for name in sessions} for kind in ("session", "done"))
    for name, session in sessions.items():
        given[name].write_bytes(session)
        sides[name] = lambda name=name: measure.once([*bench.pin, installer], given[name], done[name])
    seen = {name: measure.least(runs) for name, runs in measure.in_turns(bench.runs, sides).items()}
    batches = {}
    for name in sessions:
        table, batches[name] = replayed(done[name])
        program.rebuilt(ours, table, followed)
    return seen, batches


def of_feed(bench, title, feed):
    """A row of the table."""
    led = bench.folder / "led"
    measure.once([bench.programs["ours"], "lead"], feed, led)
    program.accepted(title, led)
    log = led.read_bytes()
    seen, batches = beside(bench, led, {"kept": b"sync\n" + log, "begun": log + b"sync\n"})
    kept, begun = seen["kept"], seen["begun"]
    operations = {name: f"{sum(count for count, _ in found):,}" for name, found in batches.items()}
    return [
        title,
        f"{seen['follow'].seconds:.2f}",
        f"{kept.seconds:.2f}",
        f"{log.count(10) / kept.seconds:,.0f}",
        f"{kept.kilobytes / 1024:.1f}",
        f"{len(batches['kept']):,}",
        operations["kept"],
        f"{max(count for count, _ in batches['kept'][1:]):,}",
        f"{begun.seconds:.2f}",
        f"{begun.kilobytes / 1024:.1f}",
        operations["begun"],
    ]


def changed(bench, feed, count):
    """An installer of a feed, a `sync`, a number of changes, and another `sync`; and a first `sync` when all networks of the feed are
    installed."""
    commands, led = bench.folder / "commands", bench.folder / "led"
    adds = [line for line in feed.read_bytes().splitlines(keepends=True) if line.startswith(b"add ")]
    making = [sys.executable, bench.root / "bench/feeds.py", "over", feed, str(count)]
    changes = subprocess.run(making, stdout=subprocess.PIPE, check=True).stdout

    def answers(lines):
        commands.write_bytes(lines)
        measure.once([bench.programs["ours"], "lead"], commands, led)
        program.accepted("changes", led)
        return led.read_bytes()

    front = answers(b"".join(adds))
    log = answers(b"".join(adds) + changes + b"flat\n")
    have = b"".join(line.replace(b"add", b"have", 1) for line in adds)
    (bench.folder / "session").write_bytes(have + front + b"sync\n")
    measure.once([bench.installer()], bench.folder / "session", bench.folder / "done")
    seen, batches = beside(bench, led, {"kept": front + b"sync\n" + log[len(front):] + b"sync\n"})
    return Changed(words(bench.folder / "done"), batches["kept"], seen["kept"], seen["follow"])


def changes_told(commands, changed):
    """The paragraph on the changes."""
    first, *between, last = changed.batches
    counts = sorted(operations for operations, _ in between)
    return CHANGED.format(
        installs=changed.begun[0],
        removes=changed.begun[1],
        least=first[1],
        commands=commands,
        batches=len(counts),
        operations=sum(counts),
        usual=counts[len(counts) * 999 // 1000],
        largest=counts[-1],
        before=between[-1][1],
        last=last[0],
        after=last[1],
        kept=changed.kept,
        kept_mb=changed.kept.kilobytes / 1024,
        follow=changed.follow,
        follow_mb=changed.follow.kilobytes / 1024,
    )


def measured(bench):
    """Measures the part; without the real feed, only on synthetic feeds."""
    bench.installer()
    feeds = {page.REAL: bench.real()} if bench.real() else {}
    for family in ("v4", "v6"):
        for count in bench.counts(100_000):
            feeds[f"churn, IP{family}, {count:,}"] = bench.made("churn", family, count)
    with measure.Others() as others:
        rows = [of_feed(bench, title, feed) for title, feed in feeds.items()]
        found = changed(bench, bench.real(), CHANGES // bench.part) if bench.real() else None
    head = ["feed", "follow s", "kept s", "lines/s", "kept MB", "batches", "operations", "largest batch", "at once s", "at once MB", "at once operations"]
    told = [page.filled(changes_told(CHANGES // bench.part, found))] if found else []
    yield "The installer", [page.filled(TEXT), page.table(head, rows), *told, page.filled(others.told(bench.runs))]
