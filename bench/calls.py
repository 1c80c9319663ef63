"""Programs that time calls, each side in its own process: building them, reading their output, and comparing their results."""
import os
import shutil
import subprocess
from collections import namedtuple

import feeds
from measure import fail, in_turns, run

# Nanoseconds for one call, {(call, mix): ns}, without a mix for changes and walks; and the results of the calls, as pairs of a name and
# a number.
Calls = namedtuple("Calls", "times results")
# Figures of one side, without a result.
ALONE = ("table_bytes", "index_bytes", "reader", "readers")


def build(root, folder, library=None):
    """The program of c/bench.c, and its sides: the library in this folder, if any, and DPDK, if its package is installed."""
    compiler = os.environ.get("CC", "cc")
    told = None
    if shutil.which("pkg-config"):
        told = subprocess.run(["pkg-config", "--cflags", "--libs", "libdpdk"], capture_output=True, text=True)
    dpdk = ["-DDPDK", *told.stdout.split()] if told and told.returncode == 0 else []
    if shutil.which(compiler) is None or not (dpdk or library):
        return None, ()
    ours = [library / "libroutes.a"] if library else ["-DNO_LIBRARY"]
    program = folder / f"c_bench{'' if library else '_alone'}"
    run([compiler, "-std=c11", "-O2", "-pthread", f"-I{root}/include", root / "c/bench.c", *ours, *dpdk, "-o", program])
    return program, (("routes",) if library else ()) + (("rib", "fib") if dpdk else ())


def of_lines(lines, mixes=feeds.MIXES):
    """Reads the output of a program: lines `CALL FILE NANOSECONDS RESULT`, as described in c/bench.c. Its files have these mixes."""
    calls = Calls({}, [])
    for call, file, taken, result in map(str.split, lines):
        mix = mixes[int(file) - 1] if int(file) else None
        if call != "matched":
            calls.times[call, mix] = float(taken)
        if call not in ALONE:
            name = call if call == "matched" or not mix else "hops"
            calls.results.append((named("add" if name == "index_open" else name, mix), int(result)))
    return calls


def of_crate(peer, family, stored, asked, mixes=feeds.MIXES):
    """The same for the crate's map, from one round of the peer's program `micro` for each file of addresses."""
    calls = Calls({}, [])
    for mix, path in zip(mixes, asked):
        rows = {row[0]: row for row in (line.split(",") for line in run([*peer, family, stored, path, 1]))}
        for call, row, of in (("add", "insert", None), ("matched", "get_lpm", mix), ("walk", "iter", None), ("del", "remove", None)):
            calls.times.setdefault(("match" if of else call, of), float(rows[row][4]))
            calls.results.append((named(call, of), int(rows[row][5])))
    return calls


def named(call, mix):
    """The name under which all sides must have the same result."""
    return f"{call}, {mix} addresses" if mix else call


def agreed(title, seen):
    """Checks that all sides have the same result under each name."""
    first = {}
    for side, runs in seen.items():
        for name, result in (pair for calls in runs for pair in calls.results):
            known = first.setdefault(name, (side, result))
            if known[1] != result:
                fail(f"{title}: {name}: {result} by {side}, and {known[1]} by {known[0]}")


def timed(title, runs, sides):
    """The least nanoseconds of the runs, {(side, call, mix): ns}. The sides run in turns, and must agree."""
    seen = in_turns(runs, sides)
    agreed(title, seen)
    least = {}
    for side, calls in ((side, calls) for side, all_runs in seen.items() for calls in all_runs):
        for (call, mix), taken in calls.times.items():
            least[side, call, mix] = min(taken, least.get((side, call, mix), taken))
    return least


def asked(folder, family, networks, count, mixes, space=None):
    """Files of addresses, one for each of the mixes. Addresses anywhere are drawn from the space."""
    paths = [folder / f"asked-{family}-{mix}" for mix in mixes]
    for path, mix in zip(paths, mixes):
        path.write_text("".join(f"{address}\n" for address in feeds.addresses(networks, mix, count, space)))
    return paths


def nanoseconds(taken):
    """A cell of a table: `-` if the side isn't installed or doesn't have the call."""
    return "-" if taken is None else f"{taken:.0f}"


def times_as_fast(theirs, ours):
    """A cell with the ratio of their times."""
    return "-" if theirs is None or ours is None else f"{theirs / ours:.2f}"


def missing(sides, least):
    """A sentence on the sides that aren't installed."""
    names = [name for side, name in sides.items() if not any(side == known for known, _, _ in least)]
    return f" Not at hand, and so without figures: {', '.join(names)}." if names else ""
