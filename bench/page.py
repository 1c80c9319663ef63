#!/usr/bin/env python3
"""bench/RESULTS.md: its head, and how a part is put into it; a part that isn't run keeps its last text. And what follows from it: the
tables of docs/PERFORMANCE.md and their pictures, below marks `<!-- bench: NAME -->`, and the line of README.md.

usage: bench/page.py [--check]
    writes what follows from bench/RESULTS.md; with --check it compares, and the status is 0 only if all is the same"""
import re
import sys
import textwrap
from pathlib import Path

import plot

ROOT = Path(__file__).resolve().parent.parent
TITLES = ("Times and memory", "Least tables", "Beside a Rust program", "The installer", "Map calls", "From C", "Lookups in other tables", "Huge pages")
REAL = "real, both families"

HEAD = """# Results of the benchmarks

`bench/run` writes this page. It measures the parts that it is asked for and leaves the others as they are, so each part ends with its date,
its machine and the other work meanwhile. [docs/PERFORMANCE.md](../docs/PERFORMANCE.md) is the summary.

Times are CPU time, user and system: of a whole program by `wait4`, of single calls by the clock of their process. Memory is peak RSS.
Programs that are compared run in turns on the same files, and each figure is the least of its runs; a ratio is of such figures. Times
differ from machine to machine; ratios less.

The synthetic feeds (`bench/feeds.py`) are the same for everyone. `load` adds the networks. `churn` then makes as many adds, dels and gets.
`walks` then makes a tenth as many `list`, `cover`, `from`, `after` and `count`. The real feed is every announced network with its origin,
from Debian's package `libloc-database` (`bench/real_feed`). Addresses for lookups are drawn evenly from a network. For `even` the network
is drawn evenly too; for `Zipf` by its place in a random order, the first r times as often as the one at place r. For `anywhere` each is
drawn evenly from a block that contains all networks. That is all of IPv4, 2000::/3 for the IPv6 networks of the feed, or the named block.
"""


def filled(text):
    """A paragraph."""
    return textwrap.fill(" ".join(text.split()), 132, break_long_words=False, break_on_hyphens=False) + "\n"


def table(head, rows):
    """The lines of a table."""
    lines = ["| " + " | ".join(head) + " |", "|---" * len(head) + "|"]
    return "\n".join(lines + ["| " + " | ".join(row) + " |" for row in rows]) + "\n"


def part(title, blocks):
    """A part as text of the page."""
    return f"## {title}\n\n" + "\n".join(blocks)


def parts_of(path):
    """The parts of a page by their titles."""
    parts = re.split(r"^## (.*)\n", path.read_text(encoding="utf-8") if path.exists() else "", flags=re.MULTILINE)[1:]
    return {name: f"## {name}\n{text.rstrip()}\n" for name, text in zip(parts[::2], parts[1::2])}


def put(path, title, blocks):
    """Puts a part in place of the one with its title; the head is written again, and the other parts stay."""
    if title not in TITLES:
        raise SystemExit(f"bench: the page has no part {title}")
    known = parts_of(path) | {title: part(title, blocks)}
    names = [name for name in TITLES if name in known] + [name for name in known if name not in TITLES]
    path.write_text("\n".join([HEAD, *(known[name] for name in names)]), encoding="utf-8")


class Results:
    """The tables of bench/RESULTS.md: of each part its rows, by their first cells, and the cells of a row by the heads."""

    def __init__(self, path=ROOT / "bench/RESULTS.md"):
        self.tables, self.parts = {}, parts_of(path)
        for title, text in self.parts.items():
            for found in re.findall(r"(?:^\|.*\n)+", text, re.M):
                head, _, *rows = [[cell.strip() for cell in line.strip("|").split("|")] for line in found.splitlines()]
                self.tables.setdefault(title, []).append([dict(zip(head, row)) for row in rows])

    def rows(self, title, at=0):
        """The rows of a table of a part; none if the part wasn't run or has fewer tables."""
        return dict(enumerate(self.tables.get(title, []))).get(at, [])

    def row(self, title, *first):
        """The row of the part's tables that begins with these cells; if there is none, each cell is `-`."""
        found = (row for rows in self.tables.get(title, []) for row in rows if [*row.values()][: len(first)] == [*first])
        return next(found, None) or Missing()


class Missing(dict):
    """A row that isn't there."""

    def __missing__(self, _):
        return "-"


def programs(results):
    """The modes on the real feed, and beside the peer."""
    times, least, beside = (results.row(title, REAL) for title in TITLES[:3])
    yield "programs", table(["program", "input", "CPU s", "MB", "speed, times the peer's", "memory, times the peer's"], [
        ["`routes lead`", f"{times['lines in']} commands", times["lead s"], times["lead MB"],
         f"{beside['lead']} ({beside['lead, replies together']} if the peer buffers its replies)", beside["memory of lead"]],
        ["`routes follow`", f"{times['lines out']} lines", times["follow s"], times["follow MB"], beside["follow"], beside["memory of follow"]],
        ["`routes least`", f"{times['lines out']} lines", least["least s"], least["least MB"], beside["least"], beside["memory of least"]],
    ])


def growth(results):
    """Loads of random networks, by their number."""
    rows = [results.row(TITLES[0], f"load, {family}, {count}") for family in ("IPv4", "IPv6") for count in ("100,000", "1,000,000")]
    yield "growth", table(["random networks", "`lead`, commands/s", "`lead` MB", "`follow`, lines/s", "`follow` MB"], [
        [row["feed"].removeprefix("load, "), row["commands/s"], row["lead MB"], row["lines/s"], row["follow MB"]] for row in rows])


def least(results):
    """Sizes of tables: as announced, flat, and least."""
    rows = [results.row(TITLES[1], feed) for feed in (REAL, "load, IPv4, 1,000,000", "load, IPv6, 1,000,000")]
    yield "least tables", table(["feed", "networks", "flat blocks", "least table", "of them `drop`"], [
        [row["feed"], networks_of(results, row["feed"]), row["flat blocks"], row["routes"], row["of them `drop`"]] for row in rows])


def networks_of(results, feed):
    """How many networks a load has: its last command is `flat`."""
    lines = results.row(TITLES[0], feed)["lines in"]
    return f"{int(lines.replace(',', '')) - 1:,}" if lines != "-" else lines


def quotient(upper, lower):
    """One printed number over another, with two digits after the point."""
    return f"{int(upper.replace(',', '')) / int(lower.replace(',', '')):.2f}"


def installer(results):
    """The installer, on each of its feeds; and the paragraph on the changes of the real feed, if it was there."""
    rows = [[row["feed"], row["batches"], row["operations"], quotient(row["operations"], row["batches"]),
             *(row[head] for head in ("largest batch", "kept s", "kept MB", "follow s", "at once s"))] for row in results.rows(TITLES[3])]
    changed = re.search(r"^If all networks.*?\n(?=\n)", results.parts.get(TITLES[3], ""), re.M | re.S)
    head = ["feed", "batches", "operations", "operations a batch", "largest batch", "CPU s", "MB", "`follow` of the same log", "one batch: CPU s"]
    yield "installer", table(head, rows) + (f"\n{changed[0]}" if changed else "")


def lookups(results):
    """Lookups from C; and the paragraph on threads that look up at the same time, if it was there."""
    sides = ("C library", "the crate's map", "`rte_rib`", "`rte_fib`")
    rows = []
    for addresses in dict.fromkeys(row["addresses"] for row in results.rows(TITLES[5], 1)):
        of = {call: results.row(TITLES[5], addresses, call) for call in ("index", "index, 64", "longest match")}
        rows.append([addresses, of["index"][sides[0]], of["index, 64"][sides[0]], of["longest match"][sides[0]],
                     *(of["longest match"][side] for side in sides[1:3]), of["index"][sides[3]], of["index, 64"][sides[3]]])
    head = ["addresses", "index", "index, 64 a call", "table", "Rust crate's map", "`rte_rib`", "`rte_fib`", "`rte_fib`, 64 a call"]
    readers = re.search(r"^\d+ threads look up.*?\n(?=\n)", results.parts.get(TITLES[5], ""), re.M | re.S)
    yield "lookups", table(head, rows) + (f"\n{readers[0]}" if readers else "")
    shown = ((1, "index", plot.OURS), (6, "rte_fib", plot.THEIRS), (4, "Rust crate's map", plot.THEIRS), (3, "table", plot.ALSO_OURS),
             (5, "rte_rib", plot.THEIRS))
    bars = [[(f"{row[0].partition(',')[0]}, {name}", row[at], color) for at, name, color in shown] for row in rows if "even" in row[0]]
    yield "docs/pictures/lookups.svg", plot.bars("Nanoseconds for a lookup on a full internet table", bars)


def other_tables(results):
    """Lookups from C in tables of other kinds, and how many times as fast the index is."""
    times, ratios = (results.rows(TITLES[6], at) for at in (0, 1))
    shown = [table([*rows[0]], [[*row.values()] for row in rows]) for rows in (times, ratios) if rows]
    if shown:
        yield "other tables", "\nHow many times as fast the index is as the other ways, in the last column for 64 a call:\n\n".join(shown)


def changes(results):
    """Changes from C."""
    yield "changes", table(["networks", "call", "C library", "Rust crate's map", "`rte_rib`", "`rte_fib`"],
                           [[*row.values()] for row in results.rows(TITLES[5])])


def maps(results):
    """Calls of a map."""
    rows = [row for row in results.rows(TITLES[4]) if "1,000,000" in row["networks"]]
    yield "maps", table(["networks", "call", "`PrefixMap`", "Rust crate's map", "speed, times the crate's"],
                        [[row["networks"], row["call"], row["`PrefixMap`"], row["the crate's"], row["speed"]] for row in rows])
    bars = [[(f"{row['networks'].partition(',')[0]}, {row['call'].partition(',')[0]}", row["`PrefixMap`"], plot.OURS),
             ("", row["the crate's"], plot.THEIRS)] for row in rows if "Zipf" not in row["call"]]
    legend = ("PrefixMap", plot.OURS), ("Rust crate", plot.THEIRS)
    yield "docs/pictures/maps.svg", plot.bars("Nanoseconds for a call of a map of 1,000,000 networks", bars, legend)


def huge(results):
    """The program with huge pages."""
    yield "huge pages", table(["feed", "program", "CPU s", "with huge pages", "MB", "with huge pages"],
                              [[*row.values()] for row in results.rows(TITLES[7])])


def headline(results):
    """README's lines."""
    row, installer = results.row(TITLES[0], REAL), results.row(TITLES[3], REAL)
    if isinstance(row, Missing) or isinstance(installer, Missing):
        raise SystemExit("bench: bench/RESULTS.md has no rows of the real feed for README.md's lines")
    rate, megabytes = int(row["commands/s"].replace(",", "")), float(row["lead MB"])
    times = float(installer["kept s"]) / float(installer["follow s"])
    return (f"On a real feed of {networks_of(results, REAL)} networks, `routes lead` replies to {round(rate, -3):,.0f} commands a second on one "
            f"core, in {megabytes:.0f} MB.\n`routes_fib`, with a batch for each change, takes {times:.1f} times as long as `routes follow` for the same "
            "replies.\n")


def marked(path, name, content, text=None):
    """The page with this content between the mark of this name and the end mark."""
    mark = f"<!-- bench: {name} -->\n"
    text = path.read_text(encoding="utf-8") if text is None else text
    text, found = re.subn(rf"{re.escape(mark)}.*?(?=^<!-- end -->$)", lambda _: mark + content, text, flags=re.M | re.S)
    if found != 1:
        raise SystemExit(f"bench: {path.relative_to(ROOT)} needs one line {mark.strip()}, and a line <!-- end --> after it")
    return text


def followed(results):
    """The files that follow from the results, and their content."""
    page = ROOT / "docs/PERFORMANCE.md"
    made, text = {}, None
    for name, content in (pair for of in (programs, growth, least, huge, installer, lookups, other_tables, changes, maps) for pair in of(results)):
        if name.endswith(".svg"):
            made[ROOT / name] = content
        else:
            text = marked(page, name, f"\n{content}\n", text)
    return made | {page: text, ROOT / "README.md": marked(ROOT / "README.md", "real feed", headline(results))}


def main(check):
    for path, text in followed(Results()).items():
        if not check:
            path.write_text(text, encoding="utf-8")
        elif not path.exists() or path.read_text(encoding="utf-8") != text:
            sys.exit(f"{path.relative_to(ROOT)} has other figures than bench/RESULTS.md: run bench/page.py")


if __name__ == "__main__":
    if sys.argv[1:] not in ([], ["--check"]):
        sys.exit(__doc__)
    main("--check" in sys.argv)
