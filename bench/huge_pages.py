"""The part on huge pages: the modes of the program, as started and with memory in huge pages."""
import filecmp

import measure
import page
import program

# glibc 2.35 and later asks the kernel for huge pages if this is in the environment.
HUGE = "GLIBC_TUNABLES=glibc.malloc.hugetlb=1"

TEXT = """The program with `{huge}` in its environment, and without. The kernel's file transparent_hugepage/enabled has `{setting}`."""


def setting():
    """The kernel's setting of huge pages."""
    with open("/sys/kernel/mm/transparent_hugepage/enabled", encoding="ascii") as file:
        return file.read().partition("[")[2].partition("]")[0]


def seen_in(bench, mode, source):
    """The cost of the program in this mode, as started and with huge pages, and its output, which is the same."""
    ours = [bench.programs["ours"], mode]
    sinks = {kind: bench.folder / f"{mode}-{kind}" for kind in ("plain", "huge")}
    seen = measure.in_turns(bench.runs, {
        "plain": lambda: measure.once([*bench.pin, *ours], source, sinks["plain"]),
        "huge": lambda: measure.once([*bench.pin, "env", HUGE, *ours], source, sinks["huge"]),
    })
    if not filecmp.cmp(*sinks.values(), shallow=False):
        measure.fail(f"huge pages change the output of `routes {mode}`")
    return measure.least(seen["plain"]), measure.least(seen["huge"]), sinks["plain"]


def rows_of(bench, title, feed):
    """A row for each mode."""
    source = feed
    for mode in program.MODES:
        plain, huge, sink = seen_in(bench, mode, source)
        yield [title, f"`routes {mode}`", f"{plain.seconds:.2f}", f"{huge.seconds:.2f}", f"{plain.kilobytes / 1024:.1f}", f"{huge.kilobytes / 1024:.1f}"]
        source = sink if mode == "lead" else source


def measured(bench):
    """Measures the part."""
    feeds = {page.REAL: bench.real()} if bench.real() else {}
    for family in ("v4", "v6"):
        for count in bench.counts(1_000_000):
            feeds[f"load, IP{family}, {count:,}"] = bench.made("load", family, count)
    with measure.Others() as others:
        rows = [row for title, feed in feeds.items() for row in rows_of(bench, title, feed)]
    head = ["feed", "program", "s", "s, huge pages", "MB", "MB, huge pages"]
    text = page.filled(TEXT.format(huge=HUGE, setting=setting()))
    yield "Huge pages", [text, page.table(head, rows), page.filled(others.told(bench.runs))]
