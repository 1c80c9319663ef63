"""Loads tables into kernels of network namespaces, and asks them for addresses. `recipes/kernel check` runs this."""
import contextlib
import subprocess
import sys
import tempfile
from pathlib import Path

from __main__ import batch, table
from common import HERE, Page, any_addresses, ends, hops_of, namespace, needs, routes, same, text, timed, tool

PIECE = 50000


def memory():
    """The memory that the kernel uses, in MB."""
    fields = dict(line.split(":") for line in open("/proc/meminfo"))
    return sum(int(fields[name].split()[0]) for name in ("SUnreclaim", "Percpu", "VmallocUsed")) / 1024


def counted(own):
    """The kernel's own count of networks of both families, and the kB of its trie for IPv4."""
    trie = tool("ip", "netns", "exec", own, "cat", "/proc/net/fib_triestat").split("Local:")[0].split("\n")
    fields = dict(line.strip().split(":", 1) for line in trie if ":" in line)
    longer = tool("ip", "netns", "exec", own, "cat", "/proc/net/rt6_stats").split()[3]
    return int(fields["Prefixes"]), int(longer, 16), int(fields["Total size"].split()[0])


def ip(own, lines, force=False):
    """The output of `ip` for these lines, which it gets in parts, since it uses 4 kB a line. `force` continues after a failed line."""
    found = []
    for at in range(0, len(lines), PIECE):
        given = text(lines[at:at + PIECE])
        if force:
            command = ["ip", "-n", own, "-force", "-batch", "-"]
            found.append(subprocess.run(command, input=given, capture_output=True, text=True).stdout)
        else:
            found.append(tool("ip", "-n", own, "-batch", "-", given=given))
    return "".join(found)


def kernel_answers(own, addresses):
    """The hop that the kernel uses for each address, or None if it has no route or drops the packet."""
    hops = {}
    for line in ip(own, [f"route get {address}" for address in addresses], force=True).splitlines():
        words = line.split()
        if "via" in words:
            gateway = words[words.index("via") + 1 + (words[words.index("via") + 1] == "inet6")]
            high, low = gateway.removeprefix("fe80::").rpartition(":")[::2]
            hops[words[0]] = str((int(high or "0", 16) << 16) + int(low, 16))
    return [hops.get(address) for address in addresses]


@contextlib.contextmanager
def loaded(own, given):
    """Deletes the routes in the end: without that, a namespace with many next hops and routes takes up to an hour to go away."""
    try:
        yield timed(ip, own, given)[1]
    finally:
        ip(own, [line.replace("route replace ", "route del ") for line in given], force=True)


def nexthops(own, lines):
    """A nexthop object of the kernel for each hop of these lines, and the words for `ip route`."""
    hops = sorted({line.split()[2] for line in lines} - {"drop"})
    ip(own, [f"nexthop add id {hop} via fe80::{int(hop) >> 16:x}:{int(hop) & 65535:x} dev lan" for hop in hops])
    return {hop: f"nhid {hop}" for hop in hops}


def ask(title, own, addresses, expected):
    found, asking = timed(kernel_answers, own, addresses)
    wrong = [found for found in zip(addresses, expected, found) if found[1] != found[2]]
    same(f"{title}: other answers", wrong[:5], [])
    return asking


def load(title, lines, all_lines, addresses, expected):
    with namespace() as own:
        empty = counted(own)
        words_of = nexthops(own, all_lines)
        before = memory()
        with loaded(own, batch(lines, words_of)) as loading:
            used, count = memory() - before, counted(own)
            four, six = count[0] - empty[0], count[1] - empty[1]
            same(f"{title}: networks of the kernel and lines", four + six, len(lines))
            asking = ask(title, own, addresses, expected)
        print(f"| {title} | {four:,} | {six:,} | {loading:.1f} | {count[2]:,} | {used:.0f} |", flush=True)
    return asking


def least_of(commands):
    """The least table of a leader of these commands, as the page makes it."""
    log = text(routes("lead", commands))
    found, seconds = timed(tool, sys.argv[0], "least", given=log)
    print(f"`recipes/kernel least` took {seconds:.2f} s for a log of {log.count(chr(10)):,} lines")
    return found.splitlines()


def tables(feed):
    rest = routes("lead", feed.replace("flat\n", "") + "flat\nlist 0.0.0.0/0\nlist ::/0\n")
    whole, flat = ([line for line in rest if line.startswith(word)] for word in ("route ", "flat "))
    with tempfile.TemporaryDirectory() as folder:
        Path(folder, "whole").write_text(text(whole + ["ok"]))
        Path(folder, "flat").write_text(text(flat + ["ok"]))
        return {"whole table": table(f"{folder}/whole"), "flat list": table(f"{folder}/flat"), "least table": least_of(feed)}


def check_change():
    """One least table in place of another, and the second one once more."""
    feeds = str(HERE.parent / "bench/feeds.py")
    feed = "".join(tool(sys.executable, feeds, "churn", family, "10000").replace("flat\n", "") for family in ("v4", "v6"))
    part = "".join(line for line in feed.splitlines(keepends=True) if len(line) % 9)
    old, new = least_of(part), least_of(feed)
    addresses = ends(line.split()[1] for line in old + new)
    with namespace() as own:
        words_of, empty = nexthops(own, old + new), counted(own)
        with loaded(own, batch(old, words_of)):
            ask("the old table", own, addresses, hops_of(part, addresses))
            change = batch(new, words_of, old)
            for lines in (change, batch(new, words_of)):
                ip(own, lines)
                same("networks of the kernel and lines", sum(counted(own)[:2]) - sum(empty[:2]), len(new))
                ask("the new table", own, addresses, hops_of(feed, addresses))
            ip(own, batch(old, words_of, new))
    print(f"{len(old):,} routes, then {len(new):,} in their place by {len(change):,} lines, {sum('del' in line for line in change):,} "
          f"of them `del`, and all again: the kernel answers {len(addresses):,} addresses as `get` does each time")


def check_manual(page):
    """Shows why a `set` line can't be used as `ip route replace`, as the manual says: an address gets another hop than in the leader."""
    commands = "add 10.0.0.0/8 1\nadd 10.1.0.0/16 2\ndel 10.1.0.0/16 2\nadd 10.0.0.0/8 3 200\n"
    changes = [line.split()[1:] for line in routes("lead", commands) if line.startswith("set ")]
    Path(page.folder, "changes").write_text(text(f"route replace {network} via 192.0.2.{hop} dev lan" for network, hop in changes))
    page.run("ip -batch changes")
    same("the last changes", changes[-2:], [["10.1.0.0/16", "1"], ["10.0.0.0/8", "3"]])
    same("hops", [hops_of(commands, ["10.1.0.1"]), page.run("ip route get 10.1.0.1").split()[2]], [["3"], "192.0.2.1"])


def check_page(folder):
    """The page's example, a load in place of another, and wrong inputs."""
    with namespace("address add 192.0.2.254/24 dev lan", "address add 2001:db8:ffff::254/64 dev lan nodad") as own:
        page = Page(f"{folder}/page", ip=f'{{}} -n {own} "$@"')
        page.text("hops")
        page.text("commands")
        page.run()
        page.gives(page.run("cat lines"))
        page.run()
        page.gives(page.run("cat lines"))
        page.gives("".join(f"{line.strip()}\n" for line in page.run("ip route show").splitlines() if "proto" not in line))
        page.end()
        page.run("recipes/kernel batch hops < loaded > lines; split -l 2 --filter='ip -batch -' lines")
        page.run("echo '3 via 2001:db8:ffff::1 dev lan' > six; printf 'add 10.2.0.0/16 3\\nadd 2001:db8::/32 3\\n' > both")
        for _ in range(2):
            page.run("recipes/kernel batch six < both > lines; ip -batch lines")
        same("an IPv6 next hop", page.run("ip route show 10.2.0.0/16").strip(), "10.2.0.0/16 via inet6 2001:db8:ffff::1 dev lan")
        check_manual(page)
    page.run("echo '1 192.0.2.1' > bare; mkdir other; cp -rL recipes other; routes lead < commands | env -u ROUTES other/recipes/kernel least > again; cmp again loaded")
    for command, given in (("least", "set 10.0.0.0/8 1\nok\nbad\n"), ("least", "set 10.0.0.0/8 1\nok\nrefused\n"),
                           ("least", "set 10.0.0.0/8 1\nok\nset 10.0.0.0/9 2\n"), ("least", "set 10.0.0.0/8 1\nok\nset 10"),
                           ("least", "ok\nok\n"), ("batch hops", ""), ("batch hops", "add 10.0.0.0/8 3\n"),
                           ("batch hops", "flat 10.0.0.0/8 1\n"), ("batch hops", "set 10.0.0.0/8 1\nok\n"),
                           ("batch hops", "add 10.0.0.0/8 1\nadd 10.0.0.0/8 2\n"), ("batch hops", "add 10.0.0.0/8 1\r\n"),
                           ("batch hops /dev/null", "add 10.0.0.0/8 1\n"), ("batch bare", "add 10.0.0.0/8 1\n")):
        page.refuses(f"recipes/kernel {command}", given)
    page.refuses("sed 's/$/\\r/' commands | routes lead | recipes/kernel least")


def feed_of(real):
    if real:
        needs("location", "location")
        return tool(str(HERE.parent / "bench/real_feed"))
    feeds = str(HERE.parent / "bench/feeds.py")
    return "".join(tool(sys.executable, feeds, "load", family, "20000") for family in ("v4", "v6"))


def check(real):
    needs("ip", "iproute2")
    with tempfile.TemporaryDirectory() as folder:
        check_page(folder)
    feed = feed_of(real)
    three = tables(feed)
    all_lines = sum(three.values(), [])
    addresses = ends(line.split()[1] for line in all_lines) + any_addresses(10000)
    expected = hops_of(feed.replace("flat\n", ""), addresses)
    print("| | IPv4 | IPv6 | s to load | kB of IPv4's trie | MB of the kernel |\n|---|---|---|---|---|---|", flush=True)
    asking = [load(title, lines, all_lines, addresses, expected) for title, lines in three.items()]
    print(f"{len(addresses):,} addresses, ends of all blocks and random ones: the kernel answers as `get` does in all three; "
          f"{sum(asking) / 3:.0f} s each")
    check_change()
