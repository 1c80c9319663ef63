"""Runs BIRD in a network namespace, and compares its routes with those of `routes lead`. `recipes/bird check` runs this."""
import random
import re
import sys
import tempfile
from pathlib import Path

from __main__ import Dump, adds, difference
from common import Numbers, Page, any_addresses, bird, ends, hops_of, namespace, needs, routes, same, settled, text, timed, tool

FAMILIES = (("ipv4", "192.0.2.{}", "10.{}.{}.0/{}"), ("ipv6", "2001:db8:ffff::{}", "2001:db8:{}:{}::/{}"))
ADDRESSES = ("address add 192.0.2.254/24 dev lan", "address add 2001:db8:ffff::254/64 dev lan nodad")
KINDS = ("blackhole", "unreachable", "prohibit", 'via "lan"', "via 2001:db8:ffff::1", "via {0} weight 3 via {0}0")
START = 'log "/dev/null" all;\nrouter id 192.0.2.254;\nprotocol device { }\n'


def table_of(lines):
    table = {}
    for line in lines:
        _, network, hop, preference = line.split()
        table.setdefault(network, {})[hop] = preference
    return table


def protocol(title, family, preference, held):
    """A static protocol. Each of its routes has many communities, which BIRD prints in several lines."""
    many = " ".join(f"bgp_community.add((64500,{at}));" for at in range(100))
    lines = "".join(f"  route {network} {how};\n" for network, how in held.items())
    filtering = f"import filter {{ {many} accept; }};" if title == "rest" else ""
    return f"protocol static {title}{family[-1]} {{\n  {family} {{ preference {preference}; {filtering} }};\n{lines}}}\n"


def configurations(count):
    """Two configurations with three upstreams, and routes of other kinds. In the second, a tenth of each one's routes are gone or changed."""
    draw = random.Random(1)
    texts = ["", ""]
    for family, gateway, network in FAMILIES:
        longer, shorter = (24, 20) if family == "ipv4" else (64, 60)
        for title, preference, first in (("east", 200, 1), ("west", 100, 3), ("other", 100, 5)):
            held = {}
            while len(held) < count:
                length = draw.choice((longer, longer, longer, shorter))
                third = draw.randrange(256) if length == longer else draw.randrange(16) * 16
                held[network.format(draw.randrange(16), third if family == "ipv4" else f"{third:x}", length)] = \
                    "via " + gateway.format(draw.randrange(first, first + 3))
            texts[0] += protocol(title, family, preference, held)
            for one in draw.sample(sorted(held), count // 10):
                if draw.random() < 0.5:
                    del held[one]
                else:
                    held[one] = "via " + gateway.format(9) + " via " + gateway.format(8)
            texts[1] += protocol(title, family, preference, held)
        held = {network.format(at, 0, longer): KINDS[at % len(KINDS)].format(gateway.format(1)) for at in range(60)}
        for at in (0, 1):
            texts[at] += protocol("rest", family, 300, held)
    return [START + text for text in texts]


def asked(control, addresses, numbers):
    """The hop that BIRD uses for each address."""
    given = "".join(f"show route primary for {address}\n" for address in addresses)
    told = tool("birdc", "-s", control, given=given)
    found = []
    for reply in told.split("bird> ")[1:]:
        lines = reply.replace("\x1b[K", "").splitlines()[1:]
        if lines and lines != ["Network not found"]:
            _, held = next(Dump(["".join(f"{line}\n" for line in lines)]).read())
            found.append(None if held[0][0] == "drop" else str(numbers[held[0][0]]))
        elif lines:
            found.append(None)
    return found


def best(hops):
    return max(hops, key=lambda hop: int(hops[hop]))


def given_way(old, new):
    """The number of networks that lost their best route, and now use another old one."""
    both = [(hops, new[network]) for network, hops in old.items() if network in new]
    return sum(best(before) not in after and best(after) in before for before, after in both)


def dumped(control, hops):
    dump, dumping = timed(tool, "birdc", "-s", control, "show", "route", "all", "stats")
    lines, reading = timed(adds, [dump], hops)
    print(f"a dump of {len(lines):,} routes: {dumping:.2f} s by birdc, {reading:.2f} s to `add` lines")
    return lines


def compare(control, folder, second):
    hops = f"{folder}/hops"
    old = dumped(control, hops)
    loaded(control, folder, second)
    new = dumped(control, hops)
    change = list(difference(old, new))
    addresses = ends(table_of(old + new)) + any_addresses(1000)
    own, leading = timed(hops_of, text(old + change), addresses)
    print(f"the difference: {sum(line.startswith('add') for line in change):,} add, "
          f"{sum(line.startswith('del') for line in change):,} del; `routes lead` took {leading:.2f} s for all")
    print(f"{given_way(table_of(old), table_of(new)):,} networks lost their best route and have the next")
    flats = [routes("lead", text([*lines, "flat"])) for lines in (old + change, new)]
    same("flat lists", *([line for line in replies if line.startswith("flat")] for replies in flats))
    theirs, asking = timed(asked, control, addresses, Numbers(hops))
    wrong = [found for found in zip(addresses, own, theirs) if found[1] != found[2]]
    same("answers", [len(theirs), wrong[:5]], [len(addresses), []])
    print(f"{len(addresses):,} addresses: `get` answers as BIRD does, which took {asking:.2f} s")


def loaded(control, folder, configuration):
    Path(folder, "bird.conf").write_text(configuration)
    tool("birdc", "-s", control, "configure")
    settled(control)


def timeless(dump):
    return re.sub(r" \d\d:\d\d:\d\d\.\d+\]", " 02:25:24.909]", dump)


def check_page(control, folder, first, second):
    """The page's example, with a table of origins, and wrong inputs."""
    page = Page(f"{folder}/page", birdc=f'{{}} -s "{control}" "$@"')
    loaded(control, folder, first)
    page.run()
    dump = page.run("birdc show route all stats table master4")
    page.gives("".join(timeless(dump).splitlines(keepends=True)[1:]))
    page.gives(page.run("cat old"))
    page.gives(page.run("cat hops"))
    loaded(control, folder, second)
    page.gives(page.run())
    page.end()
    same("two tables by name", page.run("birdc show route all stats table master4 table master6 | recipes/bird adds hops"),
         page.run("cat new"))
    for wrong in (dump + dump, dump.replace(" on lan", " over lan", 1), "\n".join(dump.split("\n")[:-2]) + "\n",
                                    dump.replace("*", "", 1), dump.replace("\t", "", 1), dump.replace("\n", "\r\n"), dump[:-9]):
        page.refuses("recipes/bird adds hops", wrong)
    page.refuses("birdc -s nosuch show route all stats 2>/dev/null | recipes/bird adds hops")
    page.refuses("birdc show route all stats table none4 | recipes/bird adds hops")
    page.refuses("recipes/bird difference old /dev/null")
    page.refuses("sed 's/$/\\r/' new | recipes/bird difference old /dev/stdin")
    page.refuses("head -c 40 new | recipes/bird difference old /dev/stdin")
    page.refuses("(cat new; echo) | recipes/bird difference old /dev/stdin")
    page.refuses("(cat new; echo add 10.0.0.0/8 1) | recipes/bird difference old /dev/stdin")
    page.refuses("(cat new; sed 's/0$/1/' new) | recipes/bird difference old /dev/stdin")


def page_configurations():
    """The configuration of the page, with a table of origins and an empty table."""
    start, routes = START + "roa4 table origins;\nipv4 table none4;\n", []
    start += "protocol static { roa4; route 198.51.100.0/24 max 25 as 64500; }\n"
    for title, preference, route in (("west", 100, "198.51.100.0/24 via 192.0.2.2"), ("discard", 200, "203.0.113.0/24 blackhole"),
                                     ("east", 200, "198.51.100.0/24 via 192.0.2.1")):
        routes.append(f"protocol static {title} {{ ipv4 {{ preference {preference}; }}; route {route}; }}\n")
    return start + "".join(routes), start + "".join(routes[:2])


def measure(folder, count):
    """Two sorted tables that differ in one network out of a hundred, compared with the time of `sort` and `comm`."""
    draw = random.Random(1)
    first = 1 << 20
    old = sorted(f"add {at >> 16}.{at >> 8 & 255}.{at & 255}.0/24 {draw.randrange(1, 5000)} 100" for at in range(first, first + count))
    new = [f"{line[:-3]}{draw.choice((99, 200))}" if draw.random() < 0.01 else line for line in old]
    paths = [f"{folder}/old", f"{folder}/new"]
    for path, lines in zip(paths, (old, new)):
        Path(path).write_text(text(lines))
    found, seconds = timed(tool, sys.argv[0], "difference", *paths)
    same("the difference", found.splitlines(), [line for before, line in zip(old, new) if before != line])
    script = 'for one in "$@"; do sort "$one" > "$one.sorted"; done; comm -3 "$1.sorted" "$2.sorted"'
    _, sorting = timed(tool, "env", "LC_ALL=C", "sh", "-c", script, "sh", *paths)
    print(f"two tables of {count:,} lines, of which {len(found.splitlines()):,} differ: {seconds:.1f} s; `sort` and `comm` "
          f"{sorting:.1f} s")


def check():
    needs("birdc", "bird2")
    needs("ss", "iproute2")
    first, second = configurations(2000)
    with tempfile.TemporaryDirectory() as folder:
        measure(folder, 1000000)
        with namespace(*ADDRESSES) as own, bird(folder, START, "ip", "netns", "exec", own) as control:
            listening = tool("ip", "netns", "exec", own, "ss", "-Hltunx").splitlines()
            same("sockets that listen", [line.split()[4] for line in listening], [control])
            check_page(control, folder, *page_configurations())
            loaded(control, folder, first)
            compare(control, folder, second)
