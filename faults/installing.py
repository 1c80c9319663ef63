"""What an installer has to write for its input, worked out from docs/ROUTES_FIB.md alone. Several tables may be least, or as near to the
installed one. So its output is looked at batch by batch: whichever table a batch makes, it has to be one of these, and made in the order
that is told."""
import itertools

from model import change, fewest, hop, network, painted, written

WIDTHS = (32, 128)
# The networks of 0.0.0.0/30, and the routes that each may have in a table: none, `drop`, or one of two hops.
BLOCK = [(32, first, first + size - 1) for size in (4, 2, 1) for first in range(0, 4, size)]
ROUTES = ("", None, 1, 2)


def order(net):
    """The order of networks: by first address, then shorter ones first."""
    width, first, last = net
    return width, first, -last


def text_of(net):
    width, first, last = net
    return written(width, first, width - (last - first + 1).bit_length() + 1)


def installs(net, to):
    return f"install {text_of(net)} {'drop' if to is None else to}".encode()


def removes(net):
    return f"remove {text_of(net)}".encode()


def between(old, new):
    """The operations that turn the table `old` into the table `new`."""
    changed = [net for net in new if net not in old or old[net] != new[net]]
    return [installs(net, new[net]) for net in sorted(changed, key=order, reverse=True)] + \
        [removes(net) for net in sorted(old, key=order) if net not in new]


def after(table, batch):
    """The table after these operations. ValueError if one is not an operation, or removes a route that isn't there."""
    table = dict(table)
    for line in batch:
        match line.split(b" "):
            case [b"install", net, to]:
                table[network(net)] = hop(to)
            case [b"remove", net] if network(net) in table:
                del table[network(net)]
            case _:
                raise ValueError
    return table


def has_hops(table, told):
    """Whether the table has the hops after these changes."""
    routes = sorted(table.items(), key=lambda route: route[0][1] - route[0][2])
    return all(painted(routes, width) == painted(told, width) for width in WIDTHS)


def is_least(table, told):
    """Whether it has, and no table with these hops has fewer routes."""
    return has_hops(table, told) and len(table) == sum(fewest(told, width) for width in WIDTHS)


def operations(table, told):
    """The least number of operations that bring the table to the hops after these changes."""
    return sum(fewest(told, width, [((first, last), to) for (w, first, last), to in table.items() if w == width]) for width in WIDTHS)


def tables_of_block():
    """All tables of BLOCK, as lists of routes, by the hops that they give to its four addresses."""
    found = {}
    for routes in itertools.product(ROUTES, repeat=len(BLOCK)):
        table = [(net, to) for net, to in zip(BLOCK, routes) if to != ""]
        found.setdefault(str(painted(table, 32)), []).append(routes)
    return found


def operations_in_block(table, told, tables):
    """The least number of operations that bring a table of BLOCK to the hops after these changes, by a look at all tables."""
    routes = [table.get(net, "") for net in BLOCK]
    return min(sum(a != b for a, b in zip(routes, other)) for other in tables[str(painted(told, 32))])


def note(line):
    """The meaning of an input line: `sync`, an installed route, a reply line without a change, or a change. ValueError if it is none of
    these."""
    if len(line) > 80:
        raise ValueError
    match line.split(b" "):
        case [b"sync"]:
            return "sync", None
        case [b"have", net, to]:
            return "have", (network(net), hop(to))
    told = change(line)
    return ("reply", line) if told is None else ("change", told)


class Installed:
    """The installed table, the leader's hops, and the batches so far."""

    def __init__(self, batches, operations):
        self.table, self.told, self.waiting, self.kept, self.batches = {}, [], [], False, batches
        self.operations = operations

    def batch(self):
        """The operations of the next batch, and the table after them. It has the leader's hops, and the operations are those between both
        tables, in the order that is told."""
        batch = self.batches.pop(0)
        new = after(self.table, batch)
        if batch != between(self.table, new) or not has_hops(new, self.told):
            raise ValueError
        return batch, new

    def sync(self):
        """The next batch makes a least table. If the installed table is kept, and is a least one already, it has no operations."""
        batch, new = self.batch()
        if not is_least(new, self.told) or batch and self.kept and is_least(self.table, self.told):
            raise ValueError
        self.table, self.kept = new, True

    def commit(self):
        """The pending changes take effect; if there are any and the table is kept, the next batch has the fewest operations."""
        self.told += self.waiting
        if self.kept and self.waiting:
            batch, new = self.batch()
            if len(batch) != self.operations(self.table, self.told):
                raise ValueError
            self.table = new
        self.waiting = []

    def take(self, kind, what):
        if kind == "have":
            self.table[what[0]] = what[1]
        elif kind == "change":
            self.waiting.append(what)
        elif kind == "sync":
            self.sync()
        elif what == b"ok":
            self.commit()
        elif what in (b"none", b"bad", b"refused"):
            self.waiting = []


def notes(stream):
    """The notes of a stream before its first invalid line (no note, or a `have` after a `sync`), their bytes, and whether there is one."""
    found, count, is_kept = [], 0, False
    for line in stream.split(b"\n")[:-1]:
        try:
            one = note(line)
        except ValueError:
            return found, stream[:count], True
        if is_kept and one[0] == "have":
            return found, stream[:count], True
        is_kept |= one[0] == "sync"
        found.append(one)
        count += len(line) + 1
    return found, stream[:count], False


def is_installed(found, output, operations=operations):
    """Whether an installer that never runs out of memory may write this for these notes. `operations` counts those of an update."""
    lines = output.split(b"\n")
    batches = [[]]
    for line in lines[:-1]:
        batches += [[]] if line == b"ok" else []
        if line != b"ok":
            batches[-1].append(line)
    if lines[-1] or batches.pop():
        return False
    installed = Installed(batches, operations)
    try:
        for kind, what in found:
            installed.take(kind, what)
    except (ValueError, IndexError):
        return False
    return not installed.batches
