"""Tests of jolmidda: the sessions of the manual, and random steps compared with a plain model."""

import copy
import doctest
import gc
import inspect
import ipaddress
import os
import pickle
import random
import re
import signal
import subprocess
import sys
import time
import typing
import unittest
from concurrent.futures import ThreadPoolExecutor
from contextlib import contextmanager
from pathlib import Path
from unittest import mock

import jolmidda
import routes
from jolmidda import DROP, PREFERENCE, Change, Count, Failed, Follower, Full, Index, Piece, Route, Table

TOP = Path(__file__).resolve().parents[2]
EXAMPLES = TOP / "examples"
# The random steps change these two networks, of 16 addresses each, and networks inside them.
ROOTS = [ipaddress.ip_network("10.0.0.240/28"), ipaddress.ip_network("2001:db8:0:ffff::/124")]


# The memory that is freed after the failure is for Python itself.
LITTLE_MEMORY = """
import ipaddress, re, resource
from jolmidda import Table

with Table() as table:
    size = int(re.search("VmSize: *([0-9]+)", open("/proc/self/status").read().replace(chr(9), " "))[1]) * 1024
    memory = bytearray(8 << 20)
    resource.setrlimit(resource.RLIMIT_AS, (size + (24 << 20),) * 2)
    for number in range(1 << 22):
        net = ipaddress.IPv4Network(number)
        try:
            table.add(net, 1)
        except MemoryError as error:
            del memory
            assert str(error) == "there is no memory", "Python's own memory ran out"
            break
    assert (table.count(), table.get(net[0])) == ((number, 0), None)
    table.add(net, 1)
    assert table.count() == (number + 1, 0)
"""


def order(hop):
    """Among equal preferences the least hop is best."""
    return 1 << 32 if hop == DROP else hop


def place(net):
    """Ascending: a network comes before those inside it."""
    return net.version, int(net.network_address), net.prefixlen


class Model:
    """A map of networks to their routes, each a hop with a preference."""

    def __init__(self):
        self.routes = {}

    def get(self, net):
        """The best route of the longest stored network that contains all of this one."""
        around = [other for other in self.routes if other.version == net.version and net.subnet_of(other)]
        if not around:
            return None
        longest = max(around, key=lambda other: other.prefixlen)
        hop, preference = max(self.routes[longest].items(), key=lambda route: (route[1], -order(route[0])))
        return Route(longest, hop, preference)

    def hop(self, net):
        route = self.get(net)
        return None if route is None or route.hop == DROP else route.hop

    def add(self, net, hop, preference):
        before = self.hop(net)
        routes = self.routes.setdefault(net, {})
        if len(routes) == 8 and hop not in routes:
            raise Full
        routes[hop] = preference
        return Change(before, self.hop(net))

    def remove(self, net, hop):
        before = self.hop(net)
        routes = self.routes.get(net, {})
        del routes[hop]
        if not routes:
            del self.routes[net]
        return Change(before, self.hop(net))

    def flat(self, block):
        """The flat list of the addresses of a block."""
        if block.prefixlen == block.max_prefixlen:
            hop = self.hop(block)
            return [] if hop is None else [Piece(block, hop)]
        halves = list(block.subnets())
        pieces = [piece for half in halves for piece in self.flat(half)]
        if [piece.net for piece in pieces] == halves and pieces[0].hop == pieces[1].hop:
            return [Piece(block, pieces[0].hop)]
        return pieces

    def best(self, net):
        """The best routes of the networks of this one's family, ascending."""
        return [self.get(other) for other in sorted(self.routes, key=place) if other.version == net.version]

    def inside(self, net):
        return [route for route in self.best(net) if route.net.subnet_of(net)]

    def cover(self, net):
        return [route for route in self.best(net) if net.subnet_of(route.net)]

    def page_from(self, net, limit):
        return [route for route in self.best(net) if place(route.net) >= place(net)][:limit]

    def page_after(self, net, limit):
        return [route for route in self.best(net) if place(route.net) > place(net)][:limit]

    def all(self, net):
        routes = [Route(net, hop, preference) for hop, preference in self.routes.get(net, {}).items()]
        return sorted(routes, key=lambda route: (-route.preference, order(route.hop)))

    def governed(self, net):
        """The blocks of the addresses of this network that no network strictly inside it contains."""
        inner = [other for other in self.routes if other.version == net.version and other != net and other.subnet_of(net)]
        found = self.get(net)

        def blocks(block):
            if not any(other.overlaps(block) for other in inner):
                return [Route(block, found.hop if found else DROP, PREFERENCE)]
            if any(block.subnet_of(other) for other in inner):
                return []
            return [route for half in block.subnets() for route in blocks(half)]

        return blocks(net)


def outcome(call, *arguments):
    """Returns the result of a call, or the type of the exception that it raises."""
    try:
        return call(*arguments)
    except (Full, KeyError) as error:
        return type(error)


def pieces_of(arrays):
    """The blocks that arrays of a flat list have, as objects."""
    kinds = {4: ipaddress.IPv4Network, 6: ipaddress.IPv6Network}
    return [Piece(kinds[version]((high << 64 | low, length)), hop) for version, high, low, length, hop in zip(*arrays)]


class Turns(unittest.TestCase):
    def test_random_turns(self):
        draw = random.Random(7)
        model = Model()
        outcomes = []
        with Table() as table:
            for turn in range(3000):
                root = draw.choice(ROOTS)
                net = draw.choice(list(root.subnets(draw.randrange(5))))
                hop = draw.choice([DROP, (1 << 32) - 1, *range(9)])
                # Tables grow for a while, and then shrink.
                if draw.random() < (0.8 if turn % 1000 < 600 else 0.2):
                    arguments = "add", net, hop, draw.choice([0, 100, 65535])
                else:
                    arguments = "remove", net, hop
                name, *rest = arguments
                outcomes.append(outcome(getattr(model, name), *rest))
                self.assertEqual(outcome(getattr(table, name), *rest), outcomes[-1], arguments)
                addr = draw.choice(list(root))
                self.assertEqual(table.get(addr), model.get(ipaddress.ip_network(addr)), addr)
                if turn % 20 == 0:
                    self.assertEqual(table.flat(), [piece for root in ROOTS for piece in model.flat(root)])
                    self.compare(draw, table, model)
        self.assertTrue({Full, KeyError} < set(outcomes))

    def compare(self, draw, table, model):
        """The lists, the lookups of many addresses and an index agree with the model."""
        net = draw.choice(list(draw.choice(ROOTS).subnets(draw.randrange(5))))
        limit = draw.choice([*range(6), 2**64 - 1])
        for name in ("inside", "cover", "all", "governed"):
            self.assertEqual(getattr(table, name)(net), getattr(model, name)(net), (name, net))
        for name in ("page_from", "page_after"):
            self.assertEqual(getattr(table, name)(net, limit), getattr(model, name)(net, limit), (name, net, limit))
        pieces = table.flat()
        self.assertEqual(pieces_of(table.flat_arrays()), pieces)
        for hop in range(9):
            self.assertEqual(table.own(hop), [Route(piece.net, hop, PREFERENCE) for piece in pieces if piece.hop == hop])
        self.assertEqual(table.count(), Count(*(sum(other.version == version for other in model.routes) for version in (4, 6))))
        addrs = draw.sample([addr for root in ROOTS for addr in root], 20)
        found = [model.get(ipaddress.ip_network(addr)) for addr in addrs]
        self.assertEqual(table.hops(addrs), [route and route.hop for route in found])
        hops = [model.hop(ipaddress.ip_network(addr)) for addr in addrs]
        with Index(table) as index:
            self.assertEqual(index.hops(map(str, addrs)), hops)
            self.assertEqual(index.hops(addr.packed for addr in addrs), hops)
            for form in (str, lambda addr: addr.packed, lambda addr: addr):
                self.assertEqual([index.hop(form(addr)) for addr in addrs], hops)
        least = Model()
        for route in table.least():
            least.add(*route)
        self.assertLessEqual(len(least.routes), len(model.routes))
        self.assertEqual([least.hop(ipaddress.ip_network(addr)) for addr in addrs], hops)

    def test_an_index_is_a_copy(self):
        with Table() as table:
            table.add("10.0.0.0/8", 1)
            with Index(table) as index:
                table.add("10.0.0.0/8", 2, 200)
                self.assertEqual((index.hop("10.0.0.1"), index.hop("::"), table.get("10.0.0.1").hop), (1, None, 2))
            self.assertEqual(table.hops([]), [])
            with self.assertRaises(ValueError):
                table.hops([bytes(5)])

    def test_a_long_list(self):
        """It is longer than the part that is copied at once."""
        with Table() as table:
            for part in range(3000):
                table.add(f"10.{part // 256}.{part % 256}.0/24", part)
            self.assertEqual([route.hop for route in table.inside("0.0.0.0/0")], list(range(3000)))

    def test_a_long_flat_list(self):
        """It is as long as the part that is copied at once, then longer by one, and then longer than two parts."""
        with Table() as table:
            for part in range(2100):
                table.add(f"10.{part // 256}.{part % 256}.0/24", part)
                if part + 1 in (1023, 1024, 1025, 2048, 2100):
                    self.assertEqual([piece.hop for piece in table.flat()], list(range(part + 1)))
            table.add("2001:db8::/32", 7)
            arrays = table.flat_arrays()
            self.assertEqual("".join(items.typecode for items in arrays), "BQQBI")
            self.assertEqual([len(items) for items in arrays], [2101] * 5)
            self.assertEqual(pieces_of(arrays), table.flat())

    def test_both_ends_of_both_families(self):
        with Table() as table:
            for net in map(ipaddress.ip_network, ("0.0.0.0/0", "::/0")):
                self.assertIsNone(table.get(net[0]))
                table.add(net, 1, 0)
                table.add(str(net[-1]), DROP, 65535)
                self.assertEqual(table.get(net[0]), (net, 1, 0))
                self.assertEqual(table.get(net[0].packed), (net, 1, 0))
                self.assertEqual(table.get(str(net[-1])), (ipaddress.ip_network(net[-1]), DROP, 65535))
            self.assertEqual(table.line("count"), "count 2 2\nok\n")


class Lines(unittest.TestCase):
    def test_sessions_of_the_manual(self):
        for name in ("session", "add", "del", "all", "pages", "count", "ninth", "bad-routes"):
            with self.subTest(name), Table() as table:
                lines = (EXAMPLES / f"{name}.txt").read_text().splitlines()
                self.assertEqual("".join(map(table.line, lines)), (EXAMPLES / f"{name}.out").read_text())

    def test_a_line_of_any_bytes(self):
        with Table() as table:
            for line in ("", "\0", b"\xff", "count\n", "é", b"a" * 100_000):
                self.assertEqual(table.line(line), "bad\n", line[:10])

    def test_a_long_reply(self):
        """It is longer than the part that is copied at once."""
        with Table() as table:
            for part in range(256):
                table.add(f"10.{part}.0.0/16", 7)
            routes = "".join(f"route 10.{part}.0.0/16 7 100\n" for part in range(256))
            self.assertEqual(table.line("list 0.0.0.0/0"), routes + "ok\n")

    def test_the_time_of_a_long_reply(self):
        """A reply of 32 MB takes a fraction of a second. If it were copied for each part, it would take half a minute."""
        size = 1 << 25

        def reply(_table, start, _out, room):
            return min(room, size - start)

        with Table() as table, mock.patch.object(jolmidda._library, "routes_reply", reply):
            begin = time.process_time()
            self.assertEqual(len(table.line("flat")), size)
            self.assertLess(time.process_time() - begin, 5)


def follow(table, follower, line):
    """A command line for the table, and its reply for the follower."""
    for told in table.line(line).splitlines():
        follower.line(told)


class Followers(unittest.TestCase):
    def test_random_turns(self):
        draw = random.Random(8)
        with Table() as table, Follower() as follower:
            for turn in range(1500):
                net = draw.choice(list(draw.choice(ROOTS).subnets(draw.randrange(5))))
                word = "add" if draw.random() < (0.8 if turn % 500 < 300 else 0.2) else "del"
                follow(table, follower, f"{word} {net} {draw.choice([DROP, *range(4)])}")
                if turn % 10 == 0:
                    self.compare(table, follower)

    def compare(self, table, follower):
        """A follower has the hops of its leader."""
        addrs = [addr for root in ROOTS for addr in root]
        with Index(table) as index, Index(follower) as copy:
            hops = index.hops(addrs)
            self.assertEqual(copy.hops(addrs), hops)
        self.assertEqual([follower.hop(addr) for addr in addrs], hops)
        self.assertEqual(follower.flat(), table.flat())
        self.assertEqual(follower.flat_arrays(), table.flat_arrays())
        with Table() as made:
            for route in follower.least():
                made.add(*route)
            self.assertEqual(made.flat(), table.flat())
            self.assertEqual(sum(made.count()), len(table.least()))

    def test_a_change_waits(self):
        with Follower() as follower:
            for line in ("set 10.0.0.0/8 1", "refused", "set 10.0.0.0/9 2"):
                follower.line(line)
                self.assertIsNone(follower.hop("10.0.0.0"))
            follower.line(b"ok")
            self.assertEqual((follower.hop("10.0.0.0"), follower.hop("10.128.0.0")), (2, None))
            self.assertEqual(follower.least(), [Route(ipaddress.ip_network("10.0.0.0/9"), 2, PREFERENCE)])

    def test_a_fault(self):
        with Follower() as follower:
            with self.assertRaisesRegex(ValueError, "reply line"):
                follower.line("ok\n")
            for call in (lambda: follower.line("ok"), lambda: follower.hop("::"), follower.flat, follower.flat_arrays, follower.least,
                         lambda: Index(follower)):
                with self.assertRaises(Failed):
                    call()

    def test_a_closed_follower(self):
        follower = Follower()
        follower.close()
        follower.close()
        for call in (lambda: follower.line("ok"), lambda: follower.hop("::"), follower.flat, follower.flat_arrays, follower.least,
                     lambda: Index(follower)):
            with self.assertRaisesRegex(ValueError, "closed"):
                call()


@contextmanager
def interrupted(library, name, handler):
    """A signal comes right after the first call of the library's function of this name."""
    function, signals = getattr(library, name), [signal.SIGUSR1]

    def called(*arguments):
        answer = function(*arguments)
        if signals:
            signal.raise_signal(signals.pop())
        return answer

    before = signal.signal(signal.SIGUSR1, lambda *_: handler())
    try:
        with mock.patch.object(library, name, called):
            yield
    finally:
        signal.signal(signal.SIGUSR1, before)


class Signals(unittest.TestCase):
    """The handler of a signal uses an object between the two steps of a call: the library makes a list or a reply, and it is read."""

    def test_a_list_is_made_again(self):
        net, other = "10.0.0.0/8", "192.0.2.0/24"
        with Table() as table, Follower() as follower:
            for line in (f"add {net} 1", "add 10.1.0.0/16 drop", "add 2001:db8::/32 2"):
                follow(table, follower, line)

            def handler():
                follow(table, follower, f"add {other} 9")
                for call in (table.flat, lambda: table.inside(other), follower.flat, follower.least):
                    call()
                follow(table, follower, f"del {other} 9")

            for library, name, call in [
                (jolmidda._library, "cover4", lambda: table.cover(net)), (jolmidda._library, "all4", lambda: table.all(net)),
                (jolmidda._library, "from4", lambda: table.page_from(net, 9)), (jolmidda._unlocked, "own", lambda: table.own(1)),
                (jolmidda._unlocked, "list4", lambda: table.inside(net)), (jolmidda._unlocked, "least", table.least),
                (jolmidda._unlocked, "governed4", lambda: table.governed(net)), (jolmidda._unlocked, "flat", table.flat_arrays),
                (jolmidda._unlocked, "flat", table.flat), (jolmidda._unlocked, "follower_flat", follower.flat),
                (jolmidda._unlocked, "follower_least", follower.least),
            ]:
                undisturbed = call()
                with self.subTest(name), interrupted(library, f"routes_{name}", handler):
                    self.assertEqual(call(), undisturbed)

    def test_a_reply_is_lost(self):
        with Table() as table:
            with interrupted(jolmidda._library, "routes_line", lambda: table.line("count")):
                with self.assertRaisesRegex(RuntimeError, "the line was carried out"):
                    table.line("add 10.0.0.0/8 1")
            with interrupted(jolmidda._library, "routes_line", table.flat):  # a list doesn't replace a reply
                self.assertEqual(table.line("get 10.0.0.0/9"), "route 10.0.0.0/8 1 100\nok\n")

    def test_a_table_is_closed(self):
        for library, name, error, call in [
            (jolmidda._library, "line", RuntimeError, lambda table: table.line("count")),
            (jolmidda._library, "cover4", ValueError, lambda table: table.cover("10.0.0.0/8")),
            (jolmidda._unlocked, "flat", ValueError, Table.flat),
        ]:
            with self.subTest(name), Table() as table, interrupted(library, f"routes_{name}", table.close):
                with self.assertRaises(error):
                    call(table)


class Rules(unittest.TestCase):
    def test_arguments_out_of_range(self):
        """The message names the argument, and for a number its range."""
        hops, preferences = "hop must be from 0 to 4294967295", "preference must be from 0 to 65535"
        limits = f"limit must be from 0 to {2**64 - 1}"
        with Table() as table, Follower() as follower, Index(table) as index:
            for message, call, *arguments in [
                ("'10.0.0.0/33'", table.add, "10.0.0.0/33", 1), ("'::/129'", table.remove, "::/129", 1), ("'ten'", table.inside, "ten"),
                (f"{hops}, not 4294967296", table.add, "10.0.0.0/8", 1 << 32), (f"{hops}, not -1", table.remove, "10.0.0.0/8", -1),
                (f"{hops}, not -1", table.own, -1), ("hop must be an int or 'drop', not '1'", table.add, "10.0.0.0/8", "1"),
                (f"{preferences}, not 65536", table.add, "10.0.0.0/8", 1, 1 << 16), (f"{preferences}, not -1", table.add, "::/0", 1, -1),
                (f"{limits}, not -1", table.page_from, "::/0", -1), (f"{limits}, not {2**64}", table.page_after, "::/0", 1 << 64),
                ("'10.0.0'", table.get, "10.0.0"), ("'::g'", follower.hop, "::g"), ("'10.0.0.0/8'", index.hop, "10.0.0.0/8"),
                (re.escape(repr(bytes(5))), table.hops, [bytes(5)]),
            ]:
                with self.subTest(message), self.assertRaisesRegex(ValueError, message):
                    call(*arguments)
            self.assertEqual(table.count(), Count(0, 0))

    def test_arguments_of_wrong_types(self):
        """The message names the types that are right, and the one that is wrong."""
        address, network = "must be a str, bytes or an ipaddress address", "must be a str or an ipaddress network"
        line = "must be a str or bytes"
        with Table() as table, Follower() as follower, Index(table) as index:
            for message, call, *arguments in [
                (f"{address}, not int", table.get, 167772161), (f"{address}, not NoneType", follower.hop, None),
                (f"{address}, not IPv4Network", index.hop, ROOTS[0]), (f"{address}, not float", table.hops, ["::", 1.5]),
                ("must be an iterable of addresses, not a single str", table.hops, "10.0.0.1"),
                ("must be an iterable of addresses, not a single bytes", index.hops, bytes(4)),
                (f"{network}, not int", table.add, 10, 1), (f"{network}, not NoneType", table.remove, None, 1),
                (f"{network}, not bytes", table.inside, b"::/0"), (f"{network}, not tuple", table.page_from, ("::", 0), 1),
                ("hop must be an int or 'drop', not float", table.add, "::/0", 1.0),
                ("hop must be an int or 'drop', not NoneType", table.remove, "::/0", None),
                ("hop must be an int, not str", table.own, "1"), ("preference must be an int, not str", table.add, "::/0", 1, "100"),
                ("limit must be an int, not float", table.page_after, "::/0", 1.0),
                (f"{line}, not NoneType", table.line, None), (f"{line}, not bytearray", follower.line, bytearray(b"ok")),
                ("source must be a Table or a Follower, not Index", Index, index),
                ("source must be a Table or a Follower, not str", Index, "::/0"),
            ]:
                with self.subTest(message), self.assertRaisesRegex(TypeError, message):
                    call(*arguments)
            self.assertEqual(table.count(), Count(0, 0))

    def test_zones(self):
        """Other networks may have the same link-local addresses, so they aren't looked up without their zone."""
        scoped, message = "fe80::1%eth0", "zone, as 'fe80::1%eth0|does not appear"  # Python 3.8 reads no zone
        with Table() as table, Follower() as follower, Index(table) as index:
            for call, *arguments in [(table.get, scoped), (table.hops, ["::", scoped]), (index.hop, scoped), (follower.hop, scoped),
                                     (table.add, f"{scoped}/64", 1), (table.cover, f"{scoped}/64"), (table.add, scoped, 1)]:
                with self.subTest(call=call, arguments=arguments), self.assertRaisesRegex(ValueError, message):
                    call(*arguments)
            if hasattr(ipaddress.IPv6Address, "scope_id"):
                for call, *arguments in [(table.get, ipaddress.ip_address(scoped)), (table.add, ipaddress.ip_network(scoped), 1)]:
                    with self.subTest(call=call, arguments=arguments), self.assertRaisesRegex(ValueError, message):
                        call(*arguments)
            self.assertEqual(table.count(), Count(0, 0))

    def test_no_memory(self):
        """The library's answer becomes an exception."""
        with Table() as table, Follower() as follower:
            for library, name, call in [
                (jolmidda._library, "add4", lambda: table.add("10.0.0.0/8", 1)), (jolmidda._unlocked, "flat", table.flat),
                (jolmidda._library, "cover4", lambda: table.cover("10.0.0.0/8")), (jolmidda._library, "line", lambda: table.line("count")),
                (jolmidda._unlocked, "index_open", lambda: Index(table)), (jolmidda._library, "follower_line", lambda: follower.line("ok")),
            ]:
                with self.subTest(name), mock.patch.object(library, f"routes_{name}", return_value=2), self.assertRaises(MemoryError):
                    call()

    def test_little_memory(self):
        """A process with 16 MB to go: the call that fails changes nothing."""
        ran = subprocess.run([sys.executable, "-B", "-c", LITTLE_MEMORY], cwd=TOP / "bindings/python", stderr=subprocess.PIPE, text=True)
        self.assertEqual((ran.returncode, ran.stderr), (0, ""))

    def test_other_integers(self):
        """As elsewhere in Python, an object with `__index__` is an integer."""

        class Seven:
            def __index__(self):
                return 7

        with Table() as table:
            self.assertEqual(table.add("::/0", Seven(), Seven()), Change(None, 7))
            self.assertEqual(table.page_from("::/0", Seven()), [Route(ipaddress.ip_network("::/0"), 7, 7)])

    def test_handles_are_not_copied(self):
        with Table() as table, Follower() as follower, Index(table) as index, mock.patch("sys.unraisablehook") as hook:
            for handle in (table, follower, index):
                for copied in (copy.copy, copy.deepcopy, pickle.dumps):
                    with self.subTest(handle=handle, copied=copied), self.assertRaisesRegex(TypeError, "copied or pickled"):
                        copied(handle)
            gc.collect()
            hook.assert_not_called()
            self.assertEqual((table.count(), follower.hop("::"), index.hop("::")), (Count(0, 0), None, None))

    def test_objects_that_were_not_made(self):
        """They are freed without a message."""
        with mock.patch("sys.unraisablehook") as hook:
            for kind in (Table, Follower, Index):
                kind.__new__(kind)
                with self.assertRaises(TypeError):
                    kind(1, 2)
                with self.assertRaises(pickle.UnpicklingError):
                    pickle.loads(f"cjolmidda\n{kind.__name__}\n(t\x81I1\nb.".encode("latin-1"))
            gc.collect()
            hook.assert_not_called()

    def test_objects_that_are_made_again(self):
        """The handle that they had is freed."""
        with Table() as table, Follower() as follower, Index(table) as index:
            table.add("::/0", 1)
            for handle, arguments in ((index, [table]), (follower, []), (table, [])):
                kind = type(handle)
                with self.subTest(handle=handle), mock.patch.object(kind, "_close", autospec=True, side_effect=kind._close) as close:
                    handle.__init__(*arguments)
                    close.assert_called_once()
            self.assertEqual((table.count(), follower.hop("::"), index.hop("::")), (Count(0, 0), None, 1))

    def test_host_bits_are_ignored(self):
        with Table() as table:
            table.add("10.1.2.3/8", 1)
            self.assertEqual(table.remove("10.0.0.0/8", 1), Change(1, None))

    def test_a_closed_table(self):
        table = Table()
        table.close()
        table.close()
        for call in (lambda: table.get("::"), lambda: table.add("::/0", 1), lambda: table.remove("::/0", 1), table.flat,
                     table.flat_arrays, lambda: table.line("flat"), lambda: table.inside("::/0"), table.least, table.count,
                     lambda: table.hops(["::"]), lambda: Index(table)):
            with self.assertRaisesRegex(ValueError, "closed"):
                call()

    def test_a_closed_index(self):
        with Table() as table:
            index = Index(table)
        index.close()
        index.close()
        with self.assertRaisesRegex(ValueError, "closed"):
            index.hop("::")

    def test_a_shared_index(self):
        """Threads look up addresses in it at the same time. Each object stays on the thread that calls it first."""
        with Table() as table, ThreadPoolExecutor(4) as others:
            table.add("10.0.0.0/8", 1)
            table.add("2001:db8::/32", 2)
            addrs = [bytes([10, 0, place % 256, place // 256]) for place in range(20000)] + ["2001:db8::1", "::"]
            index = Index(table)
            table.add("10.0.0.0/8", 3, 200)
            shares = [index.share() for _ in range(8)]
            for hops in [other.result() for other in [others.submit(share.hops, addrs) for share in shares]]:
                self.assertEqual(hops, [1] * 20000 + [2, None])
            index.close()
            with self.assertRaisesRegex(ValueError, "closed"):
                index.share()
            for share in shares:
                with self.assertRaisesRegex(RuntimeError, "belongs to another thread"):
                    share.hop("10.0.0.1")

    def test_the_last_share_is_closed_last(self):
        with Table() as table:
            table.add("10.0.0.0/8", 1)
            with Index(table) as index:
                share = index.share()
            with share, share.share() as other:
                self.assertEqual((share.hop("10.0.0.1"), other.hop("10.0.0.1"), other.hop("::")), (1, 1, None))

    def test_a_table_stays_on_its_thread(self):
        with Table() as table, Follower() as follower, Index(table) as index, ThreadPoolExecutor(1) as other:
            for call in (table.flat, table.close, follower.flat, follower.close, index.close, lambda: index.hop("::")):
                with self.assertRaisesRegex(RuntimeError, "belongs to another thread"):
                    other.submit(call).result()

    def test_a_later_thread_is_another_thread(self):
        """It often has the number of the thread that made the table."""
        for _ in range(100):
            with ThreadPoolExecutor(1) as first:
                table = first.submit(Table).result()
            with ThreadPoolExecutor(1) as second, self.assertRaisesRegex(RuntimeError, "belongs to another thread"):
                second.submit(table.count).result()

    def test_objects_are_handed_over(self):
        with Table() as table, Follower() as follower, Index(table) as index, ThreadPoolExecutor(1) as other:
            for handle, call in ((table, table.count), (follower, follower.flat), (index, lambda: index.hop("::"))):
                expected = call()
                handle.hand_over()
                self.assertEqual(other.submit(call).result(), expected)
                for refused in (call, handle.hand_over):
                    with self.assertRaisesRegex(RuntimeError, "belongs to another thread"):
                        refused()
                other.submit(handle.hand_over).result()
                self.assertEqual(call(), expected)

    def test_long_calls_release_pythons_lock(self):
        net, addrs, wide = "10.0.0.0/8", [bytes(4)] * 4096, [bytes(16)] * 4096
        with Table() as table, Follower() as follower, Index(table) as index:
            for name, call in [
                ("flat", table.flat), ("flat", table.flat_arrays), ("list4", lambda: table.inside(net)), ("own", lambda: table.own(1)),
                ("governed6", lambda: table.governed("::/0")), ("from4", lambda: table.page_from(net, 4096)), ("least", table.least),
                ("after6", lambda: table.page_after("::/0", 4096)), ("line", lambda: table.line("flat")), ("close", Table().close),
                ("get4_many", lambda: table.hops(addrs)), ("get6_many", lambda: table.hops(wide)), ("index_open", lambda: Index(table)),
                ("index_hop4_many", lambda: index.hops(addrs)), ("index_hop6_many", lambda: index.hops(wide)),
                ("index_close", Index(table).close), ("follower_index", lambda: Index(follower)), ("follower_flat", follower.flat),
                ("follower_flat", follower.flat_arrays), ("follower_least", follower.least), ("follower_close", Follower().close),
            ]:
                function = getattr(jolmidda._unlocked, f"routes_{name}")
                with self.subTest(name), mock.patch.object(jolmidda._unlocked, f"routes_{name}", wraps=function) as called:
                    call()
                    called.assert_called_once()

    def test_a_destructor_during_a_long_call(self):
        """A weak reference may give a table back to its thread while another thread runs the destructor."""
        with Table() as table, ThreadPoolExecutor(1) as other:
            destroyed = lambda *_: other.submit(table.__del__).result() or 0
            with mock.patch.object(jolmidda._unlocked, "routes_flat", destroyed):
                self.assertEqual(table.flat(), [])
            self.assertEqual(table.count(), Count(0, 0))
            destroyed()
            with self.assertRaisesRegex(ValueError, "closed"):
                table.count()

    def test_a_forked_child_frees_nothing(self):
        """It must make no call if its parent has threads."""
        handles = [Table(), Follower()]
        handles += [Index(handles[0]), Index(handles[1]).share()]
        with mock.patch.object(jolmidda._Handle, "_close") as close:
            child = os.fork()
            if not child:
                try:
                    handles.clear()
                    gc.collect()
                    os._exit(close.call_count)
                finally:
                    os._exit(255)
            self.assertEqual(os.waitpid(child, 0)[1], 0)
        handles.clear()

    def test_another_thread_may_be_the_last(self):
        """Then it frees the memory, as the last thread with a table does."""
        tables = [Table() for _ in range(3)]
        with ThreadPoolExecutor(1) as other:
            other.submit(tables.clear).result()
        self.assertEqual(tables, [])


class Packages(unittest.TestCase):
    def test_the_former_name(self):
        for name in jolmidda.__all__:
            self.assertIs(getattr(routes, name), getattr(jolmidda, name))

    def test_without_the_library(self):
        """The message says where it is searched."""
        missing = str(TOP / "bindings")
        ran = subprocess.run([sys.executable, "-B", "-c", "import jolmidda"], cwd=TOP / "bindings/python", stderr=subprocess.PIPE, text=True,
                             env={**os.environ, "ROUTES_LIB": missing})
        self.assertRegex(ran.stderr, f"\nOSError: {re.escape(missing)}/libroutes.so.1: .*ROUTES_LIB")

    def test_the_hints(self):
        """Every class and function has hints, and Python can evaluate them."""
        for name in jolmidda.__all__:
            if isinstance(getattr(jolmidda, name), type):
                typing.get_type_hints(getattr(jolmidda, name))
        for kind in (Table, Index, Follower):
            for name, function in inspect.getmembers(kind, inspect.isfunction):
                with self.subTest(kind=kind, name=name):
                    _self, *parameters = inspect.signature(function).parameters
                    self.assertEqual({*parameters, "return"} - set(typing.get_type_hints(function)), set())

    def test_the_version(self):
        """It is the latest that CHANGELOG.md names."""
        latest = re.search(r"^## ([0-9.]+),", (TOP / "CHANGELOG.md").read_text(), re.M)[1]
        self.assertIn(f'\nversion = "{latest}"\n', (TOP / "bindings/python/pyproject.toml").read_text())


def load_tests(_loader, tests, _pattern):
    tests.addTests(doctest.DocTestSuite(jolmidda))
    return tests


if __name__ == "__main__":
    unittest.main()
