"""The common part of the recipes that read a daemon's stream: the routes of each network by their sources, and the commands that a
leader gets for each change. The file of commands is the only state: a recipe that starts reads from it which routes the leader has."""
import contextlib
import fcntl
import json
import os
import re
import select
import subprocess
import sys
import time

from common import GATEWAYS, NETWORK, Numbers, fault, line_shown, locked, naming, open_to_write, text
from netlink import ENCAPSULATED

MOST, HIGHEST = 8, 65535
TURN, QUIET = 0.25, 30  # seconds: one look at the stream; without a route, after which a dump is over
LONGEST = 40  # times QUIET, or a longer rest: the seconds from its first route after which a dump without a rest is over
COMMAND = re.compile(r"(add|del) ({}) (\d+|drop)(?: (\d+))?".format(NETWORK.pattern))
CUT = re.compile(r"(?:add?|a|del?|d)(?: [0-9a-f:./]*(?: [drop0-9]*(?: \d*)?)?)?(?: c?u?t?)*")


def say(words):
    print(f"{os.path.basename(sys.argv[0])}: {words}", file=sys.stderr, flush=True)


def wanted(routes):
    """The preference of each hop: that of its best route. Only eight hops have room. If one is above 65535, the best hop has 65535, the
    next 65534, and so on."""
    worths = {}
    for hop, worth, _ in routes.values():
        worths[hop] = max(worth, worths.get(hop, worth))
    if len(worths) > MOST:
        worths = dict(sorted(worths.items(), key=lambda one: (-one[1], one[0] == "drop", one[0] != "drop" and one[0]))[:MOST])
    if worths and max(worths.values()) > HIGHEST:
        ranks = sorted(set(worths.values()), reverse=True)
        worths = {hop: HIGHEST - ranks.index(worth) for hop, worth in worths.items()}
    return worths


def difference(network, before, after):
    """The commands for one network, the best hop first. New routes come before old ones go, unless there is no room for both."""
    come = [f"add {network} {hop} {preference}" for hop, preference in sorted(after.items(), key=lambda one: -one[1])
            if before.get(hop) != preference]
    go = [f"del {network} {hop}" for hop in before if hop not in after]
    return come + go if len(before.keys() | after.keys()) <= MOST else go + come


class Hops(dict):
    """The numbers of the next hops, in a file of lines `NUMBER WORDS`. A new next hop is in the file before a command has its number."""

    def __init__(self, path):
        self.path = path
        super().__init__(Numbers(path).of_name, drop="drop")

    def __missing__(self, words):
        with locked(self.path):
            numbers = Numbers(self.path)
            self[words] = numbers[words]
            numbers.write()
        return self[words]


def way(address, is_six):
    """The words of `ip route` with which this machine reaches an address now, for networks of one family. None if it doesn't, or only by
    an encapsulation."""
    done = subprocess.run(["ip", "-j", "route", "get", address], capture_output=True, text=True)
    found = json.loads(done.stdout)[0] if done.returncode == 0 else {}
    if "dev" not in found or "type" in found or "encap" in found:
        return None
    gateway = found.get("gateway") or found.get("via", {}).get("host", address)
    return f"via {'inet6 ' if ':' in gateway and not is_six else ''}{gateway} dev {found['dev']}"


class Table:
    """The routes of each network, by source: hop, worth, and the number of the dump in which the route last came. Routes that were read
    from the file of commands have the number 0, and this source, or their hop if none is given."""

    def __init__(self, hops, commands, source=None):
        self.hops, self.commands, self.lines, self.routes = Hops(hops), commands, [], {}
        self.dump, self.is_dump, self.is_whole, self.first, self.last = 1, True, False, None, None
        self.ways, self.waiting, self.tried = {}, {}, 0
        self.file = self.opened()
        for network, held in self.stored().items():
            self.routes[network] = {source or hop: (hop, preference, 0) for hop, preference in held.items()}

    def opened(self):
        """The file of commands. No other program may write it at the same time."""
        file = open_to_write(self.commands, "a+")
        try:
            fcntl.flock(file, fcntl.LOCK_EX | fcntl.LOCK_NB)
        except BlockingIOError:
            fault(f"{self.commands}: another program writes it")
        return file

    def stored(self):
        """The preference of each hop of each network, after the commands of the file. If the last line was cut off, as by a full disk, its
        end is the word `cut`: the leader has read the rest of it, which may be another command, and answers `bad` to the line."""
        found, line = {}, ""
        self.file.seek(0)
        for at, line in enumerate(self.file, 1):
            command = COMMAND.fullmatch(line[:-1]) if line[-1] == "\n" else None
            if command:
                word, network, hop, preference = command.groups()
                hop, held = hop if hop == "drop" else int(hop), found.setdefault(network, {})
                held.pop(hop, None)
                if word == "add":
                    held[hop] = int(preference or 100)
            elif not CUT.fullmatch(line.rstrip("\n")):
                fault(f"line {at} of {self.commands}: not a command of a recipe: {line_shown(line.rstrip())}")
        if line and line[-1] != "\n":
            self.file.write(" cut\n")
        return {network: held for network, held in found.items() if held}

    def put(self, network, source, words, worth=100):
        """This is the source's route of the network now."""
        if words == ENCAPSULATED:
            fault(f"{network} has a route with an encapsulation (`encap`), which no hop can name")
        if (count := words.count("nexthop ")) > GATEWAYS:
            fault(f"{network} has a route over {count} gateways, and a hop has at most {GATEWAYS}")
        self.change(network, source, (self.hops[words], worth, self.dump))

    def reach(self, network, source, address, worth=100):
        """The same, by the address of the next hop. While this machine has no route to it, the route is left out."""
        key = address, ":" in network
        if not self.ways.get(key):
            self.ways[key] = way(*key)
        if self.ways[key]:
            self.put(network, source, self.ways[key], worth)
        else:
            if key not in self.waiting:
                say(f"{network}: left out, since there is no route to its next hop {address}")
            self.take(network, source)
            self.waiting.setdefault(key, {})[network, source] = worth

    def take(self, network, source):
        """The source has no route of the network any more."""
        self.change(network, source, None)

    def hear(self):
        """Something of the dump came."""
        self.last = time.monotonic()
        self.first = self.first or self.last

    def change(self, network, source, route):
        self.hear()
        for held in self.waiting.values():
            held.pop((network, source), None)
        routes = self.routes.get(network, {})
        before = wanted(routes)
        if route:
            self.routes.setdefault(network, routes)[source] = route
        elif source in routes:
            del routes[source]
            if not routes:
                del self.routes[network]
        self.lines += difference(network, before, wanted(routes))

    def drop(self, source):
        """The source has no route any more."""
        for held in self.waiting.values():
            for key in [key for key in held if key[1] == source]:
                del held[key]
        for network in [network for network, routes in self.routes.items() if source in routes]:
            self.take(network, source)

    def begin(self):
        """A dump begins: what it doesn't have is to go when it ends."""
        self.dump, self.is_dump, self.first, self.last = self.dump + 1, True, None, None

    def take_old(self, is_whole=lambda network: True):
        """Takes the routes that the dump did not have, where it is whole."""
        old = [(network, source) for network, routes in self.routes.items() if is_whole(network)
               for source, route in routes.items() if route[2] < self.dump]
        for network, source in old:
            self.take(network, source)

    def end(self):
        """The dump is over: routes that it did not have go."""
        before = len(self.lines)
        self.take_old()
        gone = sum(line.startswith("del ") for line in self.lines[before:])
        if gone or not self.is_whole:
            say(f"the dump is over: {len(self.routes)} networks; {gone} routes that were not in it are gone")
        self.is_dump, self.is_whole = False, True

    def flush(self):
        if self.lines:
            with naming(self.commands):
                self.file.write(text(self.lines))
                self.file.flush()
            self.lines = []

    def again(self):
        """Next hops without a route are looked up again each second."""
        if any(self.waiting.values()) and time.monotonic() - self.tried > 1:
            self.tried = time.monotonic()
            for key, held in list(self.waiting.items()):
                for (network, source), worth in list(held.items()) if way(*key) else ():
                    self.reach(network, source, key[0], worth)

    def is_over(self, quiet):
        """Whether the dump is over: no route came for these seconds, or routes have come for far longer without such a rest."""
        now = time.monotonic()
        return self.is_dump and self.last and (now - self.last >= quiet or now - self.first >= LONGEST * max(quiet, QUIET))

    def pieces(self, file, quiet=QUIET, turn=lambda: TURN):
        """The pieces of a stream as they come, until it ends. After each one the commands are written."""
        piece = b"-"
        while piece:
            seconds = turn()
            self.again()
            if self.is_over(quiet):
                self.end()
            self.flush()
            if select.select([file], [], [], seconds)[0]:
                piece = os.read(file.fileno(), 1 << 20)
                yield piece
        self.last = None
        self.flush()


def lines_of_stream(pieces):
    """The whole lines of these pieces."""
    rest = b""
    for piece in pieces:
        *lines, rest = (rest + piece).split(b"\n")
        yield from (line.decode(errors="backslashreplace") for line in lines)


def words_and_quiet(words):
    """The file names of a command line, and the seconds after `-q`."""
    if words[:1] != ("-q",):
        return words, QUIET
    with contextlib.suppress(IndexError, ValueError):
        if float(words[1]) > 0:
            return words[2:], float(words[1])
    return (), QUIET
