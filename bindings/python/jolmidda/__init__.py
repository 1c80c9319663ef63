"""Route tables for IPv4 and IPv6: a wrapper of the C library `routes`, by ctypes.

>>> with Table() as table:
...     table.add("10.0.0.0/8", 1)
...     table.add("10.1.0.0/16", DROP)
...     print(table.get("10.2.3.4"))
...     print(table.line("flat"), end="")
Change(before=None, after=1)
Change(before=1, after=None)
Route(net=IPv4Network('10.0.0.0/8'), hop=1, preference=100)
flat 10.0.0.0/16 1
flat 10.2.0.0/15 1
flat 10.4.0.0/14 1
flat 10.8.0.0/13 1
flat 10.16.0.0/12 1
flat 10.32.0.0/11 1
flat 10.64.0.0/10 1
flat 10.128.0.0/9 1
ok

The library is libroutes.so.1 in the folder that the environment variable ROUTES_LIB names. Without it, the
system's search path is used.
"""

from __future__ import annotations

import ctypes
import ipaddress
import operator
import os
import struct
import threading
from array import array
from ctypes import POINTER, c_bool, c_char, c_char_p, c_size_t, c_uint8, c_uint16, c_uint32, c_uint64, c_void_p
from typing import TYPE_CHECKING, Callable, Final, Iterable, List, Literal, NamedTuple, NoReturn, Optional, Tuple, Type, TypeVar, Union

__all__ = [
    "Change", "Count", "DROP", "Failed", "FlatArrays", "Follower", "Full", "Index", "PREFERENCE", "Piece", "Route", "Table",
]

DROP: Final = "drop"
"""The hop of a null route: its addresses have no hop."""

PREFERENCE: Final = 100
"""The preference that `routes lead` gives a route without one."""

Address = Union[ipaddress.IPv4Address, ipaddress.IPv6Address]
AnyAddress = Union[Address, str, bytes]
Net = Union[ipaddress.IPv4Network, ipaddress.IPv6Network]
AnyNet = Union[Net, str]
Hop = Union[int, Literal["drop"]]
if TYPE_CHECKING:
    IntArray = array[int]
else:
    IntArray = array  # before Python 3.12 only type checkers know the items of an array


class Route(NamedTuple):
    """The best route of a network."""

    net: Net
    hop: Hop
    preference: int


class Change(NamedTuple):
    """The hop of the addresses that a network governs, before and after. None is no hop: no route, or a null route."""

    before: Optional[int]
    after: Optional[int]


class Piece(NamedTuple):
    """A block of a flat list, and the one hop that all its addresses have."""

    net: Net
    hop: int


class FlatArrays(NamedTuple):
    """The blocks of a flat list as five arrays, IPv4 first. Item i of each array belongs to block i.

    `version`, 4 or 6, and `prefixlen` have the type code B, `high` and `low` Q, and `hop` I. The number of a block's first address is
    `high << 64 | low`; for IPv4 `high` is 0. `zip(*arrays)` yields the blocks one by one.
    """

    version: IntArray
    high: IntArray
    low: IntArray
    prefixlen: IntArray
    hop: IntArray


class Count(NamedTuple):
    """The number of stored networks of each family."""

    ipv4: int
    ipv6: int


class Full(Exception):
    """The network has routes by eight other hops."""


class Failed(Exception):
    """The follower had a fault before."""


class _Thread(threading.local):
    """The thread that reads `token`. No other thread ever has this token, but a later thread may have the same number."""

    def __init__(self) -> None:
        self.token = object()


_this_thread = _Thread()

_H = TypeVar("_H", bound="_Handle")
_T = TypeVar("_T")


class _Handle:
    """A handle of the library, and the thread that may use it."""

    _name = ""  # the prefix of the names of the library's calls
    _raw: ctypes.Structure
    _thread: object  # the token of the thread; no attribute if the handle is that of the next thread that calls
    _list: object = None  # stands for the call that made the last list; None after a close
    _reply: object = None  # the same for the last reply

    def __init__(self, raw: ctypes.Structure) -> None:
        if hasattr(self, "_raw"):  # __init__ ran before: free its handle
            self.close()
        self._thread, self._process, self._running, self._raw = _this_thread.token, os.getpid(), threading.RLock(), raw

    def __enter__(self: _H) -> _H:
        return self

    def __exit__(self, *_: object) -> None:
        self.close()

    def close(self) -> None:
        """Frees the memory. A closed object stays closed."""
        self._own()
        with self._running:
            self._close(_unlocked)

    def hand_over(self) -> None:
        """Gives the object to another thread: the one that calls it next.

        The thread that calls this must have no other call running, so don't call it in a signal handler.
        """
        self._own()
        del self._thread

    def __del__(self) -> None:
        if not hasattr(self, "_raw"):  # __init__ did not run
            return
        if self._process != os.getpid():  # this is a forked child, which must make no call if its parent has threads
            return
        # This may be another thread than the handle's, and that one may have got the handle back by a weak reference. If it is in a
        # long call, the handle stays open. It is in no short call, since this call holds Python's lock.
        if self._running.acquire(blocking=False):
            self._close(_library)
            self._running.release()

    def __reduce__(self) -> NoReturn:
        raise TypeError(f"{type(self).__name__} objects can't be copied or pickled")

    def _close(self, library: ctypes.CDLL) -> None:
        self._list = self._reply = None
        getattr(library, f"routes_{self._name}close")(self._raw)

    def _own(self) -> ctypes.Structure:
        """The handle, if it is that of this thread. It becomes this thread's if it is no thread's."""
        token = _this_thread.token
        if vars(self).setdefault("_thread", token) is not token:
            raise RuntimeError(f"this {type(self).__name__} belongs to another thread")
        return self._raw

    def _call(self, name: str, *arguments: object) -> bool:
        """Calls the library's function of this name. Returns whether the value was found."""
        return _is_found(getattr(_library, f"routes_{self._name}{name}")(self._own(), *arguments))

    def _call_long(self, name: str, *arguments: object) -> bool:
        """The same for a function that may take long: other threads of Python run meanwhile."""
        with self._running:
            return _is_found(getattr(_unlocked, f"routes_{self._name}{name}")(self._own(), *arguments))

    def _call_for(self, size: int) -> Callable[..., bool]:
        """Which of the two a function for so many addresses or routes needs."""
        return self._call if size < _LONG else self._call_long

    def _call_at(self, name: str, addr: Address, result: object) -> bool:
        """Calls the function of this name for an address."""
        return self._call(f"{name}{addr.version}", *_halves(addr), result)

    def _listed(self, read: Callable[[], _T], call: Callable[..., bool], name: str, *arguments: object) -> _T:
        """Makes a list and reads it, and does both again if a signal handler or a destructor replaced the list in between."""
        while True:
            self._own()
            made = self._list = object()
            call(name, *arguments)
            items = read()
            if self._list is made:
                return items

    def _arrays(self) -> FlatArrays:
        """The flat list."""
        return self._listed(self._read_pieces, self._call_long, "flat")

    def _pieces(self) -> List[Piece]:
        """The flat list, as objects."""
        return [Piece(_net(version, high, low, length), hop) for version, high, low, length, hop in zip(*self._arrays())]

    def _read_pieces(self) -> FlatArrays:
        """The flat list that was made last, copied in parts."""
        read = getattr(_library, f"routes_{self._name}read_pieces")
        arrays = FlatArrays(array("B"), array("Q"), array("Q"), array("B"), array("I"))
        part = (_Piece * 1024)()
        octets = memoryview(part).cast("B")  # of 24 a piece: two numbers of 8, the hop's 4, family, length, and padding
        halves, hops = octets.cast("Q"), octets.cast("I")
        columns = octets[20::24], halves[::3], halves[1::3], octets[21::24], hops[4::6]
        while count := read(self._own(), len(arrays.hop), part, len(part)):
            for items, column in zip(arrays, columns):
                items.frombytes(column[:count].tobytes())
        return arrays

    def _read(self) -> List[Route]:
        """The list of routes that was made last."""
        routes: List[Route] = []
        part = (_Route * 1024)()
        while count := getattr(_library, f"routes_{self._name}read")(self._own(), len(routes), part, len(part)):
            routes.extend(map(_route, part[:count]))
        return routes

    def _many(self, name: str, addrs: Iterable[AnyAddress]) -> List[int]:
        """Looks up many addresses, with one call for each family among them. Each result is one number."""
        if isinstance(addrs, (str, bytes)):
            raise TypeError(f"addrs must be an iterable of addresses, not a single {type(addrs).__name__}")
        packed = list(map(_packed, addrs))
        answers = [0] * len(packed)
        for version, size, type_, letter in ((4, 4, c_uint32, "I"), (6, 16, _Addr6, "Q")):
            places = [place for place, addr in enumerate(packed) if len(addr) == size]
            form = f"{len(places) * size // struct.calcsize('=' + letter)}{letter}"
            numbers = struct.unpack(">" + form, b"".join([packed[place] for place in places]))
            asked = (type_ * len(places)).from_buffer_copy(struct.pack("=" + form, *numbers))
            hops = (c_uint64 * len(places))()
            self._call_for(len(places))(f"{name}{version}_many", asked, len(places), hops, len(places))
            for place, hop in zip(places, hops[:]):
                answers[place] = hop
        return answers


class Table(_Handle):
    """A route table: a context manager, which closes it.

    A network has up to eight routes, each with another hop: a number below 2**32, or DROP. The best route has the greatest
    preference, and among equals the smallest number; DROP is last. Host bits of networks are ignored.

    A network is a string or a network of `ipaddress`. An address is a string, an address of `ipaddress`, or its 4 or 16 bytes, as
    `socket.inet_pton` returns them.

    If a call other than `line` raises an exception, the table is unchanged. MemoryError: an allocation failed. TypeError: an argument
    has a wrong type. ValueError: an argument is out of range, or the table is closed. RuntimeError: the table belongs to another
    thread, which made it or was the first to call it after `hand_over`. A table can't be copied or pickled.
    """

    def __init__(self) -> None:
        super().__init__(_Table())
        _is_found(_library.routes_open(self._raw))

    def get(self, addr: AnyAddress) -> Optional[Route]:
        """Returns the best route of the longest stored network that contains the address, or None if there is none."""
        route = _Route()
        if self._call_at("get", _address(addr), route):
            return _route(route)
        return None

    def hops(self, addrs: Iterable[AnyAddress]) -> List[Optional[Hop]]:
        """Returns the hop of the route that `get` finds for each address, or None if it finds none.

        It calls the library at most twice. Addresses as bytes are fastest.
        """
        return [None if hop == _NO_MATCH else _hop(hop) for hop in self._many("get", addrs)]

    def count(self) -> Count:
        """Returns the number of stored networks of each family."""
        ipv4, ipv6 = c_size_t(), c_size_t()
        self._call("count", ipv4, ipv6)
        return Count(ipv4.value, ipv6.value)

    def add(self, net: AnyNet, hop: Hop, preference: int = PREFERENCE) -> Change:
        """Adds a route. If the network has this hop already, its preference changes.

        Raises Full if the network has routes by eight other hops.
        """
        return self._change("add", net, hop, _whole("preference", preference, (1 << 16) - 1))

    def remove(self, net: AnyNet, hop: Hop) -> Change:
        """Removes the network's route by this hop. Raises KeyError if there is none."""
        return self._change("del", net, hop)

    def flat(self) -> List[Piece]:
        """Returns the fewest one-hop blocks that cover all addresses with a hop, in ascending order."""
        return self._pieces()

    def flat_arrays(self) -> FlatArrays:
        """Returns the blocks of `flat` as arrays, which is several times as fast for a long list."""
        return self._arrays()

    def inside(self, net: AnyNet) -> List[Route]:
        """Returns the best routes of the stored networks inside this one, itself included, in ascending order."""
        return self._routes(self._call_long, "list", net)

    def cover(self, net: AnyNet) -> List[Route]:
        """Returns the best routes of the stored networks that contain this one, itself included, shortest first."""
        return self._routes(self._call, "cover", net)

    def page_from(self, net: AnyNet, limit: int) -> List[Route]:
        """Returns at most `limit` best routes of the family's stored networks from this one on, in ascending order."""
        return self._page("from", net, limit)

    def page_after(self, net: AnyNet, limit: int) -> List[Route]:
        """Returns the same for the networks after this one, which need not be stored: the page after one that ends with it."""
        return self._page("after", net, limit)

    def all(self, net: AnyNet) -> List[Route]:
        """Returns all routes of exactly this network, best first."""
        return self._routes(self._call, "all", net)

    def governed(self, net: AnyNet) -> List[Route]:
        """Returns the maximal blocks of the addresses that the network governs, each with their hop, or DROP for none.

        A network governs those of its addresses that no stored network strictly inside it contains. If a change of the network
        returned two different hops, these are the addresses whose hop changed.
        """
        return self._routes(self._call_long, "governed", net)

    def own(self, hop: int) -> List[Route]:
        """Returns the blocks of `flat` with this hop, in ascending order."""
        return self._listed(self._read, self._call_long, "own", _number_of(hop))

    def least(self) -> List[Route]:
        """Returns the routes of a least table: the fewest with the same hop at each address."""
        return self._listed(self._read, self._call_long, "least")

    def line(self, line: Union[str, bytes]) -> str:
        """Returns the reply of `routes lead` to a line of its input, given without its line end.

        Raises MemoryError if an allocation for the reply fails. Raises RuntimeError if a signal handler or a destructor gives the table
        another line, or closes it, before the reply is read. The line was carried out even so, and the table is the one after it.
        """
        line = _line(line)
        self._own()
        given = self._reply = object()
        call = self._call_long if line.startswith(_LONG_LINES) else self._call
        call("line", line, len(line))
        reply = bytearray()
        out = ctypes.create_string_buffer(4096)
        while count := _library.routes_reply(self._own(), len(reply), out, len(out)):
            reply += out[:count]
            if count < len(out):
                break
        if self._reply is not given:
            raise RuntimeError("the line was carried out, but a signal handler or a destructor may have replaced its reply")
        return reply.decode("ascii")

    def _change(self, name: str, net: AnyNet, hop: Hop, *preference: int) -> Change:
        net = _network(net)
        change = _Change()
        if not self._call(f"{name}{net.version}", *_halves(net.network_address), net.prefixlen, _raw_hop(hop), *preference, change):
            raise KeyError((net, hop))
        return Change(_number(change.before), _number(change.after))

    def _page(self, name: str, net: AnyNet, limit: int) -> List[Route]:
        limit = _whole("limit", limit, _SIZE_MAX)
        return self._routes(self._call_for(limit), name, net, limit)

    def _routes(self, call: Callable[..., bool], name: str, net: AnyNet, *limit: int) -> List[Route]:
        net = _network(net)
        return self._listed(self._read, call, f"{name}{net.version}", *_halves(net.network_address), net.prefixlen, *limit)


class Index(_Handle):
    """The hop of each address, as a table or a follower had it when the index was made: a snapshot, which later changes don't reach.

    It is a context manager, which closes it, and its lookups are faster than the table's. Calls raise the exceptions of a table. No
    index can be made of a follower that failed.
    """

    _name = "index_"

    def __init__(self, source: Union[Table, Follower]) -> None:
        super().__init__(_Index())
        if not isinstance(source, (Table, Follower)):
            raise TypeError(f"source must be a Table or a Follower, not {type(source).__name__}")
        opens = _unlocked.routes_follower_index if isinstance(source, Follower) else _unlocked.routes_index_open
        with source._running:
            _is_found(opens(self._raw, source._own()))

    def hop(self, addr: AnyAddress) -> Optional[int]:
        """Returns the hop of the address, or None if it had no route or a null route."""
        hop = c_uint64()
        self._call_at("hop", _address(addr), hop)
        return _number(hop.value)

    def hops(self, addrs: Iterable[AnyAddress]) -> List[Optional[int]]:
        """Returns the hops of the addresses. It calls the library at most twice, and addresses as bytes are fastest."""
        return list(map(_number, self._many("hop", addrs)))

    def share(self) -> Index:
        """Returns another object of the same snapshot, for one other thread: the one that calls it first. Nothing is copied.

        `hops` of many addresses releases Python's lock, so threads that have an object each look up addresses at the same time.
        """
        index = Index.__new__(Index)
        _Handle.__init__(index, _Index())
        _is_found(_library.routes_index_share(index._raw, self._own()))
        index.hand_over()
        return index


class Follower(_Handle):
    """The hops that the reply lines of a leader report: a context manager, which closes it. A leader is `routes lead` or `Table.line`.

    `set` and `unset` lines are pending until their reply is closed. `ok` commits them in order, and `none`, `bad` and `refused` drop
    them. All other reply lines change nothing. A text that is not a reply line is a fault, and so is a line for which an allocation
    fails. After a fault every call but `close` raises Failed, and a new follower has to start over. Other calls raise the exceptions of
    a table.

    >>> with Table() as leader, Follower() as follower:
    ...     for line in leader.line("add 10.0.0.0/8 1").splitlines():
    ...         follower.line(line)
    ...     follower.hop("10.2.3.4")
    1
    """

    _name = "follower_"

    def __init__(self) -> None:
        super().__init__(_Follower())
        _is_found(_library.routes_follower_open(self._raw))

    def line(self, line: Union[str, bytes]) -> None:
        """Reads a line of a reply, given without its line end.

        Raises ValueError if it is not a reply line, and MemoryError if an allocation for a change fails: both are faults.
        """
        line = _line(line)
        self._call("line", line, len(line))

    def hop(self, addr: AnyAddress) -> Optional[int]:
        """Returns the hop of the address, or None if it has none."""
        hop = c_uint32()
        return hop.value if self._call_at("get", _address(addr), hop) else None

    def flat(self) -> List[Piece]:
        """Returns the fewest one-hop blocks that cover all addresses with a hop, in ascending order."""
        return self._pieces()

    def flat_arrays(self) -> FlatArrays:
        """Returns the blocks of `flat` as arrays, which is several times as fast for a long list."""
        return self._arrays()

    def least(self) -> List[Route]:
        """Returns the routes of a least table: the fewest with the same hop at each address."""
        return self._listed(self._read, self._call_long, "least")


_DROP = 1 << 32
_NO_MATCH = 1 << 33
_SIZE_MAX = c_size_t(-1).value


class _Table(ctypes.Structure):
    _fields_ = [("at", c_void_p), ("is_open", c_bool)]


class _Index(ctypes.Structure):
    _fields_ = [("at", c_void_p), ("is_open", c_bool)]


class _Follower(ctypes.Structure):
    _fields_ = [("at", c_void_p), ("is_open", c_bool)]


class _Addr6(ctypes.Structure):
    _fields_ = [("high", c_uint64), ("low", c_uint64)]


class _Route(ctypes.Structure):
    _fields_ = [("high", c_uint64), ("low", c_uint64), ("hop", c_uint64), ("pref", c_uint16), ("family", c_uint8), ("len", c_uint8)]


class _Change(ctypes.Structure):
    _fields_ = [("before", c_uint64), ("after", c_uint64)]


class _Piece(ctypes.Structure):
    _fields_ = [("high", c_uint64), ("low", c_uint64), ("hop", c_uint32), ("family", c_uint8), ("len", c_uint8)]


def _load(kind: Type[ctypes.CDLL]) -> ctypes.CDLL:
    """Loads the library, with the signatures of its header."""
    try:
        library = kind(os.path.join(os.environ.get("ROUTES_LIB", ""), "libroutes.so.1"))
    except OSError as error:
        raise OSError(f"{error} (the environment variable ROUTES_LIB names the folder of libroutes.so.1)") from None
    table, route, change, piece = POINTER(_Table), POINTER(_Route), POINTER(_Change), POINTER(_Piece)
    index, addrs4, addrs6, hops, size = POINTER(_Index), POINTER(c_uint32), POINTER(_Addr6), POINTER(c_uint64), POINTER(c_size_t)
    net4, net6 = (c_uint32, c_uint8), (c_uint64, c_uint64, c_uint8)
    follower, hop = POINTER(_Follower), POINTER(c_uint32)
    for name, result, *arguments in (
        ("open", c_uint32, table),
        ("close", None, table),
        ("get4", c_uint32, table, c_uint32, route),
        ("get6", c_uint32, table, c_uint64, c_uint64, route),
        ("get4_many", c_uint32, table, addrs4, c_size_t, hops, c_size_t),
        ("get6_many", c_uint32, table, addrs6, c_size_t, hops, c_size_t),
        ("count", c_uint32, table, size, size),
        ("add4", c_uint32, table, c_uint32, c_uint8, c_uint64, c_uint16, change),
        ("add6", c_uint32, table, c_uint64, c_uint64, c_uint8, c_uint64, c_uint16, change),
        ("del4", c_uint32, table, c_uint32, c_uint8, c_uint64, change),
        ("del6", c_uint32, table, c_uint64, c_uint64, c_uint8, c_uint64, change),
        ("flat", c_uint32, table),
        ("read_pieces", c_size_t, table, c_size_t, piece, c_size_t),
        *((f"{name}4", c_uint32, table, *net4) for name in ("list", "cover", "all", "governed")),
        *((f"{name}6", c_uint32, table, *net6) for name in ("list", "cover", "all", "governed")),
        *((f"{name}4", c_uint32, table, *net4, c_size_t) for name in ("from", "after")),
        *((f"{name}6", c_uint32, table, *net6, c_size_t) for name in ("from", "after")),
        ("own", c_uint32, table, c_uint32),
        ("least", c_uint32, table),
        ("read", c_size_t, table, c_size_t, route, c_size_t),
        ("index_open", c_uint32, index, table),
        ("index_share", c_uint32, index, index),
        ("index_close", None, index),
        ("index_hop4", c_uint32, index, c_uint32, hops),
        ("index_hop6", c_uint32, index, c_uint64, c_uint64, hops),
        ("index_hop4_many", c_uint32, index, addrs4, c_size_t, hops, c_size_t),
        ("index_hop6_many", c_uint32, index, addrs6, c_size_t, hops, c_size_t),
        ("follower_open", c_uint32, follower),
        ("follower_close", None, follower),
        ("follower_line", c_uint32, follower, c_char_p, c_size_t),
        ("follower_get4", c_uint32, follower, c_uint32, hop),
        ("follower_get6", c_uint32, follower, c_uint64, c_uint64, hop),
        ("follower_flat", c_uint32, follower),
        ("follower_read_pieces", c_size_t, follower, c_size_t, piece, c_size_t),
        ("follower_least", c_uint32, follower),
        ("follower_read", c_size_t, follower, c_size_t, route, c_size_t),
        ("follower_index", c_uint32, index, follower),
        ("line", c_uint32, table, c_char_p, c_size_t),
        ("reply", c_size_t, table, c_size_t, POINTER(c_char), c_size_t),
    ):
        function = getattr(library, "routes_" + name)
        function.restype, function.argtypes = result, arguments
    return library


_library = _load(ctypes.PyDLL)
"""The calls hold Python's lock."""

_unlocked = _load(ctypes.CDLL)
"""The calls release Python's lock while they run: for long calls, since taking the lock again may take milliseconds."""

_LONG = 4096
"""So many addresses or routes are a long call."""

_LONG_LINES = b"flat", b"list ", b"own "
"""The lines whose replies grow with the table are long calls. The others come in large numbers."""


def _is_found(answer: int) -> bool:
    """Returns whether the value was found. Other results raise an exception."""
    if answer in (0, 1):
        return answer == 0
    if answer == 2:
        raise MemoryError("there is no memory")
    if answer == 3:
        raise ValueError("the table, the index or the follower is closed")
    if answer == 5:
        raise Full("the network has routes by eight other hops")
    if answer == 7:
        raise ValueError("this is no reply line")
    if answer == 8:
        raise Failed("the follower had a fault before")
    raise AssertionError(f"the library answered {answer}, which its header does not allow here")


def _packed(addr: AnyAddress) -> bytes:
    """Returns the bytes of the address, in network order."""
    if isinstance(addr, bytes) and len(addr) in (4, 16):
        return addr
    return _address(addr).packed


def _address(addr: AnyAddress) -> Address:
    """Returns the address. (`ip_address` would print an address object, and parse it again.)"""
    if isinstance(addr, (str, bytes)):
        addr = ipaddress.ip_address(addr)
    elif not isinstance(addr, (ipaddress.IPv4Address, ipaddress.IPv6Address)):
        raise TypeError(f"an address must be a str, bytes or an ipaddress address, not {type(addr).__name__}")
    _has_no_zone("an address", addr, getattr(addr, "scope_id", None))
    return addr


def _halves(addr: Address) -> Tuple[int, ...]:
    """Returns the numbers of an address, as calls of the library take them."""
    number = int(addr)
    return (number,) if addr.version == 4 else (number >> 64, number & (1 << 64) - 1)


def _network(net: AnyNet) -> Net:
    """Returns the network, without host bits."""
    if isinstance(net, str):
        _has_no_zone("a network", net, "%" in net)
        return ipaddress.ip_network(net, strict=False)
    if isinstance(net, (ipaddress.IPv4Network, ipaddress.IPv6Network)):
        _has_no_zone("a network", net, getattr(net.network_address, "scope_id", None))
        return net
    raise TypeError(f"a network must be a str or an ipaddress network, not {type(net).__name__}")


def _has_no_zone(name: str, value: object, zone: object) -> None:
    """A table has no zones, such as the interface in `fe80::1%eth0`. Python 3.8 doesn't read them."""
    if zone:
        raise ValueError(f"{name} must have no zone, as {str(value)!r} has")


def _line(line: Union[str, bytes]) -> bytes:
    if isinstance(line, str):
        return line.encode()
    if isinstance(line, bytes):
        return line
    raise TypeError(f"a line must be a str or bytes, not {type(line).__name__}")


def _whole(name: str, value: int, most: int, kinds: str = "an int") -> int:
    """Returns the argument of this name, if it is an integer from 0 to `most`. `kinds` says what else the caller takes."""
    try:
        number = operator.index(value)
    except TypeError:
        raise TypeError(f"{name} must be {kinds}, not {type(value).__name__}") from None
    if not 0 <= number <= most:
        raise ValueError(f"{name} must be from 0 to {most}, not {number}")
    return number


def _route(raw: _Route) -> Route:
    return Route(_net(raw.family, raw.high, raw.low, raw.len), _hop(raw.hop), raw.pref)


def _hop(hop: int) -> Hop:
    return DROP if hop == _DROP else hop


def _net(version: int, high: int, low: int, prefixlen: int) -> Net:
    if version == 4:
        return ipaddress.IPv4Network((low, prefixlen))
    return ipaddress.IPv6Network((high << 64 | low, prefixlen))


def _raw_hop(hop: Hop) -> int:
    kinds = f"an int or {DROP!r}"
    if not isinstance(hop, str):
        return _number_of(hop, kinds)
    if hop != DROP:
        raise ValueError(f"hop must be {kinds}, not {hop!r}")
    return _DROP


def _number_of(hop: int, kinds: str = "an int") -> int:
    return _whole("hop", hop, (1 << 32) - 1, kinds)


def _number(hop: int) -> Optional[int]:
    return None if hop == _DROP else hop
