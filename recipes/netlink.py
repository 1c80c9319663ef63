"""Route messages of rtnetlink(7), as the kernel and FRR's module dplane_fpm_nl write them."""
import functools
import socket
import struct
import sys
from typing import NamedTuple, Optional

NEWROUTE, DELROUTE, GETROUTE = 24, 25, 26
UNICAST, DROPS = 1, (6, 7, 8)  # rtm_type: RTN_UNICAST; RTN_BLACKHOLE, RTN_UNREACHABLE, RTN_PROHIBIT
DST, OIF, GATEWAY, PRIORITY, MULTIPATH, TABLE, VIA, ENCAP, NH_ID = 1, 4, 5, 6, 9, 15, 18, 22, 30  # rta_type
DEAD, ONLINK, CLONED = 1, 4, 0x200  # rtm_flags
LINK_LOCAL = bytes.fromhex("fe80")
ENCAPSULATED = "encap"  # the words of a route with labels, segments or a tunnel for its packets
HEADER, ROUTE, ATTRIBUTE, NEXT_HOP = struct.Struct("=IHHII"), struct.Struct("=8BI"), struct.Struct("=HH"), struct.Struct("=HBBi")


class Route(NamedTuple):
    network: str
    table: int
    metric: int
    words: Optional[str]  # `drop`, ENCAPSULATED, or those of `ip route`; None for a route that neither leads nor drops


def messages(data):
    """The type, flags, number and body of each message."""
    at = 0
    while at < len(data):
        length, kind, flags, number, _ = HEADER.unpack_from(data[at:at + HEADER.size].ljust(HEADER.size, b"\0"))
        if length < HEADER.size or at + length > len(data):
            raise ValueError(f"a message of {length} bytes, of which {len(data) - at} came")
        yield kind, flags, number, data[at + HEADER.size:at + length]
        at += length + 3 & ~3


def attributes(data, at):
    """The attributes after this place, by their type."""
    found = {}
    while at + ATTRIBUTE.size <= len(data):
        length, kind = ATTRIBUTE.unpack_from(data, at)
        if length < ATTRIBUTE.size:
            raise ValueError(f"an attribute of {length} bytes")
        found[kind & 0x3FFF] = data[at + ATTRIBUTE.size:at + length]
        at += length + 3 & ~3
    return found


def number(data):
    return int.from_bytes(data, sys.byteorder)


@functools.lru_cache(1 << 16)
def address(data):
    return socket.inet_ntop(socket.AF_INET if len(data) == 4 else socket.AF_INET6, data)


@functools.lru_cache(1 << 16)
def gateway(link, data, via, is_onlink, size):
    """The words for one gateway of a network whose addresses have this size."""
    data = data or via and via[2:]
    other = ("inet " if len(data) == 4 else "inet6 ") if data and len(data) != size else ""
    return (f"via {other}{address(data)} " if data else "") + f"dev {socket.if_indextoname(link)}" + " onlink" * bool(is_onlink)


def several(data, size):
    """The words for all gateways of a route that live. None if no one does."""
    found, at = [], 0
    while at + NEXT_HOP.size <= len(data):
        length, flags, weight, link = NEXT_HOP.unpack_from(data, at)
        if length < NEXT_HOP.size:
            raise ValueError(f"a gateway of {length} bytes")
        at, of_one = at + (length + 3 & ~3), attributes(data[at:at + length], NEXT_HOP.size)
        if flags & DEAD:
            continue
        if ENCAP in of_one:
            return ENCAPSULATED
        found.append((gateway(link, of_one.get(GATEWAY), of_one.get(VIA), flags & ONLINK, size), weight))
    if len(found) < 2:
        return found[0][0] if found else None
    return " ".join(f"nexthop {words}" + f" weight {weight + 1}" * bool(weight) for words, weight in found)


def forget():
    """A link may have got another name."""
    gateway.cache_clear()


def words_of(kind, flags, of_route, size):
    if kind in DROPS:
        return "drop"
    if kind != UNICAST or flags & DEAD:
        return None
    if ENCAP in of_route:
        return ENCAPSULATED
    if MULTIPATH in of_route:
        return several(of_route[MULTIPATH], size)
    if NH_ID in of_route and OIF not in of_route:
        return f"nhid {number(of_route[NH_ID])}"
    return gateway(number(of_route[OIF]), of_route.get(GATEWAY), of_route.get(VIA), flags & ONLINK, size)


def table_of(body):
    """The table of a message's route."""
    return number(attributes(body, ROUTE.size).get(TABLE, body[4:5]))


def route(body):
    """The route of a message, without words if its link is gone. None for a cached route, one of another family or of a network of
    link-local addresses, and one that serves only a source network or a type of service."""
    family, length, source, service, table, _, _, kind, flags = ROUTE.unpack_from(body)
    if family not in (socket.AF_INET, socket.AF_INET6) or source or service or flags & CLONED:
        return None
    of_route, size = attributes(body, ROUTE.size), 4 if family == socket.AF_INET else 16
    if of_route.get(DST, b"")[:2] == LINK_LOCAL:
        return None
    network = f"{address(of_route.get(DST, bytes(size)))}/{length}"
    table = number(of_route[TABLE]) if TABLE in of_route else table
    metric = number(of_route[PRIORITY]) if PRIORITY in of_route else 0
    try:
        return Route(network, table, metric, words_of(kind, flags, of_route, size))
    except OSError:
        return Route(network, table, metric, None)
