"""A model of reply streams, by the rules of docs/ROUTES.md alone: the committed changes, their flat list, and the fewest routes
with their hops."""
import functools
import re


def number(text, below):
    """A decimal number without leading zeros."""
    if re.fullmatch(rb"0|[1-9][0-9]*", text) is None or int(text) >= below:
        raise ValueError
    return int(text)


def ipv4_address(text):
    octets = text.split(b".")
    if len(octets) != 4 or any(re.fullmatch(rb"[0-9]{1,3}", octet) is None or int(octet) > 255 for octet in octets):
        raise ValueError
    return sum(int(octet) << 8 * (3 - at) for at, octet in enumerate(octets))


def units(text, is_last):
    """The units of a part of an IPv6 address; an IPv4 address may take the place of the last two."""
    if text == b"":
        return []
    found = text.split(b":")
    numbers = []
    if is_last and b"." in found[-1]:
        address = ipv4_address(found.pop())
        numbers = [address >> 16, address & 0xFFFF]
    if any(re.fullmatch(rb"[0-9a-fA-F]{1,4}", unit) is None for unit in found):
        raise ValueError
    return [int(unit, 16) for unit in found] + numbers


def ipv6_address(text):
    halves = text.split(b"::")
    if len(halves) == 1:
        found = units(text, True)
    elif len(halves) == 2:
        before, after = units(halves[0], False), units(halves[1], True)
        if len(before) > 7 or len(before) + len(after) > 8:
            raise ValueError
        found = before + [0] * (8 - len(before) - len(after)) + after
    else:
        raise ValueError
    if len(found) != 8:
        raise ValueError
    return sum(unit << 16 * (7 - at) for at, unit in enumerate(found))


def network(text):
    """The width of the family, and the first and the last address of the network."""
    address, slash, length = text.partition(b"/")
    width, digits, read = (128, 3, ipv6_address) if b":" in address else (32, 2, ipv4_address)
    if not slash or re.fullmatch(rb"[0-9]{1,%d}" % digits, length) is None or int(length) > width:
        raise ValueError
    size = 1 << width - int(length)
    first = read(address) // size * size
    return width, first, first + size - 1


def hop(text):
    return None if text == b"drop" else number(text, 1 << 32)


def change(line):
    """The change of a reply line, if it has one. The line must be a reply line."""
    if len(line) > 80:
        raise ValueError
    match line.split(b" "):
        case [b"ok" | b"none" | b"bad" | b"refused"]:
            return None
        case [b"set", net, number_text]:
            return network(net), number(number_text, 1 << 32)
        case [b"unset", net]:
            return network(net), None
        case [b"own", net]:
            network(net)
        case [b"flat", net, number_text]:
            network(net), number(number_text, 1 << 32)
        case [b"route", net, hop_text]:
            network(net), hop(hop_text)
        case [b"route", net, hop_text, pref]:
            network(net), hop(hop_text), number(pref, 1 << 16)
        case [b"count", v4, v6]:
            number(v4, 1 << 64), number(v6, 1 << 64)
        case _:
            raise ValueError
    return None


def committed(stream):
    """The changes of the replies that end with `ok`."""
    changes, waiting = [], []
    for line in stream.split(b"\n")[:-1]:
        told = change(line)
        if told is not None:
            waiting.append(told)
        elif line == b"ok":
            changes += waiting
            waiting = []
        elif line in (b"none", b"bad", b"refused"):
            waiting = []
    return changes


def painted(changes, width):
    """Ascending spans of addresses, each with its hop; adjacent spans have different hops."""
    edges = sorted({0, 1 << width} | {edge for (w, first, last), _ in changes if w == width for edge in (first, last + 1)})
    pieces = []
    for start, end in zip(edges, edges[1:]):
        found = None
        for (w, first, last), to in changes:
            if w == width and first <= start <= last:
                found = to
        if pieces and pieces[-1][2] == found:
            pieces[-1][1] = end
        else:
            pieces.append([start, end, found])
    return [piece for piece in pieces if piece[2] is not None]


def written(width, first, length):
    if width == 32:
        return ".".join(str(first >> 8 * at & 255) for at in (3, 2, 1, 0)) + f"/{length}"
    found = [first >> 16 * at & 0xFFFF for at in range(7, -1, -1)]
    if found[:6] == [0] * 5 + [0xFFFF]:
        return "::ffff:" + written(32, first & 0xFFFFFFFF, length)
    runs = [(at, to) for at in range(8) for to in range(at + 2, 9) if not any(found[at:to])]
    text = [f"{unit:x}" for unit in found]
    if runs:
        at, to = max(runs, key=lambda run: (run[1] - run[0], -run[0]))
        return ":".join(text[:at]) + "::" + ":".join(text[to:]) + f"/{length}"
    return ":".join(text) + f"/{length}"


def flat(changes):
    """The flat list: the largest blocks of each span, from its start on."""
    lines = []
    for width in (32, 128):
        for start, end, to in painted(changes, width):
            while start < end:
                free = width if start == 0 else (start & -start).bit_length() - 1
                while start + (1 << free) > end:
                    free -= 1
                lines.append(f"flat {written(width, start, width - free)} {to}\n")
                start += 1 << free
    return "".join(lines).encode() + b"ok\n"


def fewest(changes, width, routes=()):
    """The least number of installs and removals that give the addresses of one family the hops of the changes. The routes are installed
    already: pairs of a span and a hop. Without them it is the least number of routes of a table with these hops."""
    return fewest_of(width, tuple(map(tuple, painted(changes, width))), frozenset(routes))


@functools.cache
def fewest_of(width, pieces, routes):
    """The same for these spans of addresses with their hops, computed from the halves of each block. For each inherited hop, a block keeps
    its route or has none; or another route is installed, with any hop or none."""
    hops = {None} | {to for _, _, to in pieces} | {to for _, to in routes}

    def needs(start, size, inside, held):
        """The same for the block from this start on, for each inherited hop; the spans and routes are those that overlap the block."""
        block = start, start + size - 1
        own = {to for span, to in held if span == block}
        held = [(span, to) for span, to in held if span != block]
        covered = inside[0][2] if inside else None
        if not held and (not inside or inside[0][0] <= start and start + size <= inside[0][1]):
            # (with another hop from above, both halves would need an install)
            both = {hop: 0 if hop == covered else 2 for hop in hops}
        else:
            middle = start + size // 2
            low = needs(start, size // 2, [piece for piece in inside if piece[0] < middle], [it for it in held if it[0][1] < middle])
            high = needs(middle, size // 2, [piece for piece in inside if piece[1] > middle], [it for it in held if it[0][0] >= middle])
            both = {hop: low[hop] + high[hop] for hop in hops}
        anyway = min(1 + min(both.values()), *(both[to] for to in own), 1 << width)
        return {hop: min(len(own) + both[hop], anyway) for hop in hops}

    return needs(0, 1 << width, pieces, routes)[None]


def expected(stream):
    """The flat list and the fewest routes of the committed changes, or None if a line is not a reply line."""
    try:
        changes = committed(stream)
    except ValueError:
        return None
    return flat(changes), fewest(changes, 32) + fewest(changes, 128)
