"""The check of recipes/map: `recipes/map check` calls it."""
import ipaddress
import random
import struct
import subprocess
import sys
import tempfile
import zlib
from collections import Counter
from pathlib import Path

from common import Page, fault, same, text, timed


def place(size, at):
    """The place of a pixel of the curve, as in the usual program for Hilbert's curve."""
    x = y = 0
    side = 1
    while side < size:
        right, down = 1 & at // 2, 1 & (at ^ at // 2)
        if down == 0:
            if right == 1:
                x, y = side - 1 - x, side - 1 - y
            x, y = y, x
        x, y, at, side = x + side * right, y + side * down, at // 4, 2 * side
    return x, y


def pixels(png):
    """The palette indexes of a PNG file, row by row. Each checksum is compared."""
    same("a PNG file", png[:8], b"\x89PNG\r\n\x1a\n")
    chunks, at = {}, 8
    while at < len(png):
        length, kind = struct.unpack_from(">I4s", png, at)
        chunks[kind] = png[at + 8:at + 8 + length]
        same("a checksum", struct.unpack_from(">I", png, at + 8 + length)[0], zlib.crc32(kind + chunks[kind]))
        at += 12 + length
    width, height = struct.unpack_from(">II", chunks[b"IHDR"])
    held = zlib.decompress(chunks[b"IDAT"])
    same("bytes of the picture", len(held), height * (width + 1))
    return [held[row * (width + 1) + 1:(row + 1) * (width + 1)] for row in range(height)]


def drawn(shown, lines, order):
    """A picture, and each pixel's count of addresses by hop, address by address."""
    given = text(f"flat {network} {hop}" for network, hop in lines) + "ok\n"
    done = subprocess.run([sys.argv[0], "png", str(shown), "-", str(order)], input=given.encode(), capture_output=True)
    same("map png", [done.returncode, done.stderr], [0, b""])
    size, counts = 1 << order, [Counter() for _ in range(4 ** order)]
    each = shown.num_addresses // len(counts)
    for network, hop in lines:
        network = ipaddress.ip_network(network)
        if network.version == shown.version:
            for address in range(int(network[0]), int(network[-1]) + 1):
                at = (address - int(shown[0])) // each
                if 0 <= at < len(counts):
                    counts[at][hop] += 1
    rows = pixels(done.stdout)
    scale = len(rows) // size
    return {at: rows[y * scale][x * scale] for at in range(len(counts)) for x, y in [place(size, at)]}, counts


def check_random():
    """Each pixel has the colour of a hop that has the most addresses in it; white if none has any."""
    draw, count = random.Random(1), 0
    for net, order in (("10.0.0.0/19", 6), ("10.0.0.0/20", 5), ("10.0.32.0/20", 3), ("10.0.0.0/18", 4), ("2001:db8::/116", 4), ("10.0.0.0/31", 0)):
        shown, lines, at = ipaddress.ip_network(net), [], 0
        for at in range(0, 1 << 15, 256):
            while at % 256 or draw.random() < 0.6:
                length = draw.choice((24, 25, 26, 28, 30, 32))
                if at % (1 << 32 - length) == 0:
                    first = ipaddress.ip_address(at + (10 << 24)) if shown.version == 4 else shown[0] + at
                    lines.append((f"{first}/{length + 96 * (shown.version == 6)}", draw.randrange(1, 6)))
                    at += 1 << 32 - length
                    if at % 256 == 0:
                        break
        colours, counts = drawn(shown, lines, order)
        total = sum(counts, Counter())
        index = {hop: at for at, (hop, _) in enumerate(total.most_common(), 1)}
        for at, held in enumerate(counts):
            right = {index[hop] for hop, most in held.items() if most == max(held.values())} or {0}
            if colours[at] not in right:
                fault(f"{net}: pixel {at} has the colour {colours[at]}, and should have one of {right}")
        count += len(counts)
    print(f"{count:,} pixels of both families have the colours of a computation address by address, along the usual curve")


def check_big(folder):
    """600,000 blocks of /22 to /24, with gaps."""
    draw, lines, at = random.Random(1), [], 1 << 24
    while len(lines) < 600000:
        length = draw.choice((22, 23, 24, 24, 24))
        size = 1 << 32 - length
        at += -at % size + (draw.random() < 0.3) * 8 * size
        lines.append(f"flat {at >> 24}.{at >> 16 & 255}.{at >> 8 & 255}.0/{length} {draw.randrange(1, 40)}\n")
        at += size
    Path(folder, "big").write_text("".join(lines) + "ok\n")
    for form, order in (("svg", "9"), ("png", "12")):
        found, seconds = timed(lambda: subprocess.run([sys.argv[0], form, "0.0.0.0/0", "-", order], stdin=open(f"{folder}/big"),
                                                      capture_output=True, check=True).stdout)
        print(f"{len(lines):,} blocks as {form} with {1 << int(order)} pixels in a row: {seconds:.1f} s, {len(found):,} bytes")


def check_page(folder):
    page = Page(f"{folder}/page")
    page.text("commands")
    page.text("hops")
    page.run()
    held = Path(folder, "page", "table.svg").read_text()
    for name in ("Frankfurt, 0.29 %", "Paris, 0.10 %", "no hop"):
        same(name, name in held, True)
    page.run()
    pixels(Path(folder, "page", "ten.png").read_bytes())
    page.blocks.pop()  # the picture above, which takes the location database
    page.end()
    for given in ("", "ok\n", "flat 10.0.0.0/8\nok\n", "flat 10.0.0.0/8 1\r\n", "flat 10.0.0.0/8 1", "add 10.0.0.0/8 1\n", "flat 10.0.0.0/33 1\n",
                  "flat 10.0.0.1/8 1\n", "flat 10.0.0.0.1/8 1\n"):
        page.refuses("recipes/map png", given)
    page.refuses("recipes/map png ::/0", "flat 2001::db8::/32 1\n")
    for words in ("10.0.0.0", "10.0.0.1/8", "net", "10.0.0.0/8 nothing", "10.0.0.0/8 - 13", "10.0.0.0/8 - x"):
        page.refuses(f"recipes/map svg {words}", "flat 10.0.0.0/8 1\nok\n")


def check():
    with tempfile.TemporaryDirectory() as folder:
        check_page(folder)
        check_random()
        check_big(folder)
