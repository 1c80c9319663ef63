"""Cuts, crashes and damages logs. `recipes/mirror check` runs this."""
import gzip
import os
import random
import signal
import subprocess
import sys
import tempfile
import zlib
from pathlib import Path

from __main__ import CLOSING, log, program, to_disk, verify
from common import HERE, PROGRAM, Page, full_disk, refused, same, tool


def flat_after(commands):
    """The flat list after these commands, from a leader with no other output."""
    replies = program("lead", b"".join(commands) + b"flat\n").stdout.splitlines(keepends=True)
    return b"".join(line for line in replies if line.startswith(b"flat ")) + b"ok\n"


def answered(whole):
    return sum(line in CLOSING for line in whole.split(b"\n")[:-1])


def check_page(root):
    """The page's examples, and the messages of `keep` for wrong logs."""
    page = Page(f"{root}/page", ssh='env -C other sh -c "$2"')
    page.gives(page.run())
    page.run("mkdir other; recipes/mirror log log | head -c 45 > other/copy; echo 'add 11.0.0.0/8 3' > commands")
    same("a copy that went on", page.run(), page.run("recipes/mirror log log | routes follow"))
    page.run()
    same("a new start", page.run("recipes/mirror log new | routes follow").splitlines(),
         page.run("recipes/mirror log log | routes follow").splitlines()[:-1] + ["flat 11.0.0.0/8 3", "ok"])
    page.end()
    for given in ("", "set 10.0.0.0/8 1\nok\nbad\nok\nrefused\n", "ok\nrefused\nok\n", "ok\nset 10.0.0.0/8 1\n", "ok\nok"):
        page.refuses("rm -rf part; mkdir part; recipes/mirror keep part", given)
        same("what was kept", page.run("cat part/log.000001"), given)


def check_cut(folder, commands, whole):
    cut = len(whole) // 3
    while whole[cut - 1:cut + 1].count(b"\n"):
        cut += 1
    copy = whole[:cut]
    same("the flat list of a cut copy", program("follow", copy).stdout, flat_after(commands[:answered(copy)]))
    copy += tool(sys.argv[0], "log", folder, str(cut)).encode()
    flats = {program("follow", copy).stdout, program("follow", whole).stdout, flat_after(commands)}
    same("flat lists of two followers and the leader", len(flats), 1)
    print(f"a copy cut at byte {cut:,}, in mid-line, has the hops after command {answered(whole[:cut]):,}; begun again from "
          "there it has those of another follower and of the leader")


def check_crash(folder, commands, victim):
    """Kills the leader, or the `keep` of its log, during its work. Then a new leader starts with the hops of the log."""
    os.mkdir(folder)
    keeper = subprocess.Popen([sys.argv[0], "keep", folder, "100000"], stdin=subprocess.PIPE)
    leader = subprocess.Popen([PROGRAM, "lead"], stdin=subprocess.PIPE, stdout=keeper.stdin, stderr=subprocess.DEVNULL)
    keeper.stdin.close()
    leader.stdin.write(b"".join(commands[:len(commands) // 2]))
    leader.stdin.flush()
    (leader if victim == "leader" else keeper).send_signal(signal.SIGKILL)
    keeper.wait()
    leader.stdin.close()
    leader.wait()
    whole = log(folder)
    count, flat = answered(whole), program("follow", whole).stdout
    same("the flat list after a crash", flat, flat_after(commands[:count]))
    starts = {"flat": [line.replace(b"flat ", b"add ") for line in flat.splitlines(keepends=True)[:-1]],
              "least": program("least", whole).stdout.splitlines(keepends=True)}
    for title, start in starts.items():
        same(f"the flat list of a new start from {title}", flat_after(start), flat)
    print(f"the {victim} killed after {len(commands) // 2:,} commands: the log has {count:,} replies; a new leader has these hops "
          f"from the {len(starts['flat']):,} lines of the flat list, and from the {len(starts['least']):,} of `least`")


def check_damage(whole, part):
    """Changes bytes, one at a time: some of a compressed part, then all of a short uncompressed log."""
    draw, packed, told, harmless = random.Random(1), part.read_bytes(), 0, 0
    clear = gzip.decompress(packed)
    places = [*range(20), *(draw.randrange(len(packed)) for _ in range(1000)), *range(len(packed) - 8, len(packed))]
    for place in places:
        wrong = bytearray(packed)
        wrong[place] ^= draw.randrange(1, 256)
        try:
            same(f"byte {place} of a compressed part", gzip.decompress(bytes(wrong)) == clear, True)
            harmless += 1
        except (OSError, EOFError, zlib.error):
            told += 1
    print(f"one byte of a compressed part changed, {len(places):,} times: {told:,} found, {harmless} leave the same log")
    found = {"no reply line": 0, "another flat list": 0, "harmless": 0}
    right = program("follow", whole).stdout
    for place in 3 * list(range(len(whole))):
        wrong = bytearray(whole)
        wrong[place] = draw.choice(sorted(set(whole) - {whole[place]}))
        what = verify(bytes(wrong))
        if what is None:
            same(f"byte {place}", program("follow", bytes(wrong)).stdout, right)
        found["harmless" if what is None else "no reply line" if what.startswith("routes:") else "another flat list"] += 1
    print(f"each byte of a log of {len(whole):,} bytes changed three times, to others of the log: "
          + ", ".join(f"{count} {what}" for what, count in found.items()))


def check_faults(root):
    """A full disk is named with the file, and a log that ends without a flat list is not called damaged."""
    full_disk(f"{root}/full", f"{HERE}/mirror keep .", "set 10.0.0.0/8 1\nok\n" * 4000)
    os.mkdir(f"{root}/short")
    for written, why in (("set 10.0.0.0/8 1\nok\n", "give the leader `flat`"), ("set 10.0.0.0/8 1\nok\nflat 10.0.0.0/8 2\nok\n", "is not the one")):
        Path(f"{root}/short/log.000001").write_text(written)
        said = refused(sys.argv[0], "verify", f"{root}/short")
        same("the reason", why in said, True)
        print("refused:", said)


def check_link(root):
    """A link in the place of a new part: nothing is written behind it."""
    other, part = Path(root, "other.user"), Path(root, "part")
    other.write_text("mine\n")
    Path(f"{part}.new").symlink_to(other)
    to_disk(part, b"new\n")
    same("the part, and the file behind the link", [part.is_symlink(), part.read_text(), other.read_text()], [False, "new\n", "mine\n"])


def check():
    feed = tool(sys.executable, str(HERE.parent / "bench/feeds.py"), "churn", "v4", "20000")
    feed = feed.encode().splitlines(keepends=True)[:-1]
    short = (HERE.parent / "examples/session.txt").read_bytes()
    with tempfile.TemporaryDirectory() as root:
        check_page(root)
        kept = f"{root}/kept"
        os.mkdir(kept)
        whole = program("lead", b"".join(feed) + b"flat\n").stdout
        subprocess.run([sys.argv[0], "keep", kept, "400000"], input=whole, check=True)
        same("the log and what was kept of it", tool(sys.argv[0], "log", kept).encode() == whole, True)
        tool(sys.argv[0], "verify", kept)
        parts = sorted(Path(kept).iterdir())
        print(f"a log of {len(whole):,} bytes kept in {len(parts)} parts, {sum(part.stat().st_size for part in parts):,} bytes")
        check_cut(kept, feed, whole)
        for victim in ("leader", "keeper"):
            check_crash(f"{root}/{victim}", feed, victim)
        check_damage(program("lead", short).stdout, parts[0])
        check_faults(root)
        check_link(root)
        print("refused:", refused(sys.argv[0], "log", kept, str(len(whole) + 1)))
        parts[1].write_bytes(parts[1].read_bytes()[:-1])
        print("refused:", refused(sys.argv[0], "log", kept))
        parts[1].unlink()
        print("refused:", refused(sys.argv[0], "verify", kept))
        print("refused:", refused(sys.argv[0], "keep", kept))
