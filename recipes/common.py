"""The common part of the recipes. A program is the one that the environment names, else the tree's, else the one in PATH."""
import contextlib
import errno
import fcntl
import ipaddress
import itertools
import os
import random
import re
import shutil
import signal
import socket
import stat
import subprocess
import sys
import textwrap
import time
from pathlib import Path

HERE = Path(__file__).resolve().parent


def program(variable, name, path):
    path = HERE.parent / path
    return os.environ.get(variable) or (str(path) if path.is_file() else name)


PROGRAM = program("ROUTES", "routes", "routes")
INSTALLER = program("ROUTES_FIB", "routes_fib", "routes_fib")
FIB_KERNEL = program("FIB_KERNEL", "fib_kernel", "netlink/out/fib_kernel")
NAME = Path(sys.argv[0]).name
NETWORK = re.compile(r"[0-9a-f:.]+/[0-9]+")
ANY = re.compile("[^\r]*")
REPLIES = re.compile(r"(?:(?:(?:set|flat) {0} \d+|(?:unset|own) {0}|route {0} (?:\d+|drop)(?: \d+)?|count \d+ \d+"
                     r"|ok|none|bad|refused)\n)*".format(NETWORK.pattern))
CLOSING = ("ok", "none", "bad", "refused")
PIECE = 1 << 20
PASSED_OVER = 77
GATEWAYS = 256  # the most of a hop that `fib_kernel` takes

LONGEST = 200  # characters of a wrong line that are shown


def fault(text):
    sys.exit(f"{NAME}: {text}")


if sys.stdin is None:
    fault("standard input is closed")
sys.stdin.reconfigure(errors="backslashreplace")


def line_shown(line):
    """A line as a message shows it: on one line, without the bytes that drive a terminal, and not all of a long one."""
    line = "".join(letter if letter.isprintable() or letter == "\t" else f"\\x{ord(letter):02x}" for letter in line[:LONGEST + 1])
    return line if len(line) <= LONGEST else f"{line[:LONGEST]} .."


def installed_usage(usage):
    """The usage with the names that `./install recipes` gives, if the recipe runs under such a name."""
    if not NAME.startswith("jolmidda-"):
        return usage
    return re.sub(r"recipes/([a-z-]+)(?![\w.-])", r"jolmidda-\1", usage).replace(" recipes/", f" {HERE}/")


def end_by_signal(number, _):
    """The status is that of a program that the signal ends."""
    with contextlib.suppress(OSError):
        if sys.stderr:
            os.write(sys.stderr.fileno(), f"{NAME}: ended by a signal\n".encode())
    sys.exit(128 + number)


def run(main):
    """Runs a recipe. For a file that can't be opened it prints the name, and for wrong arguments the usage."""
    signal.signal(signal.SIGTERM, end_by_signal)
    usage = installed_usage(sys.modules["__main__"].__doc__)
    try:
        if sys.argv[1:] in (["--help"], ["-h"]):
            print(usage)
        elif sys.argv[1:2] == ["check"] and not (HERE.parent / "examples").exists():
            fault("the check needs the repository of Jolmidda")
        elif main(*sys.argv[1:]) is False:
            sys.exit(usage)
    except OSError as error:
        fault(f"{error.filename}: {error.strerror}" if error.filename else error.strerror or error)


@contextlib.contextmanager
def naming(path):
    """A fault of a write, as on a full disk, names the file."""
    try:
        yield
    except OSError as error:
        raise OSError(error.errno, error.strerror, path) from error


def need_regular(path, state):
    if not stat.S_ISREG(state.st_mode):
        why = "a link, through which no recipe writes" if stat.S_ISLNK(state.st_mode) else "not a regular file"
        raise OSError(errno.EINVAL, why, path)


def open_regular(path, flags):
    with contextlib.suppress(FileNotFoundError):
        need_regular(path, os.lstat(path))
    number = os.open(path, flags | os.O_NOFOLLOW | os.O_NONBLOCK | os.O_CLOEXEC, 0o666)
    need_regular(path, os.fstat(number))
    return number


def open_to_write(path, mode, **more):
    """As `open`, but only a regular file: whoever owns the folder may put a link or a pipe in its place, through which root would write
    elsewhere. Where the old content goes (`w`), a new file takes the old one's place."""
    if "w" in mode:
        Path(path).unlink(missing_ok=True)
    return open(path, mode.replace("w", "x"), opener=open_regular, **more)


def text(lines):
    return "".join(f"{line}\n" for line in lines)


def put(lines):
    """Writes all lines; to be called when no more faults are possible."""
    put_bytes(text(lines).encode())


def put_bytes(held):
    if sys.stdout is None:
        fault("standard output is closed")
    with naming("standard output"):
        sys.stdout.flush()
        while held:
            held = held[os.write(sys.stdout.fileno(), held):]


def pass_over(text):
    print(f"passed over: {text}")
    sys.exit(PASSED_OVER)


def needs(command, package):
    if shutil.which(command) is None:
        pass_over(f"there is no {command}; Debian's package {package} brings it")


@contextlib.contextmanager
def namespace(*lines):
    """A network namespace with a dummy device `lan`, set up by more lines for `ip`. It is deleted in the end."""
    needs("ip", "iproute2")
    name = f"recipe-{os.getpid()}"
    made = subprocess.run(["ip", "netns", "add", name], capture_output=True, text=True)
    if made.returncode != 0:
        pass_over(f"no network namespace can be made, which needs root: {made.stderr.strip()}")
    try:
        for line in ("link set lo up", "link add lan type veth peer name far", "link set far up addrgenmode none",
                     "link set lan up addrgenmode none", *lines):
            tool("ip", "-n", name, *line.split())
        yield name
    finally:
        tool("ip", "netns", "delete", name)


@contextlib.contextmanager
def bird(folder, configuration, *before):
    """Runs BIRD with this configuration, after the command prefix `before`. Its only socket, the control socket, is returned."""
    needs("bird", "bird2")
    Path(folder, "bird.conf").write_text(configuration)
    control = f"{folder}/control"
    tool(*before, "bird", "-c", f"{folder}/bird.conf", "-s", control, "-P", f"{folder}/pid")
    try:
        settled(control)
        yield control
    finally:
        tool("birdc", "-s", control, "down")


def settled(control):
    """Waits until BIRD has had the same number of routes for a second."""
    count, last = "", None
    while count != last or not count:
        time.sleep(1)
        last, count = count, tool("birdc", "-s", control, "show", "route", "count")


def tool(*command, given=None, **where):
    """The output of a tool, which must not fail."""
    done = subprocess.run(command, input=given, capture_output=True, text=True, **where)
    if done.returncode != 0:
        fault(f"{' '.join(command)}: status {done.returncode}: {(done.stderr or done.stdout).strip()}")
    return done.stdout


def routes(mode, given):
    """The output of the program, as lines."""
    return tool(PROGRAM, mode, given=given).splitlines()


def refused(*command, given="", **where):
    """The one line with which a command rejects this input."""
    done = subprocess.run(command, input=given, capture_output=True, text=True, **where)
    if done.returncode != 1 or len(done.stderr.splitlines()) != 1 or done.stdout:
        fault(f"{' '.join(command)} took what it mustn't, or said more than a line: {done.stderr}")
    return done.stderr.strip()


def full_disk(folder, command, given):
    """The one line in which a command says that there is no room for a file. It works in a file system of 32 kB."""
    if subprocess.run(["unshare", "-rm", "true"], capture_output=True).returncode:
        return print("passed over: a full disk, since no mount namespace can be made")
    os.makedirs(folder, exist_ok=True)
    said = refused("unshare", "-rm", "sh", "-c", f'mount -t tmpfs -o size=32k none "{folder}" && cd "{folder}" && {command}', given=given)
    if ": No space left on device" not in said or "Errno" in said:
        fault(f"{command}: {said}")
    return print("refused:", said)


def timed(work, *given, **more):
    """The result of a call, and the CPU seconds that it and its tools took, including system time."""
    start = sum(os.times()[:4])
    found = work(*given, **more)
    return found, sum(os.times()[:4]) - start


def same(what, left, right):
    if left != right:
        fault(f"{what}: {left!r} and {right!r}")


def shown(page):
    """The indented blocks of a page, in order."""
    blocks = re.findall(r"(?:^    .*\n|^\n(?=    ))+", page.read_text(), re.MULTILINE)
    return [textwrap.dedent(block).lstrip("\n") for block in blocks if block.strip()]


class Page:
    """The recipe's page, block by block, in a folder of its own. A command is run unchanged, by a shell that fails if a part of a pipe
    fails. The folder has `recipes`, `examples`, `routes`, and wrappers of tools; in a wrapper, `{}` is the real tool."""

    def __init__(self, folder, blocks=None, **tools):
        self.folder, self.blocks = folder, shown(HERE / f"{NAME}.md") if blocks is None else blocks
        os.makedirs(f"{folder}/bin")
        os.symlink(HERE, f"{folder}/recipes")
        os.symlink(HERE.parent / "examples", f"{folder}/examples")
        os.symlink(shutil.which(PROGRAM), f"{folder}/bin/routes")
        for name, command in tools.items():
            Path(folder, "bin", name).write_text(f"#!/bin/sh\nexec {command.format(shutil.which(name))}\n")
            Path(folder, "bin", name).chmod(0o755)

    def text(self, path=None):
        """The next block, which is written to a file if one is named."""
        block = self.blocks.pop(0)
        if path:
            Path(self.folder, path).write_text(block)
        return block

    def where(self):
        path = f"{self.folder}/bin:{os.environ['PATH']}"
        return {"cwd": self.folder, "env": os.environ | {"PATH": path, "ROUTES": f"{self.folder}/bin/routes"}}

    def run(self, command=None):
        """The output of the next block, or of this command. It may take five minutes."""
        return tool("timeout", "300", "bash", "-euo", "pipefail", "-c", command or self.text(), **self.where())

    def refuses(self, command, given=""):
        """Checks that this command rejects its input with one line, and writes nothing."""
        print("refused:", refused("bash", "-c", command, given=given, **self.where()))

    def gives(self, output):
        """Checks that the next block is this output."""
        same("the page", output, self.text())

    def end(self):
        same("blocks of the page that were not looked at", self.blocks, [])


def pieces(file, title, form=ANY):
    """The text of a file, in pieces of about a megabyte, each with complete lines of this form. An empty or truncated file is rejected: it
    comes from an earlier failure, and is not a table."""
    before, file = 0, getattr(file, "buffer", file)
    while text := (file.read(PIECE) + file.readline()).decode(errors="backslashreplace"):
        held = form.match(text).end()
        if held < len(text) or text[-1] != "\n":
            wrong_line(title, before, text, held)
        yield text
        before += text.count("\n")
    if not before:
        fault(f"{title}: empty")


def stream(file, title, form=ANY):
    """The lines of a file, one by one."""
    return itertools.chain.from_iterable(text[:-1].split("\n") for text in pieces(file, title, form))


def wrong_line(title, before, text, held):
    start = text.rfind("\n", 0, min(held, len(text) - 1)) + 1
    line, end, _ = text[start:].partition("\n")
    why = "not understood"
    if "\r" in line:
        line, why = line.replace("\r", ""), "a carriage return, which `tr -d '\\r'` takes out"
    elif not end:
        why = "cut off, without a line end"
    fault(f"line {before + text.count(chr(10), 0, start) + 1} of {title}: {why}: {line_shown(line)}")


def lines_of(path, title=None, form=ANY):
    """All lines of a file, or of an open file, each of this form."""
    with open(path, "rb") if isinstance(path, str) else path as file:
        return list(stream(file, title or path, form))


def taken(replies, commands=None):
    """These replies of a leader, as lines, if it accepted each command. Otherwise the first command that it didn't accept is named."""
    if answers := [replies.index(word) for word in ("bad", "refused") if word in replies]:
        at = min(answers)
        number = sum(line in CLOSING for line in replies[:at + 1])
        text = commands.split("\n")[number - 1] if commands else f"`sed -n {number}p` of the commands shows it"
        fault(f"the leader answered `{replies[at]}` to command {number}: {text}")
    if not replies or replies[-1] not in CLOSING:
        fault("the leader's output has no end, or isn't whole: its last line closes no reply")
    return replies


def replies_of(file):
    """The whole output of a leader, as lines. It must have accepted each command."""
    return taken(lines_of(file, "the leader's output", REPLIES))


def alone(file):
    """No other run may have this file, until it is closed."""
    try:
        fcntl.flock(file, fcntl.LOCK_EX | fcntl.LOCK_NB)
    except BlockingIOError:
        fault(f"{file.name}: another run has this file")


@contextlib.contextmanager
def locked(path):
    """Until the end no other run has the file, which is made if it isn't there. Another file may have taken its place while this one
    waited."""
    is_ours = False
    while not is_ours:
        with open_to_write(path, "a+") as file:
            fcntl.flock(file, fcntl.LOCK_EX)
            is_ours = os.path.exists(path) and os.path.samestat(os.fstat(file.fileno()), os.stat(path))
            if is_ours:
                yield


def names_in(path):
    """The names of a file of lines `NUMBER NAME`, which must be there."""
    os.stat(path)
    return Numbers(path).names()


class Numbers:
    """A file of lines `NUMBER NAME` for all runs: a name keeps its number, and a new name gets the next number."""

    def __init__(self, path):
        self.path, self.of_name, seen = path, {}, set()
        for at, line in enumerate(lines_of(path) if os.path.exists(path) and os.path.getsize(path) else [], 1):
            number, _, name = line.rstrip("\n").partition(" ")
            if not is_number(number) or not name.strip() or name in self.of_name or number in seen:
                fault(f"{path}, line {at}: not understood: {line_shown(line.rstrip())}")
            self.of_name[name] = int(number)
            seen.add(number)
        self.last = max(self.of_name.values(), default=0)

    def __getitem__(self, name):
        if name not in self.of_name:
            if (count := name.count("nexthop ")) > GATEWAYS:
                fault(f"a hop has at most {GATEWAYS} gateways, and this one has {count}: {line_shown(name)}")
            self.last += 1
            self.of_name[name] = self.last
        return self.of_name[name]

    def names(self):
        return {str(number): name for name, number in self.of_name.items()}

    def keep(self, lines):
        """Returns these lines `add NET NUMBER ..`, once the file has their names. If another run has added names since this run read
        the file, they keep their numbers, and new names of this run get other numbers."""
        with locked(self.path):
            now = Numbers(self.path)
            moved = {str(number): str(now[name]) for name, number in self.of_name.items() if now[name] != number}
            now.write()
        return [renumbered(line, moved) for line in lines] if moved else lines

    def write(self):
        """Replaces the old file with the new one in one step, once the new one is on the disk. Daemons of another user can read it."""
        new = f"{self.path}.new"
        try:
            with naming(new), open_to_write(new, "w") as file:
                os.fchmod(file.fileno(), os.stat(file.fileno()).st_mode | 0o444)
                file.writelines(f"{number} {name}\n" for name, number in self.of_name.items())
                file.flush()
                os.fsync(file.fileno())
        except OSError:
            Path(new).unlink(missing_ok=True)
            raise
        os.replace(new, self.path)


def renumbered(line, moved):
    add, network, hop, *rest = line.split(" ")
    return " ".join([add, network, moved.get(hop, hop), *rest])


def differing(old, new):
    """The lines that differ between two tables, network by network, in text order. Tables are lists of lines `WORD NET ..`."""
    old, new = (sorted(table) + [""] for table in (old, new))
    if not old[0] or not new[0]:
        raise ValueError("an empty line")
    at, to, ahead = 0, 0, 32
    while old[at] or new[to]:
        while old[at + ahead - 1:at + ahead] and old[at:at + ahead] == new[to:to + ahead]:
            at, to = at + ahead, to + ahead
            if not old[at - 1]:
                return
        while old[at] == new[to] and old[at]:
            at, to = at + 1, to + 1
        if old[at] or new[to]:
            key = min(start(line) for line in (old[at], new[to]) if line)
            (before, at), (after, to) = lines_from(old, at, key), lines_from(new, to, key)
            yield before, after


def start(line):
    """A line up to the space after its network."""
    return line[:line.find(" ", line.find(" ") + 1) + 1] or line


def lines_from(lines, at, key):
    """The lines that start with the key, some of which may be before this place, and the place after them."""
    first = at
    while first and lines[first - 1].startswith(key):
        first -= 1
    while lines[at].startswith(key):
        at += 1
    return lines[first:at], at


def is_number(word):
    return re.fullmatch("0|[1-9][0-9]{0,9}", word) is not None and int(word) < 1 << 32


def ends(networks):
    """The first and the last address of each network, each once, as the C library prints them."""
    found = {}
    for text in networks:
        address, _, length = text.partition("/")
        family = socket.AF_INET6 if ":" in address else socket.AF_INET
        first = socket.inet_pton(family, address)
        last = int.from_bytes(first, "big") | (1 << 8 * len(first) - int(length)) - 1
        for end in (first, last.to_bytes(len(first), "big")):
            found[socket.inet_ntop(family, end)] = None
    return list(found)


def any_addresses(count, seed=1):
    """Random addresses, half of each family; those of IPv6 in 2000::/3. None are of 0/8, 127/8 and 224/3."""
    draw = random.Random(seed)
    found = []
    while len(found) < count:
        number = draw.getrandbits(32)
        if number >> 24 not in (0, 127) and number >> 29 != 7:
            found.append(str(ipaddress.IPv4Address(number)))
            found.append(str(ipaddress.IPv6Address(1 << 125 | draw.getrandbits(125))))
    return found


def question(address):
    return f"get {address}/{128 if ':' in address else 32}\n"


def hops_of(commands, addresses):
    """The hop that `routes lead` returns for each address after these commands, or None for `drop` or no route."""
    commands += "".join(map(question, addresses))
    replies = taken(routes("lead", commands), commands)
    found, hop = [], None
    for line in replies:
        if line.startswith("route "):
            hop = line.split()[2]
        else:
            found.append(None if hop == "drop" else hop)
            hop = None
    return found[len(found) - len(addresses):]
