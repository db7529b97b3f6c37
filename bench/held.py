"""What `bench/serve.py` measures of the memory of `up`: the bytes that it holds, if they come in bodies of several
sizes, in chunked coding and in a final upload, and idle connections.
"""
import contextlib
import subprocess
import sys
import time

from contenders import MIB, Client, hear, processor_seconds
from serving import Connection, Maker, head, patch, patch_in_chunks, same, settled

# The most memory for the bytes held, and for those of a final upload, whose parts are held already; both in multiples
# of these bytes.
MAX_HELD = 1.1
MAX_FINAL = 0.001

# The sizes of the bodies, and the number of bytes held of each.
BODIES = [(1, 4 * MIB), (1024, 64 * MIB), (16_384, 64 * MIB), (65_536, 64 * MIB), (MIB, 64 * MIB), (256 * MIB, 256 * MIB)]

# How many bytes a server has taken before a measurement.
BEFORE = 65_536

# How many bodies of a byte are sent before the replies are read.
TOGETHER = 64

# How many messages a connection sends here; the server closes after the 10,000th.
MESSAGES = 8192

PARTS = 64
CHUNK = 65_536

# The number of idle connections, and the limits: MiB in total, also if each has made an upload of 1 KiB, and seconds of
# processor time.
IDLE, MAX_IDLE, MAX_USED = 1000, 24, 32
SECONDS, MAX_SECONDS = 10, 0.1


def size_of(count):
    """A number of bytes as a text."""
    for unit, name in ((MIB, "MiB"), (1024, "KiB")):
        if count >= unit:
            return f"{count // unit} {name}"
    return "a byte"


class Figure:
    """What is measured, its value, and its limit."""

    def __init__(self, title, value, unit, most, ratio=None):
        self.title, self.value, self.unit, self.most, self.ratio = title, value, unit, most, ratio

    def is_met(self):
        return (self.value if self.ratio is None else self.ratio) <= self.most

    def cells(self):
        shown = f"{self.value:,.3f} {self.unit}"
        if self.ratio is None:
            return [self.title, shown, "", f"{self.most:g} {self.unit}"]
        return [self.title, shown, f"{self.ratio:.4f}", f"{self.most:g}"]


def figure_of_bytes(title, grown, held, most=MAX_HELD):
    return Figure(title, grown / MIB, "MiB", most, grown / held)


def append_bytes(server, count):
    """An upload in bodies of a byte."""
    with Connection(server) as first:
        path = first.make(count)
    message = patch(path, "%d", 1) + b"x"
    for offset in range(0, count, MESSAGES):
        with Connection(server) as connection:
            for start in range(offset, min(offset + MESSAGES, count), TOGETHER):
                connection.send(b"".join(message % at for at in range(start, start + TOGETHER)))
                hear(connection, TOGETHER, 204)


def append(client, size, count):
    """Makes an upload of `count` bytes in bodies of this size. Its connections have ended when it returns."""
    if size == 1:
        append_bytes(client.server, count)
    else:
        client.do("append", 1, count // size, size)


def warm(client, size=BEFORE):
    """The memory of a server that has taken some bytes in bodies of this size."""
    append(client, min(size, BEFORE), BEFORE)
    return settled(client.server)


def held(contender, path):
    """Bodies of several sizes."""
    for size, count in BODIES:
        with contender.server() as server:
            client = Client(path, contender.kind, server)
            before = warm(client, size)
            append(client, size, count)
            grown, peak = settled(server) - before, server.status("VmHWM") - before
        title = f"{size_of(count)} in bodies of {size_of(size)}"
        if size == count:
            title = f"{size_of(count)} in one body"
            yield figure_of_bytes("its peak, while they came", peak, count)
        yield figure_of_bytes(title, grown, count)


def chunked(contender, path):
    """One body in chunked coding."""
    with contender.server() as server:
        before = warm(Client(path, contender.kind, server))
        with Connection(server) as connection:
            path = connection.make(64 * MIB)
            connection.send(patch_in_chunks(path))
            for _ in range(64 * MIB // CHUNK):
                connection.send(f"{CHUNK:x}\r\n".encode() + bytes(CHUNK) + b"\r\n")
            connection.send(b"0\r\n\r\n")
            same(connection.reply().status, 204, "the status of a PATCH")
        yield figure_of_bytes("64 MiB in one body in chunked coding", settled(server) - before, 64 * MIB)


def final(contender, _):
    """A final upload of parts that are held."""
    with contender.server() as server:
        maker = Maker(server)
        parts = [maker.make(MIB, Upload_Concat="partial") for _ in range(PARTS)]
        for part in parts:
            same(maker.connection.append(part, 0, bytes(MIB)).status, 204, "the status of a PATCH")
        before = settled(server)
        maker.ask(head("POST", "/files/", {"Upload-Concat": "final;" + " ".join(parts)}), 201)
        yield figure_of_bytes(f"a final of {PARTS} parts of 1 MiB", settled(server) - before, PARTS * MIB, MAX_FINAL)


@contextlib.contextmanager
def staying(client, connections):
    """This many connections that have made a small upload each, and are idle."""
    words = client.words("stay", connections)
    with subprocess.Popen(words, stdin=subprocess.PIPE, stdout=subprocess.PIPE, text=True) as process:
        if process.stdout.readline() != "open\n":
            sys.exit("bench: the connections did not stay open")
        yield
        process.stdin.close()


def idle(contender, path):
    """Connections that do nothing: the memory of the whole server, and its processor time."""
    with contender.server() as server, contextlib.ExitStack() as open_ones:
        for _ in range(IDLE):
            open_ones.enter_context(Connection(server))
        time.sleep(1)
        yield Figure(f"{IDLE:,} connections that said nothing, the server and all", settled(server) / MIB, "MiB", MAX_IDLE)
    with contender.server() as server, staying(Client(path, contender.kind, server), IDLE):
        yield Figure(f"{IDLE:,} that have made an upload of 1 KiB each", settled(server) / MIB, "MiB", MAX_USED)
        start = processor_seconds(server)
        time.sleep(SECONDS)
        yield Figure(f"processor time of {SECONDS} s with these", processor_seconds(server) - start, "s", MAX_SECONDS)


FIGURES = [held, chunked, final, idle]
