#!/usr/bin/env python3
"""Has many clients talk to `up serve` at once, and compares the replies and the report with a plain count.

    tests/together.py [--program PATH] [NAME..]

It needs only Python 3 and Linux, and takes less than ten seconds. The gate, `.ci/run`, runs it with the program that it
has built.

Most cases have a server of their own, with three lanes whose queues hold one event each, which ends after a number of
connections. Each client notes in the count what it does. Each reply must be what the count says, byte for byte. The
server must end with status 0, and its report must have the count's number of accepted changes, and the number of events
that each lane handed over. The events of each upload must be there, each once and in order: as lines that `--events`
wrote meanwhile, or else in the report, in their lane.

For each case, one line says whether it passed. The last line is `N passed, M failed`, and the exit status is 1 if a
case failed.
"""
import contextlib
import os
import re
import select
import socket
import sys
import threading
import time

from serving import (
    MAX_SIZE, MEDIA_TYPE, MAX_WAIT, NOWHERE, Connection, Server, at_once, below, events_of, head, patch,
    patch_in_chunks, same, soon, try_all, words_of,
)

MIB = 1 << 20

# The number of lanes.
LANES = 3

# The expected replies.


def text(status, *fields, body=""):
    """A reply, byte for byte."""
    lines = [f"HTTP/1.1 {status}", "Tus-Resumable: 1.0.0", "Cache-Control: no-store", *fields]
    return "\r\n".join([*lines, "", body]).encode()


def stored(offset):
    """The reply to bytes that were stored up to this offset."""
    return text("204 No Content", f"Upload-Offset: {offset}")


def what_is_served(size):
    """The reply to OPTIONS of a server whose largest upload has this size."""
    extensions = "creation,creation-defer-length,termination,concatenation"
    return text("204 No Content", "Tus-Version: 1.0.0", f"Tus-Extension: {extensions}", f"Tus-Max-Size: {size}")


REFUSED = "Content-Type: text/plain"
TOO_LARGE = "413 Payload Too Large"
WRONG_OFFSET = text("409 Conflict", REFUSED, "Content-Length: 15", body="25 WrongOffset\n")
NO_SUCH_PATH = text("404 Not Found", REFUSED, "Content-Length: 14", "Connection: close", body="11 NoSuchPath\n")
NOT_FOUND = text("404 Not Found", REFUSED, "Content-Length: 12", body="21 NotFound\n")
HEAD_NOT_FOUND = text("404 Not Found", REFUSED)
BAD_HEAD = text("400 Bad Request", REFUSED, "Content-Length: 10", "Connection: close", body="1 BadHead\n")
BODY_TOO_LARGE = text(TOO_LARGE, REFUSED, "Content-Length: 15", "Connection: close", body="5 BodyTooLarge\n")
TOO_LONG = text(TOO_LARGE, REFUSED, "Content-Length: 11", body="15 TooLong\n")
TOO_MUCH = text(TOO_LARGE, REFUSED, "Content-Length: 11", body="26 TooMuch\n")
DECLARED_TOO_LONG = text(TOO_LARGE, REFUSED, "Content-Length: 19", body="37 DeclaredTooLong\n")


# The plain count.


class Upload:
    """An upload, the number of its changes, and its events. Only one client changes it at a time. Its length is None
    while it is unknown."""

    def __init__(self, length):
        self.length = length
        self.body = b""
        self.is_there = True
        self.changes = 0
        self.events = []

    def tell(self, hook):
        length = "-" if self.length is None else self.length
        self.events.append(f"{len(self.events) + 1} {hook} {len(self.body)}/{length} done")

    def change(self, hook):
        """Counts a change with its event, and adds the last event if all bytes are there now."""
        self.changes += 1
        self.tell(hook)
        if self.is_there and len(self.body) == self.length:
            self.tell("post-finish")


class Count:
    """What clients have done, by the paths of the uploads. The methods from `create` to `remove` return the expected
    reply."""

    def __init__(self):
        self.uploads = {}

    def create(self, path, length):
        upload = Upload(length)
        same(self.uploads.setdefault(path, upload) is upload, True, "whether a new upload's id was never given before")
        upload.change("post-create")
        return text("201 Created", f"Location: {path}", "Content-Length: 0")

    def append(self, path, offset, body):
        upload = self.uploads[path]
        if not upload.is_there:
            return NOT_FOUND
        if offset != len(upload.body):
            return WRONG_OFFSET
        upload.body += body
        if body:
            upload.change("post-receive")
        return stored(len(upload.body))

    def look(self, path):
        upload = self.uploads[path]
        if not upload.is_there:
            return HEAD_NOT_FOUND
        return text("200 OK", f"Upload-Offset: {len(upload.body)}", f"Upload-Length: {upload.length}")

    def fetch(self, path):
        """The reply if the upload exists and is complete."""
        body = self.uploads[path].body
        media = "Content-Type: application/octet-stream"
        return text("200 OK", media, f"Content-Length: {len(body)}", body=body.decode())

    def remove(self, path):
        upload = self.uploads[path]
        if not upload.is_there:
            return NOT_FOUND
        upload.is_there = False
        upload.change("post-terminate")
        return text("204 No Content")

    def accepted(self):
        """The number of accepted changes."""
        return sum(upload.changes for upload in self.uploads.values())

    def stands(self, connections, waiting=LANES * (0,)):
        """The line of `--status`, with this number of open connections, and of events that wait in each lane."""
        there = [upload for upload in self.uploads.values() if upload.is_there]
        lanes = [f", lane {lane} drains ({count} waiting)" for lane, count in enumerate(waiting)]
        counts = f"uploads {len(there)}, bytes {sum(len(upload.body) for upload in there)}, changes {self.accepted()}"
        return f"up_server: {counts}, connections {connections}{''.join(lanes)}\n"

    def events(self, lane=None):
        """The events of each upload of a lane, or of all lanes."""
        return {path: upload.events for path, upload in self.uploads.items() if lane in (None, lane_of(path[-32:]))}


def lane_of(upload):
    """The lane of an upload: its id modulo the number of lanes."""
    return int(upload, 16) % LANES


# Clients and servers that are compared with the count.


class Client(Connection):
    """A connection whose replies are compared with the count. A slow one sends a byte at a time."""

    def __init__(self, server, count, slow=False):
        super().__init__(server)
        self.count = count
        self.slow = slow

    def send(self, message):
        size = 1 if self.slow else len(message)
        for start in range(0, len(message), size):
            super().send(message[start : start + size])

    def created(self, length):
        """The path of the new upload, of this length, that the next reply reports."""
        whole = self.reply().whole
        found = re.search(rb"\r\nLocation: (/files/[0-9a-f]{32})\r\n", whole)
        same(found is not None, True, f"whether {whole!r} tells of a new upload")
        path = found[1].decode()
        same(whole, self.count.create(path, length), "the reply to a POST")
        return path

    def create(self, length):
        named = {"Upload-Defer-Length": 1} if length is None else {"Upload-Length": length}
        self.send(head("POST", "/files/", named))
        return self.created(length)

    def hear(self, message, reply):
        """Sends a message, and expects exactly this reply."""
        self.send(message)
        same(self.take(len(reply)), reply, f"the reply to {message[:60]!r}")

    def put(self, path, offset, body):
        """Sends bytes to be put at an offset."""
        same(self.append(path, offset, body).whole, self.count.append(path, offset, body), "the reply to a PATCH")

    def look(self, path):
        same(self.ask("HEAD", path).whole, self.count.look(path), "the reply to a HEAD")

    def fetch(self, path):
        same(self.ask("GET", path).whole, self.count.fetch(path), "the reply to a GET")

    def remove(self, path):
        same(self.ask("DELETE", path).whole, self.count.remove(path), "the reply to a DELETE")

    def wins(self, path, offset, byte):
        """Sends a byte for an offset for which others compete, and returns whether it was stored. The count isn't
        changed."""
        whole = self.append(path, offset, byte).whole
        same(whole in (stored(offset + 1), WRONG_OFFSET), True, f"whether {whole!r} is a reply to one of many")
        return whole != WRONG_OFFSET

    def break_off(self):
        """The path of a new upload, after a PATCH that announces ten bytes and sends four."""
        path = self.create(10)
        self.send(patch(path, 0, 10) + b"abcd")
        self.count.append(path, 0, b"abcd")
        return path

    def end(self, behind=b""):
        """Stops sending, and checks that the connection closes with exactly this after the last reply."""
        self.socket.shutdown(socket.SHUT_WR)
        same(self.take(len(behind) + 1), behind, "what comes behind the last reply")


@contextlib.contextmanager
def served(connections, max_open, size=MAX_SIZE, more=(), lines=True):
    """A server that ends after this number of connections, of which `max_open` may be open at a time, and whose
    largest upload has this size; and the count with which the server is compared at its end. The server writes its
    events as lines, or keeps them for its report. With `more` words, its standard error isn't checked."""
    words = ["--connections", connections, "--open", max_open, "--lanes", LANES, "--capacity", 1]
    words += ["--events"] * lines + [*more]
    count = Count()
    with Server(program, *map(str, words), size=size) as server:
        yield server, count
        same(server.process.wait(MAX_WAIT), 0, "the status of the server")
        if not more:
            same(server.process.stderr.read(), b"", "what stands on standard error")
        hold_output(server.output(), count, lines)


def hold_output(output, count, with_lines):
    """Compares what a server has written with the count: the lines of `--events`, if it wrote them, and the report
    after an empty line, which has the events if the server wrote no lines."""
    written, _, report = output.partition("\naccepted ")
    same(with_lines or not written, True, "whether nothing stands before the report")
    accepted, *lines = report.split("\n")
    same(accepted, str(count.accepted()), "the number of accepted changes")
    for lane in range(LANES):
        wanted = count.events(lane)
        size = sum(map(len, wanted.values()))
        same(lines[:1], [f"lane {lane} drained {size}"], f"the line of lane {lane}")
        reported = 0 if with_lines else size
        handed, lines = lines[1 : reported + 1], lines[reported + 1 :]
        same(events_of("\n".join(handed)), {} if with_lines else wanted, f"the events of lane {lane} in the report")
    same(lines, [""], "what stands behind the last lane")
    if with_lines:
        same(events_of(written), count.events(), "the events that were written")
        same(len(written.split("\n")) - 1, sum(map(len, count.events().values())), "how many lines were written")


# What clients do.


def in_turn():
    """A second connection begins after the reply to the first, which stays open: each sees what the other did."""
    with served(2, 2) as (server, count), Client(server, count) as first:
        path = first.create(3)
        with Client(server, count) as second:
            second.look(path)
            second.put(path, 0, b"abc")
            first.look(path)
            soon(lambda: events_of(server.output()) == count.events(), "the events are written while the server serves")
            second.end()
        first.end()


def closed_behind(client, came, reply):
    """Checks that this reply came, and that the server closes the connection then, before the client ends it."""
    same(came, reply, "the reply that closes")
    same(client.is_closed(), True, "whether the server closes behind it")
    client.end()


def one_by_one():
    """Three clients are connected, of which one may be open at a time. Each reply closes its connection, because of a
    field or of the version of HTTP, and then the next one is served."""
    with served(3, 1, lines=False) as (server, count), contextlib.ExitStack() as stack:
        first, second, third = [stack.enter_context(Client(server, count)) for _ in range(3)]
        third.send(b"GET / HTTP/1.0\r\nTus-Resumable: 1.0.0\r\n\r\n")
        first.send(head("POST", "/files/", {"Upload-Length": 3, "Connection": "close"}))
        reply = first.reply()
        path = reply.fields["location"]
        count.create(path, 3)
        created = text("201 Created", f"Location: {path}", "Content-Length: 0", "Connection: close")
        closed_behind(first, reply.whole, created)
        second.send(patch(path, 0, 3).replace(b" HTTP/1.1\r\n", b" HTTP/1.0\r\n") + b"abc")
        count.append(path, 0, b"abc")
        appended = text("204 No Content", "Upload-Offset: 3", "Connection: close")
        closed_behind(second, second.take(len(appended)), appended)
        closed_behind(third, third.take(len(NO_SUCH_PATH)), NO_SUCH_PATH)


def shards():
    """No two servers give the same id, and each id of a server with `--shard` begins with its byte."""
    for words, digits in ((), ""), (("--shard", 0), "00"), (("--shard", 26), "1a"), (("--shard", 255), "ff"):
        paths = []
        for _ in range(2):
            with served(1, 1, more=words) as (server, count), Client(server, count) as client:
                paths += [client.create(1) for _ in range(4)]
                client.end()
        same(len(set(paths)), 8, f"how many ids of {paths} differ")
        wrong = [path for path in paths if not path.startswith(f"/files/{digits}")]
        same(wrong, [], f"which ids do not begin with {digits}")


def dropped_head():
    """A connection is dropped within its second head, and another one begins."""
    with served(2, 2) as (server, count):
        with Client(server, count) as first:
            both = head("POST", "/files/", {"Upload-Length": 11}) + patch(NOWHERE, 0, 11)
            first.send(both[:100])
            first.created(11)
        with Client(server, count) as second:
            second.fetch(second.create(0))
            second.end()


# The number of clients of `together`, and of bytes in the upload to which all of them append.
CLIENTS = 16
SHARED = 16

# The numbers of the clients that send a byte at a time, send no message at all, leave within a body, and stop sending
# within a body and wait for the end.
SLOW, CONFUSED, GONE, SILENT = 3, 6, 9, 12


def letter(number):
    """The byte that a client appends to the shared upload."""
    return b"%x" % number


def grow(client, more):
    """The path of a new upload of `3 + more` bytes, which is filled, with a PATCH at an old offset on the way."""
    path = client.create(3 + more)
    client.put(path, 0, b"abc")
    client.look(path)
    client.put(path, 1, b"late")
    client.put(path, 3, b"0123456789abcdef"[:more])
    client.look(path)
    client.fetch(path)
    return path


def clear(client, path):
    """Removes an upload, and checks that it is gone."""
    client.remove(path)
    client.look(path)
    client.put(path, 0, b"abc")
    client.remove(path)


def compete(client, number, shared, meeting, winners):
    """Sends a byte for each offset of the shared upload, at the same moment as all others, and notes where it wins."""
    for offset in range(SHARED):
        try:
            meeting.wait(MAX_WAIT)
        except threading.BrokenBarrierError:
            raise AssertionError(f"not all clients came to offset {offset} in time") from None
        if client.wins(shared, offset, letter(number)):
            winners[offset].append(number)


def leave(client, number, broken_off):
    """Ends a client: most of them stop sending. Notes the upload that the client leaves within a body."""
    if number in (GONE, SILENT):
        broken_off.append(client.break_off())
    if number == CONFUSED:
        client.send(b"nonsense\r\n\r\n")
    if number != GONE:
        client.end(BAD_HEAD if number == CONFUSED else b"")


def resume(client, path):
    """Looks at an upload that was broken off, once the server has noticed that, and completes it."""
    soon(lambda: client.offset(path) == 4, "the bytes that came of a body are stored")
    client.look(path)
    client.put(path, 4, b"efghij")
    client.fetch(path)


def together(lines=True):
    """Sixteen clients work at once, each with its own uploads and with one that all share: one wins each of its
    offsets."""
    winners = [[] for _ in range(SHARED)]
    broken_off = []
    meeting = threading.Barrier(CLIENTS)
    with served(CLIENTS + 2, CLIENTS + 2, lines=lines) as (server, count), Client(server, count) as first:
        shared = first.create(SHARED)

        def visit(number):
            with Client(server, count, slow=number == SLOW) as client:
                grow(client, number)
                compete(client, number, shared, meeting, winners)
                second = grow(client, number // 2)
                if number % 2:
                    clear(client, second)
                leave(client, number, broken_off)

        at_once(visit, CLIENTS, meeting)
        for offset, numbers in enumerate(winners):
            same(len(numbers), 1, f"how many clients won offset {offset}")
            count.append(shared, offset, letter(numbers[0]))
        with Client(server, count) as last:
            last.look(shared)
            last.fetch(shared)
            for path in broken_off:
                resume(last, path)
            last.end()
        first.end()


def reported():
    """The same is true of a server that keeps its events for the report."""
    together(lines=False)


# The number of clients of `crowd`, of visits of each, and of connections that may be open at a time.
CROWD, TIMES, MAX_OPEN = 8, 5, 4


def crowd():
    """Eight clients come five times each, four may be open at a time, and each continues what it has begun."""
    open_now = []
    with served(CROWD * TIMES, MAX_OPEN) as (server, count):

        def come_often(number):
            begun = None
            for _ in range(TIMES):
                with Client(server, count) as client:
                    if begun:
                        client.put(begun, 1, b"b")
                    begun = client.create(2)
                    open_now.append(number)
                    time.sleep(0.01)
                    below(len(open_now), MAX_OPEN + 1, "how many are open at a time")
                    client.put(begun, 0, b"a")
                    open_now.remove(number)

        at_once(come_often, CROWD)


# The number of clients of `largest`, and by how many bytes some of their bodies exceed the largest size.
LARGE = 8
FAR_MORE = 8 * MIB


def in_chunks(path, body):
    """A PATCH whose body comes in one chunk."""
    return patch_in_chunks(path) + b"%x\r\n" % len(body) + body + b"\r\n0\r\n\r\n"


def fill(client, size):
    """Uploads of exactly the largest size are accepted, with and without a known length; one byte more is refused."""
    body = b"x" * size
    client.hear(head("OPTIONS", "/files/", {}), what_is_served(size))
    client.hear(head("POST", "/files/", {"Upload-Length": size + 1}), TOO_LONG)
    path = client.create(size)
    client.put(path, 0, body)
    client.fetch(path)
    path = client.create(None)
    client.put(path, 0, body)
    client.hear(patch(path, size, 1) + b"x", TOO_MUCH)
    named = {"Content-Type": MEDIA_TYPE, "Upload-Offset": size, "Upload-Length": size + 1}
    client.hear(head("PATCH", path, named), DECLARED_TOO_LONG)


def overflow(client, size, number):
    """Sends a body that is too large, by one byte or by many, with its length or in a chunk, and then reads the
    refusal."""
    path = client.create(None)
    body = b"x" * (size + (1 if number % 4 < 2 else FAR_MORE))
    message = in_chunks(path, body) if number % 2 else patch(path, 0, len(body)) + body
    client.hear(message, BODY_TOO_LARGE)
    client.end()


def largest():
    """Eight clients send bodies and make uploads of exactly the largest size, which is accepted, and larger ones:
    413."""
    for size in (5, MIB):
        with served(LARGE, LARGE, size) as (server, count):

            def visit(number):
                with Client(server, count) as client:
                    fill(client, size)
                    overflow(client, size, number)

            at_once(visit, LARGE)


# The number of bodies that `many_bodies` appends to an upload, their bytes, and the largest size of its uploads. A body
# of this size is kept as it came, and a smaller one is copied.
BODIES = 96
KEPT_BODY = 16_384
OF_BODIES = 4 * MIB


def numbered(number, size=KEPT_BODY):
    """A body whose bytes show its number and their place in it."""
    return b"".join(b"%04d%04x" % (number, place) for place in range(size // 8))


def lay_bodies(client, path, first):
    """Appends bodies one after another, every tenth at a wrong offset first, and returns their bytes in all."""
    for number in range(first, first + BODIES):
        offset = (number - first) * KEPT_BODY
        if number % 10 == 0:
            client.put(path, offset + 1, numbered(number))
        client.put(path, offset, numbered(number))
    return BODIES * KEPT_BODY


def many_bodies():
    """Bodies of one upload come over one connection, then those of another, a small one, and one that breaks off: the
    bytes are right, also after the first upload is removed."""
    with served(2, 2, OF_BODIES) as (server, count):
        with Client(server, count) as client:
            first, second = client.create(BODIES * KEPT_BODY), client.create(OF_BODIES)
            lay_bodies(client, first, 0)
            client.fetch(first)
            offset = lay_bodies(client, second, BODIES)
            client.remove(first)
            client.put(second, offset, numbered(0, 1024))
            offset += 1024
            client.send(patch(second, offset, 2 * KEPT_BODY) + numbered(1))
            count.append(second, offset, numbered(1))
        with Client(server, count) as client:
            soon(lambda: client.offset(second) == offset + KEPT_BODY, "the bytes that came of a body are stored")
            offset += KEPT_BODY
            while offset < OF_BODIES:
                body = numbered(2, min(2 * KEPT_BODY, OF_BODIES - offset))
                client.put(second, offset, body)
                offset += len(body)
            client.fetch(second)
            client.end()


# The seconds for which an idle server is watched, and the most processor time that it may take.
IDLE = 2
MAX_WORK = 0.1


def asleep():
    """A server sleeps after it has served, while clients wait within a head, within a body and between two messages."""
    with served(3, 3) as (server, count), Client(server, count) as first:
        path = first.create(10)
        grow(first, 7)
        with Client(server, count) as second, Client(server, count) as third:
            third.put(third.create(1), 0, b"a")
            second.send(patch(path, 0, 10) + b"ab")
            third.send(b"GET /fi")
            time.sleep(0.3)
            before = server.seconds()
            time.sleep(IDLE)
            below(server.seconds() - before, MAX_WORK, f"processor time in {IDLE} seconds with nothing to do")
            second.send(b"cdefghij")
            same(second.reply().whole, count.append(path, 0, b"abcdefghij"), "the reply to a PATCH")
            third.send(head("GET", path, {})[len(b"GET /fi") :])
            same(third.reply().whole, count.fetch(path), "the reply to a GET")
            second.end()
            third.end()
        first.end()


def hear(server, line):
    """Waits for this line on standard error, and returns the seconds until it came. The lines before it must be lines
    of `--status`."""
    start = time.monotonic()
    while time.monotonic() - start < MAX_WAIT:
        select.select([server.process.stderr], [], [], MAX_WAIT)
        said = server.process.stderr.readline().decode()
        if said == line:
            return time.monotonic() - start
        same(said.startswith("up_server: uploads "), True, f"whether {said!r} says how the server stands")
    raise AssertionError(f"{line!r} wasn't said, but {said!r}")


def status():
    """With `--status 1` the server reports its state each second, and once at the end."""
    with served(3, 3, more=("--status", 1)) as (server, count):
        hear(server, count.stands(0))
        with Client(server, count) as first, Client(server, count) as second, Client(server, count) as third:
            grow(first, 7)
            second.put(second.create(1), 0, b"a")
            path = third.create(None)
            third.put(path, 0, b"abc")
            hear(server, count.stands(3))
            below(0.5, hear(server, count.stands(3)), "seconds from one line to the next")
            third.remove(path)
            for client in (first, third):
                client.end()
            hear(server, count.stands(1))
            second.end()
        hear(server, count.stands(0))
        same(server.process.stderr.read(), b"", "what is said behind the line at the end")
    with served(1, 1, more=("--status", 86_400)) as (server, count), Client(server, count) as client:
        grow(client, 7)
        client.end()
        below(hear(server, count.stands(0)), 2, "seconds until the only line of a day")


def status_of_waiting():
    """If nobody reads the lines of events, the events wait and are counted, and no request waits."""
    reader, writer = os.pipe()
    os.set_blocking(writer, False)
    with contextlib.suppress(BlockingIOError):
        while os.write(writer, bytes(1 << 16)):
            pass
    os.set_blocking(writer, True)
    count = Count()
    with Server(program, "--lanes", "1", "--capacity", "4", "--events", "--status", "1", sink=writer) as server:
        with Client(server, count) as client:
            path = client.create(20)
            for offset in range(10):
                client.put(path, offset, b"x")
            hear(server, count.stands(1, [10]))
            os.close(writer)
            os.read(reader, 1 << 20)
            hear(server, count.stands(1, [0]))
    os.close(reader)


CASES = [
    in_turn, one_by_one, shards, dropped_head, together, reported, crowd, largest, many_bodies, asleep, status,
    status_of_waiting,
]

program, names = words_of(__doc__)
sys.exit(try_all(CASES, names))
