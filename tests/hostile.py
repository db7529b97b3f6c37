#!/usr/bin/env python3
"""Tries slow, rude and vanishing clients against `up serve`: they must not harm any other client.

    tests/hostile.py [--program PATH] [NAME..]

It needs only Python 3 and Linux, and takes a minute or two. For each case, one line says whether it passed. The last
line is `N passed, M failed`, and the exit status is 1 if a case failed.
"""
import contextlib
import fcntl
import os
import random
import select
import socket
import struct
import sys
import termios
import threading
import time

from serving import (
    MAX_WAIT, UNHEARD, Connection, Server, at_once, below, events_of, head, patch, patch_in_chunks, path_of, same,
    soon, try_all, words_of,
)

MIB = 1 << 20

# How many times as long as alone a fast client may take next to others, and how many seconds more.
MAX_TIMES = 3
MAX_MORE = 0.5

server = None


def connect():
    return Connection(server)


def reset(connection):
    """Closes a connection by a reset: data that the server hasn't read yet is lost."""
    connection.socket.setsockopt(socket.SOL_SOCKET, socket.SO_LINGER, struct.pack("ii", 1, 0))
    connection.socket.close()


def filled(connection, body):
    """The path of a new, complete upload with these bytes."""
    path = connection.make(len(body))
    same(connection.append(path, 0, body).status, 204, "the status of a PATCH")
    return path


def holds(connection, path, body):
    """Checks that the upload has these bytes."""
    reply = connection.ask("GET", path)
    same(reply.status, 200, "the status of a GET")
    same(reply.body == body, True, "whether the bytes came back")


def fast():
    """The seconds that a fast client takes for 300 small PATCHes, and for 8 MiB in one PATCH that it fetches back."""
    body = os.urandom(8 * MIB)
    start = time.monotonic()
    with connect() as connection:
        path = connection.make(300)
        for offset in range(300):
            same(connection.append(path, offset, b"x").status, 204, "the status of a small PATCH")
        holds(connection, filled(connection, body), body)
    return time.monotonic() - start


def not_slowed(alone, what):
    """Checks that a fast client now takes no longer than alone, apart from the noise of a machine that has other
    work."""
    below(fast(), MAX_TIMES * alone + MAX_MORE, f"seconds of a fast client {what} ({alone:.3f} alone)")


def slow_clients():
    """40 clients at a byte a second, half of them in a head and half in a body, don't slow a fast one, and are
    served."""
    alone = fast()
    with connect() as connection:
        paths = [connection.make(8) for _ in range(40)]

    def slow(number):
        path = paths[number]
        with connect() as connection:
            if number % 2:
                connection.send(patch(path, 0, 8))
                rest, status = b"slow,ly!", 204
            else:
                message = head("HEAD", path, {})
                connection.send(message[:-8])
                rest, status = message[-8:], 200
            for byte in rest:
                time.sleep(1)
                connection.send(bytes([byte]))
            same(connection.reply(bare=True).status, status, "the status of a slow client")

    def beside(number):
        if number:
            return slow(number - 1)
        time.sleep(0.5)
        for _ in range(3):
            not_slowed(alone, "beside 40 slow ones")

    at_once(beside, 41)
    with connect() as connection:
        for number in range(1, 40, 2):
            holds(connection, paths[number], b"slow,ly!")


def dropped_at_once():
    """200 clients that connect and drop at once, half of them by a reset, leave nothing behind and slow nobody."""
    alone = fast()
    threads, files = server.status("Threads"), server.descriptors()
    for number in range(200):
        connection = connect()
        if number % 2:
            reset(connection)
        else:
            connection.socket.close()
    not_slowed(alone, "behind 200 dropped ones")
    soon(lambda: server.status("Threads") <= threads, "the threads of the dropped connections have ended")
    soon(lambda: server.descriptors() <= files, "their sockets are closed")


def few_files():
    """With `ulimit -n 64`, 100 clients that stay are all served in the end, and waiting for them costs nothing."""
    with Server(program, files=64) as narrow:
        clients = [Connection(narrow) for _ in range(100)]
        time.sleep(0.5)
        before = narrow.seconds()
        time.sleep(2)
        below(narrow.seconds() - before, 0.2, "processor time in two seconds out of descriptors")
        for number, client in enumerate(clients):
            path = client.make(3)
            same(client.append(path, 0, b"abc").status, 204, f"the status of a PATCH of client {number}")
            client.socket.close()
        with Connection(narrow) as connection:
            holds(connection, path, b"abc")


def few_open():
    """With `--open 4`, 100 clients are served, four at a time: each is served once it is let in."""
    with Server(program, "--open", "4") as narrow:

        def visit(number):
            with Connection(narrow) as connection:
                body = bytes([number]) * 100
                holds(connection, filled(connection, body), body)

        at_once(visit, 100)
        stay = [Connection(narrow) for _ in range(4)]
        for client in stay:
            client.make(1)
        late = Connection(narrow)
        late.send(head("OPTIONS", "/files/", {}))
        late.socket.settimeout(0.5)
        try:
            late.reply()
            raise AssertionError("a fifth client was let in")
        except TimeoutError:
            stay.pop().socket.close()
        late.socket.settimeout(10)
        same(late.reply().status, 204, "the status of the fifth client, once another has gone")
        for client in [*stay, late]:
            client.socket.close()


def burst():
    """1,000 clients that connect at once are all served while they stay, and leave nothing behind."""
    threads = server.status("Threads")
    start = time.monotonic()
    clients = [connect() for _ in range(1000)]
    for client in clients:
        client.send(head("OPTIONS", "/files/", {}))
    for client in clients:
        same(client.reply().status, 204, "the status")
    below(time.monotonic() - start, 3, "seconds for 1,000 clients")
    for client in clients:
        client.socket.close()
    soon(lambda: server.status("Threads") <= threads, "the threads of the connections have ended")


def never_reads():
    """Four clients that ask for 64 MiB and never read slow nobody; once they drop, nothing of them is left."""
    alone = fast()
    body = os.urandom(64 * MIB)
    with connect() as connection:
        path = filled(connection, body)
    threads = server.status("Threads")
    clients = [connect() for _ in range(4)]
    for client in clients:
        client.send(head("GET", path, {}))
    time.sleep(0.5)
    not_slowed(alone, "beside four that never read")
    with connect() as connection:
        holds(connection, path, body)
        same(connection.ask("DELETE", path).status, 204, "the status of a DELETE")
        same(connection.ask("GET", path).status, 404, "the status of a GET behind it")
    for client in clients[:2]:
        reset(client)
    client = clients[2]
    reply = client.reply()
    same(reply.body == body, True, "whether a client that reads at last gets the bytes, though the upload was removed")
    for client in clients[2:]:
        client.socket.close()
    soon(lambda: server.status("Threads") <= threads, "the threads of the connections have ended")


def vanish_in_a_body():
    """20 clients vanish in a body after some bytes: the next HEAD reports exactly these, and the upload is resumed
    there."""
    draw = random.Random(7)

    def vanish(number):
        body = draw.randbytes(200_000)
        cut = (0, 1, 199_999)[number] if number < 3 else draw.randrange(200_000)
        with connect() as connection:
            path = connection.make(len(body))
            connection.send(patch(path, 0, len(body)) + body[:cut])
            connection.socket.shutdown(socket.SHUT_WR)
            same(connection.is_closed(), True, "whether the server closes without an answer")
        with connect() as connection:
            same(connection.offset(path), cut, "the offset")
            same(connection.append(path, cut, body[cut:]).status, 204, "the status of the rest")
            holds(connection, path, body)

    at_once(vanish, 20)


def reset_in_a_body():
    """20 clients reset in a body: HEAD reports at most what was sent, and the stored bytes are a prefix of it."""
    draw = random.Random(8)
    threads = server.status("Threads")
    cut_off = []
    for _ in range(20):
        body, cut = draw.randbytes(100_000), draw.randrange(1, 100_000)
        connection = connect()
        path = connection.make(len(body))
        connection.send(patch(path, 0, len(body)) + body[:cut])
        reset(connection)
        cut_off.append((path, body, cut))
    soon(lambda: server.status("Threads") <= threads, "the threads of the connections have ended")
    with connect() as connection:
        for path, body, cut in cut_off:
            offset = connection.offset(path)
            below(offset, cut + 1, "the offset")
            same(connection.append(path, offset, body[offset:]).status, 204, "the status of the rest")
            holds(connection, path, body)


# A POST of 75 bytes makes an upload of 11 bytes. The head of the PATCH that fills it ends after 249 bytes, and its body
# after 260.
POST_END, HEAD_END, BODY_END = 75, 249, 260


def send_front(connection, count):
    """Sends the first `count` bytes of the two messages, the PATCH once the POST is answered. Returns the path if there
    is one."""
    post = head("POST", "/files/", {"Upload-Length": 11})
    same(len(post), POST_END, "the bytes of the POST")
    connection.send(post[:count])
    if count < POST_END:
        return None
    reply = connection.reply()
    same(reply.status, 201, "the status of the POST")
    path = reply.fields["location"]
    message = patch(path, 0, 11) + b"hello world"
    same(POST_END + len(message), BODY_END, "the bytes of both messages")
    connection.send(message[: count - POST_END])
    return path


def stands_behind(connection, path, count):
    """Checks that the upload exists if the POST was complete, and has exactly the bytes of the body that were sent."""
    if path is None:
        return same(connection.ask("HEAD", path_of(count)).status, 404, f"the status behind {count} bytes")
    same(connection.offset(path), max(0, count - HEAD_END), f"the offset behind {count} bytes")


def half_close_behind(narrow, count):
    """Half-closes after `count` bytes, and returns the path. A head that breaks off is refused; a body that breaks off
    has no answer."""
    with Connection(narrow) as connection:
        path = send_front(connection, count)
        connection.socket.shutdown(socket.SHUT_WR)
        if count not in (0, POST_END) and count < HEAD_END:
            same(connection.reply().body, b"1 BadHead\n", f"the answer behind {count} bytes")
        if count == BODY_END:
            same(connection.reply().status, 204, "the status of the PATCH")
        same(connection.is_closed(), True, f"whether the server closes behind {count} bytes")
    with Connection(narrow) as connection:
        stands_behind(connection, path, count)
    return path


def have_arrived(connections, port):
    """Whether the server has read everything that these connections sent: nothing waits at either end."""
    waiting = sum(
        struct.unpack("i", fcntl.ioctl(connection.socket, termios.TIOCOUTQ, bytes(4)))[0] for connection in connections
    )
    with open("/proc/net/tcp", encoding="ascii") as file:
        lines = [line.split() for line in file][1:]
    unread = [line[4] for line in lines if line[1].endswith(f":{port:04X}") and not line[4].endswith(":00000000")]
    return waiting == 0 and not unread


def events_behind(count):
    """The events of an upload whose two messages broke off after `count` bytes."""
    offset = max(0, count - HEAD_END)
    told = ["1 post-create 0/11 done", f"2 post-receive {offset}/11 done", "3 post-finish 11/11 done"]
    return told[: 1 + (offset > 0) + (offset == 11)]


def break_off_anywhere():
    """A POST and a PATCH break off after each byte, by half-closes and by resets: exactly what came is kept and
    reported."""
    counts = range(BODY_END + 1)
    size = len(counts)
    with Server(program, "--connections", str(3 * size + 2)) as narrow:
        with Connection(narrow) as other:
            steady = other.make(2 * size)
            threads = narrow.status("Threads")
            wanted = {steady: ["1 post-create 0/522 done"]}
            for count in counts:
                path = half_close_behind(narrow, count)
                wanted[path] = events_behind(count)
                same(other.append(steady, count, b"x").status, 204, "the status of a PATCH beside them")
            connections = [Connection(narrow) for _ in counts]
            paths = [send_front(connections[count], count) for count in counts]
            soon(lambda: have_arrived(connections, narrow.port), "the server has read what was sent")
            for count in counts:
                reset(connections[count])
                same(other.append(steady, size + count, b"y").status, 204, "the status of a PATCH beside them")
                wanted[paths[count]] = events_behind(count)
            soon(lambda: narrow.status("Threads") <= threads, "the threads of the connections have ended")
            with Connection(narrow) as connection:
                for count in counts:
                    stands_behind(connection, paths[count], count)
            holds(other, steady, b"x" * size + b"y" * size)
        wanted[steady] += [f"{number + 1} post-receive {number}/522 done" for number in range(1, 2 * size + 1)]
        wanted[steady].append("524 post-finish 522/522 done")
        del wanted[None]
        same(narrow.process.wait(MAX_WAIT), 0, "the status of the server")
        same(events_of(narrow.output()), wanted, "the events of each upload")


def vanish_in_chunks():
    """A client vanishes between and inside chunks: the bytes of the chunks that came are kept."""
    for sent, offset in ((b"5\r\nabcde\r\n", 5), (b"5\r\nabcde\r\n5\r\nfg", 7), (b"5\r\nab", 2)):
        with connect() as connection:
            path = connection.make(10)
            connection.send(patch_in_chunks(path) + sent)
            connection.socket.shutdown(socket.SHUT_WR)
            same(connection.is_closed(), True, "whether the server closes without an answer")
        with connect() as connection:
            same(connection.offset(path), offset, "the offset")


def drop_in_a_head():
    """A connection that drops in a head changes nothing for another connection."""
    with connect() as other:
        path = other.make(10)
        for number in range(10):
            message = patch(path, number, 1) + b"y"
            with connect() as connection:
                connection.send(message[: 20 + 10 * number])
            same(other.offset(path), number, "the offset behind half a head")
            same(other.append(path, number, b"x").status, 204, "the status of a PATCH")
        holds(other, path, b"x" * 10)


def begun_after():
    """A second connection, begun after a reply to the first, sees what the first was told."""
    for number in range(200):
        body = b"%03d" % number
        with connect() as first:
            path = first.make(6)
            same(first.append(path, 0, body).status, 204, "the status of the first PATCH")
            with connect() as second:
                same(second.offset(path), 3, "the offset that the second connection sees")
                same(second.append(path, 3, body).status, 204, "the status of the second PATCH")
            holds(first, path, body + body)


def rivals():
    """Eight clients append to one upload at the same offsets: exactly one of them wins each time."""
    size = 200
    with connect() as connection:
        path = connection.make(size)
    wins = []

    def rival(number):
        with connect() as connection:
            offset = 0
            while offset < size:
                reply = connection.append(path, offset, bytes([number]))
                if reply.status == 204:
                    wins.append((offset, number))
                elif reply.status != 409:
                    raise AssertionError(f"status {reply.status}")
                offset = connection.offset(path)

    at_once(rival, 8)
    with connect() as connection:
        same([offset for offset, _ in sorted(wins)], list(range(size)), "the offsets that were won")
        holds(connection, path, bytes(number for _, number in sorted(wins)))


def half_closed():
    """A client that sends three requests at once and closes its half gets its three replies."""
    with connect() as connection:
        connection.send(b"no head and no line either")
        connection.socket.shutdown(socket.SHUT_WR)
        same(connection.reply().status, 400, "the status of half a line")
    with connect() as connection:
        path = connection.make(3)
        connection.send(patch(path, 0, 3) + b"abc" + head("HEAD", path, {}) + head("GET", path, {}))
        connection.socket.shutdown(socket.SHUT_WR)
        same(connection.reply().status, 204, "the status of the PATCH")
        same(connection.reply(bare=True).fields["upload-offset"], "3", "the offset of the HEAD")
        same(connection.reply().body, b"abc", "the body of the GET")
        same(connection.is_closed(), True, "whether the server closes")


def nonsense():
    """Data that is no message is answered with its status, and closes only its own connection."""
    with connect() as other:
        path = other.make(3)
        for message, status in (
            (b"\x16\x03\x01\x02\x00\x01\x00\x01\xfc\x03\x03" + bytes(100) + b"\n", 400),
            (b"GET /files/ HTTP/1.1\r\nHost: a\r\n" + b"x: y\r\n" * 3000, 431),
            (b"GET /files/ HTTP/1.1\r\n" + b"x: y\r\n" * 65 + b"\r\n", 431),
            (b"POST /files/ HTTP/1.1\r\nContent-Length: 1\r\nContent-Length: 1\r\n\r\n", 400),
            (b"POST /files/ HTTP/1.1\r\nTransfer-Encoding: gzip\r\n\r\n", 501),
            (patch(path, 0, 1 << 62), 413),
        ):
            with connect() as connection:
                connection.send(message)
                reply = connection.reply()
                same((reply.status, reply.fields.get("connection")), (status, "close"), f"the reply to {message[:40]!r}")
        same(other.append(path, 0, b"abc").status, 204, "the status of another connection")
        holds(other, path, b"abc")


def refused_unread():
    """A client whose body is refused unread gets the answer, though it sends 8 MiB of the body before it reads."""
    with connect() as connection:
        path = connection.make(3)
    for _ in range(20):
        with connect() as connection:
            connection.send(patch(path, 0, 1 << 62) + bytes(8 * MIB))
            same(connection.reply().status, 413, "the status")
            connection.socket.shutdown(socket.SHUT_WR)
            same(connection.is_closed(), True, "whether the server closes")


def larger(path, chunked):
    """A PATCH of 8 MiB."""
    if not chunked:
        return patch(path, 0, 8 * MIB) + bytes(8 * MIB)
    chunk = b"10000\r\n" + bytes(0x10000) + b"\r\n"
    return patch_in_chunks(path) + 128 * chunk + b"0\r\n\r\n"


def larger_than_taken():
    """Eight clients send 8 MiB to a server that takes 1 MiB, four of them in chunks: each gets its whole 413, then the
    end."""
    wanted = b"5 BodyTooLarge\n"
    with Server(program, size=MIB) as narrow:

        def visit(number):
            with Connection(narrow) as connection:
                path = connection.make(3)
                connection.send(larger(path, number % 2))
                reply = connection.reply()
                whole = (reply.status, reply.fields.get("connection"), reply.body)
                same(whole, (413, "close", wanted), "the reply")
                connection.socket.shutdown(socket.SHUT_WR)
                same(connection.is_closed(), True, "whether the server closes, with nothing behind the reply")
            with Connection(narrow) as connection:
                same(connection.offset(path), 0, "the offset behind it")

        at_once(visit, 8)


def closed_but_held():
    """A client that doesn't close a connection that the server has closed keeps its place for two seconds, and no
    longer."""
    with Server(program, "--open", "1") as narrow:
        with Connection(narrow) as first, Connection(narrow) as second:
            first.send(b"nonsense\n")
            same(first.reply().status, 400, "the status of nonsense")
            start = time.monotonic()
            second.make(1)
            below(time.monotonic() - start, 4, "seconds until the next client is let in")


def dropped_on_and_on():
    """A client that is refused and then sends a byte five times a second also keeps its place for only two seconds."""
    with Server(program, "--open", "1") as narrow:
        with Connection(narrow) as first, Connection(narrow) as second:
            first.send(b"nonsense\n")
            same(first.reply().status, 400, "the status of nonsense")
            start = time.monotonic()
            second.send(head("OPTIONS", "/files/", {}))
            while not select.select([second.socket], [], [], 0.2)[0]:
                below(time.monotonic() - start, 4, "seconds until the next client is let in")
                with contextlib.suppress(ConnectionError):
                    first.send(b"x")
            same(second.reply().status, 204, "the status of the next client")


def lost_patience():
    """With `--patience 1` clients lose their places if they are silent, at once, in a head, in a body or after a
    request, or if they don't read; the bytes that came of the body stay."""
    with Server(program, "--patience", "1", "--open", "5") as narrow:
        with Connection(narrow) as connection:
            large = filled(connection, bytes(64 * MIB))
            path = connection.make(2000)
        clients = [Connection(narrow) for _ in range(5)]
        start = time.monotonic()
        clients[1].send(head("HEAD", path, {})[:-4])
        clients[2].send(patch(path, 0, 2000) + bytes(1000))
        same(clients[3].offset(large), 64 * MIB, "the offset of the large upload")
        clients[4].send(head("GET", large, {}))
        with Connection(narrow) as late:
            soon(lambda: late.offset(path) == 1000, "the bytes of the body that stopped are there")
            below(time.monotonic() - start, 4, "seconds until then")
        for client in clients[:4]:
            same(client.is_closed(), True, "whether the server has closed without an answer")
        time.sleep(max(0, start + 6 - time.monotonic()))
        same(len(clients[4].take(65 * MIB)) < 64 * MIB, True, "whether the client that didn't read got a part alone")
        for client in clients:
            client.socket.close()


def too_slow():
    """With `--least-rate 1000` a body at 100 bytes a second is ended after ten seconds, and its bytes stay; one at
    2,000 bytes a second continues, and so does a client that asks for little, but seldom."""
    with Server(program, "--least-rate", "1000") as other, Connection(other) as asking:
        paths = [asking.make(40_000) for _ in range(2)]

        def send(number):
            connection, piece = Connection(other), bytes(10 if number == 0 else 200)
            with connection, contextlib.suppress(ConnectionError):
                start = time.monotonic()
                connection.send(patch(paths[number], 0, 40_000))
                while time.monotonic() - start < 13:
                    if select.select([connection.socket], [], [], 0.1)[0]:
                        break
                    connection.send(piece)
            return time.monotonic() - start

        def work(number):
            if number == 0:
                below(send(0), 12, "seconds until the slow one is ended")
            elif number == 1:
                below(12.9, send(1), "seconds that the faster one goes on")
            else:
                for _ in range(7):
                    same(asking.offset(paths[0]) < 1200, True, "whether few bytes have come")
                    time.sleep(2)

        at_once(work, 3)
        soon(lambda: asking.offset(paths[1]) > 20_000, "the faster one's bytes are there")
        same(900 < asking.offset(paths[0]) < 1200, True, "whether the slow one's bytes are there")


def takes_slowly():
    """With `--least-rate 1000000` a client that takes the answer to a GET at 80 KB a second loses its place after ten
    seconds; one that takes 2 MB a second goes on, and so does one that takes small answers, but seldom."""
    with Server(program, "--least-rate", "1000000", "--open", "3") as other:
        with Connection(other) as asking:
            path = filled(asking, bytes(64 * MIB))
            small = filled(asking, b"small")
        is_over = threading.Event()

        def take(number):
            connection = Connection(other, room=4096)
            with connection, contextlib.suppress(ConnectionError):
                connection.send(head("GET", path, {}))
                start = time.monotonic()
                while time.monotonic() - start < 16 and not (number == 0 and is_over.is_set()):
                    same(len(connection.take(4000 if number == 0 else 100_000)) > 0, True, "whether more of it comes")
                    time.sleep(0.05)
            return time.monotonic() - start

        def work(number):
            if number == 0:
                take(0)
            elif number == 1:
                below(15.9, take(1), "seconds that the faster one goes on")
            elif number == 2:
                with Connection(other) as seldom:
                    for _ in range(16):
                        holds(seldom, small, b"small")
                        time.sleep(1)
            else:
                time.sleep(0.5)
                start = time.monotonic()
                with Connection(other) as late:
                    holds(late, small, b"small")
                is_over.set()
                below(9, time.monotonic() - start, "seconds until a place is free, and those for which any rate is")
                below(time.monotonic() - start, 13, "seconds until a place is free")

        at_once(work, 4)


def events_unheard():
    """If the reader of the lines of events has gone, the server continues to serve, and says so once."""
    with Server(program, "--events", unheard=True) as other:
        with Connection(other) as connection:
            for number in range(100):
                body = b"%04d" % number
                holds(connection, filled(connection, body), body)
        other.process.kill()
        same(other.process.stderr.read(), UNHEARD, "what it says on standard error")


CASES = [
    slow_clients, dropped_at_once, few_files, few_open, burst, never_reads, vanish_in_a_body, reset_in_a_body,
    break_off_anywhere, vanish_in_chunks, drop_in_a_head, begun_after, rivals, half_closed, nonsense, refused_unread,
    larger_than_taken, closed_but_held, dropped_on_and_on, lost_patience, too_slow, takes_slowly, events_unheard,
]

program, names = words_of(__doc__)
with Server(program) as server:
    sys.exit(try_all(CASES, names))
