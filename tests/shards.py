#!/usr/bin/env python3
"""Runs four shards, processes of `up serve --shard K`, behind each of the proxies of examples/shards, and compares the
replies to clients, and the events that the shards write by `--events`, with what docs/RUNNING.md says about shards.

    tests/shards.py [--program PATH] [NAME..]

It needs Python 3, Linux, and Debian's `nginx-light` and `haproxy`. If a proxy is missing, its cases are skipped.
Everything is on the loopback, where each client has an address of its own. It takes a minute.

If events are read, those of all shards together must be exactly the acknowledged ones: those of each upload, in order,
each once, and all from the shard that the upload's id names. Of a change without an answer there are all events or
none.

For each case, one line says whether it passed. The last line is `N passed, M failed`, and the exit status is 1 if a
case failed.
"""
import contextlib
import functools
import os
import shutil
import sys
import threading
import time
import types

from serving import Connection, at_once, below, same, soon, try_all, words_of
from sharded import SHARDS, Client, HaproxyOfShards, NginxOfShards, Shards, hold, shard_of

# The number of files, of clients that upload them, and of parts of a file that has parts.
FILES, CLIENTS, PARTS = 200, 20, 3

# The number of clients that work while shards end, and the seconds between one end and the next.
BUSY, PAUSE = 12, 1.5

# The number of clients that are compared when a shard is added.
MANY = 100

# The shard that has to end while it still has events to hand over, and the number of uploads that each of eight clients
# makes for that: together some 140,000 bytes of lines, of which a pipe holds 65,536.
ENDING, CROWD = 1, 300

# The content of an upload if it doesn't matter.
SMALL = b"hello world"


def on_each(front):
    """Clients, one for each shard, whose creations go to that shard."""
    found = {}
    for number in range(8 * SHARDS):
        client = Client(front, 100 + number)
        found.setdefault(shard_of(client.make(len(SMALL))), client)
        if found[shard_of(client.path)] is not client:
            found[shard_of(client.path)].told.update(client.told)
    same(sorted(found), list(range(SHARDS)), "the shards to which creations go")
    return [found[number] for number in range(SHARDS)]


class Behind:
    """The cases, with this kind of proxy."""

    def __init__(self, kind):
        self.kind = kind

    @contextlib.contextmanager
    def both(self, *words, changes=()):
        """Four shards that write events, with these words, and the proxy in front of them, with these changes."""
        with Shards(program, "--events", *words) as shards, self.kind(shards, *changes) as front:
            # By the time both hold, a proxy that checks the health of shards has done so.
            probe = Client(front, 99)
            soon(lambda: probe.status("/files", "OPTIONS") == 204, "the proxy finds a shard")
            soon(lambda: {probe.status(f"/files/{number:02x}{0:030x}") for number in range(SHARDS)} == {404}, "and each")
            yield shards, front

    def files(self):
        """200 files, half of which come in parts, arrive complete at the shards of their clients."""
        with self.both() as (shards, front):
            clients = [Client(front, number) for number in range(CLIENTS)]

            def work(number):
                client = clients[number]
                for file in range(FILES // CLIENTS):
                    body = os.urandom(1_000 + 7_919 * file)
                    path = client.fill(body) if file % 2 else self.in_parts(client, body)
                    client.holds(path, body)
                    if file % 5 == 4:
                        same(client.remove(path, len(body)), 204, "the status of a DELETE")
                        same(client.status(path), 404, "the status afterwards")

            at_once(work, CLIENTS)
            used = [{shard_of(path) for path in client.told} for client in clients]
            same([len(of_client) for of_client in used], CLIENTS * [1], "how many shards each client has")
            same(set.union(*used), set(range(SHARDS)), "the shards of all clients")
            path = next(path for path, told in clients[0].told.items() if "post-terminate" not in told[-1])
            for number, server in enumerate(shards.running):
                with Connection(server) as direct:
                    wanted = 200 if number == shard_of(path) else 404
                    same(direct.ask("HEAD", path).status, wanted, f"whether shard {number} knows {path}")
            same(hold(shards.end_all(), clients), 0, "how many uploads nobody knows")
            return f"{sum(len(client.told) for client in clients)} uploads"

    @staticmethod
    def in_parts(client, body):
        """The path of a final upload with these bytes, whose parts are uploaded one after another."""
        size = -(-len(body) // PARTS)
        pieces = [body[start : start + size] for start in range(0, len(body), size)]
        parts = [client.fill(piece, upload_concat="partial") for piece in pieces]
        same(client.join(parts, len(body)), 201, "the status of a POST of the final upload")
        return client.path

    def portal(self):
        """Creations go by the field of a portal if there is one, and a final upload goes to its first part, from
        anywhere."""
        with self.both() as (shards, front):
            alike = [Client(front, number, X_Upload_Client="one") for number in range(8)]
            same(len({shard_of(client.make(3)) for client in alike}), 1, "how many shards one name has")
            names = [Client(front, 0, X_Upload_Client=f"name {number}") for number in range(4 * SHARDS)]
            same(len({shard_of(client.make(3)) for client in names}) > 1, True, "whether several have several")
            ones = on_each(front)
            parts = [client.fill(SMALL, upload_concat="partial") for client in ones]
            for number, part in enumerate(parts):
                other = ones[(number + 1) % SHARDS]
                same(other.join([part, part], 2 * len(SMALL)), 201, "the status of a final upload from elsewhere")
                same(shard_of(other.path), number, "its shard")
                same(other.join(["http://a" + part], len(SMALL)), 201, "the same where the part's URL is whole")
                same(shard_of(other.path), number, "its shard")
            same(ones[0].join(parts[:2], 0), 400, "the status where one part is of another shard")
            same(ones[0].status(f"/files/{SHARDS:02x}{0:030x}"), 404, "the status of an upload of no shard")
            same(hold(shards.end_all(), [*alike, *names, *ones]), 0, "how many uploads nobody knows")

    def grows(self):
        """If a shard is added, creations go where they went, or a few to the new one; with a second proxy, to the
        same."""
        with Shards(program) as shards:
            went = []
            for count in (SHARDS - 1, SHARDS, SHARDS):
                with self.kind(types.SimpleNamespace(ports=shards.ports[:count])) as front:
                    went.append([shard_of(Client(front, number).make(3)) for number in range(MANY)])
        same(went[2], went[1], "the shards behind the second proxy")
        moved = [new for old, new in zip(*went[:2]) if new != old]
        same(set(moved), {SHARDS - 1}, "where those go now whose creations went elsewhere")
        below(len(moved), 2 * MANY / SHARDS, "how many these are")
        return f"{len(moved)} of {MANY} clients"

    def killed(self):
        """The uploads of a killed shard are answered 502 until it is back; others continue, and creations don't
        fail."""
        with self.both() as (shards, front):
            ones = on_each(front)
            paths = [client.make(len(SMALL)) for client in ones]
            for client, path in zip(ones, paths):
                same(client.append(path, 0, SMALL[:5], len(SMALL)), 204, "the status of a PATCH")
            gone = SHARDS - 1
            killed = set(ones[gone].told)
            shards.kill(gone)
            for client, path in zip(ones, paths):
                wanted = (502, 502) if shard_of(path) == gone else (200, 204)
                got = client.status(path), client.append(path, 5, SMALL[5:], len(SMALL))
                same(got, wanted, f"the statuses of a HEAD and a PATCH at shard {shard_of(path)}")
                if shard_of(path) != gone:
                    client.holds(path, SMALL)
            for number in range(CLIENTS):
                same(Client(front, number).status("/files", "OPTIONS"), 204, "the status of OPTIONS")
            other = ones[gone].fill(SMALL)
            same(shard_of(other) == gone, False, "whether a creation went to the shard that is gone")
            shards.start(gone)
            soon(lambda: ones[0].status(paths[gone]) == 404, "the shard that is there again knows nothing")
            soon(lambda: shard_of(ones[gone].make(3)) == gone, "creations go to the shard again")
            same(ones[gone].status(other), 200, "the status of what was made elsewhere meanwhile")
            same(hold(shards.end_all(), ones, killed), 0, "how many uploads nobody knows")

    @contextlib.contextmanager
    def ending(self, *changes):
        """Four shards, the proxy with these changes, and a client of each shard. Shard 1 is told to end, but its events
        aren't read meanwhile, so that it doesn't end yet."""
        with self.both("--grace", "60", changes=changes) as (shards, front):
            ones = on_each(front)
            shards.end(ENDING)
            reader, sink = os.pipe()
            server = shards.start(ENDING, sink=sink)
            os.close(sink)
            soon(lambda: shard_of(ones[ENDING].make(3)) == ENDING, "creations go to the shard that is there again")
            one = ones[ENDING]
            one.whole, one.begun = one.fill(SMALL), one.make(len(SMALL))
            same((shard_of(one.whole), shard_of(one.begun)), (ENDING, ENDING), "the shard of two more")
            at_once(lambda _: self.crowd(server), 8)
            server.end()
            with Connection(server) as direct:
                soon(lambda: direct.ask("POST", "/files/", upload_length=3).status == 503, "changes are refused")
            yield one
            text = []
            drain = threading.Thread(target=lambda: text.append(read_all(reader)))
            drain.start()
            same(server.process.wait(40), 0, "the status of the shard")
            drain.join()
            shards.running[ENDING] = None
            server.__exit__()
            shards.told.append((ENDING, text[0]))
            same(hold(shards.end_all(), ones), 8 * CROWD, "how many uploads nobody knows, but for who filled the pipe")

    @staticmethod
    def crowd(server):
        """Makes so many uploads at a shard itself that a pipe doesn't hold their events."""
        with Connection(server) as direct:
            for _ in range(CROWD):
                direct.make(3)

    def drains(self):
        """A shard that is ending gets no creation, its uploads are served, and it refuses changes of these itself."""
        with self.ending() as one:
            # This takes longer than nginx leaves the shard alone.
            for _ in range(60):
                same(shard_of(one.make(3)) == ENDING, False, "whether a creation went to the shard that ends")
                one.holds(one.whole, SMALL)
                same(one.status(one.begun), 200, "the status of a HEAD")
                same(one.append(one.begun, 0, SMALL, len(SMALL)), 503, "the status of a PATCH")
                time.sleep(0.1)

    def asks(self):
        """haproxy's health checks show that a shard is ending: soon creations go elsewhere, even without retries."""
        with self.ending(("retry-on conn-failure empty-response response-timeout 503", "retry-on none")) as one:
            soon(lambda: one.change("POST", None, "post-create 0/3", upload_length=3) == 201, "a creation is taken")
            for _ in range(30):
                same(shard_of(one.make(3)) == ENDING, False, "whether a creation went to the shard that ends")
                same(one.status(one.whole), 200, "the status of a HEAD")
                time.sleep(0.1)

    def rolls(self):
        """Each shard in turn is ended in order and restarted while clients work: no creation fails, and no event is
        lost."""
        with self.both() as (shards, front):
            over = threading.Event()
            clients = [Client(front, number) for number in range(BUSY)]
            ended = set()

            def work(number):
                client = clients[number]
                while not over.is_set():
                    self.one_file(client, ended)

            def roll():
                try:
                    for number in range(SHARDS):
                        time.sleep(PAUSE)
                        ended.add(number)
                        shards.end(number)
                        time.sleep(PAUSE / 3)
                        shards.start(number)
                    time.sleep(PAUSE)
                finally:
                    over.set()

            at_once(lambda number: work(number) if number < BUSY else roll(), BUSY + 1)
            events = shards.end_all()
            unknown = hold(events, clients)
            unanswered = sum(len(client.unanswered) for client in clients)
            same(unknown <= unanswered, True, f"whether {unknown} unknown uploads are of {unanswered} without an answer")
            total = sum(len(told) for client in clients for told in client.told.values())
            return f"{total:,} events of what was acknowledged, {unanswered} changes that weren't"

    @staticmethod
    def one_file(client, ended):
        """Makes an upload and completes it, as long as its shard takes it."""
        path = client.make(len(SMALL))
        for offset, body in ((0, SMALL[:6]), (6, SMALL[6:])):
            status = client.append(path, offset, body, len(SMALL))
            if status != 204:
                fits = status in (502, 503, 404) and shard_of(path) in ended
                return same(fits, True, f"whether {status} is of a shard that ends")
        reply = client.hear("GET", path)
        if reply is None or reply.status != 200:
            same(shard_of(path) in ended, True, f"whether {reply and reply.status} is of a shard that ended")
        else:
            same(reply.body, SMALL, "what a GET brings")

    CASES = [files, portal, grows, killed, drains, rolls]
    OF_HAPROXY = [asks]


def read_all(reader):
    """Reads a pipe until its end."""
    with open(reader, encoding="ascii") as file:
        return file.read()


def cases_of(kind):
    """The cases with one kind of proxy, with its name in theirs."""
    for case in Behind.CASES + (kind is HaproxyOfShards) * Behind.OF_HAPROXY:
        bound = functools.partial(case, Behind(kind))
        bound.__name__, bound.__doc__ = f"{kind.name}_{case.__name__}", case.__doc__
        yield bound


program, names = words_of(__doc__)
os.environ["PATH"] += ":/usr/sbin"
cases, passed_over = [], []
for kind, package in ((NginxOfShards, "nginx-light"), (HaproxyOfShards, "haproxy")):
    if shutil.which(kind.name):
        cases += cases_of(kind)
    else:
        passed_over.append(f"the cases with {kind.name}, which isn't installed (Debian's {package})")
sys.exit(try_all(cases, names, passed_over))
