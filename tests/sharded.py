"""Shared by `tests/shards.py` and `bench/shards.py`: servers that are shards, and the proxies of examples/shards in
front of them. The proxies have the lines of the examples, with other ports, so what people copy is what is tried. Also
the clients of `tests/shards.py`, which keep a count.
"""
import contextlib
import os
import random
import re
import socket
import subprocess
import tempfile

from fronted import replaced
from serving import ROOT, Connection, NginxServer, Server, events_of, free_port, head, numbered, patch, same, soon

EXAMPLE = os.path.join(ROOT, "examples", "shards")

# The number of shards in the examples, and the port of the first one.
SHARDS, FIRST_PORT = 4, 1080

# The most seconds that a graceful end may take.
MAX_END = 40

# The reply of a shard that is ending, and the status from a proxy for a shard that is gone.
CLOSED, GONE = (503, b"20 Closed\n"), 502


def quiet_ports(count):
    """This many free ports, from those that the system gives to no client: nobody else takes them while a shard is
    away."""
    ports = []
    with contextlib.ExitStack() as stack:
        while len(ports) < count:
            port, free = random.randrange(10_000, 30_000), stack.enter_context(socket.socket())
            with contextlib.suppress(OSError):
                free.bind(("127.0.0.1", port))
                ports.append(port)
    return ports


def shard_of(path):
    """The shard of an upload, by the first two digits of its id."""
    return int(path[len("/files/"):][:2], 16)


class Shard(Server):
    """A server whose ids begin with this byte, at this port, which ends in order when its input ends."""

    def __init__(self, program, number, port, *words, **how):
        self.reader, self.writer = os.pipe()
        super().__init__(program, "--shard", str(number), "--until-eof", *words, given=self.reader, **how)
        self.words[self.words.index("127.0.0.1:0")] = f"127.0.0.1:{port}"

    def __enter__(self):
        super().__enter__()
        os.close(self.reader)
        return self

    def limit(self):
        super().limit()
        os.close(self.writer)

    def __exit__(self, *rest):
        self.end()
        super().__exit__(*rest)

    def end(self):
        """Tells the server to end in order."""
        if self.writer is not None:
            os.close(self.writer)
            self.writer = None


class Shards:
    """This many shards for the time of a `with`, each at a port of its own, also if it ends and is restarted. `told`
    has the outputs of the shards that have ended, each with the shard's number."""

    def __init__(self, program, *words, count=SHARDS, **how):
        self.program, self.words, self.how = program, words, how
        self.ports = quiet_ports(count)
        self.told = []

    def __enter__(self):
        with contextlib.ExitStack() as stack:
            self.running = [stack.enter_context(self.started(number)) for number in range(len(self.ports))]
            stack.pop_all()
        return self

    def __exit__(self, *rest):
        for server in self.running:
            if server:
                server.__exit__(*rest)

    def started(self, number, **how):
        return Shard(self.program, number, self.ports[number], *self.words, **{**self.how, **how})

    def start(self, number, **how):
        """Starts a shard that has ended."""
        self.running[number] = self.started(number, **how).__enter__()
        return self.running[number]

    def take(self, number):
        """Takes the output of a shard that has ended."""
        server, self.running[number] = self.running[number], None
        output = server.output()
        self.told.append((number, output))
        server.__exit__(None, None, None)
        return output

    def kill(self, number):
        self.running[number].process.kill()
        self.running[number].process.wait()
        return self.take(number)

    def end(self, number):
        """Ends a shard in order, and takes its output."""
        server = self.running[number]
        server.end()
        same(server.process.wait(MAX_END), 0, f"the status of shard {number}")
        same(server.process.stderr.read(), b"", f"what shard {number} says")
        return self.take(number)

    def end_all(self):
        """Ends all shards that run, and returns the events of all uploads. Exactly one process must have reported each
        upload: its own shard."""
        for number, server in enumerate(self.running):
            if server:
                self.end(number)
        events = {}
        for number, output in self.told:
            for path, told in events_of(output).items():
                same(shard_of(path), number, f"the shard of {path}, by its id")
                same(path in events, False, f"whether another process has told of {path}")
                events[path] = told
        return events


def example(name, ports, *changes):
    """The lines of an example with these ports and changes. If there are fewer shards, the lines of the others are left
    out."""
    with open(os.path.join(EXAMPLE, name), encoding="ascii") as file:
        text = re.sub(r"(?m)^#.*\n", "", file.read())
    for number in range(len(ports), SHARDS):
        text = re.sub(rf"(?m)^.*\bup_{number:02x}\b.*\n", "", text)
    text, times = re.subn(r"127\.0\.0\.1:(\d+)", lambda found: f"127.0.0.1:{ports[int(found[1]) - FIRST_PORT]}", text)
    same(times, 2 * len(ports), f"how often {name} names a shard")
    for old, new in changes:
        text = replaced(text, old, new)
    return text


class NginxOfShards(NginxServer):
    """nginx in front of these shards."""

    name = "nginx"

    def __init__(self, shards, workers=1, connections=4096):
        super().__init__(self.lines_for, workers, connections=connections)
        self.shards = shards

    def lines_for(self, port, _):
        return example("nginx.conf", self.shards.ports, ("listen 80;", f"listen 127.0.0.1:{port};"))


class HaproxyOfShards:
    """haproxy in front of these shards, with these changes. It ends with the `with`."""

    name = "haproxy"

    def __init__(self, shards, *changes):
        self.shards, self.changes = shards, changes

    def __enter__(self):
        self.port = free_port()
        self.files = tempfile.TemporaryDirectory(prefix="up-haproxy-")
        path = os.path.join(self.files.name, "haproxy.cfg")
        with open(path, "w", encoding="ascii") as file:
            own = "bind :80", f"bind 127.0.0.1:{self.port}"
            file.write(example("haproxy.cfg", self.shards.ports, own, *self.changes))
        self.said = open(os.path.join(self.files.name, "said"), "w+", encoding="utf-8")
        self.process = subprocess.Popen(["haproxy", "-db", "-f", path], stdout=self.said, stderr=self.said)
        soon(lambda: self.listens() or self.process.poll() is not None, "haproxy listens")
        if self.process.poll() is not None:
            self.said.seek(0)
            raise AssertionError(f"haproxy doesn't start: {self.said.read()}")
        return self

    def __exit__(self, *_):
        self.process.terminate()
        self.process.wait()
        self.said.close()
        self.files.cleanup()

    def listens(self):
        with socket.socket() as probe:
            return probe.connect_ex(("127.0.0.1", self.port)) == 0

    def processes(self):
        return [self.process.pid]


class Client:
    """A client of a proxy, with an address of its own and with these fields in each of its requests. It notes the
    events of its acknowledged changes, and those of changes without an answer."""

    def __init__(self, front, number, **fields):
        self.front, self.address, self.fields = front, f"127.0.1.{1 + number}", fields
        self.connection = None
        self.told, self.unanswered = {}, []

    def hear(self, method, target, body=b"", **fields):
        """The reply to a message, over the existing connection or a new one; None if the connection ends without a
        reply."""
        if self.connection is None:
            self.connection = Connection(self.front, self.address)
        named = {name.replace("_", "-"): value for name, value in {**self.fields, **fields}.items()}
        message = head(method, target, named)
        if method == "PATCH":
            message = patch(target, fields.pop("at"), len(body)) + body
        reply = None
        with contextlib.suppress(OSError):
            self.connection.send(message)
            if self.connection.read or self.connection.more():
                reply = self.connection.reply(method == "HEAD")
        if reply is None or reply.fields.get("connection", "").lower() == "close":
            self.close()
        return reply

    def close(self):
        if self.connection:
            self.connection.socket.close()
        self.connection = None

    def change(self, method, path, *events, **more):
        """The status of a change of this upload, or of a creation if the path is None. Notes the events of the
        change."""
        reply = self.hear(method, path or "/files/", **more)
        if reply is None or reply.status == GONE:
            self.unanswered.append((path, list(events)))
            return GONE
        if reply.status in (201, 204):
            self.path = path or reply.fields["location"]
            self.told.setdefault(self.path, []).extend(events)
        elif reply.status == CLOSED[0]:
            same(reply.body, CLOSED[1], "what a shard says that refuses a change")
        return reply.status

    def make(self, size, **fields):
        """The path of a new upload."""
        same(self.change("POST", None, f"post-create 0/{size}", upload_length=size, **fields), 201, "the status of a POST")
        return self.path

    def append(self, path, offset, body, size):
        """The status of a PATCH with these bytes."""
        reached = offset + len(body)
        events = [f"post-receive {reached}/{size}", f"post-finish {size}/{size}"][: 1 + (reached == size)]
        return self.change("PATCH", path, *events, body=body, at=offset)

    def fill(self, body, **fields):
        """The path of a new upload with these bytes, which come in two bodies."""
        path, half = self.make(len(body), **fields), len(body) // 2
        same(self.append(path, 0, body[:half], len(body)), 204, "the status of a PATCH")
        same(self.append(path, half, body[half:], len(body)), 204, "the status of the second PATCH")
        return path

    def join(self, paths, size):
        """The status of a POST that joins these parts, and makes `path` the final upload."""
        events = [f"post-create {size}/{size}", f"post-finish {size}/{size}"]
        return self.change("POST", None, *events, upload_concat="final;" + " ".join(paths))

    def remove(self, path, size):
        return self.change("DELETE", path, f"post-terminate {size}/{size}")

    def status(self, path, method="HEAD"):
        reply = self.hear(method, path)
        return reply and reply.status

    def holds(self, path, body):
        """Checks that a GET returns these bytes."""
        reply = self.hear("GET", path)
        same((reply.status, reply.body == body), (200, True), f"the status of a GET of {path}, and whether the bytes came")


def hold(events, clients, killed=()):
    """Compares the events of all uploads with what the clients were told. For uploads of a killed shard, a prefix is
    enough. An upload that no client knows was made by a POST without an answer from its shard. Returns how many such
    uploads there are."""
    events = dict(events)
    for client in clients:
        maybe = dict(client.unanswered)
        for path, told in client.told.items():
            came, wanted = events.pop(path, []), [numbered(told), numbered(told + maybe.get(path, []))]
            if path in killed:
                same(wanted[1][: len(came)], came, f"the first events of {path}")
            else:
                same(came in wanted, True, f"whether {came} of {path} are {wanted[0]}, or behind these what had no answer")
    for path, came in events.items():
        only_made = came[0].startswith("1 post-create ") and len(came) == 1
        same(only_made, True, f"whether {path}, of which no client knows, was only made")
    return len(events)
