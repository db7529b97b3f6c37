#!/usr/bin/env python3
"""Ends `up serve` in order, by signals to the script that runs it and by its standard input, and compares the events of
uploads with what was acknowledged.

    tests/ending.py [--program PATH] [--rounds N] [NAME..]

It needs only Python 3 and Linux, and takes half a minute with three rounds, which is the default. Cases are skipped if
they need something that is missing or not permitted (`unshare`, `systemd-analyze`).

In each round sixteen clients make uploads as fast as they can, and the server is told to end meanwhile. Each change
that was acknowledged must have its lines of `--events`, each once and in order. A change without an answer has all of
its lines or none. There are no other lines. After the signal a change is done, or is answered by `503` and `20 Closed`,
or its connection ends; a GET still returns the right bytes. The status must be 0, and the report must have the counts
of the lines.

For each case, one line says whether it passed. The last line is `N passed, M failed`, and the exit status is 1 if a
case failed.
"""
import argparse
import contextlib
import errno
import fcntl
import os
import pty
import random
import re
import resource
import shutil
import signal
import socket
import struct
import subprocess
import sys
import tempfile
import termios
import threading
import time

import endings
from endings import MAX_BUSY, MAX_IDLE, SCRIPT, child_of, ended
from serving import (
    NOWHERE, ROOT, Connection, Server, at_once, below, build, events_of, free_port, head, numbered, patch, same, soon,
    try_all,
)

UNIT = os.path.join(ROOT, "packaging", "up.service")
HOOKS_UNIT = os.path.join(ROOT, "packaging", "up-hooks.service")

# The number of clients, the number of lanes, and what each client puts into an upload, in two parts.
CLIENTS, LANES = 16, 3
PARTS = [b"hello ", b"world"]
WHOLE = b"".join(PARTS)

# The bytes of an upload that is larger than what the system takes of an answer while nobody reads it.
LARGE = 1 << 23

# The report of a server that did nothing.
NOTHING = "\naccepted 0\n" + "".join(f"lane {lane} drained 0\n" for lane in range(LANES))


# Servers that can be told to end.


class Script(endings.Script):
    """A server that the script runs, with `--events` and these words."""

    def __init__(self, *words, **how):
        super().__init__(program, "--events", "--lanes", str(LANES), *words, **how)


class Plain(endings.Plain):
    """A server without the script, with `--events` and these words."""

    def __init__(self, *words, **how):
        super().__init__(program, "--events", "--lanes", str(LANES), *words, **how)


class Endless(Server):
    """A server without the script that nothing ends, with `--events` and these words."""

    def __init__(self, *words, **how):
        super().__init__(program, "--events", "--lanes", str(LANES), *words, **how)


# Clients that keep a count.


class Ended(Exception):
    """The connection has ended, as it may."""


class Client(Connection):
    """A client that notes which events of its uploads were acknowledged, and those of a change without an answer. Once
    `ending` is set, its changes may be refused, and its connection may end."""

    def __init__(self, server, ending):
        self.ending = ending
        self.told = {}
        self.asked = None, []
        self.whole = None
        super().__init__(server)

    def hear(self, message):
        """The reply to a message."""
        try:
            self.send(message)
            if self.read or self.more():
                return self.reply()
        except OSError:
            pass
        same((self.ending.is_set(), self.read), (True, b""), "whether the server ends, and what stands behind replies")
        raise Ended

    def change(self, message, path, *events):
        """The reply to a change of this upload, or to a creation if the path is None; None if changes are refused."""
        self.asked = path, list(events)
        reply = self.hear(message)
        self.asked = None, []
        if reply.status == 503:
            same((self.ending.is_set(), reply.body), (True, b"20 Closed\n"), "whether the server ends, and what it says")
            return None
        same(reply.status in (201, 204), True, f"whether {reply.whole!r} says that the change was done")
        self.told.setdefault(path or reply.fields["location"], []).extend(events)
        return reply

    def upload(self):
        """Makes an upload, completes it and fetches it. Returns whether all changes were accepted."""
        size = len(WHOLE)
        made = self.change(head("POST", "/files/", {"Upload-Length": size}), None, f"post-create 0/{size}")
        if not made:
            return False
        path, offset = made.fields["location"], 0
        for part in PARTS:
            message = patch(path, offset, len(part)) + part
            offset += len(part)
            events = [f"post-receive {offset}/{size}", f"post-finish {size}/{size}"][: 1 + (offset == size)]
            if not self.change(message, path, *events):
                return False
        self.whole = path
        self.fetch()
        return True

    def fetch(self):
        """Fetches the last complete upload, or checks that there is none."""
        reply = self.hear(head("GET", self.whole or NOWHERE, {}))
        wanted = (200, WHOLE) if self.whole else (404, b"21 NotFound\n")
        same((reply.status, reply.body), wanted, "the reply to a GET")

    def work(self):
        """Makes uploads until changes are refused, and then fetches the last one until the connection ends."""
        with contextlib.suppress(Ended):
            while self.upload():
                pass
            while True:
                self.fetch()
                time.sleep(0.01)


def hold_events(events, clients):
    """Compares the events of all uploads with what the clients were told."""
    events, made = dict(events), []
    for client in clients:
        path, maybe = client.asked
        if not path:
            made += [numbered(maybe)] * bool(maybe)
        for upload, told in client.told.items():
            came = events.pop(upload, [])
            wanted = [numbered(told), numbered(told + maybe * (path == upload))]
            same(came in wanted, True, f"whether {came} of {upload} are {wanted[0]}, or behind these what was asked")
    for upload, came in events.items():
        same(came in made, True, f"whether {came} of {upload}, which no client knows, are of a POST without an answer")
        made.remove(came)


def hold(output, clients):
    """Compares the output of a server with what the clients were told, and its report with a count of its lines.
    Returns the number of accepted changes."""
    lines, _, report = output.partition("\n\n") if not output.startswith("\n") else ("", "", output[1:])
    events = events_of(lines)
    same(sum(map(len, events.values())), len(lines.splitlines()), "how many lines are events")
    hold_events(events, clients)
    changes = [line for line in lines.splitlines() if " post-finish " not in line]
    counts = [sum(int(line[:32], 16) % LANES == lane for line in lines.splitlines()) for lane in range(LANES)]
    drained = "".join(f"lane {lane} drained {count}\n" for lane, count in enumerate(counts))
    same(report, f"accepted {len(changes)}\n{drained}", "the report")
    return len(changes)


# The cases.


def until_end(server, before=lambda: None, during=lambda clients, ending: None):
    """Has many clients work until the server is told to end, and returns them. `before` runs before the end, and
    `during` after it."""
    ending = threading.Event()
    clients = [Client(server, ending) for _ in range(CLIENTS)]

    def one(number):
        if number < CLIENTS:
            return clients[number].work()
        time.sleep(random.uniform(0.2, 1))
        before()
        ending.set()
        server.end()
        during(clients, ending)

    at_once(one, CLIENTS + 1)
    for client in clients:
        client.socket.close()
    return clients


def rounds_of(server_of):
    """Ends servers that are busy, one in each round, and returns how many changes were accepted in total."""
    accepted = 0
    for _ in range(rounds):
        with server_of() as server:
            clients = until_end(server)
            accepted += hold(ended(server), clients)
    return f"{accepted:,} changes"


def by_signal():
    """TERM to the script ends a busy server in order."""
    return rounds_of(Script)


def by_input():
    """The end of standard input ends a busy server in order."""
    return rounds_of(Plain)


def as_first():
    """TERM to the script as the first process of a pid namespace does the same."""
    return rounds_of(lambda: Script(front=NAMESPACE))


class SlowReader(threading.Thread):
    """A thread that reads a small pipe slowly, and not at all while it is held up. `sink` is the pipe's other end."""

    def __init__(self):
        super().__init__()
        self.reader, self.sink = os.pipe()
        fcntl.fcntl(self.sink, fcntl.F_SETPIPE_SZ, 4096)
        self.text = b""
        self.goes_on = threading.Event()
        self.goes_on.set()

    def run(self):
        while came := os.read(self.reader, 4096):
            self.text += came
            time.sleep(0.02)
            self.goes_on.wait()

    def hold_up(self):
        """Stops reading, and waits until the pipe is full, while clients work."""
        self.goes_on.clear()
        soon(self.is_full, "the pipe is full")

    def is_full(self):
        """Whether something is in the pipe, and nothing more comes for a while."""
        waiting = self.waiting()
        time.sleep(0.2)
        return self.waiting() == waiting > 0

    def waiting(self):
        """The number of bytes in the pipe."""
        return struct.unpack("i", fcntl.ioctl(self.reader, termios.FIONREAD, bytes(4)))[0]

    def output(self):
        """What the thread has read, at its end."""
        self.join(MAX_BUSY)
        os.close(self.reader)
        return self.text.decode()


def look_meanwhile(server, reader, clients, ending):
    """Checks that a server which is ending, and still has events to hand over, serves requests that change nothing."""
    with Client(server, ending) as late:
        soon(lambda: not late.upload(), "changes are refused")
        clients.append(late)
    path = next(client.whole for client in clients if client.whole)
    with Connection(server) as other:
        same(other.ask("GET", path).body, WHOLE, "what a GET brings meanwhile")
        same(other.offset(path), len(WHOLE), "the offset that a HEAD tells meanwhile")
        same(other.ask("OPTIONS", "/").status, 204, "the status of OPTIONS meanwhile")
        same(other.ask("DELETE", path).status, 503, "the status of a DELETE meanwhile")
        time.sleep(0.5)
        same(other.ask("GET", path).body, WHOLE, "what a GET brings half a second later")
    reader.goes_on.set()


def slow_reader():
    """The same is true if the events are read slowly, and not at all for a while: requests that change nothing are
    served."""
    accepted = 0
    for _ in range(rounds):
        reader = SlowReader()
        with Script("--grace", "20", sink=reader.sink) as server:
            os.close(reader.sink)
            reader.start()
            try:
                clients = until_end(server, reader.hold_up, lambda *them: look_meanwhile(server, reader, *them))
            finally:
                reader.goes_on.set()
            ended(server)
            accepted += hold(reader.output(), clients)
    return f"{accepted:,} changes"


def stuck(server, reader):
    """Returns a client that has made so many changes that the server's lanes wait for the reader, which doesn't
    read."""
    client = Client(server, threading.Event())
    for _ in range(100):
        client.upload()
    client.ending.set()
    return client


def grace():
    """If the events aren't read, connections end after the grace; the report waits for the reader, and has all
    events."""
    reader = SlowReader()
    with Plain("--grace", "1", sink=reader.sink) as server:
        os.close(reader.sink)
        with stuck(server, reader) as client:
            start = time.monotonic()
            server.end()
            same(client.is_closed(), True, "whether the connection has ended")
            took = time.monotonic() - start
            below(0.9, took, "seconds until it ended, and those of the grace")
            below(took, 3, "seconds until it ended")
            reader.start()
            ended(server)
            hold(reader.output(), [client])


def twice():
    """A second TERM ends a server at once even if nobody reads its events; two TERMs at a time count as one."""
    reader = SlowReader()
    with Script(sink=reader.sink) as server:
        os.close(reader.sink)
        with stuck(server, reader):
            one = child_of(server.process.pid)
            for _ in range(2):
                server.end()
                time.sleep(0.02)
            time.sleep(0.5)
            same(server.process.poll(), None, "the status before the second signal")
            start = time.monotonic()
            server.end()
            same(server.process.wait(MAX_IDLE), 128 + signal.SIGTERM, "the status of the script")
            below(time.monotonic() - start, 1, "seconds until it ended")
            same(os.path.exists(f"/proc/{one}"), False, "whether the program is still there")
    os.close(reader.reader)


def idle():
    """Without a connection each signal ends the server soon, also if the program gets it too; the report is empty."""
    for number in (signal.SIGTERM, signal.SIGINT, signal.SIGHUP):
        for kill in (os.kill, os.killpg):
            with Script() as server:
                kill(server.process.pid, number)
                same(ended(server, MAX_IDLE), NOTHING, f"what is written behind {kill.__name__} {number}")


def terminal():
    """^C on a terminal ends the server in order."""
    master, slave = pty.openpty()
    with Script(terminal=slave) as server:
        os.close(slave)
        with Connection(server) as client:
            client.make(1)
            os.write(master, b"\x03")
            same(client.is_closed(), True, "whether the connection has ended")
        same(ended(server, MAX_IDLE).partition("\n\n")[2].startswith("accepted 1\n"), True, "whether one was accepted")
    os.close(master)


def under_way():
    """A body, a head and a connection that are under way delay nothing; the bytes that came of the body may have an
    event."""
    ending = threading.Event()
    with Plain() as server, Client(server, ending) as body, Client(server, ending) as begun, Client(server, ending) as silent:
        path = body.make(10)
        body.told[path] = ["post-create 0/10"]
        body.asked = path, ["post-receive 4/10"]
        body.send(patch(path, 0, 10) + b"abcd")
        begun.send(b"GET /fi")
        time.sleep(0.2)
        server.end()
        for client in (body, begun, silent):
            while client.more():
                pass
        hold(ended(server, MAX_IDLE), [body])


def half_a_head():
    """A client whose head is half sent when a run ends is sent nothing, also behind an earlier answer."""
    with Plain() as server, Connection(server) as first, Connection(server) as second:
        first.send(b"GET /files/ HTTP/1.1\r\nHost: a\r\n")
        second.send(head("OPTIONS", "/", {}) + b"PATCH /fi")
        same(second.reply().status, 204, "the status of OPTIONS")
        time.sleep(0.2)
        server.end()
        for client in (first, second):
            same(client.is_closed(), True, "whether the connection has ended without an answer")
        same(ended(server, MAX_IDLE), NOTHING, "what is written")


def large(server):
    """The path of a new upload that is larger than what the system takes of an answer while nobody reads it."""
    with Connection(server) as client:
        path = client.make(LARGE)
        same(client.append(path, 0, bytes(LARGE)).status, 204, "the status of a PATCH")
    return path


def arrived():
    """A request that has arrived whole when a run ends is answered, although the server hasn't read it yet. Its answer
    comes whole, also if more requests have arrived, which aren't answered."""
    with Plain() as server:
        path = large(server)
        with Connection(server, room=4096) as client:
            client.send(head("GET", path, {}))
            same(client.reply_head().status, 200, "the status of a GET")
            client.send(head("OPTIONS", "/", {}) + head("OPTIONS", "/", {"X-Long": "x" * 3000}) * 20)
            time.sleep(0.2)
            server.end()
            time.sleep(0.5)
            same(len(client.take(LARGE)), LARGE, "how many bytes of the upload came")
            same(client.reply().status, 204, "the status of the request that had arrived")
            while client.more():
                pass
            below(client.read.count(b"HTTP/1.1 204"), 20, "how many more are answered")
        ended(server)


def sends_on():
    """A client that sends requests without an end doesn't hold up the end of a run."""
    with Plain() as server, Connection(server) as client:
        is_busy = threading.Event()

        def ask(number):
            if number == 0:
                is_busy.wait(MAX_IDLE)
                server.end()
                same(server.process.wait(2 * MAX_IDLE), 0, "the status of the server")
                return
            with contextlib.suppress(OSError):
                while client.more():
                    is_busy.set()
                    client.send(head("OPTIONS", "/", {}) * 20)

        client.send(head("OPTIONS", "/", {}) * 100)
        at_once(ask, 2)
        same(server.output(), NOTHING, "what is written")


def slow_at_the_end():
    """With `--patience`, a client that takes its answer slowly holds up the end of a run until the grace and the
    patience are over, and no longer."""
    with Plain("--grace", "1", "--patience", "1") as server:
        path = large(server)
        with Connection(server, room=4096) as client:
            client.send(head("GET", path, {}))
            same(client.reply_head().status, 200, "the status of a GET")
            start = time.monotonic()
            server.end()
            while server.process.poll() is None:
                below(time.monotonic() - start, 6, "seconds until the server ends")
                with contextlib.suppress(ConnectionError):
                    client.socket.recv(4096)
                time.sleep(0.05)
            below(1.9, time.monotonic() - start, "grace and patience, and the seconds until the server ends")
        ended(server)


class Narrow(Plain):
    """A server whose files may have so many bytes."""

    def __init__(self, most, **how):
        super().__init__(**how)
        self.most = most

    def limit(self):
        super().limit()
        signal.signal(signal.SIGXFSZ, signal.SIG_IGN)
        resource.setrlimit(resource.RLIMIT_FSIZE, (self.most, resource.RLIM_INFINITY))

    def widen(self):
        """Lets the files grow without a limit."""
        resource.prlimit(self.process.pid, resource.RLIMIT_FSIZE, (resource.RLIM_INFINITY,) * 2)


def torn_line():
    """Nothing is written behind a line of events that can't be written: not the rest of it, no later line, no report.
    The reason is said once, and the status is 1."""
    most = 200
    with Narrow(most) as server:
        with Connection(server) as client:
            paths = [client.make(len(WHOLE)) for _ in range(5)]
            reason = f"{os.strerror(errno.EFBIG)} (os error {errno.EFBIG})"
            same(server.line(), f"up_server: events can't be written: {reason}\n", "what is said")
            server.widen()
            for path in paths:
                same(client.append(path, 0, WHOLE).status, 204, "the status of a PATCH")
        server.end()
        same(server.process.wait(MAX_IDLE), 1, "the status")
        same(server.process.stderr.read(), b"up_server: write failed\n", "what is said at the end")
        lines = server.output()
        same(len(lines), most, "how many bytes are written")
        whole = " 1 post-create 0/11 done\n"
        same((lines.count("\n"), lines.count(whole)), (most // (32 + len(whole)),) * 2, "how many lines are whole")


def unheard_lines():
    """With a store, an event counts once its line is written. If the reader of the lines has gone, lanes wait with their
    first event, `--status` counts it, and the status is 1. The next run writes all lines."""
    with tempfile.TemporaryDirectory() as folder:
        with Plain("--store", folder, "--status", "1", "--grace", "1", unheard=True) as server:
            with Connection(server) as client:
                paths = [client.make(len(WHOLE)) for _ in range(5)]
                for path in paths:
                    same(client.append(path, 0, WHOLE).status, 204, "the status of a PATCH")
            counts = [sum(int(path[-32:], 16) % LANES == lane for path in paths) for lane in range(LANES)]
            lanes = [f"lane {lane} {'stopped' if n else 'drains'} ({3 * n} waiting)" for lane, n in enumerate(counts)]
            said = [server.line()]
            while not re.search(re.escape(", ".join(lanes)) + r", the oldest for \d s\n$", said[-1]):
                said.append(server.line())
                same(said[-1] != "", True, f"whether {lanes} are reported, behind {said}")
            waits = [f"lane {lane} waits with its last event" for lane, n in enumerate(counts) if n]
            reason = f"events can't be written: {os.strerror(errno.EPIPE)} (os error {errno.EPIPE})"
            found = [line for line in said if "uploads" not in line]
            same(sorted(found), sorted(f"up_server: {it}\n" for it in [reason, *waits]), "what is said")
            server.end()
            same(server.process.wait(MAX_BUSY), 1, "the status")
            same(server.process.stderr.read().splitlines()[-1], b"up_server: write failed", "what is said at the end")
        with Plain("--store", folder) as server:
            soon(lambda: server.output().count("\n") == 3 * len(paths), "all lines are written")
            server.end()
            events = events_of(ended(server, MAX_IDLE))
            each = numbered(["post-create 0/11", "post-receive 11/11", "post-finish 11/11"])
            same(events, {path: each for path in paths}, "the lines of the next run")


class Closed:
    """A server all of whose standard streams are closed when it starts, with lines of status. The port is chosen
    here, since nobody can be told of it."""

    def __init__(self, *words, **how):
        super().__init__("--status", "1", *words, **how)
        self.words[self.words.index("127.0.0.1:0")] = f"127.0.0.1:{free_port()}"

    def limit(self):
        super().limit()
        os.closerange(0, 3)

    def listening(self):
        address = next(word for word in self.words if word.startswith("127.0.0.1:"))
        port = int(address.rpartition(":")[2])

        def listens():
            with socket.socket() as probe:
                return probe.connect_ex(("127.0.0.1", port)) == 0

        soon(listens, "the server listens")
        return port


class ClosedPlain(Closed, Endless):
    """Such a server without the script."""


class ClosedScript(Closed, Script):
    """Such a server that the script runs."""


def closed_streams():
    """If the standard streams of a server are closed when it starts, what it writes to them goes neither to a client
    nor into a file of a store, and its input has ended."""
    with tempfile.TemporaryDirectory() as folder:
        with ClosedPlain("--store", folder) as server:
            path = replies_alone(server)
        with Endless("--store", folder) as server, Connection(server) as client:
            same(client.ask("GET", path).body, WHOLE, "what a GET brings of the store")
    with ClosedScript() as server:
        replies_alone(server)
        server.end()
        same(server.process.wait(MAX_IDLE), 0, "the status")
    words = ["serve", "--address", "127.0.0.1:0", "--until-eof", "--lanes", str(LANES)]
    ran = subprocess.run([program, *words], capture_output=True, timeout=MAX_IDLE, preexec_fn=lambda: os.close(0))
    same((ran.returncode, ran.stdout.decode()), (0, NOTHING), "the status, and what is written without an input")


def replies_alone(server):
    """Checks that a client is sent nothing but replies for longer than a line of status takes. Returns the path of an
    upload that it made."""
    with Connection(server) as client:
        path = client.make(len(WHOLE))
        same(client.append(path, 0, WHOLE).status, 204, "the status of a PATCH")
        time.sleep(1.2)
        same(client.ask("GET", path).body, WHOLE, "what a GET brings")
        client.socket.shutdown(socket.SHUT_WR)
        same(client.is_closed(), True, "whether nothing else comes")
    return path


def dropped_input():
    """Data on standard input is dropped, and an input that has ended before ends the server at once."""
    with Plain() as server:
        os.write(server.writer, b"x" * 50_000)
        time.sleep(0.3)
        with Connection(server) as client:
            same(client.ask("OPTIONS", "/").status, 204, "the status of OPTIONS")
        server.end()
        same(ended(server, MAX_IDLE), NOTHING, "what is written")
    with Server(program, "--until-eof", "--lanes", str(LANES)) as server:
        same(ended(server, MAX_IDLE), NOTHING, "what is written where there is no input")


def by_itself():
    """A program that ends by itself ends the script, with its status; other words run the program alone."""
    with Script("--connections", "1") as server:
        Connection(server).socket.close()
        same(ended(server, MAX_IDLE), NOTHING, "what is written behind the last connection")
    environment = {**os.environ, "UP_PROGRAM": program}
    for words, status in ((["serve", "--lanes", "0"], 2), (["serve", "--address", "nowhere"], 1), (["replay"], 0)):
        ran = subprocess.run([SCRIPT, *words], input=b"", env=environment, capture_output=True, timeout=MAX_BUSY)
        same(ran.returncode, status, f"the status of {words}")


def installed():
    """`./up install` puts the program and the script where they find each other, also under another name."""
    with tempfile.TemporaryDirectory() as folder:
        environment = {**os.environ, "UP_PROGRAM": program, "DESTDIR": folder}
        told = subprocess.run([os.path.join(ROOT, "up"), "install", "/opt"], env=environment, capture_output=True)
        same(told.returncode, 0, f"the status, behind {told.stderr!r}")
        name = os.path.join(folder, "name")
        os.symlink("opt/bin/up", name)
        versions = [subprocess.run([it, "--version"], capture_output=True).stdout for it in (name, program)]
        same(versions[0], versions[1], "the version")
        with Script(script=name) as server:
            del server.environment["UP_PROGRAM"]
            server.end()
            same(ended(server, MAX_IDLE), NOTHING, "what is written")


def unit():
    """systemd accepts the units. That of the server has the same settings of the C library as the script."""
    with open(UNIT, encoding="ascii") as file, open(SCRIPT, encoding="ascii") as script:
        text = file.read()
        memory = re.search(r"(?m)^memory=(.*)$", script.read())[1]
    same(f"\nEnvironment=GLIBC_TUNABLES={memory}\n" in text, True, f"whether the unit says {memory}")
    with open(HOOKS_UNIT, encoding="ascii") as file:
        hooks = file.read()
    units = {
        "up.service": text.replace("/usr/local/bin/up", SCRIPT),
        "up-hooks.service": hooks.replace("/usr/local/bin/up-hooks", os.path.join(ROOT, "examples", "hooks")),
    }
    for name, text in units.items():
        with tempfile.TemporaryDirectory() as folder:
            path = os.path.join(folder, name)
            with open(path, "w", encoding="ascii") as file:
                file.write(text)
            ran = subprocess.run(["systemd-analyze", "verify", path], capture_output=True)
        same((ran.returncode, ran.stderr), (0, b""), f"what systemd-analyze says of {name}")


def namespace():
    """The words that start a command as the first process of a pid namespace, or None if that isn't permitted."""
    for words in (["unshare", "-pf"], ["unshare", "-Urpf"]):
        with contextlib.suppress(OSError):
            if subprocess.run([*words, "true"], capture_output=True).returncode == 0:
                return words
    return None


given = argparse.ArgumentParser(description=__doc__)
given.add_argument("--program", metavar="PATH", help="what is tried in place of crates/up/out/up")
given.add_argument("--rounds", type=int, default=3, metavar="N", help="how often a busy server is ended in each way")
given.add_argument("names", nargs="*", metavar="NAME", help="the cases to be tried, in place of all")
given = given.parse_args()
program, rounds = os.path.abspath(given.program or build()), given.rounds

CASES = [
    by_signal, by_input, slow_reader, grace, twice, idle, terminal, under_way, half_a_head, arrived, sends_on,
    slow_at_the_end, torn_line, unheard_lines, closed_streams, dropped_input, by_itself, installed,
]
NAMESPACE, passed_over = namespace(), []
if NAMESPACE:
    CASES.insert(1, as_first)
else:
    passed_over.append("as_first, since no pid namespace may be made here")
if shutil.which("systemd-analyze"):
    CASES.append(unit)
else:
    passed_over.append("unit, since systemd-analyze isn't there")
sys.exit(try_all(CASES, given.names, passed_over))
