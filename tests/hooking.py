"""A hook server for `tests/hooked.py`, which fails as it is told to, clients whose changes it may refuse, and what must
hold of everything that it was asked and told.
"""
import contextlib
import http.server
import json
import random
import select
import socket
import threading
import time

import crashed
from crashed import Told, lane_of
from serving import same, soon

# The path and the query of a hook server's URL.
TARGET = "/hook?from=up"

# The fields of an upload, in an event and in a question about a request. The first ones are as it was created.
CREATED = ["MetaData", "IsPartial", "IsFinal", "PartialUploads"]
FIELDS = {*CREATED, "ID", "Offset", "Size", "SizeIsDeferred", "Storage"}

# The methods of the requests that each pre-hook is asked about.
METHODS = {"pre-create": ["POST"], "pre-finish": ["POST", "PATCH"], "pre-terminate": ["DELETE"]}

# The pre-hook that has to allow a change with an event of this hook.
BEFORE = {"post-create": "pre-create", "post-finish": "pre-finish", "post-terminate": "pre-terminate"}

# Which uploads a pre-hook rejects here, by the number in their mark modulo 8, and with which status.
REJECTED = {"pre-create": (3, 422), "pre-finish": (5, 413), "pre-terminate": (6, 403)}

# How a hook server fails, each with its chance in percent.
FAULTS = {
    "close": 0.6, "error": 0.6, "half": 0.6, "nonsense": 0.6, "no JSON": 0.6, "much": 0.3, "bye": 1, "late": 0.2,
    "near": 0.2,
}

# The seconds within which an answer surely arrives in time, if the other side waits for one second.
SURE = 0.4


# What is answered.


def answer(said=None, status=200, body=None):
    """The bytes of an answer with this object, or with this body."""
    body = json.dumps(said or {}).encode() if body is None else body
    return f"HTTP/1.1 {status} Said\r\nContent-Length: {len(body)}\r\n\r\n".encode() + body


def rejection(status, reason, name="RejectUpload"):
    """What an answer says that rejects a request."""
    return {name: True, "HTTPResponse": {"StatusCode": status, "Body": reason}}


def rejects(hook, metadata):
    """The status with which a pre-hook rejects an upload with this metadata, or None, as without a mark."""
    number, status = REJECTED[hook]
    return status if int(metadata.get("mark", ".0").partition(".")[2]) % 8 == number else None


def by_mark(note):
    """What an answer says about an upload with a mark."""
    status = note.is_pre and rejects(note.hook, note.upload["MetaData"])
    name = "RejectTermination" if note.hook == "pre-terminate" else "RejectUpload"
    return rejection(status, f"{note.hook} rejects\nand says more\n", name) if status else {}


def at_random(seed):
    """A plan by which a hook server fails now and then."""
    chooser = random.Random(seed)
    names, chances = [None, *FAULTS], [100 - sum(FAULTS.values()), *FAULTS.values()]
    return lambda note: chooser.choices(names, chances)[0]


# What is asked and told.


class Note:
    """What a hook server was asked or told once. `how` says what became of it: it was `answered` in good time, or it
    `failed`, or it is `unclear`, since the answer came about when the other side gives up. `passes` is whether a
    request was allowed."""

    def __init__(self, head, body):
        self.head, self.body, said = head, body, json.loads(body)
        same(set(said), {"Type", "Event"}, "what is said")
        self.hook, self.event = said["Type"], said["Event"]
        self.is_pre = self.hook in METHODS
        self.upload, self.request = self.event["Upload"], self.event["HTTPRequest"]
        self.id, self.number = self.upload["ID"], self.event.get("Number")
        self.how, self.passes, self.since = "failed", False, time.monotonic()
        self.hold()

    def hold(self):
        """Checks the form of the request."""
        first, *rest = self.head.split("\r\n")
        same(first, f"POST {TARGET} HTTP/1.1", "the first line")
        same("Content-Type: application/json" in rest, True, f"whether {rest} have the type of the body")
        same(set(self.upload), FIELDS, "what is said of an upload")
        same(self.upload["Storage"], None, "the storage")
        same(not self.upload["SizeIsDeferred"] or self.upload["Size"] == 0, True, "whether an unknown length is 0")
        if not self.is_pre:
            same((self.event.keys(), self.request), ({"HTTPRequest", "Number", "Upload"}, None), "what an event has")
            return
        same(self.event.keys(), {"HTTPRequest", "Upload"}, "what a question has")
        same(self.request.keys(), {"Method", "URI", "RemoteAddr", "Header"}, "what is said of a request")
        method = self.request["Method"]
        same(method in METHODS[self.hook], True, f"whether {method} may be the method for {self.hook}")
        same(self.request["URI"], "/files/" if method == "POST" else "/files/" + self.id, "the URI")
        if self.hook == "pre-finish":
            same(self.upload["Offset"], self.upload["Size"], "the offset where an upload is complete")

    def created(self):
        """What the note says of the creation of its upload."""
        return {name: self.upload[name] for name in CREATED}

    def key(self):
        return self.id, self.number

    def line(self):
        """The event, as a line of `--events`."""
        size = "-" if self.upload["SizeIsDeferred"] else self.upload["Size"]
        return f"{self.id} {self.number} {self.hook} {self.upload['Offset']}/{size} done"


# Stands among the notes for a kill of the server that asks and tells.
KILL = object()


class HookServer:
    """A hook server, at a port that nobody else gets while it is away. `plan` chooses for each note one of the
    `FAULTS`, `silent`, the bytes of an answer, or None. For None it answers what `verdict` says."""

    def __init__(self, plan=lambda note: None, verdict=lambda note: {}, seed=0):
        self.plan, self.verdict, self.random = plan, verdict, random.Random(seed)
        self.lock, self.notes, self.faults = threading.Lock(), [], []
        self.listener, self.connections = None, set()
        self.is_doomed, self.has_read = False, threading.Event()

    def __enter__(self):
        self.holder = socket.socket()
        self.holder.setsockopt(socket.SOL_SOCKET, socket.SO_REUSEADDR, 1)
        self.holder.bind(("127.0.0.1", 0))
        self.port = self.holder.getsockname()[1]
        self.url = f"http://127.0.0.1:{self.port}{TARGET}"
        self.start()
        return self

    def __exit__(self, *_):
        self.kill()
        self.holder.close()
        same(self.faults, [], "what is wrong with requests")

    def start(self):
        self.listener = socket.create_server(("127.0.0.1", self.port), backlog=128)
        threading.Thread(target=self.accept, args=(self.listener,), daemon=True).start()

    def kill(self):
        """Closes the listener and all connections at once, as the kill of a process does."""
        with self.lock:
            gone = [self.listener, *self.connections] if self.listener else []
            self.listener, self.is_doomed = None, False
            for each in gone:
                with contextlib.suppress(OSError):
                    each.shutdown(socket.SHUT_RDWR)
            for each in gone[:1]:
                each.close()

    def accept(self, listener):
        """Lets connections in until the listener is closed."""
        with contextlib.suppress(OSError):
            while True:
                connection, _ = listener.accept()
                with self.lock:
                    is_there = self.listener is listener
                    if is_there:
                        self.connections.add(connection)
                if is_there:
                    threading.Thread(target=self.serve, args=(connection,), daemon=True).start()
                else:
                    connection.close()

    def serve(self, connection):
        """Answers the requests of a connection, one after another."""
        with contextlib.suppress(OSError), connection, connection.makefile("rb") as reader:
            connection.setsockopt(socket.IPPROTO_TCP, socket.TCP_NODELAY, 1)
            while (note := self.read(reader)) and self.act(connection, note):
                pass
        with self.lock:
            self.connections.discard(connection)

    def read(self, reader):
        """The next request as a note. None if the connection ends before."""
        head = b""
        while not head.endswith(b"\r\n\r\n"):
            line = reader.readline()
            if not line:
                return None
            head += line
        length = int(head.lower().partition(b"\r\ncontent-length:")[2].split()[0])
        body = reader.read(length)
        if len(body) < length:
            return None
        with self.lock:
            try:
                note = Note(head.decode(), body)
            except (AssertionError, LookupError, ValueError) as fault:
                self.faults.append(f"{fault} of {head + body}")
                return None
            self.notes.append(note)
        return note

    def act(self, connection, note):
        """Does with a request what the plan says. Returns whether the connection goes on."""
        plan, said = self.plan(note), self.verdict(note)
        if self.is_doomed:
            plan = "silent"
            self.has_read.set()
        seconds, sent, how, goes_on = self.deed(plan, answer(said), note)
        if seconds and select.select([connection], [], [], seconds)[0]:
            return False
        connection.sendall(sent)
        is_sure = how != "answered" or time.monotonic() - note.since < SURE
        note.passes = how != "failed" and said == {}
        note.how = how if is_sure else "unclear"
        return goes_on

    def deed(self, plan, whole, note):
        """What a plan means: how many seconds to wait, what to send, what becomes of the note, and whether the
        connection goes on."""
        if isinstance(plan, bytes):
            return 0, plan, "unclear", True
        return {
            None: (0, whole, "answered", True),
            "bye": (0, whole, "answered", False),
            "near": (self.random.uniform(0.8, 1.1), whole, "unclear", True),
            "late": (self.random.uniform(1.2, 1.5), whole, "failed", False),
            "silent": (3600, b"", "failed", False),
            "close": (0, b"", "failed", False),
            "half": (0, whole[: self.random.randrange(1, len(whole))], "failed", False),
            "error": (0, answer(status=500), "failed", True),
            "nonsense": (0, b"nonsense\r\n\r\n", "failed", False),
            "no JSON": (0, answer(body=b"hello"), "failed" if note.is_pre else "answered", True),
            "much": (0, answer(body=b" " * 70_000 + b"{}"), "failed", False),
        }[plan]

    def harass(self, is_over):
        """Kills and starts this server again and again until an event is set. In half of the cases it is killed once it
        has read a request, and before it answers."""
        while not is_over.wait(self.random.uniform(0.2, 0.8)):
            if self.random.random() < 0.5:
                self.has_read.clear()
                self.is_doomed = True
                self.has_read.wait(1)
            self.kill()
            is_over.wait(self.random.uniform(0.02, 0.15))
            self.start()

    def note_kill(self):
        """Notes that the server which asks and tells was killed, once all that it has sent was read."""
        time.sleep(0.05)
        soon(lambda: not self.connections, "all connections have ended")
        self.notes.append(KILL)

    def posts(self):
        """The notes of events."""
        return [note for note in list(self.notes) if note is not KILL and not note.is_pre]

    def told(self):
        """The events of each lane, each once, as the lines of `--events`."""
        told = Told()
        for lane, lines in told.of_lane.items():
            notes = [note for note in self.notes if note is KILL or not note.is_pre and lane_of(note.id) == lane]
            told.repeated += add_events(lines, notes)
        return told


def add_events(lines, notes):
    """Adds the events of a lane to a list of lines, each once, and returns how many came again. An event comes again
    while it isn't acknowledged, and no other one comes meanwhile. One that is acknowledged comes again at most once for
    each kill."""
    key, how, was_killed, repeated = None, None, False, 0
    for note in notes:
        if note is KILL:
            was_killed = True
            continue
        if note.key() == key:
            same(note.line(), lines[-1], "what is told of an event that comes again")
            same(was_killed or how != "answered", True, f"whether {note.line()!r} had to come again")
            repeated += 1
        else:
            same(how == "failed", False, f"whether {note.line()!r} came while an event was not acknowledged")
            lines.append(note.line())
        key, how, was_killed = note.key(), note.how, False
    same(how == "failed", False, f"whether the last event of a lane, {lines[-1:]}, was not acknowledged")
    return repeated


def created(upload):
    """What each note of an upload has to say of its creation."""
    pairs = [[text.decode(errors="replace") for text in pair] for pair in upload.pairs]
    kind, _, parts = (upload.concat or "").partition(";")
    ids = [path[-32:] for path in parts.split()] if kind == "final" else None
    return dict(zip(CREATED, (dict(pairs), kind == "partial", kind == "final", ids)))


def hold_created(notes, clients):
    """Checks that each note has the metadata, the kind and the parts with which its upload was created. If no client
    knows the upload, they are those of a creation that made none as far as its client knows."""
    wanted = {path[-32:]: created(upload) for client in clients for path, upload in client.uploads.items()}
    others = [created(upload) for client in clients for upload in client.sent]
    for known in wanted.values():
        others.remove(known)
    for note in [note for note in notes if note is not KILL]:
        if note.id not in wanted:
            same(note.created() in others, True, f"whether a client asked for {note.created()} of {note.id}")
            others.remove(note.created())
            wanted[note.id] = note.created()
        same(note.created(), wanted[note.id], f"what {note.hook} says of {note.id}")


def hold_allowed(notes, told):
    """Checks that a hook server has allowed each change with an event that a pre-hook was asked about."""
    asked = [note for note in notes if note is not KILL and note.is_pre]
    allowed = {(note.id, note.hook) for note in asked if note.passes}
    for path, events in told.events().items():
        before = [BEFORE[hook] for hook in (event.split()[1] for event in events) if hook in BEFORE]
        missing = [hook for hook in before if (path[-32:], hook) not in allowed]
        same(missing, [], f"which pre-hooks didn't allow a change of {path}")


class Stock(http.server.BaseHTTPRequestHandler):
    """A hook server as Python's library makes it, which writes the head and the body of an answer apart. Its first
    answer waits for an event."""

    protocol_version = "HTTP/1.1"

    def do_POST(self):
        said = json.loads(self.rfile.read(int(self.headers["Content-Length"])))
        self.server.goes_on.wait()
        self.server.told.append((time.monotonic(), said["Event"]["Number"]))
        self.send_response(200)
        self.send_header("Content-Length", "2")
        self.end_headers()
        self.wfile.write(b"{}")

    def log_message(self, *_):
        pass


# Clients.


class Refused(Exception):
    """A change was refused, as it may be."""


class Client(crashed.Client):
    """A client of a server whose hook server rejects uploads by their marks, and may fail. It leaves an upload alone
    once a change of it was rejected. `refused` counts the refusals."""

    def __init__(self, number):
        super().__init__(number)
        self.rejected, self.refused = set(), 0

    def pairs(self, mark):
        """None, or a mark, alone or with a value that is no UTF-8, a key without a value, or keys that become one."""
        pairs, raw, none = super().pairs(mark), (b"raw", random.randbytes(9)), (b"none", b"")
        return random.choice([[], pairs, [*pairs, raw], [none, *pairs], [(b"\xff", b"1"), *pairs, (b"\xfe", b"2")]])

    def hear(self, message, bare=False):
        reply = super().hear(message, bare)
        if self.asked and not bare and 400 <= reply.status < 500:
            self.note_refusal(reply)
            raise Refused
        return reply

    def hooks(self):
        """The pre-hooks that are asked about the change, each with the status with which it rejects it, or None."""
        path, after = self.asked
        names = ["pre-create"] * (path is None) + ["pre-finish"] * after.is_whole()
        names = names if after.is_there else ["pre-terminate"]
        return {name: rejects(name, created(after)["MetaData"]) for name in names}

    def note_refusal(self, reply):
        """Checks that the change may be refused so, and notes it."""
        hooks, path = self.hooks(), self.asked[0]
        wanted = [(status, f"{name} rejects\n".encode()) for name, status in hooks.items() if status]
        is_unanswered = bool(hooks) and reply.status == 409
        is_rejected = (reply.status, reply.body) in wanted
        same(is_unanswered or is_rejected, True, f"whether {reply.whole!r} may be what {hooks} say of {path}")
        if is_rejected:
            self.rejected.add(path)
        self.refused += 1
        self.asked = None

    def settle(self, path):
        bad = [name for name, status in self.hooks().items() if status]
        same(bad, [], f"which hooks have to reject a change of {path} that is made")
        return super().settle(path)

    def step(self):
        with contextlib.suppress(Refused):
            super().step()

    def begun(self):
        return [path for path in super().begun() if path not in self.rejected]

    def whole(self, concat=None):
        return [path for path in super().whole(concat) if path not in self.rejected]
