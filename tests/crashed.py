"""What `tests/crash.py` compares a stored server with: a plain count of uploads, clients that change uploads and
continue after a crash, and the lines of `--events` of all runs.
"""
import base64
import contextlib
import random
import re
import time

from serving import Connection, head, patch, same

LANES = 3

# The most bytes of an appended piece, and those of an occasional long one. A log shares bodies of 16,384 bytes or more.
PIECE, LONG = 1000, (16_383, 16_384, 150_000)

# How often a client tries to create an upload while a disk fails, and the seconds between two tries.
TRIES, PAUSE = 12, 0.25

# The most uploads of a client that are under way, and that are complete, before it continues these or removes some.
MAX_BEGUN, MAX_WHOLE = 6, 12

# How many uploads that the last run didn't change a client looks at after a restart.
SAMPLE = 20


# The plain count.


class Upload:
    """An upload as its accepted changes make it: its mark, the pairs of its metadata, which are bytes, its
    `Upload-Concat`, its length, None if it is unknown, its bytes, whether it exists, the number of its changes, and its
    events. It is immutable: each change makes another one."""

    def __init__(self, mark, pairs, concat, length, body=b"", is_there=True, changes=0, events=()):
        self.mark, self.pairs, self.concat, self.length, self.body = mark, pairs, concat, length, body
        self.is_there, self.changes, self.events = is_there, changes, events

    def changed(self, length, body, is_there, *hooks):
        """The upload after one more change, with the events of these hooks, and the last event if it is now
        complete."""
        is_whole = is_there and len(body) == length
        at = f"{len(body)}/{'-' if length is None else length}"
        hooks = [*hooks, *(["post-finish"] if is_whole else [])]
        events = [f"{number} {hook} {at} done" for number, hook in enumerate(hooks, 1 + len(self.events))]
        changes, events = self.changes + 1, (*self.events, *events)
        return Upload(self.mark, self.pairs, self.concat, length, body, is_there, changes, events)

    def made(self):
        return self.changed(self.length, self.body, True, "post-create")

    def appended(self, piece, length):
        """The upload after this piece is appended and with this length."""
        return self.changed(length, self.body + piece, True, *["post-receive"] * bool(piece))

    def removed(self):
        return self.changed(self.length, self.body, False, "post-terminate")

    def is_whole(self):
        return len(self.body) == self.length

    def stands(self):
        """The expected result of a HEAD."""
        if not self.is_there:
            return (404,)
        length = ("1", None) if self.length is None else (None, str(self.length))
        return 200, str(len(self.body)), *length, metadata_of(self.pairs), self.concat


def coded(text):
    return base64.b64encode(text.encode()).decode()


def metadata_of(pairs):
    """The `Upload-Metadata` with these pairs, or None if there are none."""
    parts = [(key + b" " + base64.b64encode(value)).rstrip(b" ") for key, value in pairs]
    return b",".join(parts).decode(errors="surrogateescape") or None


def said_of(reply):
    """What the reply to a HEAD reports about an upload."""
    if reply.status == 404:
        return (404,)
    names = ("upload-offset", "upload-defer-length", "upload-length", "upload-metadata", "upload-concat")
    return reply.status, *map(reply.fields.get, names)


# Clients.


class Ended(Exception):
    """The connection has ended, as it may."""


class Client:
    """A client of one server after another, with its own uploads, by their paths. Once `ending` is set, its
    connection may end within a change, or the change may be refused. It may also be refused if the server's disk
    fails. Such a change is `asked` until its result is known: the path of an upload, and the upload as it is if the
    change is done. A creation without an answer is in `lost`, by its mark. `sent` has what each creation asked for."""

    def __init__(self, number):
        self.number = number
        self.uploads = {}
        self.asked = None
        self.lost = {}
        self.touched = set()
        self.sent = []

    def copy(self):
        """A client that knows the same, and is at no server. There is nothing that this one doesn't know."""
        other = Client(self.number)
        other.uploads, other.sent = dict(self.uploads), list(self.sent)
        return other

    def meet(self, server, ending, may_fail=False):
        """Continues at this server, whose disk may fail."""
        self.connection, self.ending, self.may_fail = Connection(server), ending, may_fail

    def leave(self):
        self.connection.socket.close()

    def hear(self, message, bare=False):
        """The complete reply to a message."""
        try:
            self.connection.send(message)
            reply = self.connection.reply(bare)
            same(bare or len(reply.body) == int(reply.fields.get("content-length", 0)), True, "whether a body is whole")
        except (OSError, AssertionError) as fault:
            if not self.ending.is_set():
                raise
            raise Ended from fault
        return reply

    def ask(self, method, path):
        return self.hear(head(method, path, {}), method == "HEAD")

    def change(self, message, path, after):
        """Sends a change after which the upload is `after`, and returns its path."""
        self.asked = path, after
        reply = self.hear(message)
        if reply.status == 503 and (self.may_fail or self.ending.is_set()):
            said = {b"20 Closed\n", *([b""] if self.may_fail else [])}
            same(reply.body in said, True, f"whether {reply.body!r} is what a server says that ends, or that fails")
            raise Ended
        same(reply.status, 204 if path else 201, f"the status of a change, as {reply.whole!r} says")
        return self.settle(path or reply.fields["location"])

    def settle(self, path):
        """Notes that the change in `asked` is done, and that the upload has this path."""
        self.uploads[path] = self.asked[1]
        self.touched.add(path)
        self.asked = None
        return path

    # Changes.

    def pairs(self, mark):
        """The metadata of a new upload with this mark."""
        return [(b"mark", mark.encode())]

    def create(self, length, concat=None, body=b"", parts=()):
        """Makes an upload, and returns its path."""
        mark = f"{self.number}.{len(self.sent) + 1}"
        pairs, fields = self.pairs(mark), {}
        if pairs:
            fields["Upload-Metadata"] = metadata_of(pairs)
        if parts:
            concat = "final;" + " ".join(parts)
        elif length is None:
            fields["Upload-Defer-Length"] = 1
        else:
            fields["Upload-Length"] = length
        if concat:
            fields["Upload-Concat"] = concat
        self.sent.append(Upload(mark, pairs, concat, length, body).made())
        return self.change(head("POST", "/files/", fields), None, self.sent[-1])

    def join(self, parts):
        """Makes a final upload of these parts."""
        body = b"".join(self.uploads[path].body for path in parts)
        return self.create(len(body), body=body, parts=parts)

    def append(self, path, piece, length=None):
        """Appends a piece, and declares the length if one is given."""
        upload = self.uploads[path]
        message = patch(path, len(upload.body), len(piece), length) + piece
        known = upload.length if length is None else length
        return self.change(message, path, upload.appended(piece, known))

    def remove(self, path):
        return self.change(head("DELETE", path, {}), path, self.uploads[path].removed())

    # Checks.

    def look(self, path, upload=None):
        """Checks that an upload is what the count says, with its bytes if it is complete."""
        upload = upload or self.uploads[path]
        same(said_of(self.ask("HEAD", path)), upload.stands(), f"what a HEAD tells of {path}")
        if upload.is_there and upload.is_whole():
            reply = self.ask("GET", path)
            same((reply.status, reply.body == upload.body), (200, True), f"whether a GET brings the bytes of {path}")

    def resolve(self):
        """Finds out the result of the change that had no answer: it must be done, or not done at all."""
        if not self.asked:
            return
        path, after = self.asked
        if not path:
            self.lost[after.mark] = after
            self.asked = None
            return
        stands = said_of(self.ask("HEAD", path))
        before = self.uploads[path]
        may_be = before.stands(), after.stands()
        same(stands in may_be, True, f"whether {stands} of {path} is one of {may_be}")
        if stands == after.stands():
            self.settle(path)
        self.asked = None
        self.look(path)

    def come_back(self, everything=False):
        """Checks after a restart what the last run changed, and some or all of the rest."""
        self.resolve()
        rest = sorted(self.uploads.keys() - self.touched)
        for path in [*self.touched, *(rest if everything else random.sample(rest, min(SAMPLE, len(rest))))]:
            self.look(path)
        self.touched = set()

    # What a client does by itself.

    def begun(self):
        return [path for path, upload in self.uploads.items() if upload.is_there and not upload.is_whole()]

    def whole(self, concat=None):
        found = [path for path, upload in self.uploads.items() if upload.is_there and upload.is_whole()]
        return [path for path in found if not concat or self.uploads[path].concat == concat]

    def begin(self):
        """Makes an upload of some kind."""
        parts = self.whole("partial")
        if parts and random.random() < 0.3:
            return self.join(random.choices(parts, k=random.randint(1, 4)))
        length = random.choice([None, 0, random.randint(1, 3 * PIECE), random.randint(1, 3 * PIECE)])
        return self.create(length, random.choice([None, "partial"]))

    def go_on_with(self, path):
        """Appends a piece to an upload that is under way, or declares its length, or both."""
        upload = self.uploads[path]
        piece = random.randbytes(random.choice(LONG) if random.random() < 0.1 else random.randint(0, PIECE))
        if upload.length is not None:
            return self.append(path, (piece or b"x")[: upload.length - len(upload.body)])
        if random.random() < 0.4:
            return self.append(path, piece, len(upload.body) + len(piece) + random.choice([0, PIECE]))
        return self.append(path, piece or b"x")

    def work(self, pause=0):
        """Changes uploads until the connection ends, or a change is refused, with this pause after each change."""
        with contextlib.suppress(Ended):
            for _ in range(4_000):
                self.step()
                time.sleep(pause)

    def step(self):
        begun, whole = self.begun(), self.whole()
        if len(whole) > MAX_WHOLE or whole and random.random() < 0.05:
            self.remove(random.choice(whole))
        elif begun and (len(begun) >= MAX_BEGUN or random.random() < 0.7):
            self.go_on_with(random.choice(begun))
        elif whole and random.random() < 0.1:
            self.look(random.choice(whole))
        else:
            self.begin()

    def goes_on(self):
        """Whether a creation is made soon. A file that failed may be opened again at the next one, or a second
        later."""
        for _ in range(TRIES):
            with contextlib.suppress(Ended):
                self.create(3)
                return True
            self.resolve()
            time.sleep(PAUSE)
        return False

    def finish(self):
        """Completes all uploads that are under way."""
        for path in self.begun():
            upload = self.uploads[path]
            size = len(upload.body) + 1 if upload.length is None else upload.length
            self.append(path, random.randbytes(size - len(upload.body)), size)


# The lines of events.


def lane_of(path, lanes=LANES):
    """The lane of an upload, by its path or its id."""
    return int(path[-32:], 16) % lanes


class Told:
    """The events of each lane, as the lines of all runs report them, each once. A run that ended by a kill may have
    handed over an event that it had not counted, which the next run hands over again."""

    def __init__(self, before=None):
        """Copies another one, or starts with no events."""
        self.of_lane = {lane: list(before.of_lane[lane]) if before else [] for lane in range(LANES)}
        self.repeated = before.repeated if before else 0
        self.was_killed = before is not None and before.was_killed

    def add(self, output, is_killed):
        """Adds the output of a run, and returns the report after its lines. A kill may cut the last line."""
        lines, _, report = ("\n" + output).partition("\n\n")
        if is_killed:
            lines, _, _ = ("\n" + output).rpartition("\n")
        new = {lane: [] for lane in range(LANES)}
        for line in lines[1:].split("\n") if lines else []:
            found = re.fullmatch(r"([0-9a-f]{32}) \d+ post-[a-z]+ \d+/(\d+|-) done", line)
            same(found is not None, True, f"whether {line!r} tells of an event")
            new[lane_of(found[1])].append(line)
        for lane, came in new.items():
            self.add_lane(self.of_lane[lane], came)
        self.was_killed = is_killed
        return report

    def add_lane(self, before, came):
        if self.was_killed and before and came and came[0] == before[-1]:
            self.repeated += 1
            came = came[1:]
        before += came

    def events(self):
        """The events of each upload, in order."""
        events = {}
        for lines in self.of_lane.values():
            for line in lines:
                events.setdefault("/files/" + line[:32], []).append(line[33:])
        return events

    def counts(self):
        """How many events each lane has handed over in total."""
        return [len(lines) for lines in self.of_lane.values()]

    def unknown(self, clients):
        """The uploads that lines report and that no client knows."""
        known = {path for client in clients for path in client.uploads}
        return sorted(self.events().keys() - known)

    def hold(self, clients, is_whole):
        """Compares the events with the count of the clients: for each upload a prefix of its events, or all if
        `is_whole` is set, each once and in order. A change without an answer may have its events."""
        events = self.events()
        for client in clients:
            for path, upload in client.uploads.items():
                came = tuple(events.pop(path, ()))
                may_be = [upload.events]
                if client.asked and client.asked[0] == path:
                    may_be.append(client.asked[1].events)
                fits = came in may_be if is_whole else any(came == wanted[: len(came)] for wanted in may_be)
                part = "all" if is_whole else "the first"
                same(fits, True, f"whether {list(came)} of {path} are {part} of {list(may_be[-1])}")
        lost = [upload.events for client in clients for upload in client.lost.values()]
        lost += [client.asked[1].events for client in clients if client.asked and not client.asked[0]]
        for path, came in events.items():
            fits = any(tuple(came) == (wanted if is_whole else wanted[: len(came)]) for wanted in lost)
            same(fits, True, f"whether {came} of {path}, which no client knows, are of a POST without an answer")
        same(len(events) <= len(lost), True, "whether there are no more uploads that no client knows than such POSTs")


def adopt(clients, paths):
    """Gives each upload that no client knows to the client whose creation had no answer. The upload's mark names it."""
    for path in paths:
        reply = clients[0].ask("HEAD", path)
        same(reply.status, 200, f"the status of a HEAD of {path}, which no client knows")
        found = re.fullmatch(r"mark (\S+)", reply.fields.get("upload-metadata", ""))
        same(found is not None, True, f"whether {path} has a mark")
        mark = base64.b64decode(found[1]).decode()
        client = clients[int(mark.partition(".")[0])]
        same(mark in client.lost, True, f"whether {mark} of {path} had no answer, and has no other path")
        client.uploads[path] = client.lost.pop(mark)
        clients[0].look(path, client.uploads[path])
