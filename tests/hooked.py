#!/usr/bin/env python3
"""Runs `up serve --hooks-http` with a hook server that refuses, fails, is killed and is away, and compares what it was
asked and told with what clients did. Also runs examples/hooks, and a hook server that was written for tusd.

    tests/hooked.py [--program PATH] [--rounds N] [NAME..]

It needs only Python 3 and Linux, and takes half a minute with two rounds, which is the default.

In each round sixteen clients create, append, declare lengths, concatenate and remove. Meanwhile the hook server is
slow, answers badly, and is killed and started again, and in one case the program is killed too. The hook server must be
told of the events that the accepted changes define, each once and in order. An event may come again if it wasn't
acknowledged, and at most once in each lane after a kill of the program. What the hook server didn't allow isn't done.
Each question and each event must have the metadata, the kind and the parts with which a client created the upload.

For each case, one line says whether it passed. The last line is `N passed, M failed`, and the exit status is 1 if a
case failed.
"""
import argparse
import http.server
import os
import random
import re
import sys
import tempfile
import threading
import time

import crashed
import exchanges
import operators
import stored
from copied import HEAPED, PIECE, Lone
from crashed import LANES, coded, lane_of
from endings import MAX_BUSY
from hooking import Client, HookServer, Stock, answer, at_random, by_mark, hold_allowed, hold_created, rejection
from operators import made
from serving import Connection, at_once, below, build, events_of, head, numbered, same, soon, try_all

# The number of clients, the seconds of a client between two changes, those of all work before a server is stopped, and
# how often a server is killed in each round.
CLIENTS, PAUSE, WORK, KILLS = 16, 0.04, (0.6, 1.2), 3

# How many events a stock hook server is told of, and the least number of them in a second. With nothing else to do, the
# program tells it of more than 500 in a second.
EVENTS, LEAST = 1500, 300

# What standard error says, once, of answers that let a request pass and say more.
IGNORED = "up_server: the hook says StopUpload or HTTPResponse without a rejection, which is ignored"

# What standard error may say of lanes and events.
SAID = re.compile(r"up_server: (lane \d+ (waits with its last event|goes on)|.* is sent again.*)")


class Hooked(stored.Plain):
    """A server that asks and tells the hook server at this URL, with these words."""

    def __init__(self, url, *words, timeout=1, lanes=LANES):
        hook_words = ["--hooks-http", url, "--hooks-http-timeout", str(timeout)]
        super().__init__(program, "--lanes", str(lanes), *hook_words, *words)

    def finish(self, *lines):
        """Ends in order with status 0. Beside what may be said of lanes and events, standard error has these lines.
        Returns the lines of events, and the report from its first number on."""
        self.end()
        same(self.process.wait(MAX_BUSY), 0, "the status")
        said = self.process.stderr.read().decode().splitlines()
        same([line for line in said if not SAID.fullmatch(line)], [*lines], "what else is said")
        return self.output().rpartition("\naccepted ")[::2]


def told(hooks, count):
    """The events that a hook server was told of, without ids, once it has acknowledged so many."""
    soon(lambda: sum(note.how != "failed" for note in hooks.posts()) >= count, f"{count} events are acknowledged")
    return [note.line()[33:] for note in hooks.posts()]


# Faults at random.


def together(clients, server, ending, work, *beside):
    """Has all clients do this work at once, and does all else meanwhile."""
    for client in clients:
        client.meet(server, ending)
    try:
        at_once(lambda n: work(clients[n]) if n < CLIENTS else beside[n - CLIENTS](), CLIENTS + len(beside))
    finally:
        for client in clients:
            client.leave()


def work(clients, server, hooks, stop):
    """Has all clients work, while the hook server is killed and started again, until `stop` has stopped the server."""
    ending, is_over = threading.Event(), threading.Event()

    def stop_soon():
        time.sleep(random.uniform(*WORK))
        ending.set()
        try:
            stop()
        finally:
            is_over.set()

    together(clients, server, ending, lambda client: client.work(PAUSE), lambda: hooks.harass(is_over), stop_soon)


def work_to_end(clients, server, hooks):
    """Has all clients work until the server is ended in order. Compares what the hook server was asked and told in all
    runs, and the report, with what the clients did. Returns a text about it."""
    reports = []
    work(clients, server, hooks, lambda: reports.append(server.finish()[1]))
    told = hooks.told()
    told.hold(clients, is_whole=True)
    hold_created(hooks.notes, clients)
    hold_allowed(hooks.notes, told)
    accepted, *lanes = reports[0].splitlines()
    same(lanes, [f"lane {lane} drained {count}" for lane, count in enumerate(told.counts())], "the report")
    known = sum(upload.changes for client in clients for upload in client.uploads.values())
    most = known + sum(bool(client.asked) + len(client.lost) for client in clients)
    same(known <= int(accepted) <= most, True, f"whether {known} to {most} changes are {accepted} in the report")
    refused = sum(client.refused for client in clients)
    return f"{sum(told.counts()):,} events, {told.repeated} repetitions, {refused} refusals"


def faults():
    """While the hook server fails, no event is lost or comes again without need, and nothing is done that it didn't
    allow."""
    texts = []
    for seed in range(rounds):
        clients = [Client(number) for number in range(CLIENTS)]
        with HookServer(at_random(seed), by_mark, seed) as hooks, Hooked(hooks.url, "--grace", "30") as server:
            texts.append(work_to_end(clients, server, hooks))
    return "; ".join(texts)


def kills():
    """With a store the same is true if the server is killed as well."""
    texts = []
    for seed in range(rounds):
        clients = [Client(number) for number in range(CLIENTS)]
        with HookServer(at_random(seed), by_mark, seed) as hooks, tempfile.TemporaryDirectory() as folder:
            words = [hooks.url, "--grace", "30", "--store", os.path.join(folder, "store")]
            for _ in range(KILLS):
                with Hooked(*words) as server:
                    together(clients, server, threading.Event(), Client.come_back)
                    work(clients, server, hooks, server.kill)
                hooks.note_kill()
            with Hooked(*words) as server:
                together(clients, server, threading.Event(), Client.come_back)
                texts.append(work_to_end(clients, server, hooks))
    return "; ".join(texts)


# What pre-hooks answer and are asked.


# Answers about a creation, each with the status and the body of the reply that the client gets.
ANSWERS = [
    (answer(), 201, b""),
    (answer({"RejectUpload": False, "ChangeFileInfo": {}, "HTTPResponse": {}}, status=299), 201, b""),
    *((answer(rejection(status, "no\n")), status, b"no\n") for status in (400, 403, 409, 413, 422, 429)),
    *((answer(rejection(status, "no\nnever\n")), 400, b"no\n") for status in (404, 500, None)),
    (answer(rejection(401, "who are you?")), 403, b"who are you?\n"),
    (answer({"RejectUpload": True}), 400, b"rejected by the hook\n"),
    (answer({"ChangeFileInfo": {"ID": "a"}}), 409, b"the hook asks for a change of the upload\n"),
    *((answer(body=body), 409, b"the hook's answer is no JSON\n") for body in (b"", b"hello", b"[]", b"{", b'"{}"')),
    *((answer(status=status), 409, b"the hook has failed\n") for status in (300, 404, 500)),
    *((fault, 409, b"no answer from the hook\n") for fault in ("nonsense", "half", "much", "close", "late")),
]


def answers():
    """An upload is made only by an answer of success with an object that neither rejects nor changes anything. The
    reply has the status and the line of what rejects, and doesn't wait for an answer that is late."""
    with HookServer() as hooks, Hooked(hooks.url) as server, Connection(server) as client:
        for said, status, body in ANSWERS:
            hooks.plan = lambda note: said if note.is_pre else None
            start = time.monotonic()
            reply = made(client)
            below(time.monotonic() - start, 2.5, f"the seconds until the reply after {said!r}")
            same((reply.status, reply.body), (status, body), f"the reply after {said!r}")
            asked = [note for note in hooks.notes if note.is_pre][-1]
            same(client.ask("HEAD", f"/files/{asked.id}").status, 200 if status == 201 else 404, "the status of a HEAD")
        hooks.kill()
        same(made(client).status, 409, "the status without a hook server")
        hooks.start()
        same(told(hooks, 2), ["1 post-create 0/3 done"] * 2, "the events")
        server.finish()


def later_answers():
    """What is rejected as an upload is completed or removed isn't done, and may be asked for again. What an answer says
    without a rejection is ignored, which is said once."""
    with HookServer() as hooks, Hooked(hooks.url) as server, Connection(server) as client:
        path = made(client).fields["location"]
        same(client.append(path, 0, b"a").status, 204, "the status of a PATCH that completes nothing")
        for said, status in ((answer(rejection(413, "no")), 413), ("error", 409), ("half", 409), (None, 204)):
            hooks.plan = lambda note: said if note.is_pre else None
            same(client.append(path, 1, b"bc").status, status, f"the status of the last PATCH after {said!r}")
            same(client.offset(path), 1 if status != 204 else 3, "the offset then")
        for name, code, status in (("RejectTermination", 403, 403), ("RejectUpload", 500, 400), ("None", 422, 204)):
            hooks.verdict = lambda note: rejection(code, "kept", name) if note.is_pre else {}
            same(client.ask("DELETE", path).status, status, f"the status of a DELETE after {name}")
            same(client.ask("GET", path).status, 200 if status != 204 else 404, "the status of a GET then")
        events = ["post-create 0/3", "post-receive 1/3", "post-receive 3/3", "post-finish 3/3", "post-terminate 3/3"]
        same(told(hooks, 5), numbered(events), "the events")
        hooks.verdict = lambda note: {"StopUpload": True}
        same(made(client).status, 201, "the status of a POST after StopUpload")
        server.finish(IGNORED)


def fields():
    """A pre-hook is told of the request, and of the fields that are named, as Go writes them, and of no others. What
    isn't UTF-8 in metadata is replaced."""
    given = {"authorization": "Bearer x", "x-KEY": "1", "Cookie": "a=b", "X-Key": "2"}
    metadata = f"filename {coded('ä.txt')},empty,raw /w==,\udcff MQ==,\udcfe Mg=="
    decoded = {"filename": "ä.txt", "empty": "", "raw": "\ufffd", "\ufffd": "2"}
    forwarded = {"Authorization": ["Bearer x"], "X-Key": ["1", "2"]}
    for words, wanted in ((["--hooks-http-forward-headers", "Authorization, X-KEY,x-none"], forwarded), ([], {})):
        with HookServer() as hooks, Hooked(hooks.url, *words) as server, Connection(server) as client:
            client.send(head("POST", "/files/", {**given, "Upload-Length": 0, "Upload-Metadata": metadata}))
            path = client.reply().fields["location"]
            client.send(head("DELETE", path, given))
            same(client.reply().status, 204, "the status of a DELETE")
            told(hooks, 3)
            asked = [note for note in hooks.notes if note.is_pre]
            address = "{}:{}".format(*client.socket.getsockname())
        same([note.hook for note in asked], ["pre-create", "pre-finish", "pre-terminate"], "the pre-hooks")
        for note, method, uri in zip(asked, ("POST", "POST", "DELETE"), ("/files/", "/files/", path)):
            said = {"Method": method, "URI": uri, "RemoteAddr": address, "Header": wanted}
            same((note.request, note.id), (said, path[-32:]), f"what {note.hook} is told of the request")
        same([note.upload["MetaData"] for note in hooks.notes], [decoded] * 6, "the metadata")


def enabled():
    """Only the hooks that are enabled are asked and told, also of an event before which the server was killed."""
    with HookServer() as hooks, tempfile.TemporaryDirectory() as folder:
        words = [hooks.url, "--hooks-enabled-events", "post-finish", "--store", os.path.join(folder, "store")]
        with Hooked(*words) as server, Lone(server) as client:
            client.remove(client.append(client.append(client.create(5), b"ab"), b"cde"))
            told(hooks, 1)
            hooks.kill()
            path = client.append(client.append(client.create(5), b"ab"), b"cde")
            time.sleep(0.3)
            server.kill()
        hooks.start()
        with Hooked(*words) as server:
            same(told(hooks, 2), ["4 post-finish 5/5 done"] * 2, "the events")
            server.finish()
        same([note.hook for note in hooks.notes], ["post-finish"] * 2, "the hooks")
        same(hooks.notes[1].id, path[-32:], "the upload of the second event")
        hold_created(hooks.notes, [client])


class Named(crashed.Client):
    """A client whose uploads have a name, a part of which is no UTF-8, and a key without a value."""

    def pairs(self, mark):
        return [*super().pairs(mark), (b"name", b"\xc3\xa4\xff"), (b"none", b"")]


def make_two(client, is_removed):
    """Makes an upload of 5 bytes, and one that is joined of parts and has 6. Removes all if it is told to. Returns the
    paths of the two."""
    parts = [client.append(client.create(length, "partial"), bytes(length)) for length in (1, 2, 3)]
    paths = [client.append(client.append(client.create(5), b"ab"), b"cde"), client.join(parts)]
    for path in [*parts, *paths] * is_removed:
        client.remove(path)
    return paths


def make_shorter(client, store, lanes):
    """Has a log made shorter by the removal of a large upload. Its events all come, as its lane is none of these."""
    body = PIECE * HEAPED
    path = client.create(len(body))
    while lane_of(path) in lanes:
        path = client.create(len(body))
    client.remove(client.append(path, body))
    soon(lambda: store.logs() == ["log.1"], "the log is made shorter")


def lanes_told(hooks, hook, paths):
    """The lanes that have told of this event of these uploads."""
    return {lane_of(note.id) for note in hooks.posts() if note.hook == hook and f"/files/{note.id}" in paths}


def created():
    """An event that isn't acknowledged before a kill comes afterwards, with the metadata, the kind and the parts of its
    upload. So it does if the upload is removed and the log is made shorter meanwhile."""
    for hook, is_alone in ("post-finish", True), ("post-terminate", False):
        with HookServer() as hooks, stored.store_of(program) as store:
            words = [hooks.url, "--store", store.folder, *["--hooks-enabled-events", hook] * is_alone]
            client = Named(0)
            for is_shorter in (False, True):
                hooks.plan = lambda note: "silent" if note.hook == hook and note.upload["Size"] in (5, 6) else None
                with Hooked(*words, timeout=10) as server, Lone(server, client):
                    paths = make_two(client, is_shorter or hook == "post-terminate")
                    lanes = {lane_of(path) for path in paths}
                    soon(lambda: lanes_told(hooks, hook, paths) == lanes, "events are told, and not acknowledged")
                    if is_shorter:
                        make_shorter(client, store, lanes)
                    server.kill()
                hooks.note_kill()
                hooks.plan = lambda note: None
                with Hooked(*words, timeout=10) as server:
                    server.finish()
            hold_created(hooks.notes, [client])
            events = {path: list(upload.events) for path, upload in client.uploads.items()}
            if is_alone:
                events = {path: [each for each in of_one if hook in each] for path, of_one in events.items()}
            same(hooks.told().events(), {path: of_one for path, of_one in events.items() if of_one}, "the events")


def away():
    """While the hook server is away, all goes on that it isn't asked about, and the lines of status count the events
    that wait. They come when it is back."""
    with HookServer() as hooks, Hooked(hooks.url, "--status", "1") as server, Lone(server) as client:
        whole = client.append(client.create(5), b"hello")
        begun = [client.create(5) for _ in range(4)]
        told(hooks, 7)
        hooks.kill()
        for path in (*begun, whole):
            if path != whole:
                client.append(path, b"ab")
            client.look(path)
        with Connection(server) as other:
            statuses = [made(other).status, other.append(begun[0], 2, b"cde").status, other.ask("DELETE", whole).status]
        same(statuses, [409] * 3, "the statuses of what the hook server is asked about")
        counts = [sum(lane_of(path) == lane for path in begun) for lane in range(LANES)]
        lanes = [f"lane {lane} {'stopped' if n else 'drains'} ({n} waiting)" for lane, n in enumerate(counts)]
        said = [server.line()]
        while not re.search(re.escape(", ".join(lanes)) + r", the oldest for \d+ s\n$", said[-1]):
            said.append(server.line())
            same(said[-1] != "", True, f"whether {lanes} are reported, behind {said}")
        hooks.start()
        told(hooks, 11)
        hooks.told().hold([client], is_whole=True)


def silent():
    """A hook server that never answers holds up the end of a run for no longer than the grace. The status is then 1,
    and the next run begins with the event that waits."""
    with HookServer(lambda note: None if note.is_pre else "silent") as hooks, tempfile.TemporaryDirectory() as folder:
        words = [hooks.url, "--store", os.path.join(folder, "store"), "--grace", "2"]
        with Hooked(*words, timeout=10, lanes=1) as server, Lone(server) as client:
            client.append(client.create(5), b"ab")
            soon(hooks.posts, "an event is told")
            start = time.monotonic()
            server.end()
            same(server.process.wait(MAX_BUSY), 1, "the status")
            took = time.monotonic() - start
            below(1.9, took, "the grace, and the seconds until the end")
            below(took, 4, "the seconds until the end")
            same(server.process.stderr.read().splitlines()[-1], b"up_server: a lane stopped", "what is said at the end")
            same(server.output(), "\naccepted 2\nlane 0 stopped 0\n", "the report")
        hooks.plan, count = lambda note: None, len(hooks.posts())
        with Hooked(*words, lanes=1) as server:
            same(told(hooks, 2)[count:], numbered(["post-create 0/5", "post-receive 2/5"]), "the events then")
            server.finish()
    return f"{took:.1f} s"


def lines():
    """With `--events` the line of an event is written once the hook server has acknowledged it, and before the next one
    is told."""
    counts = []

    def plan(note):
        if not note.is_pre:
            counts.append(server.output().count("\n"))
        return "error" if len(counts) % 2 else None

    with HookServer(plan) as hooks, Hooked(hooks.url, "--events", lanes=1) as server:
        with Lone(server) as client:
            path = client.append(client.create(5), b"ab")
            told(hooks, 2)
            client.append(path, b"cde")
        told(hooks, 4)
        same(events_of(server.finish()[0]), {path: list(client.uploads[path].events)}, "the lines")
    same(counts, [0, 0, 1, 1, 2, 2, 3, 3], "how many lines were written each time an event was told")


def stock():
    """A lane tells a hook server that writes the head and the body of an answer apart of hundreds of events in a
    second."""
    with http.server.ThreadingHTTPServer(("127.0.0.1", 0), Stock) as hooks:
        hooks.told, hooks.goes_on = [], threading.Event()
        threading.Thread(target=hooks.serve_forever, daemon=True).start()
        words = [f"http://127.0.0.1:{hooks.server_port}", "--hooks-enabled-events", "post-create,post-receive"]
        with Hooked(*words, timeout=60, lanes=1) as server, Connection(server) as client:
            path = client.make(EVENTS)
            for offset in range(EVENTS - 1):
                same(client.append(path, offset, b"a").status, 204, "the status of a PATCH")
            hooks.goes_on.set()
            soon(lambda: len(hooks.told) >= EVENTS, "all events are told")
        hooks.shutdown()
    same([number for _, number in hooks.told], list(range(1, EVENTS + 1)), "the numbers of the events")
    rate = (EVENTS - 1) / (hooks.told[-1][0] - hooks.told[0][0])
    below(LEAST, rate, "the least number of events in a second")
    return f"{rate:,.0f} events a second"


def acknowledged():
    """A whole answer of a status of 200 to 299 acknowledges an event, whatever its body is. After any other one the
    same event is sent again."""
    exchanges.acknowledged(Hooked)


def until_end():
    """An answer that lasts until the connection is closed is read as any other."""
    exchanges.until_end(Hooked)


def kept():
    """A connection carries one event after another, and another one carries one question after another."""
    exchanges.kept(Hooked)


def chosen():
    """Those hooks are asked and told that a list names, which may have spaces and name a hook twice."""
    exchanges.chosen(Hooked)


def texts():
    """What is asked and told are texts in the form of tusd, without spaces, with the names of each object in order."""
    exchanges.texts(Hooked)


def metadata():
    """The metadata of an upload is told as an object, whether it has no pair, one or several."""
    exchanges.metadata(Hooked)


def example():
    """examples/hooks refuses by key and name, and stores and removes what is complete. That is to be paid for once,
    also if the example was killed before it had written so."""
    operators.example(Hooked)


def tusd():
    """A hook server that was written for tusd is understood, and understands what it is asked and told."""
    operators.tusd(Hooked)


given = argparse.ArgumentParser(description=__doc__)
given.add_argument("--program", metavar="PATH", help="what is tried in place of crates/up/out/up")
given.add_argument("--rounds", type=int, default=2, metavar="N", help="how often the hook server fails at random")
given.add_argument("names", nargs="*", metavar="NAME", help="the cases to be tried, in place of all")
given = given.parse_args()
program, rounds = os.path.abspath(given.program or build()), given.rounds

CASES = [
    faults, kills, answers, later_answers, fields, enabled, created, away, silent, lines, stock, acknowledged, until_end,
    kept, chosen, texts, metadata, example, tusd,
]
sys.exit(try_all(CASES, given.names))
