#!/usr/bin/env python3
"""Fills the disk of `up serve --store DIR` with clients that try again and again, and removes uploads meanwhile.

    tests/fulldisk.py [--program PATH] [NAME..]

It needs Python 3, Linux, and leave to mount a disk in memory. `tests/crash.py` runs its cases too.
"""
import argparse
import os
import random
import re
import sys
import threading
import time

from serving import MAX_WAIT, Connection, at_once, build, same, soon, try_all
from stored import Kept, Store, enlarge, may_mount, small_disk

# The uploads that are removed, the connections that make them, and how many are removed before the server is killed.
REMOVED, MAKERS, BEFORE = 10_000, 4, 6_000

# The uploads of the case with less to do, of which half are removed.
FEW = 200

# The clients that upload again and again, the bytes of each of their uploads, and the seconds before they try again.
UPLOADERS, BODY, PAUSE = 12, bytes(200_000), 0.01

# The seconds between two lines, as a thread notices them that may be late for one of them.
APART = 0.8

# What standard error says by turns.
REFUSED = re.compile(r"up_server: changes can't be stored, and are refused: .+")
AGAIN = "up_server: changes are stored again"
LANE = re.compile(r"up_server: lane \d+ (waits for memory|waits with its last event|goes on)")


class Patient(Kept):
    """A server that ends by a kill, and is waited for longer, since it reads many changes while it starts."""

    def line(self):
        return next(filter(None, (super(Patient, self).line() for _ in range(6))), "")


class Uploaders:
    """Clients that upload until the end of the `with`, and try again when they are answered 503."""

    def __init__(self, server):
        self.server, self.over = server, threading.Event()
        self.done, self.refused, self.faults = [0] * UPLOADERS, [0] * UPLOADERS, []
        self.threads = [threading.Thread(target=self.work, args=[number]) for number in range(UPLOADERS)]

    def __enter__(self):
        for thread in self.threads:
            thread.start()
        return self

    def __exit__(self, kind, *_):
        self.over.set()
        for thread in self.threads:
            thread.join()
        if kind is None:
            same(self.faults, [], "what went wrong with an upload")

    def work(self, number):
        try:
            with Connection(self.server) as connection:
                while not self.over.is_set():
                    self.upload(connection, number)
        except (OSError, AssertionError) as fault:
            self.faults.append(fault)

    def upload(self, connection, number):
        """Makes an upload of all bytes, with as many tries as it takes."""
        made = self.until(201, number, lambda: connection.ask("POST", "/files/", upload_length=len(BODY)))
        if made and self.until(204, number, lambda: connection.append(made.fields["location"], 0, BODY)):
            self.done[number] += 1

    def until(self, status, number, ask):
        """The first reply with this status, None if the end comes first. Every other reply must be a refusal."""
        while not self.over.is_set():
            reply = ask()
            if reply.status == status:
                return reply
            same(reply.status, 503, f"the status of a change on a full disk, as {reply.whole!r} says")
            self.refused[number] += 1
            time.sleep(PAUSE)
        return None

    def until_refused(self):
        """Waits until each client was refused once more."""
        before = list(self.refused)
        soon(lambda: all(now > old for now, old in zip(self.refused, before)), "each client is refused")

    def until_done(self):
        """Waits until an upload more is done."""
        before = sum(self.done)
        soon(lambda: sum(self.done) > before, "an upload is done")


class Lines:
    """The lines on standard error of a server until it is killed, each with the time at which it came, but for those that
    say that a lane waits, as it does while the disk has no room for its count, or goes on."""

    def __init__(self, server):
        self.server, self.found = server, []
        self.thread = threading.Thread(target=self.read, daemon=True)
        self.thread.start()

    def read(self):
        for line in self.server.process.stderr:
            text = line.decode().rstrip("\n")
            if not LANE.fullmatch(text):
                self.found.append((time.monotonic(), text))

    def hold(self):
        """Kills the server. Checks that the lines say by turns that changes are refused and are stored again, and that
        about a second at least passes between two. Returns how many there are."""
        self.server.kill()
        self.thread.join(MAX_WAIT)
        texts = [text for _, text in self.found]
        turns = [bool(REFUSED.fullmatch(text)) if number % 2 == 0 else text == AGAIN for number, text in enumerate(texts)]
        same(bool(turns) and all(turns), True, f"whether {texts} say by turns that changes are refused and are stored")
        times = [when for when, _ in self.found]
        close = [late - soon for soon, late in zip(times, times[1:]) if late - soon < APART]
        same(close, [], "the seconds between lines that are closer than a second")
        return len(texts)

    def until_again(self):
        """Waits until the last line says that changes are stored again."""
        soon(lambda: self.found and self.found[-1][1] == AGAIN, "changes are stored again")


def make_all(server, count):
    """The paths of new uploads to be removed."""
    found = []

    def make(_):
        with Connection(server) as connection:
            found.extend([connection.make(1000) for _ in range(count // MAKERS)])

    at_once(make, MAKERS)
    return found


def remove_all(server, paths):
    """Removes uploads one after another, each of which must be done."""
    with Connection(server) as connection:
        for number, path in enumerate(paths):
            reply = connection.ask("DELETE", path)
            same(reply.status, 204, f"the status of the DELETE {number}, as {reply.whole!r} says")


def hold_standing(server, gone, there):
    """Checks some of the uploads that are removed, and some of those that are there."""
    with Connection(server) as connection:
        for status, paths in ((404, gone), (200, there)):
            for path in random.sample(paths, min(100, len(paths))):
                same(connection.ask("HEAD", path).status, status, f"the status of a HEAD of {path}")


def removals_on_a_full_disk():
    """While 12 clients fill a disk and try again, 10,000 removals are done one after another, also after a kill; all
    is done once there is room, and about a second at least passes between two lines that say so."""
    with small_disk() as disk:
        store = Store(program, os.path.join(disk, "store"), lanes=1)
        with store.kept(Patient) as server:
            paths = make_all(server, REMOVED)
            lines = Lines(server)
            with Uploaders(server) as uploaders:
                uploaders.until_refused()
                remove_all(server, paths[:BEFORE])
                uploaders.until_refused()
            count = lines.hold()
        with store.kept(Patient) as server:
            lines = Lines(server)
            with Uploaders(server) as uploaders:
                uploaders.until_refused()
                hold_standing(server, paths[:BEFORE], paths[BEFORE:])
                remove_all(server, paths[BEFORE:])
                uploaders.until_refused()
                enlarge(disk)
                uploaders.until_done()
            # While they upload, they fill the larger disk too.
            lines.until_again()
            hold_standing(server, paths, [])
            same(os.path.getsize(store.path("spare")), 1 << 20, "the bytes that are kept for removals once there is room")
            count += lines.hold()
        with store.kept(Patient) as server:
            hold_standing(server, paths, [])
    return f"{count} lines"


def filled_by_removals():
    """A server that starts on a disk without room for what is kept for removals takes removals alone until there is."""
    with small_disk() as disk:
        store = Store(program, os.path.join(disk, "store"), lanes=1)
        with store.kept(Patient) as server:
            paths = make_all(server, FEW)
            server.kill()
        os.remove(store.path("spare"))
        with open(os.path.join(disk, "other"), "wb", buffering=0) as other:
            left = os.statvfs(disk).f_bavail * os.statvfs(disk).f_frsize
            other.write(bytes(left - (1 << 19)))
        with store.kept(Patient) as server, Connection(server) as connection:
            lines = Lines(server)
            same(connection.ask("POST", "/files/", upload_length=5).status, 503, "the status of a POST")
            same(connection.append(paths[0], 0, b"abc").status, 503, "the status of a PATCH")
            remove_all(server, paths[: FEW // 2])
            hold_standing(server, paths[: FEW // 2], paths[FEW // 2 :])
            os.remove(os.path.join(disk, "other"))
            lines.until_again()
            same(connection.append(paths[-1], 0, b"abc").status, 204, "the status of a PATCH once there is room")
            count = lines.hold()
        with store.kept(Patient) as server:
            hold_standing(server, paths[: FEW // 2], paths[FEW // 2 :])
    return f"{count} lines"


CASES = [removals_on_a_full_disk, filled_by_removals]

if __name__ == "__main__":
    given = argparse.ArgumentParser(description=__doc__)
    given.add_argument("--program", metavar="PATH", help="what is tried in place of crates/up/out/up")
    given.add_argument("names", nargs="*", metavar="NAME", help="the cases to be tried, in place of all")
    given = given.parse_args()
    program = os.path.abspath(given.program or build())
    passed_over = [] if may_mount() else [f"{case.__name__}, since no disk may be mounted here" for case in CASES]
    sys.exit(try_all([] if passed_over else CASES, given.names, passed_over))
