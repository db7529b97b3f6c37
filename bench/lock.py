#!/usr/bin/env python3
"""Measures how long a request of one client makes another one wait.

    bench/lock.py [--program NAME=PATH[@GLIBC_TUNABLES]].. [--rounds N] [--small] [NAME..]

It needs a C compiler, for its watcher (bench/watch.c), and nothing else. Two servers of a program run next to each
other. One of them is busy with the largest of everything from one client: bodies, finals, removals, lanes that fill.
The other one has nothing to do, and shows what the machine alone does. Meanwhile a thread of the watcher asks for the
state of another, small upload of each server, by HEAD on a kept connection, and sends the next HEAD as soon as it has
the answer.

Each of N rounds (by default 3) does each work with each program, in turn. A line for each work and program has the
number of answers of the busy server, their mean and the longest, in milliseconds, and the longest of the idle server.
The longest is given for the best round and for the worst, since the system may let something else run in any round. The
goal is that in the best round the longest is under a millisecond, or no longer than the idle server's longest in any
round. If the goal is missed, the line says so, and the exit status is 1.

The works take up to 3 GiB of memory, if a final takes bytes of its own. `--small` uses an eighth of the sizes and
numbers. Without `--program` the program of this tree is measured, as the script `up` starts it; the option may be
repeated. NAME is a course's name, to do only that one.
"""
import argparse
import contextlib
import os
import subprocess
import sys
import tempfile
import time

from contenders import MIB, add_program_word, by_turns, compiled, contenders_of, hear, say_machine, say_table
from serving import Connection, Maker, head, patch, same

# The seconds that are watched before a work begins and after it has ended.
AROUND = 0.05

# The longest wait that is accepted, in milliseconds.
MAX_WAIT = 1.0

PIECE = bytes(MIB)
SMALL_BODY = 16_384
PART = 65_536

# The URLs of this many parts fit into a head, and this many finals are made of them.
PARTS = 400
FINALS = 20

# The number of lanes, and of events in the queue of each. The lanes are filled over PAIRS pairs of connections, by
# UPLOADS uploads on each connection, of which TOGETHER are requested at a time.
LANES = 16
CAPACITY = 4096
PAIRS = 8
UPLOADS = 8192
TOGETHER = 128

# A few more events than this wait in one lane's log.
WAITING = 10_000_000


class Course:
    """A busy server and an idle one, for one round, and the times of their watched answers."""

    def __init__(self, watcher, busy, idle, events, divisor):
        self.watcher, self.busy, self.events, self.divisor = watcher, busy, events, divisor
        self.maker = Maker(busy)
        self.watched = []
        for server in (busy, idle):
            with Connection(server) as connection:
                path = connection.make(2)
                same(connection.append(path, 0, b"x").status, 204, "the status of a PATCH")
            self.watched += [str(server.port), path]
        self.found = {}

    @contextlib.contextmanager
    def watch(self, title):
        """Watches both servers for the time of a `with`."""
        words = [self.watcher, *self.watched]
        with subprocess.Popen(words, stdin=subprocess.PIPE, stdout=subprocess.PIPE, text=True) as watcher:
            if watcher.stdout.readline() != "begun\n":
                sys.exit("bench: the watcher has no answers")
            time.sleep(AROUND)
            yield
            time.sleep(AROUND)
            watcher.stdin.close()
            numbers = [float(word) for word in watcher.stdout.read().split()]
        if watcher.returncode != 0:
            sys.exit("bench: a server that was watched did not answer")
        self.found[title] = numbers

    def send_body(self, path, offset, size, status=204):
        """A PATCH with this many bytes."""
        connection = self.maker.connection
        connection.send(patch(path, offset, size))
        for _ in range(size // MIB):
            connection.send(PIECE)
        same(connection.reply().status, status, "the status of a PATCH")

    def make_part(self, length, body):
        """A part that is uploaded in such bodies."""
        path = self.maker.make(length, Upload_Concat="partial")
        message = bytes(body)
        for offset in range(0, length, body):
            self.maker.ask(patch(path, offset, body) + message, 204)
        return path

    def make_final(self, parts):
        return self.maker.ask(head("POST", "/files/", {"Upload-Concat": "final;" + " ".join(parts)}), 201)


def size_of(count):
    return f"{count >> 30} GiB" if count >= 1 << 30 else f"{count // MIB} MiB"


def bodies(course):
    """Large bodies, the last of which is refused."""
    size = 256 * MIB // course.divisor
    path = course.maker.make(3 * size)
    with course.watch(f"a body of {size_of(size)}"):
        course.send_body(path, 0, size)
    with course.watch(f"a second body of {size_of(size)}"):
        course.send_body(path, size, size)
    with course.watch(f"a body of {size_of(size)} that is refused"):
        course.send_body(path, 0, size, status=409)


def finals(course):
    """Finals of as many parts as fit into a head."""
    parts = [course.make_part(PART, PART) for _ in range(PARTS // course.divisor)]
    with course.watch(f"{FINALS} finals of {len(parts)} parts of 64 KiB"):
        for _ in range(FINALS):
            course.make_final(parts)


def pieces(course):
    """A part that comes in very many bodies, and its final."""
    size = (1 << 30) // course.divisor
    with course.watch(f"a part of {size_of(size)} in bodies of 16 KiB"):
        part = course.make_part(size, SMALL_BODY)
    with course.watch("a final of this part"):
        final = course.make_final([part])
    with course.watch("a DELETE of the final and of the part"):
        for path in (final, part):
            course.maker.ask(head("DELETE", path, {}), 204)


def fetch(connection, path, size):
    """A GET whose bytes are dropped."""
    connection.send(head("GET", path, {}))
    same(connection.reply_head().status, 200, "the status of a GET")
    into, came = bytearray(MIB), len(connection.read)
    while came < size:
        more = connection.socket.recv_into(into)
        if more == 0:
            sys.exit("bench: the body of a GET broke off")
        came += more


def whole(course):
    """An upload of the largest size, which is fetched and removed."""
    size = (1 << 30) // course.divisor
    path = course.maker.make(size)
    course.send_body(path, 0, size)
    with course.watch(f"a GET of {size_of(size)}"), Connection(course.busy) as connection:
        fetch(connection, path, size)
    with course.watch(f"a DELETE of {size_of(size)}"):
        course.maker.ask(head("DELETE", path, {}), 204)


def make_uploads(server, count, length=1):
    """Makes this many uploads of this length on each of two connections."""
    post = head("POST", "/files/", {"Upload-Length": length})
    with Connection(server) as one, Connection(server) as other:
        for _ in range(count // TOGETHER):
            for connection in (one, other):
                connection.send(post * TOGETHER)
            for connection in (one, other):
                hear(connection, TOGETHER, 201)


def hear_lines(events, count):
    """Reads this many lines of events."""
    while count > 0:
        count -= os.read(events, MIB).count(b"\n")


def lanes(course):
    """Lanes that fill while nobody reads what their post-hooks write, and that are then emptied."""
    uploads = UPLOADS // course.divisor
    made = 2 * PAIRS * uploads
    with course.watch(f"{made:,} uploads made, {LANES} lanes fill"):
        for _ in range(PAIRS):
            make_uploads(course.busy, uploads)
    with course.watch("these lanes hand over"):
        hear_lines(course.events, made)


def backlog(course):
    """A lane's log of very many events, since nobody reads what its post-hook writes; then half of it is handed over.

    An upload of no bytes has two events.
    """
    pairs = -(-WAITING // course.divisor // (4 * UPLOADS))
    made = pairs * 2 * UPLOADS
    with course.watch(f"{2 * made:,} events of one lane wait"):
        for _ in range(pairs):
            make_uploads(course.busy, UPLOADS, 0)
    with course.watch("half of them are handed over"):
        hear_lines(course.events, made)


COURSES = [bodies, finals, pieces, whole, lanes, backlog]

TITLES = ["work", "program", "answers", "mean", "longest: best", "worst", "idle: best", "worst", ""]


def words_of(course, divisor):
    """The words of the servers of a course."""
    if course is backlog:
        return ["--lanes", "1", "--events"]
    if course is not lanes:
        return []
    return ["--lanes", str(LANES), "--capacity", str(CAPACITY // divisor), "--events"]


def run(course, contender, watcher, divisor):
    """The times of the watched answers of a course, by the names of its works."""
    words = words_of(course, divisor)
    events, sink = os.pipe()
    with contender.server(*words, sink=sink) as busy, contender.server(*words) as idle:
        os.close(sink)
        round_of_it = Course(watcher, busy, idle, events, divisor)
        course(round_of_it)
    os.close(events)
    return round_of_it.found


def line(title, name, rounds):
    """The cells of a work of a program. Each round has the count, mean and longest of both servers."""
    counts, means, longest, _, _, of_idle = zip(*rounds)
    mean = sum(count * mean for count, mean in zip(counts, means)) / sum(counts)
    times = [mean, min(longest), max(longest), min(of_idle), max(of_idle)]
    met = min(longest) < MAX_WAIT or min(longest) <= max(of_idle)
    return [title, name, f"{sum(counts):,.0f}", *(f"{it:.3f}" for it in times), "" if met else "MISSED"]


def watch_all(contenders, courses, watcher, rounds, divisor):
    """Does the courses in turn, and prints their table. Returns whether all goals are met."""
    came = {}
    for number in range(rounds):
        for course in courses:
            for contender in by_turns(contenders, number):
                print(f"round {number + 1} of {rounds}: {course.__name__} of {contender.name}", file=sys.stderr, flush=True)
                for title, numbers in run(course, contender, watcher, divisor).items():
                    came.setdefault(title, {}).setdefault(contender.name, []).append(numbers)
    rows = [line(title, it.name, of_title[it.name]) for title, of_title in came.items() for it in contenders]
    say_table([TITLES, *rows], texts=2)
    return not any(row[-1] for row in rows)


def main():
    words = argparse.ArgumentParser()
    add_program_word(words)
    words.add_argument("--rounds", type=int, default=3, help="how many times each course is done with each program")
    words.add_argument("--small", action="store_true", help="sizes and numbers of an eighth")
    names = [course.__name__ for course in COURSES]
    words.add_argument("names", nargs="*", metavar="NAME", help=f"what is to be done, of {', '.join(names)}")
    given = words.parse_args()
    for name in given.names:
        if name not in names:
            words.error(f"nothing is named {name}")
    courses = [course for course in COURSES if not given.names or course.__name__ in given.names]
    contenders = contenders_of(given.programs)
    say_machine()
    with tempfile.TemporaryDirectory() as folder:
        if not watch_all(contenders, courses, compiled("watch", folder), given.rounds, 8 if given.small else 1):
            sys.exit("bench: a goal is missed")


main()
