#!/usr/bin/env python3
"""Times `up serve --store DIR` next to the same writes alone, and next to `up` without a store, on one disk in one run.

    bench/store.py [--program PATH] [--rounds N] [--folder FOLDER] [--mebibytes N] [NAME..]

It needs a C compiler, for its clients (bench/serve.c, bench/store.c and bench/bare.c), and Linux. FOLDER is where
stores are made, each in a folder of its own that is removed after the run. It has to be on a real disk; by default it
is a temporary folder next to this repository. Without `--program` it times the program of this tree.

In each of N rounds (by default 7) each work is done in each way, in turn:

- `bodies`: 128 bodies of 1 MiB over one connection, MiB/s. Each waits for its answer, so receiving and writing take
  turns.
- `many`: 32 bodies of 1 MiB over each of 16 connections, MiB/s. Some are received while others are written.
- `small`: 64 connections append 200 times 200 bytes each, changes a second.
- `reads`: a GET of 1 MiB, 1,024 times over one connection, MiB/s.
- `restart`: seconds from the start of a server whose log has 1 GiB (or `--mebibytes`) to the first HEAD that is
  answered, if the system has the log in memory, and if it hasn't.

The writes alone are those of a log: a batch after a closed gate, a sync, the gate, a sync. For `small` one writer makes
them with one change in each batch, and with 64. For `many` it makes them with one body in each batch, and with four;
a batch of the server has three. It writes one body again and again, which stays in the processor's cache, and also
each body from its own memory, as the server does. A bare server in C receives the bodies too, without HTTP, and makes
the same writes. For `restart` only the file of the log is read.

A line of the table is a work done in one way: the median, least and most, and the median as a fraction of that of the
first way. NAME is a work's name, to do only that one.
"""
import argparse
import contextlib
import os
import statistics
import subprocess
import sys
import tempfile
import time

from contenders import MIB, ROOT, Client, as_started, by_turns, compiled, say_machine, say_table
import serving
from serving import Connection, same

# The seconds that a server may take to read its log.
serving.MAX_WAIT = 600

# The numbers of each work.
BODIES, SMALL, CONNECTIONS, REQUESTS, READS = 128, 200, 64, 200, 1024
MANY, OF_EACH, OF_BATCH = 16, 32, 4

# The bytes of a block of a log besides its changes, without its gate, and of a change besides the bytes that it
# appends.
OF_BLOCK, OF_CHANGE = 16, 53


class Bench:
    """The program, the clients, and the folder of the stores."""

    def __init__(self, up, place, clients, mebibytes):
        self.up, self.place, self.mebibytes = up, place, mebibytes
        self.client, self.writer, self.bare = (compiled(name, clients) for name in ("serve", "store", "bare"))
        self.filled = None

    @contextlib.contextmanager
    def fresh(self):
        """A path at which nothing exists, for a file or a folder that is removed after the `with`."""
        with tempfile.TemporaryDirectory(dir=self.place) as folder:
            yield os.path.join(folder, "store")

    @contextlib.contextmanager
    def served(self, has_store=True):
        """A client of a new server, with a store or without one."""
        with self.fresh() as folder, self.up.server(*["--store", folder] * has_store) as server:
            yield Client(self.client, self.up.kind, server)

    def written(self, batches, count, places=1):
        """The seconds that a file takes for this many batches of this many bytes, from so many places in turn."""
        with self.fresh() as file:
            return self.said(self.writer, "write", file, batches, count, places)

    def received(self, connections, bodies):
        """The seconds that a bare server takes to receive and write so many bodies over each of so many connections."""
        with self.fresh() as file:
            return self.said(self.bare, file, connections, bodies, OF_BATCH)

    def said(self, *words):
        ran = subprocess.run([*map(str, words)], stdout=subprocess.PIPE, check=True, text=True)
        return float(ran.stdout)

    def full(self):
        """A store of `mebibytes` MiB in bodies of 1 MiB, and the path of its upload."""
        if not self.filled:
            folder = os.path.join(self.place, "full")
            with self.up.server("--store", folder) as server:
                _, path = Client(self.client, self.up.kind, server).do("append", 1, self.mebibytes, MIB)
            self.filled = folder, path
        return self.filled


# The works, each in its ways.


def stored_bodies(bench):
    with bench.served() as client:
        return BODIES / client.timed("append", 1, BODIES, MIB)


def written_bodies(bench, places=1):
    return BODIES / bench.written(BODIES, OF_BLOCK + OF_CHANGE + MIB, places)


def written_bodies_apart(bench):
    return written_bodies(bench, BODIES)


def bare_bodies(bench):
    return BODIES / bench.received(1, BODIES)


def held_bodies(bench):
    with bench.served(has_store=False) as client:
        return BODIES / client.timed("append", 1, BODIES, MIB)


def stored_many(bench):
    with bench.served() as client:
        return MANY * OF_EACH / client.timed("append", MANY, OF_EACH, MIB)


def written_many(bench, together=1, places=1):
    batches = MANY * OF_EACH // together
    return batches * together / bench.written(batches, OF_BLOCK + together * (OF_CHANGE + MIB), places)


def written_by_four(bench):
    return written_many(bench, OF_BATCH)


def written_apart(bench):
    return written_many(bench, OF_BATCH, MANY * OF_EACH // OF_BATCH)


def bare_many(bench):
    return MANY * OF_EACH / bench.received(MANY, OF_EACH)


def held_many(bench):
    with bench.served(has_store=False) as client:
        return MANY * OF_EACH / client.timed("append", MANY, OF_EACH, MIB)


def stored_small(bench):
    with bench.served() as client:
        return CONNECTIONS * REQUESTS / client.timed("append", CONNECTIONS, REQUESTS, SMALL)


def written_small(bench, together=1):
    batches = CONNECTIONS * REQUESTS // together
    return batches * together / bench.written(batches, OF_BLOCK + together * (OF_CHANGE + SMALL))


def written_together(bench):
    return written_small(bench, CONNECTIONS)


def held_small(bench):
    with bench.served(has_store=False) as client:
        return CONNECTIONS * REQUESTS / client.timed("append", CONNECTIONS, REQUESTS, SMALL)


def reads(bench, has_store):
    with bench.served(has_store) as client:
        _, path = client.do("append", 1, 1, MIB)
        client.do("check", path, MIB)
        return READS / client.timed("fetch", path, MIB, READS)


def stored_reads(bench):
    return reads(bench, True)


def held_reads(bench):
    return reads(bench, False)


def forget(file):
    """Has the system drop a file from memory."""
    with open(file, "rb") as opened:
        os.fdatasync(opened.fileno())
        os.posix_fadvise(opened.fileno(), 0, 0, os.POSIX_FADV_DONTNEED)


def recall(file):
    """Has the system read a file into memory."""
    with open(file, "rb") as opened:
        while opened.read(MIB):
            pass


def restarted(bench, prepare):
    folder, path = bench.full()
    prepare(os.path.join(folder, "log"))
    start = time.monotonic()
    with bench.up.server("--store", folder) as server, Connection(server) as connection:
        offset = connection.offset(path)
        took = time.monotonic() - start
    same(offset, bench.mebibytes * MIB, "how many bytes a HEAD tells after a restart")
    return took


def read_alone(bench, prepare):
    file = os.path.join(bench.full()[0], "log")
    prepare(file)
    return bench.said(bench.writer, "read", file)


def warm_restart(bench):
    return restarted(bench, recall)


def cold_restart(bench):
    return restarted(bench, forget)


def warm_read(bench):
    return read_alone(bench, recall)


def cold_read(bench):
    return read_alone(bench, forget)


ALONE, APART, BARE = "the writes alone", "each body from its own memory", "a bare server in C"
WORKS = {
    "bodies": ("1 MiB over one connection, MiB/s", [
        ("with a store", stored_bodies), (ALONE, written_bodies), (f"{ALONE}, {APART}", written_bodies_apart),
        (BARE, bare_bodies), ("without a store", held_bodies),
    ]),
    "many": ("1 MiB over 16 connections, MiB/s", [
        ("with a store", stored_many), (f"{ALONE}, one a batch", written_many),
        (f"{ALONE}, 4 a batch", written_by_four), (f"{ALONE}, 4 a batch, {APART}", written_apart), (BARE, bare_many),
        ("without a store", held_many),
    ]),
    "small": ("200 bytes over 64 connections, 1/s", [
        ("with a store", stored_small), (f"{ALONE}, one a batch", written_small),
        (f"{ALONE}, 64 a batch", written_together), ("without a store", held_small),
    ]),
    "reads": ("GET of 1 MiB, MiB/s", [("with a store", stored_reads), ("without a store", held_reads)]),
    "restart": ("restart, s", [
        ("log in memory", warm_restart), ("log on the disk", cold_restart), ("read alone, in memory", warm_read),
        ("read alone, on the disk", cold_read),
    ]),
}

TITLES = ["work", "way", "median", "least", "most", "of the first", ""]


def figure(value):
    return f"{value:,.0f}" if value >= 100 else f"{value:.2f}"


def do_all(bench, names, rounds):
    """Does the works in turn, and prints their table."""
    came = {(name, way): [] for name in names for way in WORKS[name][1]}
    for number in range(rounds):
        print(f"round {number + 1} of {rounds}", file=sys.stderr, flush=True)
        for name in names:
            for way in by_turns(WORKS[name][1], number):
                came[name, way].append(way[1](bench))
    rows = []
    for (name, way), values in came.items():
        title, ways = WORKS[name]
        middle, first = statistics.median(values), statistics.median(came[name, ways[0]])
        figures = map(figure, (middle, min(values), max(values)))
        rows.append([title, way[0], *figures, f"{middle / first:.2f}", ""])
    say_table([TITLES, *rows], texts=2)


def kind_of_disk(place):
    """The name of the file system of a place."""
    return subprocess.check_output(["stat", "-f", "-c", "%T", place], text=True).strip()


def words_given():
    words = argparse.ArgumentParser(description=__doc__, formatter_class=argparse.RawDescriptionHelpFormatter)
    words.add_argument("--program", metavar="PATH", help="what is timed in place of crates/up/out/up")
    words.add_argument("--rounds", type=int, default=7, help="how many times each work is done in each way")
    words.add_argument("--folder", help="where stores are made, in place of a temporary folder beside the repository")
    words.add_argument("--mebibytes", type=int, default=1024, help="how many MiB the log of a restarted server has")
    words.add_argument("names", nargs="*", metavar="NAME", help=f"what is to be timed, of {', '.join(WORKS)}")
    given = words.parse_args()
    for name in given.names:
        if name not in WORKS:
            words.error(f"nothing is named {name}")
    return given


def main():
    given = words_given()
    up = as_started(os.path.abspath(given.program or serving.build()))
    say_machine()
    above = given.folder or os.path.dirname(ROOT)
    with tempfile.TemporaryDirectory() as clients, tempfile.TemporaryDirectory(prefix="up-store-", dir=above) as place:
        kind = kind_of_disk(place)
        if kind in ("tmpfs", "ramfs"):
            sys.exit(f"bench: {above} is in memory ({kind}), and no disk: --folder names another place")
        print(f"stores are in {place} ({kind})", flush=True)
        names = [name for name in WORKS if name in given.names or not given.names]
        do_all(Bench(up, place, clients, given.mebibytes), names, given.rounds)


main()
