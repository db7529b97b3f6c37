#!/usr/bin/env python3
"""Times 1, 2 and 4 shards, processes of `up serve --shard K`, side by side: directly, and through each of the proxies
of examples/shards. Also has many uploads under way at once.

    bench/shards.py [--program NAME=PATH[@GLIBC_TUNABLES]] [--rounds N] [--uploads N] [NAME..]

It needs a C compiler, for its client (bench/serve.c), and Debian's `nginx-light` and `haproxy`; missing ones are
skipped. Everything is on the loopback of one machine, so the shards, the proxy and the client share its processors: the
rates are those of that machine as a whole, and the processor times are those of each part, from which more machines can
be calculated.

In each of N rounds (by default 5) each work is done in each way, in turn, and each run has new servers. The first table
has a line for each work, way and number of shards: the median, least and most of the rate, and the medians of the
processor times of the shards, the proxy and the client. Each connection comes from an address of its own, since the
proxies choose a shard by it. nginx has as many workers as there are processors, and haproxy as many threads.

The second table is of N uploads (by default 10,000) through nginx to four shards: all send a half of their 64 KiB, and
wait; then each sends the other half, and is answered 204. The table has the seconds of each half, the number of threads
of each shard, and the memory of the shards and of nginx. The client needs as many descriptors as there are uploads, and
all workers of nginx together need twice as many.

NAME is a work's name, `small`, `large` or `together`, to do only that one.
"""
import argparse
import os
import shutil
import statistics
import subprocess
import sys
import tempfile
import time

from contenders import (
    MIB, Client, add_program_word, by_turns, compiled, contenders_of, processor_seconds, say_machine, say_table,
)
from serving import soon, status_of
from sharded import HaproxyOfShards, NginxOfShards, Shards

# The numbers of shards in each work, and the number of shards when many uploads are under way.
COUNTS, MOST = (1, 2, 4), 4

# The bytes of each of many uploads.
HALVES = 65_536

# The workers of nginx when many uploads are under way: each has its own limit of descriptors.
WORKERS = 8


class Alone:
    """The shards without a proxy: the connections take them in turn."""

    name = "none"

    def __init__(self, shards):
        self.port = ",".join(map(str, shards.ports))

    def __enter__(self):
        return self

    def __exit__(self, *_):
        pass

    def processes(self):
        return []


def of_nginx(shards):
    return NginxOfShards(shards, workers=os.cpu_count())


def small(client):
    """1 KiB over 64 connections, 1/s"""
    return 64_000 / client.timed("append", 64, 1_000, 1024)


def large(client):
    """1 MiB over 16 connections, MiB/s"""
    return 512 / client.timed("append", 16, 32, MIB)


WORKS = [small, large]
TITLES = ["work", "proxy", "shards", "median", "least", "most", "shards s", "proxy s", "client s", ""]


class Timed(Client):
    """A client that also notes the processor seconds of the shards, apart from those of the proxy."""

    def __init__(self, path, shards, front):
        super().__init__(path, "apart", front)
        self.shards = shards

    def timed(self, *words):
        before = self.of_shards()
        said = super().timed(*words)
        self.shard_seconds = self.of_shards() - before
        return said

    def of_shards(self):
        return sum(processor_seconds(server) for server in self.shards.running)


def shards_of(program, count):
    return Shards(program.path, "--open", "4096", count=count, environment=program.environment)


def run(work, program, path, way, count):
    """The rate, and the processor times of the shards, the proxy and the client."""
    with shards_of(program, count) as shards, way(shards) as front:
        client = Timed(path, shards, front)
        settle(front, count)
        return work(client), client.shard_seconds, client.server_seconds, client.seconds


def settle(front, count):
    """Waits until a proxy that checks the health of shards has done so."""
    if front.name == HaproxyOfShards.name:
        time.sleep(2)


def time_works(works, ways, program, path, rounds):
    """Does the works in turn, and prints their table."""
    cases = [(way, count) for way in ways for count in COUNTS]
    came = {(work, *case): [] for work in works for case in cases}
    for number in range(rounds):
        print(f"round {number + 1} of {rounds}", file=sys.stderr, flush=True)
        for work in works:
            for case in by_turns(cases, number):
                came[(work, *case)].append(run(work, program, path, *case))
    rows = []
    for (work, way, count), runs in came.items():
        rates, *times = zip(*runs)
        figures = [f"{figure:,.0f}" for figure in (statistics.median(rates), min(rates), max(rates))]
        name = "nginx" if way is of_nginx else way.name
        rows.append([work.__doc__, name, str(count), *figures, *(f"{statistics.median(it):.2f}" for it in times), ""])
    say_table([TITLES, *rows], texts=2)


def together(program, path, uploads):
    """Has many uploads under way at once, and prints what that took."""
    with shards_of(program, MOST) as shards, NginxOfShards(shards, workers=WORKERS, connections=2 * uploads) as front:
        client = Client(path, "apart", front)
        empty = memory_of(shards, front)
        start = time.monotonic()
        words = client.words("together", uploads, HALVES)
        held = subprocess.Popen(words, stdin=subprocess.PIPE, stdout=subprocess.PIPE, text=True)
        if held.stdout.readline() != "open\n":
            sys.exit("bench: the client has ended")
        opened = time.monotonic() - start
        soon(lambda: sum(threads_of(shards)) >= uploads, "each upload has a thread")
        full, threads = memory_of(shards, front), threads_of(shards)
        rest = float(held.communicate()[0])
        after = memory_of(shards, front)
    rows = [
        ["uploads at once", f"{uploads:,}", ""], ["seconds until they were", f"{opened:.1f}", ""],
        ["seconds for the rest", f"{rest:.1f}", ""], ["threads of the shards", " ".join(map(str, threads)), ""],
    ]
    for at, of in enumerate(("the shards", "nginx")):
        sizes = " to ".join(f"{sizes[at] / MIB:,.0f}" for sizes in (empty, full, after))
        rows.append([f"memory of {of}, MiB", sizes, ""])
    say_table([["together", "", ""], *rows], texts=1)


def memory_of(shards, front):
    """The bytes in memory of the shards, and of the proxy."""
    of_front = sum(status_of(process, "VmRSS") for process in front.processes())
    return sum(server.status("VmRSS") for server in shards.running), of_front


def threads_of(shards):
    return [server.status("Threads") for server in shards.running]


def words_given():
    words = argparse.ArgumentParser(description=__doc__, formatter_class=argparse.RawDescriptionHelpFormatter)
    add_program_word(words)
    words.add_argument("--rounds", type=int, default=5, metavar="N", help="how many times each work is done in each way")
    words.add_argument("--uploads", type=int, default=10_000, metavar="N", help="how many uploads are under way at once")
    names = [*(work.__name__ for work in WORKS), together.__name__]
    words.add_argument("names", nargs="*", metavar="NAME", help=f"what is to be measured, of {', '.join(names)}")
    given = words.parse_args()
    for name in given.names:
        if name not in names:
            words.error(f"nothing is named {name}")
    return given


def main():
    given = words_given()
    os.environ["PATH"] += ":/usr/sbin"
    program = contenders_of(given.programs)[0]
    ways = [Alone]
    for name, way in (("nginx", of_nginx), ("haproxy", HaproxyOfShards)):
        if shutil.which(name):
            ways.append(way)
        else:
            print(f"{name} isn't installed, and is passed over")
    works = [work for work in WORKS if not given.names or work.__name__ in given.names]
    say_machine()
    with tempfile.TemporaryDirectory() as folder:
        path = compiled("serve", folder)
        if works:
            time_works(works, ways, program, path, given.rounds)
        if of_nginx in ways and (not given.names or together.__name__ in given.names):
            together(program, path, given.uploads)


main()
