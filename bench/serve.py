#!/usr/bin/env python3
"""Times `up serve` next to nginx, in turn, and measures what it holds in memory.

    bench/serve.py [--program NAME=PATH[@GLIBC_TUNABLES]].. [--rounds N] [--touch MIB] [--slow PATH] [NAME..]

It needs a C compiler, for its client (bench/serve.c), and Debian's `nginx-light`. Without nginx it says so, and
measures `up` alone. All servers are on the loopback. nginx takes the same bytes by PUT (WebDAV) into files in memory,
with two workers. Without `--program` it measures the program of this tree, as the script `up` starts it. The option may
be repeated: for an older program and a newer one, or for one under several settings of the C library.

In each of N rounds (by default 7) each work is done with each contender, in turn, and each run has a new server. With
`--touch` a process writes to that much memory before each run, and ends: on a virtual machine, memory that is touched
for the first time would otherwise count against whoever comes first.

The first table has a line for each work and contender: the median, least and most of the rate, and the medians of the
processor time of the server, with all its processes and threads, and of the client. Then come the ratios to nginx, of
the medians of the rates and of the processor times, which are above 1 if `up` is better. The goals, after the ratios,
are 1.5 in both, and 1.2 for short connections. A GET has to be as fast as nginx's, and a small request next to a large
one must wait no longer.

The second table is of `up` alone: by how much its memory (`VmRSS`) grew with the bytes of an upload, and how many times
these bytes that is. The server has taken 64 KiB in such bodies before, since its first connection and upload cost some
hundred KiB once. The goals: at most 1.1 times the bytes, in bodies of any size and chunked; a final upload takes no
bytes of its own; 1,000 idle connections take 24 MiB, including the server, and 32 if each has made an upload of 1 KiB,
and less than a tenth of a second of processor time in ten seconds.

`slow_hook`, which is measured if it is named or if `--slow` gives its program, times small requests for uploads of one
lane while the post-hook of the other takes 50 ms for each event. Its program is `up` except for that, proved and built
in a copy of the crates, which takes some minutes. The goal is that the requests take at most a tenth longer than
without these events.

If a goal is missed, the line says so, and the exit status is 1. NAME is a work's or a figure's name, to measure only
that one.
"""
import argparse
import os
import shutil
import statistics
import sys
import tempfile

from contenders import (
    MIB, Client, Nginx, add_program_word, by_turns, compiled, contenders_of, say_machine, say_table, touch,
)
from held import FIGURES
from slow import slow_hook, slow_program

HELD = 256 * MIB


def one_body(client):
    return HELD / MIB / client.timed("append", 1, 1, HELD)


def by_mebibyte(client):
    return HELD / MIB / client.timed("append", 1, HELD // MIB, MIB)


def middling(client):
    return HELD / 65_536 / client.timed("append", 8, HELD // 8 // 65_536, 65_536)


def small_of_eight(client):
    return 160_000 / client.timed("append", 8, 20_000, 1024)


def small_of_one(client):
    return 40_000 / client.timed("append", 1, 40_000, 1024)


def short_ones(client):
    _, name = client.do("append", 1, 1, 1024)
    return 32_768 / client.timed("visit", name, 32_768)


def fetched(client):
    _, name = client.do("append", 1, 1, HELD)
    client.do("check", name, HELD)
    return 4 * HELD / MIB / client.timed("fetch", name, HELD, 4)


def beside(client):
    return client.timed("beside", HELD) * 1e3


class Work:
    """What is timed, and the least ratios to nginx that it must have: of the rate and of the processor time."""

    def __init__(self, do, title, rate=1.5, time=1.5, less=False):
        self.do, self.title, self.goals, self.less = do, title, (rate, time), less

    def ratios(self, ours, theirs):
        """The ratios of the rate and of the processor time, above 1 if ours are better."""
        rates, times = ((of_median(ours, at), of_median(theirs, at)) for at in (0, 1))
        return (rates[1] / rates[0] if self.less else rates[0] / rates[1]), times[1] / times[0]


WORKS = [
    Work(one_body, "one body of 256 MiB, MiB/s"),
    Work(by_mebibyte, "bodies of 1 MiB, MiB/s"),
    Work(middling, "64 KiB over 8 connections, 1/s"),
    Work(small_of_eight, "1 KiB over 8 connections, 1/s"),
    Work(small_of_one, "1 KiB over one connection, 1/s"),
    Work(short_ones, "short connections, 1/s", rate=1.2, time=1.2),
    Work(fetched, "GET of 256 MiB, MiB/s", rate=1, time=None),
    Work(beside, "wait beside 256 MiB, ms", rate=1, time=None, less=True),
]

TITLES = ["work", "program", "median", "least", "most", "server s", "client s", "rate ratio", "time ratio", ""]


def of_median(runs, at):
    """The median of the rates, or of the seconds of the server or of the client."""
    return statistics.median(run[at] for run in runs)


def run(work, contender, path, mebibytes):
    """The rate, and the processor time of the server and of the client."""
    touch(mebibytes)
    with contender.server() as server:
        client = Client(path, contender.kind, server)
        return work.do(client), client.server_seconds, client.seconds


def rate(value):
    return f"{value:,.0f}" if value >= 100 else f"{value:.2f}"


def compared(work, ours, theirs):
    """The cells of the ratios, and whether one of them misses its goal."""
    cells, mark = [], ""
    for ratio, goal in zip(work.ratios(ours, theirs), work.goals):
        cells.append(f"{ratio:.2f} of {goal}" if goal else f"{ratio:.2f}")
        if goal and ratio < goal:
            mark = "MISSED"
    return [*cells, mark]


def line(work, contender, runs, theirs):
    rates = [values[0] for values in runs]
    front = [work.title, contender.name, *map(rate, (statistics.median(rates), min(rates), max(rates)))]
    times = [f"{of_median(runs, at):.3f}" for at in (1, 2)]
    return [*front, *times, *(compared(work, runs, theirs) if theirs is not None else ["", "", ""])]


def time_works(contenders, works, path, rounds, mebibytes):
    """Does the works in turn, and prints their table. Returns whether all goals are met."""
    came = {(work, contender): [] for work in works for contender in contenders}
    for number in range(rounds):
        print(f"round {number + 1} of {rounds}", file=sys.stderr, flush=True)
        for work in works:
            for contender in by_turns(contenders, number):
                came[work, contender].append(run(work, contender, path, mebibytes))
    rows = []
    for (work, contender), runs in came.items():
        theirs = [came[work, it] for it in contenders if it.name == Nginx.name and contender is not it]
        rows.append(line(work, contender, runs, *theirs or [None]))
    say_table([TITLES, *rows], texts=2)
    return not any(row[-1] for row in rows)


def weigh(contenders, figures, path):
    """Measures the memory of each program, and prints the table. Returns whether all goals are met."""
    rows = []
    for figure in figures:
        for contender in contenders:
            print(f"{figure.__name__} of {contender.name}", file=sys.stderr, flush=True)
            for it in figure(contender, path):
                title, *cells = it.cells()
                rows.append([title, contender.name, *cells, "" if it.is_met() else "MISSED"])
    say_table([["memory", "program", "taken", "of the bytes", "at most", ""], *rows], texts=2)
    return not any(row[-1] for row in rows)


def words_given():
    words = argparse.ArgumentParser()
    add_program_word(words)
    words.add_argument("--rounds", type=int, default=7, help="how many times each work is done with each contender")
    words.add_argument("--touch", type=int, default=0, metavar="MIB", help="how much memory is written to before each run")
    words.add_argument("--slow", metavar="PATH", help="the program with slow post-hooks, in place of one that is built")
    names = [*(work.do.__name__ for work in WORKS), *(figure.__name__ for figure in FIGURES), slow_hook.__name__]
    words.add_argument("names", nargs="*", metavar="NAME", help=f"what is to be measured, of {', '.join(names)}")
    given = words.parse_args()
    for name in given.names:
        if name not in names:
            words.error(f"nothing is named {name}")
    return given


def measure(given, programs, folder):
    """Measures what is asked for. Returns whether all goals are met."""
    met, path = True, compiled("serve", folder)
    contenders = [Nginx(), *programs] if shutil.which("nginx") else programs
    works = [work for work in WORKS if not given.names or work.do.__name__ in given.names]
    figures = [figure for figure in FIGURES if not given.names or figure.__name__ in given.names]
    if works:
        if contenders == programs:
            print("nginx isn't installed (Debian's nginx-light): up is measured alone")
        met = time_works(contenders, works, path, given.rounds, given.touch)
    if figures:
        met = weigh(programs, figures, path) and met
    if slow_hook.__name__ in given.names or given.slow and not given.names:
        slow = given.slow or slow_program(os.path.join(folder, "slow"))
        met = slow_hook(path, slow, given.rounds) and met
    return met


def main():
    given = words_given()
    os.environ["PATH"] += ":/usr/sbin"
    programs = contenders_of(given.programs)
    say_machine()
    with tempfile.TemporaryDirectory() as folder:
        if not measure(given, programs, folder):
            sys.exit("bench: a goal is missed")


main()
