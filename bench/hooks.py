#!/usr/bin/env python3
"""Times what `up serve --hooks-http` takes for the events that it delivers and the questions that it asks, next to bare
exchanges with the same hook server, in one run.

    bench/hooks.py [--program PATH] [--before PATH] [--rounds N] [--events N] [--folder FOLDER] [NAME..]

It needs a C compiler, for its hook server and its clients (bench/hooks.c and bench/serve.c), and Linux. Everything is
on the loopback. Without `--program` it times the program of this tree. FOLDER is where stores are made, each in a
folder of its own that is removed after the run. It has to be on a real disk; by default it is a temporary folder next
to this repository.

In each of N rounds (by default 3) each work is done in each way, in turn, and each run has new servers:

- `events`: events a second that 16 lanes deliver. The hook server is in C and answers at once, but not before 80,000
  events wait (or `--events`). Beside it 16 connections of a client in C send the bytes of such a request again and
  again to such a hook server. Both are timed by the hook server, until it has answered seven of eight requests: towards
  the end not all lanes have events.
- `lane`: the same with one lane, and beside it one connection.
- `asked`: the microseconds of a POST that makes an upload, of 2,000 over one connection, without a hook server, and
  with one that is asked before each. Beside it one connection sends the bytes of such a question again and again. The
  first tenth isn't counted.
- `stored_events`, `stored_lane` and `stored_asked`: the same with `--store`, with a fourth and a 32nd of the events.
- `without`: small changes a second over 16 connections without a hook server, of the program and of the one that
  `--before` names, and the microseconds of processor time that each takes.

A line of the table is a figure of a work done in one way: the median, least and most. The ratio is one of medians, and
stands beside its goal. Events: their rate to that of the bare requests, at least 0.7. Questions: what they add to the
median of a POST, to the median of a bare request, at most 2. Without a hook server: the rate to that of the program
before, at least 0.95. If a goal is missed, the line says so, and the exit status is 1. With a store there is no goal,
since the disk decides. NAME is a work's name, to do only that one.
"""
import argparse
import contextlib
import os
import statistics
import subprocess
import sys
import tempfile
from functools import partial

from contenders import ROOT, Client, as_started, by_turns, compiled, say_machine, say_table
import serving

# The most lanes of a server, and the connections of the clients that make work for it.
LANES = CONNECTIONS = 16

# The fewest events: a fourth of them leaves no lane without one.
FEWEST = 1024

# How many uploads one connection makes, and how many bytes a small change appends how often.
POSTS, SMALL, REQUESTS = 2000, 200, 20_000

# The seconds that the hook server has for an answer: as long as it takes until enough events wait.
TIMEOUT = 600

# The fields of a POST that makes an upload.
FIELDS = {"Upload-Length": 5, "Upload-Metadata": "filename YS50eHQ="}


class HookServer:
    """The hook server of bench/hooks.c, which writes the first request into a file. It holds its answers back at first,
    and ends with the `with`."""

    def __init__(self, program, file):
        self.words = [program, "serve", file]

    def __enter__(self):
        pipe = subprocess.PIPE
        self.process = subprocess.Popen(self.words, stdin=pipe, stdout=pipe, text=True)
        self.port = int(self.line())
        return self

    def __exit__(self, *_):
        self.process.kill()
        self.process.communicate()

    def line(self):
        line = self.process.stdout.readline()
        if not line:
            sys.exit("bench: the hook server broke off")
        return line

    def let_go(self, held=0, count=0):
        """Waits until so many answers are held back, and lets them go, and from then on all others at once. Returns the
        seconds until so many were sent."""
        print(held, count, file=self.process.stdin, flush=True)
        return float(self.line())

    def rate(self, held, requests):
        """How many of so many requests are answered in a second, from when the first answers are let go."""
        count = requests * 7 // 8
        return count / self.let_go(held, count)


class Bench:
    """The programs, the clients, and the folders of requests and of stores."""

    def __init__(self, programs, folder, place, events):
        self.up, self.before = programs
        self.folder, self.place, self.events = folder, place, events
        self.client, self.bare = (compiled(name, folder) for name in ("serve", "hooks"))
        self.post = os.path.join(folder, "POST")
        with open(self.post, "wb") as file:
            file.write(serving.head("POST", "/files/", FIELDS))

    def hook_server(self, file=os.devnull):
        return HookServer(self.bare, file)

    @contextlib.contextmanager
    def served(self, hooks=None, hook=None, lanes=2, stored=False):
        """A new server, which calls the hook server, if there is one, at this hook alone."""
        words = ["--lanes", str(lanes)]
        if hooks:
            words += ["--hooks-http", f"http://127.0.0.1:{hooks.port}/", "--hooks-http-timeout", str(TIMEOUT)]
            words += ["--hooks-enabled-events", hook]
        with tempfile.TemporaryDirectory(dir=self.place) as folder:
            with self.up.server(*words, *["--store", os.path.join(folder, "store")] * stored) as server:
                yield server

    @contextlib.contextmanager
    def asking(self, server, connections, requests, file):
        """A client sends the request in a file again and again during the `with`, which ends after the last answer.
        Then the list has the median and the 99th of 100 of the microseconds that an answer took."""
        words, times = [self.bare, "ask", *map(str, (server.port, connections, requests)), file], []
        with subprocess.Popen(words, stdout=subprocess.PIPE, text=True) as client:
            yield times
            times += map(float, client.stdout.read().split()[1:])
        serving.same(client.returncode, 0, "the status of the client")

    def ask(self, *words):
        with self.asking(*words) as times:
            pass
        return times

    def whole(self, part):
        """This part of the events, the same number for each connection."""
        return self.events // part // CONNECTIONS * CONNECTIONS

    def request(self, hook):
        """The file of a request that the program sends to a hook server at this hook."""
        file = os.path.join(self.folder, hook)
        if not os.path.exists(file):
            with self.hook_server(file) as hooks, self.served(hooks, hook) as server:
                with self.asking(server, 1, 1, self.post):
                    hooks.let_go(1, 1)
        return file


# The works, each in its ways. A run returns a figure for each title of its work.


def delivered(bench, lanes, part, stored):
    events = bench.whole(part)
    with bench.hook_server() as hooks, bench.served(hooks, "post-create", lanes, stored) as server:
        bench.ask(server, CONNECTIONS, events // CONNECTIONS, bench.post)
        return [hooks.rate(lanes, events)]


def exchanged(bench, connections, part):
    events, file = bench.whole(part), bench.request("post-create")
    with bench.hook_server() as hooks, bench.asking(hooks, connections, events // connections, file):
        return [hooks.rate(connections, events)]


def asked(bench, stored):
    with bench.hook_server() as hooks, bench.served(hooks, "pre-create", stored=stored) as server:
        with bench.asking(server, 1, POSTS, bench.post) as times:
            # It ends once the hook server has answered a question for each POST.
            hooks.let_go(1, POSTS)
        return times


def unasked(bench, stored):
    with bench.served(stored=stored) as server:
        return bench.ask(server, 1, POSTS, bench.post)


def questioned(bench):
    file = bench.request("pre-create")
    with bench.hook_server() as hooks:
        hooks.let_go()
        return bench.ask(hooks, 1, POSTS, file)


def small(bench, up):
    with up.server() as server:
        client, count = Client(bench.client, up.kind, server), CONNECTIONS * REQUESTS
        rate = count / client.timed("append", CONNECTIONS, REQUESTS, SMALL)
        return [rate, client.server_seconds / count * 1e6]


def small_now(bench):
    return small(bench, bench.up)


def small_before(bench):
    return small(bench, bench.before)


class Work:
    """What is done in several ways, the titles of its figures, and the ratio of the medians of the first figure, with
    the least or the most that it may be."""

    def __init__(self, titles, ways, ratio, least=None, most=None):
        self.titles, self.ways, self.ratio, self.least, self.most = titles, ways, ratio, least, most

    def judged(self, medians):
        """The cell of the ratio, and whether the goal is missed."""
        ratio = self.ratio(*medians)
        cells = [f"{ratio:.2f}", *(str(goal) for goal in (self.least, self.most) if goal is not None)]
        is_met = (self.least is None or ratio >= self.least) and (self.most is None or ratio <= self.most)
        return [" of ".join(cells), "" if is_met else "MISSED"]


def of_second(first, second):
    return first / second


def of_third(first, second, third):
    return (first - second) / third


def work_of_events(title, lanes, part=1, stored=False, least=None):
    own = partial(delivered, lanes=lanes, part=part, stored=stored)
    return Work([title], [("up", own), (BARE, partial(exchanged, connections=lanes, part=part))], of_second, least)


def work_of_questions(titles, stored=False, most=None):
    with_it, without_it = partial(asked, stored=stored), partial(unasked, stored=stored)
    ways = [("after a question", with_it), ("without a hook server", without_it), (BARE, questioned)]
    return Work(titles, ways, of_third, most=most)


BARE = "bare requests"
WORKS = {
    "events": work_of_events("events of 16 lanes, 1/s", LANES, least=0.7),
    "lane": work_of_events("events of one lane, 1/s", 1),
    "asked": work_of_questions(["POST, us", "POST, us, the 99th of 100"], most=2),
    "stored_events": work_of_events("events of 16 lanes with a store, 1/s", LANES, 4, stored=True),
    "stored_lane": work_of_events("events of one lane with a store, 1/s", 1, 32, stored=True),
    "stored_asked": work_of_questions(["POST with a store, us", "POST with a store, us, the 99th of 100"], stored=True),
    "without": Work(
        ["200 bytes over 16 connections, 1/s", "processor time of each, us"],
        [("this program", small_now), ("the one before", small_before)], of_second, least=0.95,
    ),
}

TITLES = ["work", "way", "median", "least", "most", "ratio", ""]


def figure(value):
    return f"{value:,.0f}" if value >= 100 else f"{value:.2f}"


def rows_of(work, came):
    """The rows of a work. `came` has the runs of each way, which are figures for each title."""
    rows = []
    for at, title in enumerate(work.titles):
        values = [[run[at] for run in came[name]] for name, _ in work.ways]
        medians = [statistics.median(each) for each in values]
        for (name, _), each, median in zip(work.ways, values, medians):
            rows.append([title, name, *map(figure, (median, min(each), max(each))), "", ""])
        if at == 0:
            rows[0][-2:] = work.judged(medians)
    return rows


def do_all(bench, names, rounds):
    """Does the works in turn, and prints their table. Returns whether all goals are met."""
    came = {name: {way: [] for way, _ in WORKS[name].ways} for name in names}
    for number in range(rounds):
        for name in names:
            print(f"{name}, round {number + 1} of {rounds}", file=sys.stderr, flush=True)
            for way, do in by_turns(WORKS[name].ways, number):
                came[name][way].append(do(bench))
    rows = [row for name in names for row in rows_of(WORKS[name], came[name])]
    say_table([TITLES, *rows], texts=2)
    return not any(row[-1] for row in rows)


def words_given():
    words = argparse.ArgumentParser(description=__doc__, formatter_class=argparse.RawDescriptionHelpFormatter)
    words.add_argument("--program", metavar="PATH", help="what is timed in place of crates/up/out/up")
    words.add_argument("--before", metavar="PATH", help="an older program, for `without`")
    words.add_argument("--rounds", type=int, default=3, help="how many times each work is done in each way")
    words.add_argument("--events", type=int, default=80_000, help="how many events wait before the first is answered")
    words.add_argument("--folder", help="where stores are made, in place of a temporary folder beside the repository")
    words.add_argument("names", nargs="*", metavar="NAME", help=f"what is to be timed, of {', '.join(WORKS)}")
    given = words.parse_args()
    for name in given.names:
        if name not in WORKS:
            words.error(f"nothing is named {name}")
    if "without" in given.names and not given.before:
        words.error("without needs --before")
    if given.events < FEWEST:
        words.error(f"--events is at least {FEWEST:,}")
    return given


def names_of(given):
    """The works to be done. Without a program before there is nothing to compare this one with."""
    names = [name for name in WORKS if name in given.names or not given.names]
    if not given.before and not given.names:
        names.remove("without")
        print("--before names no program: without is passed over")
    return names


def main():
    given = words_given()
    paths = given.program or serving.build(), given.before
    programs = [path and as_started(os.path.abspath(path)) for path in paths]
    say_machine()
    above = given.folder or os.path.dirname(ROOT)
    with tempfile.TemporaryDirectory() as folder, tempfile.TemporaryDirectory(prefix="up-hooks-", dir=above) as place:
        kind = subprocess.check_output(["stat", "-f", "-c", "%T", place], text=True).strip()
        if kind in ("tmpfs", "ramfs"):
            sys.exit(f"bench: {above} is in memory ({kind}), and no disk: --folder names another place")
        print(f"stores are in {place} ({kind})", flush=True)
        if not do_all(Bench(programs, folder, place, given.events), names_of(given), given.rounds):
            sys.exit("bench: a goal is missed")


main()
