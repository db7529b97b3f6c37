#!/usr/bin/env python3
"""Has 64 connections change the uploads of a server for long, and measures what the server keeps of that.

    bench/soak.py [--program NAME=PATH[@GLIBC_TUNABLES]].. [--changes N] [--limit KIB] [NAME..]

It needs a C compiler, for its client (bench/soak.c), and Linux. The server runs with `--events`, whose lines the client
reads meanwhile, and without a number of connections. In `cycles` each connection makes uploads of a byte, 16 at a time,
appends that byte, and removes them, for N changes in all (by default 1,000,000). Then, in `appends`, it appends byte
after byte, 256 to an upload before that is removed, for half as many changes. Up to 16 requests are sent before their
replies are read, and after 10,000 the connection is replaced. While 10,000 events wait for their line to be read no
request is sent, since clients that are faster than the lanes would make the server hold more and more of them.
`--limit` runs the server under a limit of addresses, as `ulimit -v KIB` does.

The works are done in steps of N / 10 changes, or of a million if that is less. After each step no upload is left, the
events of all acknowledged changes have been read, and the server has nothing to do. The first table has a line for each
step: the changes so far; the memory of the server (`VmRSS`), and the same without the 20 bytes that it keeps of each id
ever given; by how many bytes a change it grew in this step, and the same without those of ids; how long a connection
waited at most for its next reply; how many events waited at most for their line to be read; and the changes a second.
The times are those of a machine of which the client takes half, so they have no goal: `bench/lock.py` measures waits.

The second table has the goals. No request is refused. Without the ids, the memory after the last step is at most 1.2
times that after the first. The next line has the growth for each id, including everything, which has no goal. The few
steps of a small N say little, since memory comes in pages of 2 MiB. There are as many events as those of the
acknowledged requests: for each upload 1, 2, 3, .., each once and in order, each at the right offset, none after its
removal, and as many as it had acknowledged.

If a goal is missed, the line says so, and the exit status is 1. Without `--program` the program of this tree is
measured, as the script `up` starts it; the option may be repeated. NAME is a work's name, to do only that one.
"""
import argparse
import contextlib
import os
import subprocess
import sys
import tempfile

from contenders import MIB, add_program_word, compiled, contenders_of, say_machine, say_table
from serving import settled

CONNECTIONS = 64

# The bytes that the server keeps of each id that it ever gave.
OF_ID = 20

# The most memory at the end, in multiples of that after the first step, both without that of the ids.
MAX_GROWTH = 1.2

# A step has this fraction of all changes, and at most this many.
PART, MAX_CHANGES = 10, 1_000_000


class Work:
    """What the connections do: how many uploads are made together, and how many bytes each gets, one per append."""

    def __init__(self, name, together, size, share):
        self.name, self.together, self.size, self.share = name, together, size, share

    def steps(self, changes):
        """The changes of each step."""
        step = max(1, min(changes // PART, MAX_CHANGES))
        return [step] * -(-int(changes * self.share) // step)

    def most_uploads(self, changes):
        """The most uploads that these steps make."""
        return sum(step // (self.size + 2) + self.together for step in self.steps(changes))


WORKS = [Work("cycles", 16, 1, 1), Work("appends", 1, 256, 0.5)]


class Step:
    """The state of a server after some changes, and what the client reports of those of the last step."""

    def __init__(self, title, memory, said=("0",) * 6):
        self.title, self.memory = title, memory
        self.changes, self.ids, self.refused = map(int, said[:3])
        self.longest, self.waiting, self.seconds = float(said[3]), int(said[4]), float(said[5])
        self.aside = memory - OF_ID * self.ids

    def cells(self, name, before):
        """The cells of its line, given the step before."""
        made = self.changes - before.changes
        each = [(self.memory - before.memory) / made, (self.aside - before.aside) / made] if made else [0, 0]
        memory = [f"{it / MIB:.1f}" for it in (self.memory, self.aside)]
        times = [f"{self.longest * 1e3:.1f}", f"{self.waiting:,}", f"{made / self.seconds:,.0f}"]
        return [self.title, name, f"{self.changes:,}", *memory, *(f"{it:.1f}" for it in each), *times]


class Soaked:
    """A server's steps, the first of which is its start, and what the client reports of the events."""

    def __init__(self):
        self.steps = []
        self.heard = self.expected = self.astray = self.others = 0

    def goals(self):
        """Each figure, its result, its goal, and whether the goal is met."""
        first, last = self.steps[1], self.steps[-1]
        ratio = last.aside / first.aside
        grown = f"{last.aside / MIB:.1f} MiB of {first.aside / MIB:.1f}: {ratio:.3f}"
        is_within = ratio <= MAX_GROWTH
        of_id = (last.memory - first.memory) / max(1, last.ids - first.ids)
        return [
            ("requests refused", f"{last.refused:,}", "0", last.refused == 0),
            ("memory at the end, of that after the first step, ids aside", grown, f"{MAX_GROWTH}", is_within),
            ("bytes by which it grew meanwhile, for each id given", f"{of_id:.1f}", "", True),
            ("events", f"{self.heard:,}", f"{self.expected:,}", self.heard == self.expected),
            ("events that don't follow those before them", f"{self.astray:,}", "0", self.astray == 0),
            ("uploads with other events than were acknowledged", f"{self.others:,}", "0", self.others == 0),
        ]


@contextlib.contextmanager
def client_of(path, server, lines, uploads):
    """The client, which is told the steps. At the end the server is killed, so that its events end."""
    words = [path, *map(str, (server.port, lines, CONNECTIONS, uploads))]
    pipe = subprocess.PIPE
    with subprocess.Popen(words, stdin=pipe, stdout=pipe, text=True, pass_fds=[lines]) as client:
        os.close(lines)
        try:
            yield client
        finally:
            server.process.kill()


def memory_of(server):
    """The memory of a server once it has nothing to do."""
    if server.process.poll() is not None:
        said = server.process.stderr.read().decode()
        sys.exit(f"bench: the server ended with {server.process.returncode}, and said {said!r}")
    return settled(server)


def said_by(client, count):
    """The words of the next line of the client."""
    words = client.stdout.readline().split()
    if len(words) != count:
        sys.exit("bench: the client broke off")
    return words


def soak(contender, path, given):
    """Does the works with a server of the program."""
    works = [work for work in WORKS if not given.names or work.name in given.names]
    uploads = sum(work.most_uploads(given.changes) for work in works)
    soaked = Soaked()
    lines, sink = os.pipe()
    with contender.server("--events", sink=sink, addresses=given.limit) as server:
        os.close(sink)
        with client_of(path, server, lines, uploads) as client:
            soaked.steps.append(Step("start", memory_of(server)))
            for work in works:
                for changes in work.steps(given.changes):
                    print(work.together, work.size, changes, file=client.stdin, flush=True)
                    said = said_by(client, 6)
                    soaked.steps.append(Step(work.name, memory_of(server), said))
                    say_step(contender, soaked.steps[-1])
            server.process.kill()
            client.stdin.close()
            soaked.heard, soaked.expected, soaked.astray, soaked.others = map(int, said_by(client, 4))
    return soaked


def say_step(contender, step):
    told = f"{step.changes:,} changes, {step.refused:,} refused, {step.memory / MIB:.1f} MiB"
    print(f"{step.title} of {contender.name}: {told}", file=sys.stderr, flush=True)


STEPS = [
    "work", "program", "changes", "MiB", "ids aside", "bytes a change", "ids aside", "longest ms", "waiting", "1/s",
]
GOALS = ["figure", "program", "came to", "goal", ""]


def soak_all(contenders, path, given):
    """Soaks the programs one after another, and prints their tables. Returns whether all goals are met."""
    steps, goals = [], []
    for contender in contenders:
        soaked = soak(contender, path, given)
        steps += [step.cells(contender.name, before) for before, step in zip(soaked.steps, soaked.steps[1:])]
        for title, came, goal, is_met in soaked.goals():
            goals.append([title, contender.name, came, goal, "" if is_met else "MISSED"])
    say_table([STEPS, *steps], texts=2)
    say_table([GOALS, *goals], texts=2)
    return not any(row[-1] for row in goals)


def main():
    words = argparse.ArgumentParser()
    add_program_word(words)
    words.add_argument("--changes", type=int, default=1_000_000, metavar="N", help="how many changes the cycles make")
    words.add_argument("--limit", type=int, metavar="KIB", help="the most addresses of the server, in KiB")
    names = [work.name for work in WORKS]
    words.add_argument("names", nargs="*", metavar="NAME", help=f"what is to be done, of {', '.join(names)}")
    given = words.parse_args()
    for name in given.names:
        if name not in names:
            words.error(f"nothing is named {name}")
    contenders = contenders_of(given.programs)
    say_machine()
    with tempfile.TemporaryDirectory() as folder:
        if not soak_all(contenders, compiled("soak", folder), given):
            sys.exit("bench: a goal is missed")


main()
