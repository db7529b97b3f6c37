"""The figure `slow_hook` of `bench/serve.py`: small requests for uploads of one lane, while the post-hook of the other
takes 50 ms for each event.
"""
import os
import shutil
import statistics
import sys
import time

from contenders import ROOT, Client
from serving import Connection, Server, build

# The edits that make of `up` a program whose post-hooks take 50 ms for each event of lane 0, of two lanes.
SLOW_HOOK = [
    ("main.rt", "        + RandomSource\n", "        + RandomSource\n        + std::time::Clock\n"),
    ("rules.rt", "RandomSource +", "RandomSource + std::time::Clock +"),
    ("running.rt", "RandomSource +", "RandomSource + std::time::Clock +"),
    (
        "running.rt", "None => Outcome::Done,",
        """None => {
                if event.id.lane(2) == 0 {
                    std::thread::sleep(rt, std::time::Duration::from_millis(50));
                }
                Outcome::Done
            }""",
    ),
]
SECONDS = 0.05
EVENTS = 20
REQUESTS = 1000
TURNS = 10
LEAST_RATIO = 0.9


def slow_program(folder):
    """Proves and builds `up` with slow post-hooks in a copy of the crates, and returns its path."""
    shutil.copytree(os.path.join(ROOT, "crates"), os.path.join(folder, "crates"), ignore=shutil.ignore_patterns("c"))
    for name in ("crates.txt", "HANDLES"):
        shutil.copy(os.path.join(ROOT, name), folder)
    crate = os.path.join(folder, "crates", "up")
    for name, old, new in SLOW_HOOK:
        path = os.path.join(crate, "src", name)
        with open(path, encoding="utf-8") as file:
            text = file.read()
        if old not in text:
            sys.exit(f"bench: {name} has no {old!r}")
        with open(path, "w", encoding="utf-8") as file:
            file.write(text.replace(old, new))
    return build(root=folder)


def check_slow(program, lane):
    """Checks that the hooks of lane 0 are slow, and those of lane 1 are not: a server ends once its lanes have handed
    over all events."""
    with Server(program, "--connections", "1") as server:
        with Connection(server) as connection:
            path = connection.make(EVENTS)
            while int(path[-1], 16) % 2 != lane:
                path = connection.make(EVENTS)
            time.sleep(1)
            for number in range(EVENTS):
                connection.append(path, number, b"x")
        start = time.monotonic()
        server.process.wait()
        took = time.monotonic() - start
    if (took > SECONDS * EVENTS / 2) != (lane == 0):
        sys.exit(f"bench: the events of lane {lane} took {took:.3f} s")


def shown(values):
    return f"{min(values):.1f} to {max(values):.1f} ms"


def slow_hook(client, program, runs):
    """Measures requests next to a slow post-hook, and prints the line. Returns whether the goal is met."""
    for lane in (0, 1):
        check_slow(program, lane)
    alone, beside = [], []
    for _ in range(runs):
        with Server(program) as server:
            took = Client(client, "tus", server).do("lanes", TURNS, REQUESTS, EVENTS)
        alone.append(float(took[0]) / TURNS * 1e3)
        beside.append(float(took[1]) / TURNS * 1e3)
    ratio = statistics.median(alone) / statistics.median(beside)
    met = ratio >= LEAST_RATIO
    print(
        f"\n{REQUESTS:,} small requests: {shown(alone)}, beside a hook of 50 ms {shown(beside)}, "
        f"ratio {ratio:.2f} of {LEAST_RATIO}" + ("" if met else "  MISSED")
    )
    return met
