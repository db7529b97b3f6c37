#!/usr/bin/env python3
"""Times how messages are read: heads and trailers of many fields, metadata of many keys, and long chunk lines.

    bench/heads.py [--runs N]

Each figure is the time of one piece, the best of N runs (by default 5) over many copies of it, and how many times as
long that is as a plain pass over the same bytes, which adds them up. The time to copy the pieces is measured too, and
subtracted. Some figures have a goal; if one is missed, the script exits with status 1.
"""
import argparse
import os
import subprocess
import sys
import tempfile
import time

sys.path.insert(0, os.path.join(os.path.dirname(os.path.dirname(os.path.abspath(__file__))), "tests"))
from messages import escaped  # noqa: E402
from serving import build  # noqa: E402

# About how many bytes all copies have together.
SIZE = 8 << 20

# The letters that a key may have.
LETTERS = "abcdefghijklmnopqrstuvwxyzABCDEFGHIJKLMNOPQRSTUVWXYZ0123456789!#$%&'*+-.^_`|~"


def fields(count, length=30):
    """This many lines of fields, each of this many bytes."""
    lines = []
    for number in range(count):
        name = f"X-Field-{number:02}: "
        lines.append(name + "v" * (length - len(name) - 2) + "\r\n")
    return "".join(lines)


def head(lines):
    return f"POST /files/ HTTP/1.1\r\n{lines}\r\n".encode()


def metadata(count):
    """This many different keys, each as short as possible."""
    keys = [*LETTERS, *(a + b for a in LETTERS for b in LETTERS)][:count]
    return head(f"Upload-Metadata: {','.join(keys)}\r\n")


def chunks(count):
    """A message of this many chunks of one byte, each after a line of 245 bytes."""
    line = "1;note=" + "n" * (245 - len("1;note=") - 2) + "\r\n"
    return head("Transfer-Encoding: chunked\r\n") + f"{line}x\r\n".encode() * count + b"0\r\n\r\n"


def trailers():
    return head("Transfer-Encoding: chunked\r\n") + f"0\r\n{fields(63, 258)}\r\n".encode()


# What is timed: the message, its number of pieces, what is counted in a message, and the goal of a piece in
# microseconds.
CHUNKS = 100_000
ROWS = [
    ("head of 6 fields", head(fields(6)), 1, (0, 0), None),
    ("head of 21 fields", head(fields(21)), 1, (0, 0), None),
    ("head of 63 fields", head(fields(63)), 1, (0, 0), 12),
    ("head of 64 fields in 16 KB", head(fields(64, 255)), 1, (0, 0), 40),
    ("metadata of 1,400 keys", metadata(1400), 1, (0, 1400), None),
    ("metadata of 5,400 keys", metadata(5400), 1, (0, 5400), 2000),
    ("chunk line of 245 bytes", chunks(CHUNKS), CHUNKS, (CHUNKS, 0), None),
    ("63 trailer fields in 16 KB", trailers(), 1, (0, 0), None),
]


def best_of(program, runs, text, row, count):
    """The best seconds of this many runs of the program, over a text that each of `count` rows has for itself."""
    best = None
    with tempfile.NamedTemporaryFile("w", suffix=".rows") as given:
        given.write(f"start {text}\n" + f"{row}\n" * count)
        given.flush()
        for _ in range(runs):
            start = time.monotonic()
            done = subprocess.run([program, given.name], capture_output=True, text=True, check=True)
            seconds = time.monotonic() - start
            if done.stdout != f"{count} rows, of which 0 differ\n":
                sys.exit(f"bench: {row}: {done.stdout!r}")
            best = seconds if best is None else min(best, seconds)
    return best


def seconds_of(program, runs, text, row):
    """The seconds of a row over this text, from the difference that eight more rows make."""
    return (best_of(program, runs, text, row, 9) - best_of(program, runs, text, row, 1)) / 8


def main():
    words = argparse.ArgumentParser()
    words.add_argument("--runs", type=int, default=5, help="how many runs, 1 or more")
    runs = words.parse_args().runs
    program, missed = build("up_test_data"), []
    for name, message, pieces, (bytes_told, pairs), goal in ROWS:
        copies = max(1, SIZE // len(message))
        text = escaped(message, quotes=False) * copies
        idle = seconds_of(program, runs, text, "pieces held => []")
        counted = f"{copies} {copies * bytes_told} {copies * pairs}"
        seconds = seconds_of(program, runs, text, f"count => {counted}") - idle
        plain = seconds_of(program, runs, text, f"pass => {sum(message) * copies}") - idle
        each = seconds / (copies * pieces) * 1e6
        wanted = "" if goal is None else f" (goal: under {goal:,} us)"
        print(f"{name}: {each:.2f} us, {seconds / max(plain, 1e-6):.1f} times a pass{wanted}", flush=True)
        if goal is not None and each >= goal:
            missed.append(name)
    if missed:
        sys.exit(f"bench: missed: {', '.join(missed)}")


main()
