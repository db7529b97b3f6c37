#!/usr/bin/env python3
"""Times the server on made-up conversations: how many MB and messages a second it serves, and how much memory it takes.

    bench/replay.py [--mib N] [--messages N]

The first conversation makes one upload, appends N MiB (by default 1024) to it, 1 MiB at a time, and fetches it. The
second one has N small messages (by default 10,000). The third one makes 64 parts of 1 MiB, joins them, and fetches the
final upload. All come from a file, and the replies are checked. Then a book alone gets 1,000 to 100,000 uploads: each
is made, appended to and asked for, and the time of a request must not grow faster than the logarithm of their number.
At last 100,000 uploads are made on one book, each removed before the next, so that only their history is kept.
"""
import argparse
import os
import subprocess
import sys
import tempfile
import time

sys.path.insert(0, os.path.join(os.path.dirname(os.path.dirname(os.path.abspath(__file__))), "tests"))
from serving import ROOT, build, head, patch, path_of  # noqa: E402

MIB = 1 << 20
PARTS = 64

# The script that runs the server with the settings of the C library that users have.
SCRIPT = os.path.join(ROOT, "packaging", "up")


def get(number=1):
    return head("GET", path_of(number), {})


def post(length, **fields):
    named = {name.replace("_", "-"): value for name, value in fields.items()}
    return head("POST", "/files/", {"Upload-Length": length, **named})


def long_talk(file, mib):
    file.write(post(mib * MIB))
    body = bytes(range(256)) * (MIB // 256)
    for part in range(mib):
        file.write(patch(path_of(1), part * MIB, MIB))
        file.write(body)
    file.write(get())


def small_talk(file, messages):
    file.write(post(messages))
    for offset in range(messages - 1):
        file.write(patch(path_of(1), offset, 1))
        file.write(b"x")


def joined_talk(file):
    body = bytes(range(256)) * (MIB // 256)
    for part in range(1, PARTS + 1):
        file.write(post(MIB, Upload_Concat="partial"))
        file.write(patch(path_of(part), 0, MIB))
        file.write(body)
    urls = " ".join(path_of(part) for part in range(1, PARTS + 1))
    file.write(post(0, Upload_Concat=f"final;{urls}"))
    file.write(get(PARTS + 1))


def run(program, path):
    """A file with the replies, the seconds that the server took, and its peak memory in bytes."""
    replies, environment = tempfile.TemporaryFile(), {**os.environ, "UP_PROGRAM": program}
    with open(path, "rb") as given:
        start = time.monotonic()
        server = subprocess.Popen(
            [SCRIPT, "replay", "--max-size", str(1 << 30)], stdin=given, stdout=replies, env=environment
        )
        _, status, usage = os.wait4(server.pid, 0)
        seconds = time.monotonic() - start
    if status != 0:
        sys.exit(f"bench: the server ended with {os.waitstatus_to_exitcode(status)}")
    return replies, seconds, usage.ru_maxrss * 1024


def work_once(program, row, changes):
    """The seconds that a book takes for this row, which makes this many changes, and the peak memory in bytes."""
    with tempfile.NamedTemporaryFile(suffix=".rows") as given, tempfile.TemporaryFile() as told:
        given.write(f"{row} => {changes}\n".encode())
        given.flush()
        start = time.monotonic()
        worker = subprocess.Popen([program, given.name], stdout=told)
        _, status, usage = os.wait4(worker.pid, 0)
        seconds = time.monotonic() - start
        told.seek(0)
        if status != 0 or told.read() != b"1 rows, of which 0 differ\n":
            sys.exit(f"bench: not {changes} changes were accepted")
    return seconds, usage.ru_maxrss * 1024


def work(program, uploads):
    """The microseconds of a request to a book of this many uploads, the best of three runs."""
    best = min(work_once(program, f"fill {uploads}", 2 * uploads)[0] for _ in range(3))
    return best / (3 * uploads) * 1e6


def removals(program, uploads):
    """The microseconds of a request that makes or removes an upload, the bytes that are kept of a removed one, and the
    peak memory."""
    _, few = work_once(program, "removals 1000", 2000)
    seconds, peak = work_once(program, f"removals {uploads}", 2 * uploads)
    return seconds / (2 * uploads) * 1e6, (peak - few) / (uploads - 1000), peak


def check(replies, accepted):
    """Checks that the replies end with the report, and returns their size."""
    replies.seek(0, os.SEEK_END)
    size = replies.tell()
    replies.seek(max(0, size - (1 << 22)))
    if f"\naccepted {accepted}\n".encode() not in replies.read():
        sys.exit(f"bench: not {accepted} requests were accepted")
    return size


def main():
    words = argparse.ArgumentParser()
    words.add_argument("--mib", type=int, default=1024, help="how much is appended, 1 to 1024")
    words.add_argument("--messages", type=int, default=10_000, help="how many small messages, 1 to 10000")
    given = words.parse_args()
    program, rows = build(), build("up_test_data")
    with tempfile.TemporaryDirectory() as folder:
        path = os.path.join(folder, "talk")
        with open(path, "wb") as file:
            long_talk(file, given.mib)
        replies, seconds, peak = run(program, path)
        stored = given.mib * MIB
        if check(replies, given.mib + 1) < stored:
            sys.exit("bench: the upload did not come back")
        print(
            f"{given.mib} MiB in PATCHes of 1 MiB, and back: {seconds:.2f} s, {stored / seconds / 1e6:.0f} MB/s, "
            f"peak {peak / MIB:.0f} MiB, {(peak - MIB) / stored:.2f} times the bytes stored, and one body"
        )
        with open(path, "wb") as file:
            small_talk(file, given.messages)
        replies, seconds, peak = run(program, path)
        check(replies, given.messages)
        print(
            f"{given.messages} small messages: {seconds:.3f} s, {given.messages / seconds:.0f} messages/s, "
            f"peak {peak / MIB:.0f} MiB"
        )
        with open(path, "wb") as file:
            joined_talk(file)
        replies, seconds, peak = run(program, path)
        stored = 2 * PARTS * MIB
        if check(replies, 2 * PARTS + 1) < PARTS * MIB:
            sys.exit("bench: the final upload did not come back")
        print(
            f"{PARTS} parts of 1 MiB joined, and back: {seconds:.2f} s, peak {peak / MIB:.0f} MiB, "
            f"{(peak - MIB) / stored:.2f} times the bytes stored, and one body"
        )
    for uploads in (1_000, 10_000, 100_000):
        print(f"{uploads} uploads: {work(rows, uploads):.2f} us a request")
    each, kept, peak = removals(rows, 100_000)
    print(f"100000 uploads made and removed: {each:.2f} us a request, peak {peak / MIB:.0f} MiB, {kept:.0f} bytes for each")


main()
