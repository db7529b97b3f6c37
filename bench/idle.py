#!/usr/bin/env python3
"""Times a server that has nothing to do, and how soon an event reaches its hook.

    bench/idle.py [--seconds N]

A conversation with `up replay` makes an upload, and then its input waits N seconds (by default 10) for the next byte.
The processor time of the whole run has to be less than a tenth of a second, which shows that the lanes sleep. Then a
conversation with `up_example`, whose post-hook reports each upload that it scans on standard error, completes an upload
and asks nothing more. The event has to reach the hook while the input waits. If a goal is missed, the script exits with
status 1.
"""
import argparse
import os
import select
import subprocess
import sys
import time

sys.path.insert(0, os.path.join(os.path.dirname(os.path.dirname(os.path.abspath(__file__))), "tests"))
from serving import build, head, patch, path_of  # noqa: E402

# The most processor time of an idle run, and the most time to wait for an event, in seconds.
MAX_WORK = 0.1
MAX_WAIT = 10


def post(length):
    return head("POST", "/files/", {"Upload-Metadata": "filename d29ybGQucGRm", "Upload-Length": length})


def start(words):
    return subprocess.Popen(words, stdin=subprocess.PIPE, stdout=subprocess.PIPE, stderr=subprocess.PIPE)


def ask(server, message):
    server.stdin.write(message)
    server.stdin.flush()


def read_until(stream, mark):
    """The bytes of a stream, up to the mark."""
    end = time.monotonic() + MAX_WAIT
    told = b""
    while mark not in told:
        ready, _, _ = select.select([stream], [], [], max(0, end - time.monotonic()))
        more = os.read(stream.fileno(), 1 << 16) if ready else b""
        if not more:
            sys.exit(f"bench: {mark!r} did not come")
        told += more
    return told


def finish(server):
    """Ends the server's input, and returns the server's processor time."""
    server.stdin.close()
    server.stdout.read()
    _, status, usage = os.wait4(server.pid, 0)
    server.returncode = os.waitstatus_to_exitcode(status)
    if status != 0:
        sys.exit(f"bench: the server ended with {server.returncode}")
    return usage.ru_utime + usage.ru_stime


def idle(program, seconds):
    """The processor time of a run whose input waits this many seconds."""
    server = start([program, "replay", "--lanes", "16"])
    ask(server, post(3))
    read_until(server.stdout, b"\r\n\r\n")
    time.sleep(seconds)
    return finish(server)


def reach(program):
    """The seconds from the last byte of a request until its event reaches the hook."""
    server = start([program])
    ask(server, post(3))
    read_until(server.stdout, b"\r\n\r\n")
    begin = time.monotonic()
    ask(server, patch(path_of(1), 0, 3) + b"abc")
    read_until(server.stderr, b"scanned\n")
    taken = time.monotonic() - begin
    finish(server)
    return taken


def main():
    words = argparse.ArgumentParser()
    words.add_argument("--seconds", type=float, default=10, help="how long the input waits")
    seconds = words.parse_args().seconds
    up, example = build("up"), build("up_example")
    work = idle(up, seconds)
    print(f"idle for {seconds:g} s: {work:.3f} s of processor time (goal: under {MAX_WORK:g} s)", flush=True)
    print(f"an event at its hook, no request behind it: {reach(example) * 1e3:.2f} ms", flush=True)
    if work >= MAX_WORK:
        sys.exit("bench: missed: idle")


main()
