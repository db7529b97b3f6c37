#!/usr/bin/env python3
"""Measures what clients can make `up serve` hold in memory.

    bench/memory.py [--program PATH] [NAME..]

It needs only Python 3. Each figure has a server of its own, with `--max-size 1073741824`. Many connections do the same,
and the growth of the process's memory (`VmRSS`) is divided by their number. The figures are the cost of a connection
that is idle, or in a head, or has announced a body and sent none of it, or half of it; of an upload; and of each change
of an upload. Each line has the bytes of one. If an announced body of 2^30 bytes that never comes costs more than one of
a byte by 8,192 bytes and the allocator's share, the exit status is 1. NAME is a figure's name, to measure only that
one.
"""
import argparse
import os
import sys

ROOT = os.path.dirname(os.path.dirname(os.path.abspath(__file__)))
sys.path.insert(0, os.path.join(ROOT, "tests"))
from serving import NOWHERE, Connection, Maker, Server, build, head, patch, settled  # noqa: E402

MIB = 1 << 20
FIRST_ROOM = 8192

# What the allocator adds to a block, and what pages add to the average of many.
OWN = 256

# The number of connections that stay at a time, and of uploads or changes that are made.
STAYING = 500
MANY = 20_000


def each_of(server, count, work):
    """The bytes by which the server grows for each of `count` calls, while their results stay open."""
    before = settled(server)
    kept = [work(number) for number in range(count)]
    grown = settled(server) - before
    for it in kept:
        if it is not None:
            it.__exit__()
    return grown / count


def staying(server, message):
    """The bytes of each of many connections that have sent this, and wait."""

    def open_one(_):
        connection = Connection(server)
        connection.send(message)
        return connection

    return each_of(server, STAYING, open_one)


def padded(message, size):
    """The head with an additional field that brings it to this size."""
    rest = size - len(message) - len("X-Pad: \r\n")
    return message[:-2] + f"X-Pad: {'x' * rest}\r\n\r\n".encode()


def announced(path, length=1 << 30):
    return patch(path, 0, length)


def idle(server):
    """a connection that sends nothing"""
    return staying(server, b"")


def in_a_head(server):
    """a connection that has sent a head of 200 bytes but for the last one"""
    return staying(server, padded(announced(NOWHERE), 200)[:-1])


def in_a_long_head(server):
    """a connection that has sent a head of 16,384 bytes but for the last one"""
    return staying(server, padded(announced(NOWHERE), 16_384)[:-1])


def body_announced(server):
    """a connection that has announced 2^30 bytes for an upload, and sent none"""
    with Connection(server) as first:
        path = first.make(1 << 30)
        return staying(server, padded(announced(path), 200))


def body_by_half(server):
    """a connection that has sent 1 MiB of a body of 2 MiB"""
    with Connection(server) as first:
        path = first.make(1 << 30)
        return staying(server, patch(path, 0, 2 * MIB) + bytes(MIB))


def byte_announced(server):
    """a connection that has announced one byte for an upload, and sent none"""
    with Connection(server) as first:
        path = first.make(1 << 30)
        return staying(server, padded(announced(path, 1), 200))


def body_begun(server):
    """a connection that has sent one byte of a body of 2^30"""
    with Connection(server) as first:
        path = first.make(1 << 30)
        return staying(server, announced(path) + b"x")


def upload_made(server):
    """an upload that was announced with 2^30 bytes, and has none"""
    maker = Maker(server)
    return each_of(server, MANY, lambda _: maker.make(1 << 30) and None)


def upload_with_metadata(server):
    """an upload with 8,189 bytes of metadata"""
    maker, pairs = Maker(server), "filename " + 2045 * "YWJj"
    return each_of(server, 2_000, lambda _: maker.make(1 << 30, Upload_Metadata=pairs) and None)


def upload_removed(server):
    """an upload that was made and removed"""
    maker = Maker(server)
    return each_of(server, MANY, lambda _: maker.ask(head("DELETE", maker.make(5), {}), 204))


def upload_in_one(server):
    """an upload of 1 MiB that came in one body"""
    maker = Maker(server)
    return each_of(server, 200, lambda _: maker.ask(patch(maker.make(MIB), 0, MIB) + bytes(MIB), 204))


def upload_by_pieces(server):
    """an upload of 576 KiB so far, of 2^30, that came in bodies of 64 KiB"""
    maker = Maker(server)

    def grow(_):
        path = maker.make(1 << 30)
        for piece in range(9):
            maker.ask(patch(path, piece * 65_536, 65_536) + bytes(65_536), 204)

    return each_of(server, 200, grow)


def change(server):
    """a change of an upload, which appends one byte"""
    maker = Maker(server)
    path = maker.make(1 << 30)
    return each_of(server, MANY, lambda number: maker.ask(patch(path, number, 1) + b"x", 204))


FIGURES = [
    idle, in_a_head, in_a_long_head, byte_announced, body_announced, body_begun, body_by_half, upload_made,
    upload_with_metadata, upload_removed, upload_in_one, upload_by_pieces, change,
]


def main():
    words = argparse.ArgumentParser()
    words.add_argument("--program", help="the program to be measured, in place of crates/up/out/up")
    names = [it.__name__ for it in FIGURES]
    words.add_argument("names", nargs="*", metavar="NAME", help=f"what is to be measured, of {', '.join(names)}")
    given = words.parse_args()
    program, found = given.program or build(), {}
    for figure in FIGURES:
        if not given.names or figure.__name__ in given.names:
            with Server(program, "--open", "4096") as server:
                found[figure] = figure(server)
            print(f"{found[figure]:12,.0f} bytes: {figure.__doc__}", flush=True)
    if {byte_announced, body_announced} <= found.keys() and found[body_announced] > found[byte_announced] + FIRST_ROOM + OWN:
        sys.exit("bench: a long body costs more than a short one, before its first byte")


main()
