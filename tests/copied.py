"""Stores that `tests/crash.py` makes once, and copies of which its cases try; and a client alone.
"""
import contextlib
import functools
import os
import shutil
import tempfile
import threading

from crashed import Client, Ended, Told
from serving import MAX_WAIT, same, soon
from stored import Store, store_of

# The number of uploads that are removed before a log is made shorter, and their bytes.
HEAPED, PIECE = 70, bytes(range(256)) * 4096

# The number of clients of a store that is copied.
FEW = 6


class Lone:
    """A client that is connected to a server for the time of a `with`; a new client unless one is given."""

    def __init__(self, server, client=None):
        self.client = client or Client(0)
        self.client.meet(server, threading.Event())

    def __enter__(self):
        return self.client

    def __exit__(self, *_):
        self.client.leave()


def small_changes(client):
    """Makes changes one after another, each in a batch of its own, and yields all uploads after each change."""
    first = client.create(5)
    yield dict(client.uploads)
    client.append(first, b"ab")
    yield dict(client.uploads)
    other = client.create(None, "partial")
    yield dict(client.uploads)
    client.append(other, b"0123456789", 10)
    yield dict(client.uploads)
    client.join([other, other])
    yield dict(client.uploads)
    client.remove(other)
    yield dict(client.uploads)
    client.append(first, b"cde")
    yield dict(client.uploads)


class Original:
    """A store whose server has ended in order, with clients that know all of it, and all events. Tries are made on
    copies of it."""

    def __init__(self, program):
        self.program = program
        self.place = tempfile.TemporaryDirectory(prefix="up-crash-")
        self.store = Store(program, os.path.join(self.place.name, "store"))
        self.clients, self.told = [Client(number) for number in range(FEW)], Told()

    @contextlib.contextmanager
    def serving(self):
        """A server of the store, which ends in order. Only then its output is looked at."""
        with self.store.plain() as server:
            yield server
            server.end()
            same(server.process.wait(MAX_WAIT), 0, "the status of the server")
            self.told.add(server.output(), is_killed=False)

    @contextlib.contextmanager
    def copied(self):
        """A copy of the store, with copies of the clients and of the events."""
        with store_of(self.program) as store:
            shutil.copytree(self.store.folder, store.folder)
            yield store, [client.copy() for client in self.clients], Told(self.told)


@functools.cache
def heaped(program):
    """A store with large uploads of its first client. Once these are removed, its log may be made shorter."""
    original = Original(program)
    with original.serving() as server:
        for client in original.clients:
            with Lone(server, client):
                if client.number == 0:
                    for _ in range(HEAPED):
                        client.append(client.create(len(PIECE)), PIECE)
                list(small_changes(client))
    return original


def remove_heap(client):
    """Removes the large uploads. A removal that is refused is tried once more."""
    for path, upload in list(client.uploads.items()):
        if upload.is_there and upload.length == len(PIECE):
            try:
                client.remove(path)
            except Ended:
                client.remove(path)


@functools.cache
def switched(program):
    """A store whose log was made shorter, and to which nothing was added since. `long` is the longer log, as it was in
    the end."""
    original = Original(program)
    with heaped(program).copied() as (store, clients, told):
        shutil.copytree(store.folder, original.store.folder)
        original.clients, original.told = clients, told
    with open(original.store.path("log"), "rb") as log, original.serving() as server:
        with Lone(server, original.clients[0]) as client:
            remove_heap(client)
            soon(lambda: original.store.logs() == ["log.1"], "the log is made shorter")
        original.long = log.read()
    return original


@functools.cache
def small(program):
    """A store with the small changes, and what is there after each of them."""
    original = Original(program)
    client = original.clients[0]
    with original.serving() as server, Lone(server, client):
        original.states = [{}, *small_changes(client)]
    return original


def put(store, name, text):
    """Writes a file of a store."""
    with open(store.path(name), "wb") as file:
        file.write(text)
