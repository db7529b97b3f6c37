#!/usr/bin/env python3
"""Loses, cuts and damages the files of a store, and puts older ones in their place. A start is refused then, changes no
file, and hands over no event.

    tests/lost.py [--program PATH] [NAME..]

It needs only Python 3 and Linux. `tests/crash.py` runs its cases too.
"""
import os
import random
import shutil
import sys
import time

from copied import Lone, put, small, small_changes, switched
from crashed import LANES
from endings import ended
from serving import same, try_all, words_of
from stored import STOPPED, counts_of, damage_of, gates_of, store_of

# How many blocks of a log are damaged.
DAMAGED = 3


def without(store, *names):
    """Removes files of a store."""
    for name in names:
        os.remove(store.path(name))


def without_counts(store):
    """Empties the counts of a store."""
    for lane in range(LANES):
        os.truncate(store.path(f"handed.{lane}"), 0)


def move_log(store):
    """Gives the log of a store the name of another one, and empties the counts."""
    os.rename(store.path("log"), store.path("log.1"))
    without_counts(store)


def lose_heads(store):
    """Removes the heads, and empties the counts."""
    without(store, "heads")
    without_counts(store)


def lost_files():
    """A store without its heads, or without the log that they name, is refused if another file tells that there was
    one, and is left as it is."""
    losses = [
        (small, lose_heads),
        (small, lambda store: without(store, "heads", "log", "void")),
        (small, lambda store: without(store, "log")),
        (small, lambda store: os.truncate(store.path("log"), 0)),
        (small, lambda store: without(store, "log", "void")),
        (small, move_log),
        (switched, lambda store: without(store, "heads")),
        (switched, lambda store: without(store, "heads", "log.1", "void.1")),
        (switched, lambda store: without(store, "log.1")),
        (switched, lambda store: os.rename(store.path("log.1"), store.path("log"))),
    ]
    lines = []
    for number, (original, lose) in enumerate(losses):
        with original(program).copied() as (store, *_):
            lose(store)
            line = store.refused()
            begins = f'up_server: cannot open the store at "{store.folder}'
            same(line.startswith(begins), True, f"whether {line!r} begins so, without the files {number}")
            lines.append(line.removeprefix(begins))
    return lines[0]


def cut_shorter_log():
    """A shorter log that lacks its last batch isn't served, and the longer log is left beside it."""
    with switched(program).copied() as (store, clients, _):
        log = store.files()["log.1"]
        put(store, "log", switched(program).long)
        for end in (b"\0", b""):
            put(store, "log.1", log[: gates_of(log)[-2]] + end)
            line = store.unread()
        put(store, "log.1", log)
        with store.kept() as server:
            for client in clients:
                with Lone(server, client):
                    client.come_back(everything=True)
    return repr(line)


def fewer_of(counts, logged):
    """The line that says which is the first lane whose log has fewer events than its count."""
    lane = next(lane for lane in range(LANES) if counts[lane] > logged[lane])
    fewer = f"handed.{lane} counts {counts[lane]} events, and the log has {logged[lane]} of lane {lane}"
    return f"up_server: cannot read the store: {fewer}"


def older_log():
    """A log with fewer events of a lane than its count isn't served, no event is handed over, and all is left."""
    log, states = small(program).store.files()["log"], small(program).states
    lines = set()
    for number, gate in enumerate(gates_of(log)[:-1]):
        wanted = fewer_of(counts_of(states[-1]), counts_of(states[number]))
        # A cut, an older copy, and a gate that a changed byte closes.
        for left in (log[:gate], log[:gate] + b"\0", log[:gate] + b"\0" + log[gate + 1 :]):
            with small(program).copied() as (store, *_):
                put(store, "log", left)
                same(store.unread(), wanted, "why nothing is served")
        lines.add(wanted)
    return f"{len(lines)} lines, such as {max(lines)!r}"


def older_shorter_log():
    """An older copy of a shorter log isn't served either. The events that it leaves out count as those that it has."""
    with switched(program).copied() as (store, clients, told):
        log = store.files()["log.1"]
        before = told.counts()
        with store.plain() as server:
            with Lone(server, clients[0]) as client:
                list(small_changes(client))
            server.end()
            told.add(ended(server), is_killed=False)
        put(store, "log.1", log)
        line = store.unread()
        same(line, fewer_of(told.counts(), before), "why nothing is served")
    return repr(line)


def damaged_log():
    """A log with a block that can't be read isn't served, and a line names its file and its place."""
    for original, name in ((small, "log"), (switched, "log.1")):
        log = original(program).store.files()[name]
        for gate in random.sample(gates_of(log)[:-1], DAMAGED):
            # The highest byte of the length, that of the number of entries, and what closures said of the first one.
            for place in (gate + 8, gate + 16, gate + 33):
                with original(program).copied() as (store, *_):
                    put(store, name, log[:place] + b"\xff" + log[place + 1 :])
                    line = store.unread()
                    same(line, damage_of(name, gate), "why nothing is served")
    return repr(line)


def lost_folder():
    """Once the folder of a store is removed, changes are refused within two seconds, and reads continue."""
    with store_of(program) as store:
        with store.kept() as server, Lone(server) as client:
            path = client.append(client.create(5), b"abcde")
            store.until_counted(client.uploads)
            shutil.rmtree(store.folder)
            time.sleep(2)
            for _ in range(3):
                reply = client.connection.ask("POST", "/files/", upload_length=3)
                same(reply.status, 503, "the status of a change two seconds after the folder was removed")
            client.look(path)
            server.kill()
            lines = server.process.stderr.read().decode().splitlines()
        same(lines, [f"{STOPPED}the folder of the store is gone"], "what is said")
        same(os.path.exists(store.folder), False, "whether the folder is there")


CASES = [lost_files, cut_shorter_log, older_log, older_shorter_log, damaged_log, lost_folder]

if __name__ == "__main__":
    program, names = words_of(__doc__)
    program = os.path.abspath(program)
    sys.exit(try_all(CASES, names))
