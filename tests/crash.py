#!/usr/bin/env python3
"""Kills, ends and restarts `up serve --store DIR`, has its syncs fail, loses, cuts and damages its files, and fills its
disk. It compares what is there after that, and the events of all runs, with what was acknowledged.

    tests/crash.py [--program PATH] [--rounds N] [NAME..]

It needs only Python 3 and Linux, and takes four minutes with twenty rounds, which is the default. Cases are skipped
if they need something that is missing or not permitted (a mount, Debian's strace).

In each round sixteen clients create, append, declare lengths, concatenate and remove, and the server is killed at a
random moment. After a restart on the same DIR each change that was acknowledged must be there, by HEAD and by the bytes
of a GET. A change without an answer is there as a whole, or not at all. The lines of `--events` of all runs together
must be, for each upload, the events that its accepted changes define, each once and in order. At each kill, the one
event of each lane that was being handed over may be repeated, as the first of its lane in the next run.

With N rounds, N of the first syncs of each file fail, each in a run of its own, and `5 * N` first starts are killed or
have a sync that fails; with twenty rounds that is all of them. The cases of `tests/lost.py` and `tests/fulldisk.py` are
run too.

For each case, one line says whether it passed. The last line is `N passed, M failed`, and the exit status is 1 if a
case failed.
"""
import argparse
import contextlib
import os
import random
import re
import shutil
import sys
import tempfile
import threading
import time

import fulldisk
import lost
from copied import HEAPED, PIECE, Lone, heaped, put, remove_heap, small_changes
from crashed import LANES, Client, Ended, Told, adopt, lane_of
from endings import ended
from serving import MAX_SIZE, MAX_WAIT, Server, at_once, build, events_of, same, soon, try_all
from stored import (
    HEADING, LIMIT, STOPPED, Hasty, Limited, Store, damage_of, enlarge, failing_syncs, files_of, gates_of, logs_left,
    may_mount, may_trace, put_store, small_disk, store_of, tracing, was_changed,
)

# The number of clients, and the seconds of work before a kill.
CLIENTS, WORK = 16, (0.02, 0.3)

# How often a server is killed in its first start.
HASTY = 5

# The number of rounds in the case that ends servers in order.
ENDS = 4

# The most places at which a log is cut, and the number of servers that try them at once.
MAX_CUTS, AT_ONCE = 240, 4

# The bytes of the bodies that fill a disk.
BODY = 100_000

# How often a server is killed once its log may be made shorter.
KILLS = 5

# The files of which a sync fails once, whether only after a switch to a shorter log, and how many of the first syncs of
# a thread do. A thread makes fewer syncs of some files than of others.
SYNCED = [
    ("heads", False, 4), ("log", False, 10), ("log.1", False, 6), ("void", False, 2), ("void.1", False, 6),
    ("handed", False, 10), ("spare", False, 4), ("log.1", True, 10),
]

# The seconds for which a shorter log is held up when it is opened, and how many large uploads are made meanwhile.
HELD_UP, MEANWHILE = 1, 20

# The most seconds that a server which is traced may take for a shorter log.
MAX_TRACED = 100

# The calls of a first start at which it is killed, and how many there are of each for the files of a store.
CALLS = {"mkdir": 1, "openat": 24, "pwrite64": 14, "fsync": 24, "fdatasync": 16}

# How many of these starts are made for each round.
FIRST = 5

# The seconds after which it is said that changes are stored again, at most.
TOLD = 2.5

# What is said if there is no room to write that a shorter log takes the place of the log.
NO_ROOM = "up_server: the log can't be made shorter yet: the disk failed: No space left on device (os error 28)\n"

# The files of a store.
NAMES = {"heads", "log", "void", "spare", *(f"handed.{lane}" for lane in range(LANES))}


# Many clients at work.


# What standard error says if a shorter log takes the place of the log.
SHORTER = re.compile(r"up_server: the log has (\d+) bytes instead of (\d+)")


def new_clients():
    return [Client(number) for number in range(CLIENTS)]


def together(clients, server, ending, work, beside=lambda: None, may_fail=False):
    """Has all clients do this work with the server at once, and runs `beside` meanwhile."""
    for client in clients:
        client.meet(server, ending, may_fail)
    try:
        at_once(lambda number: work(clients[number]) if number < len(clients) else beside(), len(clients) + 1)
    finally:
        for client in clients:
            client.leave()


def come_back(clients, server, told, everything=False):
    """Has all clients check after a restart what is there."""
    never = threading.Event()
    together(clients, server, never, lambda client: client.come_back(everything))
    with Lone(server, clients[0]):
        adopt(clients, told.unknown(clients))


def work_until(clients, server, stop):
    """Has all clients work until the server is stopped."""
    ending = threading.Event()

    def stop_soon():
        time.sleep(random.uniform(*WORK))
        ending.set()
        stop()

    together(clients, server, ending, Client.work, stop_soon)


def end_quietly(server, clients, told, is_shorter):
    """Ends a server in order while nobody is connected, and compares all events and the report with the count. If its
    log may have been a shorter one at the start, the report may leave out the changes that this one leaves out."""
    server.end()
    same(server.process.wait(MAX_WAIT), 0, "the status of the server")
    lines = server.process.stderr.read().decode().splitlines()
    same([line for line in lines if not SHORTER.fullmatch(line)], [], "what else is said than that a log is shorter")
    report = told.add(server.output(), is_killed=False)
    told.hold(clients, is_whole=True)
    count, accepted = int(re.match(r"accepted (\d+)\n", report)[1]), accepted_by(clients)
    same(report, report_of(count, told), "the report")
    may_be = count <= accepted if is_shorter else count == accepted
    same(may_be, True, f"whether {count} of {accepted} changes may be counted")


def accepted_by(clients):
    """The number of accepted changes that the clients know of."""
    return sum(upload.changes for client in clients for upload in client.uploads.values())


def report_of(accepted, told):
    drained = "".join(f"lane {lane} drained {count}\n" for lane, count in enumerate(told.counts()))
    return f"accepted {accepted}\n{drained}"


def told_by_now(client, server, told):
    """The events that the server has written so far, with all earlier ones. To wait for them, one more upload is made
    in each lane, whose event comes last."""
    paths = []
    while {lane_of(path) for path in paths} != set(range(LANES)):
        paths.append(client.create(1))
    soon(lambda: all(path in events_of(server.output()) for path in paths), "the events of new uploads are written")
    now = Told(told)
    now.add(server.output(), is_killed=True)
    return now


def last_runs(store, clients, told):
    """Completes all uploads, and checks after another restart that everything is there and was reported once."""
    is_shorter = store.generation() > 0
    with store.plain() as server:
        come_back(clients, server, told)
        together(clients, server, threading.Event(), Client.finish)
        with Lone(server, clients[0]):
            now = told_by_now(clients[0], server, told)
        come_back(clients, server, now, everything=True)
        end_quietly(server, clients, told, is_shorter)
    before = told.counts()
    is_shorter = store.generation() > 0
    with store.plain() as server:
        come_back(clients, server, told, everything=True)
        end_quietly(server, clients, told, is_shorter)
    same(told.counts(), before, "how many events each lane has handed over after a run without a change")


# Cases with many clients.


def by_kill():
    """Kills lose no change that was answered and no event, and repeat at most one event of each lane."""
    clients, told = new_clients(), Told()
    with store_of(program) as store:
        for _ in range(HASTY):
            with store.kept(Hasty):
                pass
        for number in range(rounds):
            with store.kept() as server:
                come_back(clients, server, told)
                work_until(clients, server, server.kill)
                told.add(server.output(), is_killed=True)
                told.hold(clients, is_whole=False)
            if number % 4 == 3:
                with store.kept(Hasty) as server:
                    told.add(server.output(), is_killed=True)
                    told.hold(clients, is_whole=False)
        last_runs(store, clients, told)
    return f"{accepted_by(clients):,} changes, {sum(told.counts()):,} events, {told.repeated} of them twice"


def by_end():
    """Shutdowns in order lose nothing and repeat nothing; the reports count the changes and events of all runs."""
    clients, told = new_clients(), Told()
    with store_of(program) as store:
        for number in range(ENDS):
            with (store.plain, store.script)[number % 2]() as server:
                come_back(clients, server, told)
                work_until(clients, server, server.end)
                report = told.add(ended(server), is_killed=False)
                told.hold(clients, is_whole=True)
                hold_report(report, clients, told)
        last_runs(store, clients, told)
    return f"{accepted_by(clients):,} changes, {sum(told.counts()):,} events"


def hold_report(report, clients, told):
    """Compares a report with the count. The report may also count changes without an answer."""
    known, open_ones = accepted_by(clients), sum(bool(client.asked) + len(client.lost) for client in clients)
    may_be = [report_of(known + more, told) for more in range(open_ones + 1)]
    same(report in may_be, True, f"whether {report!r} is {may_be[0]!r}, with up to {open_ones} changes more")


# Cases with one client.


def made(store):
    """Makes a store with the small changes. Returns the client, and the uploads before and after each change, each with
    the length of the log at that time."""
    with store.plain() as server:
        states = [({}, store.size_of_log())]
        with Lone(server) as client:
            states += [(uploads, store.size_of_log()) for uploads in small_changes(client)]
        server.end()
        ended(server)
    return client, states


def hold_there(store, client):
    """Checks that all uploads of the client are there after a restart, and that more can be made."""
    with store.kept() as server, Lone(server, client):
        client.come_back(everything=True)
        client.append(client.create(3), b"abc")


def hold_copy(store, uploads, absent):
    """Checks that a server has these uploads and lacks the absent ones, repeats no event, and makes changes that
    stay."""
    client = Client(0)
    client.uploads = dict(uploads)
    for _ in range(2):
        with store.kept() as server, Lone(server, client):
            for path in client.uploads:
                client.look(path)
            for path in absent:
                same(client.ask("HEAD", path).status, 404, f"the status of {path}, whose change is cut off")
            path = client.append(client.create(3), b"new")
            wanted = {path: list(client.uploads[path].events)}
            store.until_counted(client.uploads)
            same(events_of(server.output()), wanted, "the events of this run")


def cases_of_cuts(states, log):
    """Logs with a cut in their last two batches, each with the number of changes left in it."""
    gates = gates_of(log)
    same([gate + 1 for gate in gates], [size for _, size in states], "how long the log was after each change")
    found = []
    for count in (len(gates) - 3, len(gates) - 2):
        for cut in range(gates[count], gates[count + 1] + 1):
            found += [(count, text) for text in logs_left(log, gates[count], cut)]
    return found if len(found) <= MAX_CUTS else random.sample(found, MAX_CUTS)


def cut_log():
    """A log as a crash may leave it, cut at any byte of the last two batches, has all changes before the cut batch."""
    with store_of(program) as store:
        states, files = made(store)[1], store.files()
        cases, last = cases_of_cuts(states, files["log"]), states[-1][0]

        def try_some(number):
            for at in range(number, len(cases), AT_ONCE):
                count, log = cases[at]
                uploads, folder = states[count][0], f"{store.folder}.{at}"
                copy = put_store(program, folder, files, log, uploads)
                hold_copy(copy, uploads, last.keys() - uploads.keys())
                shutil.rmtree(folder)

        at_once(try_some, AT_ONCE)
    return f"{len(cases)} logs"


def torn_log():
    """A log that is cut after an open gate, as no crash leaves it, isn't served; without its last gate it is whole."""
    with store_of(program) as store:
        states, files = made(store)[1], store.files()
        log, gates = files["log"], gates_of(files["log"])
        # A gate with nothing after it counts as closed.
        places = range(gates[-3] + 2, gates[-2])
        for cut in random.sample(places, min(20, len(places))):
            line = put_store(program, f"{store.folder}.{cut}", files, log[:cut], states[-3][0]).unread()
            same(line, damage_of("log", gates[-3]), "why nothing is served")
        hold_copy(put_store(program, f"{store.folder}.whole", files, log[:-1], states[-1][0]), states[-1][0], [])
    return repr(line)


# Logs that are made shorter.


def heap(server, client, store):
    """Has a client make large uploads and remove them, so that the log may be made shorter. Returns the log's size
    before the client leaves."""
    with Lone(server, client):
        for _ in range(HEAPED):
            client.remove(client.append(client.create(len(PIECE)), PIECE))
        return store.size_of_log()


def shorter_log():
    """A log of over 64 MiB, most of it from removed uploads, is made shorter, and kills meanwhile lose nothing."""
    clients, told = new_clients(), Told()
    generations = []
    with store_of(program) as store:
        for _ in range(KILLS):
            with store.kept() as server:
                come_back(clients, server, told)
                heap(server, clients[0], store)
                work_until(clients, server, server.kill)
                told.add(server.output(), is_killed=True)
                told.hold(clients, is_whole=False)
            generations.append(store.generation())
        with store.plain() as server:
            come_back(clients, server, told)
            size = heap(server, clients[0], store)
            soon(lambda: len(store.logs()) == 1 and 2 * store.size_of_log() <= size, "the log is made shorter")
            together(clients, server, threading.Event(), Client.finish)
            come_back(clients, server, told, everything=True)
            server.end()
            same(server.process.wait(MAX_WAIT), 0, "the status of the server")
            hold_lines(server.process.stderr.read().decode().splitlines())
            told.add(server.output(), is_killed=False)
            told.hold(clients, is_whole=True)
        generations.append(store.generation())
        hold_shorter(store, clients, told)
    return f"how often the log was made shorter after each run: {generations}"


def hold_lines(lines):
    """Checks that each line says that a log was made shorter by half, and that there is at least one."""
    found = [SHORTER.fullmatch(line) for line in lines]
    shorter = [found_one and 2 * int(found_one[1]) <= int(found_one[2]) for found_one in found]
    same(bool(shorter) and all(shorter), True, f"whether {lines} say so")


def hold_shorter(store, clients, told):
    """Checks that a server of a shorter log has all uploads, and hands over no event again."""
    names = {name for name in store.files() if not name.endswith("-wal")}
    same(names, NAMES - {"log", "void"} | store.current(), "the files")
    before = told.counts()
    same([len(store.files()[f"handed.{lane}"]) for lane in range(LANES)], before, "the counts of the lanes")
    with store.plain() as server:
        come_back(clients, server, told, everything=True)
        with Lone(server, clients[0]) as client:
            client.append(client.create(3), b"abc")
        server.end()
        told.add(ended(server), is_killed=False)
        told.hold(clients, is_whole=True)
    same(sum(told.counts()) - sum(before), 3, "how many events came in a run with three")


# Starts that are refused, and the files of a folder.


def second_server():
    """A second server of a store is refused while the first serves, and the first continues."""
    with store_of(program) as store:
        with store.kept() as server, Lone(server) as client:
            list(small_changes(client))
            store.until_counted(client.uploads)
            line = store.refused()
            client.come_back(everything=True)
            client.append(client.create(3), b"abc")
        hold_there(store, client)
    return repr(line)


def other_lanes():
    """A store isn't served with another number of lanes than it was made with."""
    with store_of(program) as store:
        client = made(store)[0]
        lines = [store.refused(lanes=lanes) for lanes in (1, LANES - 1, LANES + 1, 16)]
        hold_there(store, client)
    return repr(lines[0])


def other_size():
    """A store isn't served with another largest size than it was made with."""
    with store_of(program) as store:
        client = made(store)[0]
        lines = [store.refused(size=size) for size in (1, 1 << 20, MAX_SIZE - 1)]
        hold_there(store, client)
    return repr(lines[0])


def no_log():
    """A store whose log is some other file is refused, and is left as it is."""
    magic = b"\1up log\r\n"
    version = magic + b"".join(number.to_bytes(8, "little") for number in (2, LANES, MAX_SIZE)) + b"\0"
    texts = [b"A text.\n", b"A text of several lines.\n" * 9, b"SQLite format 3\0" + bytes(84)]
    said = set()
    with store_of(program) as store:
        with store.kept():
            pass
        for text in [*texts, bytes(35), version, magic]:
            put(store, "log", text)
            said.add(store.refused())
    return "; ".join(sorted(map(repr, said)))


def no_folder():
    """A store whose place is a file, or within a file, is refused."""
    with tempfile.TemporaryDirectory() as folder:
        path = os.path.join(folder, "file")
        with open(path, "wb") as file:
            file.write(b"a file")
        lines = [Store(program, place).refused() for place in (path, os.path.join(path, "store"))]
        same(files_of(folder), {"file": b"a file"}, "the files")
    return repr(lines[0])


def files_made():
    """A store has its files and no others, and its lock files are empty."""
    with store_of(program) as store:
        made(store)
        files = store.files()
    locks = {f"{name}-wal" for name in NAMES}
    same(files.keys() - locks, NAMES, "the files")
    same([name for name in files if name in locks and files[name]], [], "the locks that aren't empty")


class Elsewhere(Server):
    """A server without a store, in a folder."""

    def __init__(self, folder):
        environment = {**os.environ, "HOME": folder, "TMPDIR": folder, "PWD": folder}
        super().__init__(program, "--events", "--lanes", str(LANES), environment=environment)
        self.folder = folder

    def limit(self):
        super().limit()
        os.chdir(self.folder)

    def open_files(self):
        """The open files that have a name, without devices."""
        places = [os.readlink(entry.path) for entry in os.scandir(f"/proc/{self.process.pid}/fd")]
        return [place for place in places if place.startswith("/") and not place.startswith("/dev/")]


def no_store():
    """Without a store no named file is written or open."""
    with tempfile.TemporaryDirectory() as folder:
        with Elsewhere(folder) as server, Lone(server) as client:
            list(small_changes(client))
            named = [place for place in server.open_files() if not place.endswith(" (deleted)")]
            same(named, [], "the files that are open, but for that of the events")
        same(os.listdir(folder), [], "what is in its folder at the end")


# Disks that are full, and disks that fail.


def fill(client, path, size):
    """Appends bodies of this size until one is refused, and checks that later ones are refused as well."""
    most = 2 * LIMIT // size
    same(any(status_of_append(client, path, size) == 503 for _ in range(most)), True, "whether the disk is ever full")
    for _ in range(3):
        same(status_of_append(client, path, size), 503, "the status of a change once the disk is full")


def status_of_append(client, path, size):
    """The status of a PATCH of this size, which is done or finds no room."""
    upload, piece = client.uploads[path], random.randbytes(size)
    reply = client.connection.append(path, len(upload.body), piece)
    same(reply.status in (204, 503), True, f"whether {reply.whole!r} says that it was done or that there is no room")
    if reply.status == 204:
        client.uploads[path] = upload.appended(piece, upload.length)
    else:
        same(reply.body, b"", "the body of a 503")
    return reply.status


def hold_again(client, path, gone):
    """Checks that changes are made soon once there is room, and that each upload is as expected."""
    soon(lambda: status_of_append(client, path, BODY) == 204, "a change is made once there is room")
    for _ in range(3):
        same(status_of_append(client, path, BODY), 204, "the status of a change once there is room")
    client.remove(gone)
    client.come_back(everything=True)


def lines_of(server, seconds=0):
    """Kills the server after so many seconds, and returns what it has written to standard error since it listened."""
    time.sleep(seconds)
    server.kill()
    return server.process.stderr.read().decode().splitlines()


def full_file():
    """If a log can't grow, changes are answered 503 until it can; reads continue, and a line reports each turn."""
    with store_of(program) as store:
        store.lanes = 1
        with store.kept(Limited) as server, Lone(server) as client:
            gone = client.append(client.create(BODY), random.randbytes(BODY))
            path = client.create(64 << 20)
            fill(client, path, BODY)
            client.come_back(everything=True)
            server.make_room()
            hold_again(client, path, gone)
            lines = lines_of(server, TOLD)
        same(len(lines), 2, f"how many lines say that there is no room, and that there is again: {lines}")
        hold_there(store, client)
    return " and ".join(map(repr, lines))


def append_in_turn(client):
    """Appends bodies of several sizes to the client's only upload, each of which is done or finds no room."""
    (path,) = client.uploads
    for number in range(20):
        status_of_append(client, path, (16_383, 16_384, BODY, 50)[(client.number + number) % 4])


def full_of_many():
    """If a log can't grow while many clients send long and short bodies, exactly what was answered 204 is there."""
    clients, never = new_clients(), threading.Event()
    with store_of(program) as store:
        with store.kept(Limited) as server:
            together(clients, server, never, lambda client: client.create(None))
            together(clients, server, never, append_in_turn)
            whole = sum(len(upload.body) for client in clients for upload in client.uploads.values())
            same(whole < LIMIT, True, "whether the log was ever full")
            server.make_room()
            for work in (append_in_turn, Client.finish):
                together(clients, server, never, work)
        with store.kept() as server:
            together(clients, server, never, lambda client: client.come_back(everything=True))
    return f"{whole:,} bytes were stored when the log was full"


def full_disk():
    """On a full disk changes are answered 503, reads continue and removals are done; all is done once there is room."""
    with small_disk() as disk:
        store = Store(program, os.path.join(disk, "store"), lanes=1)
        with store.kept() as server, Lone(server) as client:
            gone = [client.append(client.create(BODY), random.randbytes(BODY)) for _ in range(3)]
            path = client.create(64 << 20)
            for size in (BODY, 1000, 50):
                fill(client, path, size)
            client.come_back(everything=True)
            client.remove(gone[0])
            client.remove(gone[1])
            client.come_back(everything=True)
            enlarge(disk)
            hold_again(client, path, gone[2])
            lines = lines_of(server, TOLD)
        hold_turns(lines)
        hold_there(store, client)
    return f"{len(lines)} lines, {lines[0]!r} and {lines[1]!r} by turns"


def hold_turns(lines):
    """Checks that a line that there is no room, and one that there is room again, alternate."""
    same(len(lines) >= 2 and len(lines) % 2 == 0, True, f"whether {lines} say both as often")
    same(lines, lines[:2] * (len(lines) // 2), "what the lines say")
    same(lines[0] == lines[1], False, "whether the same is said both times")


def failed_syncs():
    """While syncs fail, changes are answered 503, and reads continue; once syncs succeed the server says so by itself,
    changes are made again, and nothing of the refused ones is there."""
    with store_of(program) as store:
        store.lanes = 1
        with store.kept() as server, Lone(server) as client:
            gone = client.append(client.create(BODY), random.randbytes(BODY))
            path = client.create(64 << 20)
            store.until_counted(client.uploads)
            with failing_syncs(server.process.pid):
                for _ in range(3):
                    same(status_of_append(client, path, BODY), 503, "the status of a change while syncs fail")
                client.come_back(everything=True)
                lines = [server.line()]
            lines.append(server.line())
            hold_again(client, path, gone)
            lines += lines_of(server)
        same(len(lines), 2, f"how many lines say that syncs fail, and that they succeed again: {lines}")
        hold_there(store, client)
    return " and ".join(repr(line.rstrip("\n")) for line in lines)


# Syncs that fail once.


def failing_once(server, store, name, number, told):
    """Makes a sync of a file fail for the time of a `with`: of the syncs that a thread makes, the one with this number.
    strace tells what it has changed in the file `told`. A switch of heads is held up."""
    calls = "fsync,fdatasync,fcntl" if name == "heads" else "fsync,fdatasync"
    words = ["-o", told, "-P", store.path(name), "-e", f"trace={calls}"]
    if name == "heads":
        words += ["-P", store.path("log.1-wal"), "-e", f"inject=fcntl:delay_exit={HELD_UP}s"]
        return tracing(server.process.pid, *words, "-e", f"inject=fdatasync:error=EIO:when={number}")
    return tracing(server.process.pid, *words, "-e", f"inject=fsync,fdatasync:error=EIO:when={number}")


def meanwhile(store, client):
    """Once a shorter log is being opened, makes the longer one longer by more than a quarter. Returns in the middle of
    the time in which another one would be opened, if a switch has failed and is tried again."""
    size = os.path.getsize(store.path("heads"))
    soon(lambda: os.path.exists(store.path("log.1-wal")), "a shorter log is opened", MAX_TRACED)
    with contextlib.suppress(Ended):
        for _ in range(MEANWHILE):
            client.append(client.create(len(PIECE)), PIECE)
    soon(lambda: os.path.getsize(store.path("heads")) > size, "a switch is tried", MAX_TRACED)
    time.sleep(1.5 * HELD_UP)


def until_shorter(store):
    """Waits until the log was made shorter, or for longer than that takes, and then for a moment."""
    end = time.monotonic() + 3
    while store.logs() != ["log.1"] and time.monotonic() < end:
        time.sleep(0.05)
    time.sleep(random.uniform(0.5, 1.2))


def work_while_failing(store, clients, server, name):
    """Has clients begin to work one after another while the log becomes shorter and a file fails, and ends the server.
    Returns whether a change could be made at the end."""
    first, *_, large, last = clients
    ending, goes_on = threading.Event(), []
    # The end in order waits for a lane whose count has failed.
    may_end = [server.kill] if name.startswith("handed") else [server.kill, server.end]

    def work(client):
        with contextlib.suppress(Ended):
            if client is first:
                remove_heap(client)
            if client not in (large, last):
                ending.wait(0.3 * client.number)
                client.work(0.01)

    def end():
        try:
            meanwhile(store, large) if name == "heads" else until_shorter(store)
            goes_on.append(last.goes_on())
            ending.set()
            random.choice(may_end)()
            server.process.wait(MAX_TRACED)
        finally:
            ending.set()
            server.kill()

    together(clients, server, ending, work, end, may_fail=True)
    return goes_on[0]


def fail_sync(name, is_after, number):
    """Has a sync of a file fail, only after the log was made shorter if `is_after` is set, and checks what is there
    after a restart. Returns whether it failed, and whether the server made changes at the end."""
    name = f"handed.{random.randrange(LANES)}" if name == "handed" else name
    with heaped(program).copied() as (store, clients, told), tempfile.NamedTemporaryFile() as changes:
        with store.plain() as server:
            if is_after:
                with Lone(server, clients[0]) as client:
                    remove_heap(client)
                soon(lambda: store.logs() == ["log.1"], "the log is made shorter")
            with failing_once(server, store, name, number, changes.name):
                goes_on = work_while_failing(store, clients, server, name)
            lines = server.process.stderr.read().decode().splitlines()
            is_told = any(line.startswith(STOPPED) for line in lines)
            # An end in order notes changes as void that wait for their turn, and the sync that fails may be of these.
            if not goes_on or server.process.returncode < 0 or not name.startswith("void"):
                same(is_told, not goes_on, f"whether {lines} say that no change is made")
            told.add(server.output(), is_killed=server.process.returncode < 0)
            # A count that could not be written repeats an event, as a kill does.
            told.was_killed = True
            told.hold(clients, is_whole=False)
        last_runs(store, clients, told)
        return was_changed(changes), goes_on


def by_failed_sync():
    """Whichever sync of a file fails, before and after a switch to a shorter log, what was acknowledged is there after
    a restart. Until then the server makes changes again, or says that it makes none."""
    tries, results = [], []
    for name, is_after, most in SYNCED:
        tries += [(name, is_after, number) for number in random.sample(range(1, most + 1), min(rounds, most))]
    heaped(program)

    def try_some(start):
        for name, is_after, number in tries[start::AT_ONCE]:
            try:
                results.append(fail_sync(name, is_after, number))
            except AssertionError as fault:
                raise AssertionError(f"sync {number} of {name}: {fault}") from fault

    at_once(try_some, AT_ONCE)
    failed, went_on = map(sum, zip(*results))
    return f"{len(tries)} runs, {failed} with a sync that failed, {went_on} in which changes were made at the end"


# Starts that are killed, and disks with no room for heads.


def first_start():
    """A first start that is killed at any of its calls for the files of the store, or one of whose syncs fails, leaves
    what the next start makes a store of."""
    tries = [(call, number, "signal=KILL") for call in CALLS for number in range(1, 1 + CALLS[call])]
    tries += [("fsync,fdatasync", number, "error=EIO") for number in range(1, 1 + CALLS["fdatasync"])]
    tries = random.sample(tries, min(FIRST * rounds, len(tries)))
    early = []

    def try_some(start):
        for call, number, what in tries[start::AT_ONCE]:
            with store_of(program) as store:
                paths = [word for name in ("", *NAMES) for word in ("-P", store.path(name).rstrip("/"))]
                words = [*paths, "-e", f"trace={call}", "-e", f"inject={call}:{what}:when={number}"]
                with store.traced(*words) as server:
                    if server.port is None:
                        early.append(server.process.wait(MAX_WAIT))
                hold_there(store, Client(0))

    at_once(try_some, AT_ONCE)
    return f"{len(early)} of {len(tries)} starts ended early"


def full_heads():
    """If there is no room to write that a shorter log takes the place of the log, changes go on in the longer one."""
    with heaped(program).copied() as (store, clients, told):
        with store.kept() as server:
            words = ["-P", store.path("heads"), "-e", "trace=pwrite64", "-e", "inject=pwrite64:error=ENOSPC"]
            with tracing(server.process.pid, *words), Lone(server, clients[0]) as client:
                remove_heap(client)
                line = server.line()
                same(line, NO_ROOM, "what is said of the switch that finds no room")
                client.finish()
                client.append(client.create(3), b"abc")
            same(lines_of(server), [], "what else is said")
            same(store.logs(), ["log"], "the logs")
            told.add(server.output(), is_killed=True)
        last_runs(store, clients, told)
    return repr(line)


def cut_meanwhile():
    """A log that becomes shorter by itself while syncs fail takes no change any more, since it isn't what was
    written."""
    with store_of(program) as store:
        store.lanes = 1
        with store.kept() as server, Lone(server) as client:
            path = client.append(client.create(64 << 20), random.randbytes(BODY))
            store.until_counted(client.uploads)
            with failing_syncs(server.process.pid):
                same(status_of_append(client, path, BODY), 503, "the status of a change while syncs fail")
                os.truncate(store.path("log"), HEADING + BODY // 2)
            # The server opens the log again every second.
            time.sleep(1.5)
            for _ in range(3):
                same(status_of_append(client, path, BODY), 503, "the status of a change to a log that was cut")
            client.come_back(everything=True)
            lines = lines_of(server)
        same(len(lines), 1, f"how many lines say that changes are refused, and not that they are stored again: {lines}")
    return repr(lines[0])


given = argparse.ArgumentParser(description=__doc__)
given.add_argument("--program", metavar="PATH", help="what is tried in place of crates/up/out/up")
given.add_argument("--rounds", type=int, default=20, metavar="N", help="how often a busy server is killed")
given.add_argument("names", nargs="*", metavar="NAME", help="the cases to be tried, in place of all")
given = given.parse_args()
program, rounds = os.path.abspath(given.program or build()), given.rounds

CASES = [
    by_kill, by_end, cut_log, torn_log, shorter_log, second_server, other_lanes, other_size, no_log, no_folder,
    files_made, no_store, full_file, full_of_many, *lost.CASES,
]
lost.program = program
passed_over = []
if may_mount():
    fulldisk.program = program
    CASES += [full_disk, *fulldisk.CASES]
else:
    passed_over.append("disks that are full, since no disk may be mounted here")
if may_trace():
    CASES += [failed_syncs, by_failed_sync, cut_meanwhile, first_start, full_heads]
else:
    passed_over.append("syncs that fail and first starts, since strace isn't there or may trace nothing")
sys.exit(try_all(CASES, given.names, passed_over))
