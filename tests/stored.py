"""Servers with a store for `tests/crash.py`: starting, killing, limiting and refusing them, and the files of a store.
"""
import contextlib
import os
import random
import re
import resource
import shutil
import signal
import subprocess
import tempfile
import threading
import time

import endings
from crashed import LANES, lane_of
from serving import MAX_SIZE, MAX_WAIT, Server, same, soon

# The largest file of a limited server, which is also the size of a small disk; and the size of that disk once it is
# enlarged.
LIMIT, MORE = 4 << 20, 32 << 20

# The number of bytes in the heading of a log, with the gate before it.
HEADING = 33

# How the line begins that says that no change is made any more.
STOPPED = "up_server: no change is made until the server is started again: "


class Kept(Server):
    """A server over the folder of a store, which ends by a kill."""

    def kill(self):
        self.process.kill()
        self.process.wait()


class Plain(endings.Plain, Kept):
    """A server that ends in order at the end of its standard input, or by a kill."""


class Hasty(Kept):
    """A server that is killed while it starts, or soon after. Nobody connects to it."""

    def listening(self):
        time.sleep(random.uniform(0, 0.05))
        self.kill()


class Limited(Kept):
    """A server whose files are limited in size, and which gets an error when a file would exceed the limit."""

    def limit(self):
        super().limit()
        signal.signal(signal.SIGXFSZ, signal.SIG_IGN)
        resource.setrlimit(resource.RLIMIT_FSIZE, (LIMIT, resource.RLIM_INFINITY))

    def make_room(self):
        resource.prlimit(self.process.pid, resource.RLIMIT_FSIZE, (resource.RLIM_INFINITY, resource.RLIM_INFINITY))


class Traced(Kept):
    """A server that strace traces from its start, and whose system calls it changes, as these words say. The server may
    not come to listen."""

    def __init__(self, program, *words, tracing):
        super().__init__(program, *words, may_fail=True)
        self.words[:0] = ["strace", "-D", "-f", "-qq", "-o", "/dev/null", "-e", "signal=none", *tracing]


class Store:
    """The folder of a store, and the program that serves it."""

    def __init__(self, program, folder, lanes=LANES):
        self.program, self.folder, self.lanes = program, folder, lanes

    def words(self, lanes=None):
        return ["--events", "--lanes", str(lanes or self.lanes), "--store", self.folder]

    def kept(self, kind=Kept):
        """A server that ends by a kill."""
        return kind(self.program, *self.words())

    def plain(self):
        """A server that ends in order at the end of its standard input."""
        return Plain(self.program, *self.words())

    def traced(self, *tracing):
        """A server that ends by a kill, and whose system calls strace changes."""
        return Traced(self.program, *self.words(), tracing=tracing)

    def script(self):
        """A server that ends in order when its script gets a TERM."""
        return endings.Script(self.program, *self.words())

    def path(self, name):
        return os.path.join(self.folder, name)

    def generation(self):
        """The number in the name of the latest log: how often the log was made shorter."""
        return max(int(name[4:] or 0) for name in self.logs())

    def current(self):
        """The names of the current logs."""
        end = f".{self.generation()}" if self.generation() else ""
        return {f"log{end}", f"void{end}"}

    def logs(self):
        """The names of the logs of changes. There are two while a shorter one is written."""
        return [name for name in os.listdir(self.folder) if re.fullmatch(r"log(\.\d+)?", name)]

    def size_of_log(self):
        """The number of bytes in the logs of changes."""
        return sum(os.path.getsize(self.path(name)) for name in self.logs())

    def files(self):
        return files_of(self.folder)

    def until_counted(self, uploads):
        """Waits until all events of these uploads are counted as handed over. A kill then repeats none, and syncs that
        fail are none of a count."""
        wanted = counts_of(uploads, self.lanes)
        files = [self.path(f"handed.{lane}") for lane in range(len(wanted))]
        soon(lambda: [os.path.getsize(file) for file in files] == wanted, "all events are counted")

    def run(self, lanes=None, size=MAX_SIZE):
        """A run that must end by itself with status 1, and must leave the files as they are."""
        before = self.files()
        words = [self.program, "serve", "--address", "127.0.0.1:0", "--max-size", str(size), *self.words(lanes)]
        try:
            ran = subprocess.run(words, stdin=subprocess.DEVNULL, capture_output=True, timeout=MAX_WAIT)
        except subprocess.TimeoutExpired as fault:
            raise AssertionError(f"a server that must be refused serves, and says {fault.stderr!r}") from fault
        same(ran.returncode, 1, f"the status, with {ran.stderr!r}")
        after = self.files()
        same([name for name in before if after.get(name) != before[name]], [], "the files that aren't as they were")
        new = [name for name in after if name not in before and (after[name] or not name.endswith("-wal"))]
        same(new, [], "the files that are new, besides locks")
        return ran

    def refused(self, lanes=None, size=MAX_SIZE):
        """Checks that a server of this store is refused with one line, and returns that line."""
        ran = self.run(lanes, size)
        lines = ran.stderr.decode().splitlines()
        same(len(lines) == 1 and lines[0].startswith("up_server: "), True, f"whether {lines} is one line that says why")
        same(ran.stdout, b"", "what stands on standard output")
        return lines[0]

    def unread(self):
        """Checks that the log can't be read to its end, so that nobody is served and no event is handed over. Returns
        the line that says why."""
        ran = self.run()
        report = re.fullmatch(rb"\naccepted \d+\n(lane \d+ (drained|stopped) \d+\n)+", ran.stdout)
        same(report is not None, True, f"whether {ran.stdout!r} is a report without events")
        lines = ran.stderr.decode().splitlines()
        same(len(lines), 2, f"how many lines say that it listens, and why it ends: {lines}")
        same(lines[1].startswith("up_server: cannot read the store: "), True, f"whether {lines} say why it ends")
        return lines[1]


@contextlib.contextmanager
def store_of(program):
    """A store whose folder doesn't exist yet, on the disk of temporary files."""
    with tempfile.TemporaryDirectory(prefix="up-crash-") as folder:
        yield Store(program, os.path.join(os.path.realpath(folder), "store"))


def files_of(folder):
    """The files of a folder, with their bytes; none if it isn't a folder."""
    found = {}
    for name in sorted(os.listdir(folder)) if os.path.isdir(folder) else []:
        path = os.path.join(folder, name)
        if os.path.isfile(path):
            with open(path, "rb") as file:
                found[name] = file.read()
    return found


def counts_of(uploads, lanes=LANES):
    """How many events of these uploads each lane hands over."""
    counts = [0] * lanes
    for path, upload in uploads.items():
        counts[lane_of(path, lanes)] += len(upload.events)
    return counts


def put_store(program, folder, files, log, uploads):
    """A store in a new folder, with these files and this log, which has handed over as many events as these uploads
    have."""
    os.mkdir(folder)
    for name, text in {**files, "log": log}.items():
        with open(os.path.join(folder, name), "wb") as file:
            file.write(text)
    for lane, count in enumerate(counts_of(uploads)):
        os.truncate(os.path.join(folder, f"handed.{lane}"), count)
    return Store(program, folder)


def gates_of(log):
    """The place of each block in a log's file, and the place after the last block. A block is its gate, which is a byte
    1, the length of its batch in eight bytes, and the batch."""
    gates, at = [], HEADING
    while at + 9 <= len(log) and log[at] == 1:
        gates.append(at)
        at += 9 + int.from_bytes(log[at + 1 : at + 9], "little")
    same(at < len(log) and log[at] != 1, True, "whether a gate that is closed stands behind the last block")
    return [*gates, at]


def damage_of(name, gate):
    """The line that says that the block at this gate of a log can't be read."""
    return f"up_server: cannot read the store: {name}: the log is damaged at byte {gate}"


def logs_left(log, gate, cut):
    """What a crash may leave of a log whose block at this gate is cut: the gate is closed, and the bytes after it are
    short, or differ."""
    kept = log[gate + 1 : cut]
    yield log[:gate] + b"\0" * (cut > gate) + kept
    if cut % 4 == 0:
        yield log[:gate] + random.choice([b"\0", b"\7", b"\xff"]) + kept + random.randbytes(random.randint(0, 200))


@contextlib.contextmanager
def small_disk():
    """A folder that is a small disk of its own, in memory."""
    with tempfile.TemporaryDirectory(prefix="up-crash-") as folder:
        subprocess.run(["mount", "-t", "tmpfs", "-o", f"size={LIMIT}", "tmpfs", folder], check=True, capture_output=True)
        try:
            yield folder
        finally:
            subprocess.run(["umount", folder], check=True)


@contextlib.contextmanager
def tracing(process, *words):
    """Has strace change the system calls of a process, as these words say, for the time of a `with` or until the
    process ends. It counts the calls of each thread apart."""
    words = ["strace", "-f", "-p", str(process), "-e", "signal=none", *words]
    with subprocess.Popen(words, stdin=subprocess.DEVNULL, stderr=subprocess.PIPE, bufsize=0) as tracer:
        # strace writes a line when it has attached itself, and another for each thread.
        tracer.stderr.readline()
        hearing = threading.Thread(target=tracer.stderr.read)
        hearing.start()
        try:
            yield
        finally:
            tracer.terminate()
            hearing.join()


def failing_syncs(process):
    """Makes each sync of a process fail for the time of a `with`."""
    return tracing(process, "-e", "trace=fsync,fdatasync", "-e", "inject=fsync,fdatasync:error=EIO")


def was_changed(file):
    """Whether strace, whose lines are in this file, has changed a call."""
    return b"(INJECTED)" in file.read()


def may_trace():
    """Whether strace exists, and may trace a process here."""
    if not shutil.which("strace"):
        return False
    words = ["strace", "-f", "-e", "trace=fsync,fdatasync", "-e", "inject=fsync,fdatasync:error=EIO", "true"]
    return subprocess.run(words, stdin=subprocess.DEVNULL, capture_output=True).returncode == 0


def enlarge(disk):
    """Enlarges a small disk."""
    subprocess.run(["mount", "-o", f"remount,size={MORE}", disk], check=True, capture_output=True)


def may_mount():
    """Whether a disk in memory may be mounted here."""
    try:
        with small_disk():
            return True
    except (OSError, subprocess.CalledProcessError):
        return False
