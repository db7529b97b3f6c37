#!/usr/bin/env python3
"""Takes from `up serve` what it needs to let connections in, and gives it back: descriptors, address space for the
stacks of threads, and the listener.

    tests/wants.py [--program PATH] [NAME..]

It needs only Python 3.9 and Linux, and takes less than a minute. If the system doesn't lend the listener of another
process (`pidfd_getfd`), the cases that shut it down are skipped.

For each case, one line says whether it passed. The last line is `N passed, M failed`, and the exit status is 1 if a
case failed.
"""
import ctypes
import os
import resource
import select
import socket
import sys
import time

from serving import (
    AGAIN, MAX_WAIT, NO_THREAD, Connection, Server, below, events_of, head, same, soon, try_all, words_of,
)

# The lines on standard error.
NO_FILES = "up_server: no connection can be let in: Too many open files (os error 24)\n"
GONE = "up_server: the listener is gone, and the run ends: Invalid argument (os error 22)\n"

# The seconds for which a server that lacks something is watched, and the most processor time that it may take.
WATCHED = 2
MAX_WORK = 0.2

# The number of the system call `pidfd_getfd`.
PIDFD_GETFD = 438


def limit(server, what, most):
    """Sets a limit of the server while it runs, and returns the limit before."""
    before, hard = resource.prlimit(server.process.pid, what)
    resource.prlimit(server.process.pid, what, (most, hard))
    return before


class Watched(Server):
    """A server whose lines on standard error are read with a timeout."""

    def __init__(self, *words, **others):
        super().__init__(program, *words, **others)
        self.rest = b""

    def line(self, seconds=MAX_WAIT):
        """The next line, if it comes within this many seconds."""
        end = time.monotonic() + seconds
        while b"\n" not in self.rest:
            left = end - time.monotonic()
            ready, _, _ = select.select([self.process.stderr], [], [], max(0, left))
            came = os.read(self.process.stderr.fileno(), 4096) if ready else b""
            if not came:
                return ""
            self.rest += came
        line, _, self.rest = self.rest.partition(b"\n")
        return line.decode() + "\n"

    def lines(self, seconds):
        """The lines that come within this many seconds."""
        end = time.monotonic() + seconds
        found = []
        while time.monotonic() < end:
            line = self.line(end - time.monotonic())
            found += [line] if line else []
        return found


def is_served(connection, seconds):
    """Whether the server answers this connection's request within this many seconds."""
    ready, _, _ = select.select([connection.socket], [], [], seconds)
    if not ready:
        return False
    same(connection.reply().status, 204, "the status of an OPTIONS")
    return True


def asked(server):
    """A new connection that has sent an OPTIONS."""
    connection = Connection(server)
    connection.send(head("OPTIONS", "/files/", {}))
    return connection


def sleeps(server, what):
    """Checks that the server takes almost no processor time for some seconds."""
    before = server.seconds()
    time.sleep(WATCHED)
    below(server.seconds() - before, MAX_WORK, f"processor time in {WATCHED} seconds {what}")


def no_files():
    """Out of descriptors, a client is let in once there are some again, even if no connection has ended; two lines say
    so."""
    with Watched() as server, asked(server) as first:
        same(is_served(first, MAX_WAIT), True, "whether the first client is served")
        before = limit(server, resource.RLIMIT_NOFILE, server.descriptors())
        # The accept that is waiting already has its descriptor.
        with asked(server) as second, asked(server) as third:
            same(server.line(5), NO_FILES, "what is said where no descriptor is left")
            same(is_served(third, 0.5), False, "whether a client is served without a descriptor")
            sleeps(server, "out of descriptors")
            limit(server, resource.RLIMIT_NOFILE, before)
            same((is_served(second, 1), is_served(third, 1)), (True, True), "whether both are served at once then")
            same(server.line(5), AGAIN, "what is said when it is over")
            same(server.lines(2), [], "what is said behind that")


def one_leaves():
    """Out of descriptors, a client is let in when another has left."""
    with Watched() as server, asked(server) as first:
        same(is_served(first, MAX_WAIT), True, "whether the first client is served")
        limit(server, resource.RLIMIT_NOFILE, server.descriptors())
        with asked(server) as second, asked(server) as third:
            same(server.line(5), NO_FILES, "what is said where no descriptor is left")
            is_second_served = is_served(second, 0.5)
            first.socket.close()
            same(is_served(third if is_second_served else second, 1), True, "whether the next is served")


def over_and_over():
    """Descriptors that come and go ten times in five seconds are reported in at most a line a second."""
    with Watched() as server, asked(server) as first:
        same(is_served(first, MAX_WAIT), True, "whether the first client is served")
        few = server.descriptors()
        for _ in range(10):
            before = limit(server, resource.RLIMIT_NOFILE, few)
            with asked(server) as second, asked(server) as third:
                time.sleep(0.25)
                limit(server, resource.RLIMIT_NOFILE, before)
                same((is_served(second, 1), is_served(third, 1)), (True, True), "whether both are served")
            time.sleep(0.25)
        said = server.lines(3)
        same((said[0], said[-1]), (NO_FILES, AGAIN), "the first line and the last")
        same(said, [NO_FILES, AGAIN] * (len(said) // 2), "the lines")
        below(len(said), 8, "how many lines are said")


def no_threads():
    """Without address space for a thread a client is closed, and a later one is served once there is some again."""
    with Watched() as server, asked(server) as first:
        same(is_served(first, MAX_WAIT), True, "whether the first client is served")
        before = limit(server, resource.RLIMIT_AS, server.status("VmSize"))
        said = ""
        for _ in range(5):
            with Connection(server) as other:
                said = said or server.line(0.5)
                same(other.is_closed(), True, "whether a client is closed for which there is no thread")
        same(said, NO_THREAD, "what is said where no thread can be started")
        limit(server, resource.RLIMIT_AS, before)
        with asked(server) as other:
            same(is_served(other, 1), True, "whether the next is served at once then")
            same(server.line(5), AGAIN, "what is said when it is over")
            first.send(head("OPTIONS", "/files/", {}))
            same(is_served(first, 1), True, "whether the first client is still served")


def listener_of(server):
    """The listener of the server, if the system lends it, or None."""
    system = ctypes.CDLL(None, use_errno=True)
    process = os.pidfd_open(server.process.pid)
    try:
        for number in map(int, os.listdir(f"/proc/{server.process.pid}/fd")):
            if not os.readlink(f"/proc/{server.process.pid}/fd/{number}").startswith("socket:"):
                continue
            lent = system.syscall(PIDFD_GETFD, process, number, 0)
            if lent < 0:
                return None
            found = socket.socket(fileno=lent)
            if found.getsockopt(socket.SOL_SOCKET, socket.SO_ACCEPTCONN):
                return found
            found.close()
    finally:
        os.close(process)
    return None


def can_lend():
    """Whether the system lends the listener of another process."""
    with Watched() as server:
        listener = listener_of(server)
        if listener:
            listener.close()
        return listener is not None


def shut_down(server):
    """Shuts the server's listener down."""
    with listener_of(server) as listener:
        listener.shutdown(socket.SHUT_RDWR)


def listener_gone():
    """If its listener is shut down, a server without an end ends in order, with status 0, once its client has gone."""
    with Watched("--events") as server, Connection(server) as first:
        path = first.make(3)
        shut_down(server)
        same(server.line(5), GONE, "what is said where the listener is gone")
        same(first.append(path, 0, b"abc").status, 204, "the status of a PATCH behind that")
        sleeps(server, "without a listener")
        first.socket.close()
        same(server.process.wait(MAX_WAIT), 0, "the status of the server")
        same(len(events_of(server.output())[path]), 3, "how many events were written")
        same(server.line(1), "", "what is said behind that")


def gone_and_counted():
    """If its listener is shut down, a server with a number of connections reports what was done, as if all had come."""
    with Watched("--connections", "100", "--lanes", "1") as server, Connection(server) as first:
        path = first.make(0)
        shut_down(server)
        same(server.line(5), GONE, "what is said where the listener is gone")
        first.socket.close()
        same(server.process.wait(MAX_WAIT), 0, "the status of the server")
        told = "\n".join(f"{path[-32:]} {event} done" for event in ("1 post-create 0/0", "2 post-finish 0/0"))
        same(server.output(), f"\naccepted 1\nlane 0 drained 2\n{told}\n", "the report")


def gone_in_want():
    """A listener that goes while the server is out of descriptors is reported in its turn, and ends the run."""
    with Watched() as server, asked(server) as first:
        same(is_served(first, MAX_WAIT), True, "whether the first client is served")
        limit(server, resource.RLIMIT_NOFILE, server.descriptors())
        with asked(server), asked(server):
            same(server.line(5), NO_FILES, "what is said where no descriptor is left")
            shut_down(server)
            limit(server, resource.RLIMIT_NOFILE, 64)
            start = time.monotonic()
            same(server.line(5), GONE, "what is said where the listener is gone")
            below(time.monotonic() - start, 3, "seconds until it is said")
        first.socket.close()
        soon(lambda: server.process.poll() is not None, "the server ends")
        same(server.process.returncode, 0, "the status of the server")


CASES = [no_files, one_leaves, over_and_over, no_threads]
LENT = [listener_gone, gone_and_counted, gone_in_want]

program, names = words_of(__doc__)
if can_lend():
    sys.exit(try_all(CASES + LENT, names))
sys.exit(try_all(CASES, names, [f"{case.__name__}: {case.__doc__}" for case in LENT]))
