"""Servers that can be told to end in order, by the script that runs them or by their standard input. `tests/ending.py`
and `tests/crash.py` share them.
"""
import contextlib
import fcntl
import os
import signal
import termios

from serving import ROOT, Server, same

SCRIPT = os.path.join(ROOT, "packaging", "up")

# The most seconds that an end may take with nothing to do, and with much to do.
MAX_IDLE, MAX_BUSY = 2, 40


class Script(Server):
    """A server of this program that the script runs, in a process group of its own, with these words. `front` are words
    that start the script, such as `unshare`, and `terminal` is the terminal that it runs on."""

    def __init__(self, program, *words, script=SCRIPT, front=(), terminal=None, **how):
        environment = {**os.environ, "UP_PROGRAM": program}
        super().__init__(script, *words, environment=environment, **how)
        self.words[:0] = self.front = list(front)
        self.terminal = terminal
        if terminal is not None:
            self.given = terminal

    def limit(self):
        super().limit()
        # sh can't trap a signal that is ignored when sh starts.
        for number in (signal.SIGINT, signal.SIGHUP):
            signal.signal(number, signal.SIG_DFL)
        os.setsid()
        if self.terminal is not None:
            fcntl.ioctl(self.terminal, termios.TIOCSCTTY, 0)

    def __exit__(self, *rest):
        with contextlib.suppress(ProcessLookupError):
            os.killpg(self.process.pid, signal.SIGKILL)
        super().__exit__(*rest)

    def end(self):
        """Tells the script to end; with `front` words, the script is the child of the process."""
        process = self.process.pid
        os.kill(child_of(process) if self.front else process, signal.SIGTERM)


class Plain(Server):
    """A server without the script, whose standard input is a pipe."""

    def __init__(self, program, *words, **how):
        self.reader, self.writer = os.pipe()
        super().__init__(program, "--until-eof", *words, given=self.reader, **how)

    def __enter__(self):
        super().__enter__()
        os.close(self.reader)
        return self

    def __exit__(self, *rest):
        self.end()
        super().__exit__(*rest)

    def limit(self):
        super().limit()
        os.close(self.writer)

    def end(self):
        """Ends the server's standard input, once."""
        if self.writer is not None:
            os.close(self.writer)
        self.writer = None


def child_of(process):
    """The only child of a process."""
    with open(f"/proc/{process}/task/{process}/children", encoding="ascii") as file:
        (child,) = file.read().split()
    return int(child)


def ended(server, most=MAX_BUSY):
    """The output of a server that has ended by itself, with status 0 and an empty standard error."""
    same(server.process.wait(most), 0, "the status of the server")
    same(server.process.stderr.read(), b"", "what stands on standard error")
    return server.output()
