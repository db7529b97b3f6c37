"""Shared by `bench/serve.py`, `bench/lock.py`, `bench/shards.py`, `bench/soak.py` and `bench/store.py`: the programs
that they measure in turn, and nginx; their clients in C; the processor time of servers; and tables.
"""
import argparse
import os
import re
import resource
import shutil
import subprocess
import sys
import time

ROOT = os.path.dirname(os.path.dirname(os.path.abspath(__file__)))
sys.path.insert(0, os.path.join(ROOT, "tests"))
from serving import NginxServer, Server, build, same  # noqa: E402

MIB = 1 << 20

# The seconds that a server is given to finish its work after its last answer.
QUIET = 0.1

NGINX = """
    sendfile on; tcp_nodelay on; keepalive_requests 1000000000; keepalive_timeout 1h;
    client_max_body_size 0; client_body_buffer_size 256k;
    server {{
        listen 127.0.0.1:{port} backlog=4096; root {folder}/files;
        location / {{ dav_methods PUT DELETE; }}
    }}
"""


def nginx_lines(port, folder):
    """The `http` block of an nginx that takes files by PUT."""
    os.mkdir(os.path.join(folder, "files"))
    return NGINX.format(port=port, folder=folder)


class Nginx:
    """nginx as a contender, which keeps its files in memory, and the protocol of its client."""

    name, kind = "nginx", "put"

    def server(self):
        return NginxServer(nginx_lines, workers=2, place="/dev/shm")


class Up:
    """`up` as a contender: its name, its path, and the settings of the C library with which it runs, if it has its own.
    It lets as many connections in as it can."""

    kind = "tus"

    def __init__(self, name, path, tunables=None):
        self.name, self.path = name, path
        self.environment = None if tunables is None else {**os.environ, "GLIBC_TUNABLES": tunables}

    def server(self, *words, **more):
        return Server(self.path, "--open", "4096", *words, environment=self.environment, **more)


def named_program(text):
    """The contender of an option `NAME=PATH[@GLIBC_TUNABLES]`."""
    name, _, rest = text.partition("=")
    path, at, tunables = rest.partition("@")
    if not name or not os.access(path, os.X_OK) or os.path.isdir(path):
        raise argparse.ArgumentTypeError(f"{text!r} is not NAME=PATH of a program")
    return Up(name, path, tunables if at else None)


def add_program_word(words):
    words.add_argument(
        "--program", action="append", type=named_program, metavar="NAME=PATH[@GLIBC_TUNABLES]", dest="programs",
        help="a program to be measured, in place of crates/up/out/up; the word may stand several times",
    )


def contenders_of(programs):
    """The programs that were named, or else the one of this tree, with the settings that the script `up` gives it."""
    if programs:
        names = [it.name for it in programs]
        if len(set(names)) < len(names) or Nginx.name in names:
            sys.exit("bench: each program needs a name of its own")
        return programs
    return [as_started(build())]


def as_started(path):
    """A program with the settings of the C library that the script `up` gives it."""
    with open(os.path.join(ROOT, "packaging", "up"), encoding="utf-8") as file:
        found = re.search(r"^memory=(\S+)$", file.read(), re.MULTILINE)
    return Up("up", path, os.environ.get("GLIBC_TUNABLES", found[1]) if found else None)


def by_turns(contenders, number):
    """The contenders in the order of this round: a different one is first in each round."""
    first = number % len(contenders)
    return contenders[first:] + contenders[:first]


def processor_seconds(server):
    """The processor time that all processes of a server have taken so far, by Linux's clocks, which include ended
    threads."""
    return sum(time.clock_gettime((~process << 3) | 2) for process in server.processes())


def touch(mebibytes):
    """Writes to this much memory, in a process that then ends."""
    if mebibytes:
        subprocess.run([sys.executable, "-c", f"bytearray(b'x') * {mebibytes * MIB}"], check=True)


def compiled(name, folder):
    """Compiles a client into the folder, and returns its path."""
    if not shutil.which("cc"):
        sys.exit("bench: there is no C compiler, cc")
    path = os.path.join(folder, name)
    subprocess.run(["cc", "-O2", "-Wall", "-pthread", "-o", path, os.path.join(ROOT, "bench", name + ".c")], check=True)
    return path


class Client:
    """A client of a server, `bench/serve.c`, and the processor seconds of both while they were timed."""

    def __init__(self, path, kind, server):
        self.path, self.kind, self.server = path, kind, server
        self.seconds = self.server_seconds = 0.0

    def words(self, *words):
        return [self.path, str(self.server.port), self.kind, *map(str, words)]

    def do(self, *words):
        """The words that the client prints."""
        return subprocess.run(self.words(*words), stdout=subprocess.PIPE, check=True, text=True).stdout.split()

    def timed(self, *words):
        """The first number that the client prints."""
        before, of_server = self.so_far(), processor_seconds(self.server)
        said = self.do(*words)
        time.sleep(QUIET)
        self.seconds += self.so_far() - before
        self.server_seconds += processor_seconds(self.server) - of_server
        return float(said[0])

    @staticmethod
    def so_far():
        used = resource.getrusage(resource.RUSAGE_CHILDREN)
        return used.ru_utime + used.ru_stime


def hear(connection, count, status):
    """Reads `count` replies to requests that were sent together. They have no bodies, and must all have this status."""
    while connection.read.count(b"\r\n\r\n") < count and connection.more():
        pass
    same(connection.read.count(f"HTTP/1.1 {status} ".encode()), count, f"how many replies are {status}")
    connection.read = b""


def say_machine():
    print(f"{os.cpu_count()} cores, with a load of {os.getloadavg()[0]:.1f} before the start", flush=True)


def say_table(rows, texts):
    """Prints rows of cells, the first of which has the titles. Columns of texts, which are the first ones and the last,
    are aligned left, and all others right."""
    widths = [max(map(len, column)) for column in zip(*rows)]
    print()
    for row in rows:
        *front, last = row
        words = [it.ljust(width) if at < texts else it.rjust(width) for at, (it, width) in enumerate(zip(front, widths))]
        print("  ".join([*words, last]).rstrip(), flush=True)
