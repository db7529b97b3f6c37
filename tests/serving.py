"""Shared by the scripts of `tests/` and by most of `bench/`: building a program, running `up` and nginx for the time of
a `with`, connections that speak HTTP/1.1 byte for byte, work in many threads, and counting cases. The module needs only
Python 3, and nginx if that is used. It prints nothing when it is imported.
"""
import argparse
import contextlib
import os
import re
import resource
import select
import signal
import socket
import subprocess
import sys
import tempfile
import textwrap
import threading
import time
import traceback

ROOT = os.path.dirname(os.path.dirname(os.path.abspath(__file__)))

# The most seconds to wait until a server listens, and until a reply comes.
MAX_WAIT = 20

# The words with which `rt run` runs a program that needs some.
FIRST_WORDS = {"up": ["--", "replay"]}

# No client here goes through a proxy.
os.environ["no_proxy"] = "127.0.0.1"

# The largest upload of a server here, in bytes, unless another size is given.
MAX_SIZE = 1 << 30

# The media type of the body of a PATCH.
MEDIA_TYPE = "application/offset+octet-stream"

# What a server reports if it can't start a thread for a connection, and once it lets connections in again.
NO_THREAD = "up_server: no connection can be let in: no thread can be started\n"
AGAIN = "up_server: connections are let in again\n"

# What a server reports once the reader of its events has gone.
UNHEARD = b"up_server: events can't be written: Broken pipe (os error 32)\n"


def build(name="up", root=ROOT):
    """Builds a program of the crates, which takes minutes, and returns its path. The old program is removed first, so
    that it is never tried by mistake if the build fails."""
    folder = os.path.join(root, "crates", name)
    program = os.path.join(folder, "out", name)
    with contextlib.suppress(FileNotFoundError):
        os.remove(program)
    words = ["rt", "run", *FIRST_WORDS.get(name, [])]
    given = os.path.join(folder, "stdin")
    with open(given if os.path.exists(given) else os.devnull, "rb") as given:
        ran = subprocess.run(words, cwd=folder, stdin=given, stdout=subprocess.DEVNULL, stderr=subprocess.DEVNULL)
    if ran.returncode != 0 or not os.path.exists(program):
        sys.exit(f"{name} was not built, or failed: `{' '.join(words)} < {given.name}` in {folder} says why")
    return program


def status_of(process, name):
    """A number from a process's status: its `Threads`, or its bytes in memory, now (`VmRSS`) or at most (`VmHWM`)."""
    with open(f"/proc/{process}/status", encoding="ascii") as file:
        found = re.search(rf"^{name}:\s+(\d+)( kB)?$", file.read(), re.MULTILINE)
    return int(found[1]) * (1024 if found[2] else 1)


def seconds_of(process):
    """The processor time that a process has taken so far, in seconds."""
    with open(f"/proc/{process}/stat", encoding="ascii") as file:
        fields = file.read().rpartition(")")[2].split()
    return (int(fields[11]) + int(fields[12])) / os.sysconf("SC_CLK_TCK")


def free_port():
    """A port of the loopback that nobody listens at."""
    with socket.socket() as free:
        free.bind(("127.0.0.1", 0))
        return free.getsockname()[1]


class Server:
    """`up serve` with these words, on a free port of the loopback. The server is killed at the end of the `with`. With
    `unheard` its standard output is a pipe whose reader has gone; with a `sink` it is that file. `files` and
    `addresses` limit the number of open files and the KiB of address space. A server that may fail, and doesn't listen,
    has no port."""

    def __init__(
        self, program, *words, size=MAX_SIZE, files=None, addresses=None, unheard=False, sink=None, environment=None,
        may_fail=False, given=subprocess.DEVNULL,
    ):
        self.words = [program, "serve", "--address", "127.0.0.1:0", "--max-size", str(size), *words]
        self.files = files
        self.addresses = addresses
        self.unheard = unheard
        self.sink = sink
        self.environment = environment
        self.may_fail = may_fail
        self.given = given

    def limit(self):
        signal.signal(signal.SIGPIPE, signal.SIG_DFL)
        if self.files:
            resource.setrlimit(resource.RLIMIT_NOFILE, (self.files, self.files))
        if self.addresses:
            resource.setrlimit(resource.RLIMIT_AS, (self.addresses * 1024, self.addresses * 1024))

    def __enter__(self):
        self.told = tempfile.TemporaryFile()
        told = subprocess.PIPE if self.unheard else self.sink or self.told
        self.process = subprocess.Popen(
            self.words, stdin=self.given, stdout=told, stderr=subprocess.PIPE, preexec_fn=self.limit,
            env=self.environment, bufsize=0,
        )
        if self.unheard:
            self.process.stdout.close()
        self.port = self.listening()
        self.url = f"http://127.0.0.1:{self.port}"
        return self

    def __exit__(self, *_):
        self.process.kill()
        self.process.wait()
        self.process.stderr.close()
        self.told.close()

    def listening(self):
        """The port, from the first line on standard error, which the server writes once it listens. With a store, also
        waits for the second line, which the server writes once it has read the store."""
        self.first_line = self.line()
        found = re.fullmatch(r"up_server: listening on 127\.0\.0\.1:(\d+)\n", self.first_line)
        if found and "--store" in self.words:
            self.first_line = self.line()
            found = found if re.fullmatch(r"up_server: the store was read: \d+ changes\n", self.first_line) else None
        if found:
            return int(found[1])
        if self.may_fail:
            return None
        self.process.kill()
        raise AssertionError(f"the server does not listen: {self.first_line!r}")

    def line(self):
        """The next line on standard error, or an empty text if none comes in time. The pipe has no buffer, so a line
        that has come is never missed."""
        ready, _, _ = select.select([self.process.stderr], [], [], MAX_WAIT)
        return self.process.stderr.readline().decode() if ready else ""

    def output(self):
        """What the server has written to its standard output."""
        return os.pread(self.told.fileno(), 1 << 24, 0).decode()

    def processes(self):
        return [self.process.pid]

    def status(self, name):
        return status_of(self.process.pid, name)

    def seconds(self):
        return seconds_of(self.process.pid)

    def descriptors(self):
        """The number of files and sockets that the server has open."""
        return len(os.listdir(f"/proc/{self.process.pid}/fd"))


NGINX = """
daemon off; worker_processes {workers}; pid {folder}/pid; error_log {folder}/errors; {user}
events {{ worker_connections {connections}; }}
http {{
    access_log off; client_body_temp_path {folder}/bodies; proxy_temp_path {folder}/proxy;
    fastcgi_temp_path {folder}/fastcgi; uwsgi_temp_path {folder}/uwsgi; scgi_temp_path {folder}/scgi;
{lines}
}}
"""


class NginxServer:
    """nginx on a free port of the loopback, with this number of workers, and of connections per worker. `lines_of`
    returns the lines of the `http` block, from the port and a folder for nginx's files, which is made in `place`. nginx
    ends with the `with`, and the folder is removed."""

    def __init__(self, lines_of, workers, place=None, connections=4096):
        self.lines_of, self.workers, self.place, self.connections = lines_of, workers, place, connections

    def __enter__(self):
        self.files = tempfile.TemporaryDirectory(prefix="up-nginx-", dir=self.place)
        self.folder = self.files.name
        self.port = free_port()
        path, errors = os.path.join(self.folder, "conf"), os.path.join(self.folder, "errors")
        user = "user root;" if os.geteuid() == 0 else ""
        lines = self.lines_of(self.port, self.folder)
        with open(path, "w", encoding="ascii") as file:
            file.write(NGINX.format(**vars(self), user=user, lines=lines))
        self.process = subprocess.Popen(["nginx", "-c", path, "-e", errors])
        soon(lambda: self.listens() or self.process.poll() is not None, "nginx listens")
        if self.process.poll() is not None:
            raise AssertionError("nginx doesn't start, and has said why")
        return self

    def __exit__(self, *_):
        self.process.send_signal(signal.SIGTERM)
        self.process.wait()
        self.files.cleanup()

    def listens(self):
        with socket.socket() as probe:
            listens = probe.connect_ex(("127.0.0.1", self.port)) == 0
        return listens and len(self.processes()) == 1 + self.workers

    def processes(self):
        with open(f"/proc/{self.process.pid}/task/{self.process.pid}/children", encoding="ascii") as file:
            return [self.process.pid, *map(int, file.read().split())]

    def open_files(self, place):
        """The files below a place in nginx's folder that its processes have open, also deleted ones."""
        files = [entry.path for process in self.processes() for entry in os.scandir(f"/proc/{process}/fd")]
        paths = [os.readlink(file) for file in files]
        return [path for path in paths if path.startswith(os.path.join(self.folder, place, ""))]


class Reply:
    """A status, the fields with their names in lower case, the body, and all bytes of the reply."""

    def __init__(self, status, fields, body, whole):
        self.status, self.fields, self.body, self.whole = status, fields, body, whole


def path_of(number):
    """The path of the upload whose id is this number."""
    return f"/files/{number:032x}"


# The path of an upload that never exists.
NOWHERE = path_of(0)


def head(method, target, fields):
    """The bytes of a head. A POST, PATCH or DELETE has `Tus-Resumable`. Bytes that aren't UTF-8 are given as
    `surrogateescape` decodes them, as in a reply."""
    lines = [f"{method} {target} HTTP/1.1", "Host: a"]
    if method in ("POST", "PATCH", "DELETE"):
        lines.append("Tus-Resumable: 1.0.0")
    lines += [f"{name}: {value}" for name, value in fields.items()]
    return "".join(line + "\r\n" for line in lines + [""]).encode(errors="surrogateescape")


def patch(path, offset, length, declared=None):
    """The head of a PATCH with a body of `length` bytes, which may declare the length of the upload."""
    fields = {"Content-Type": MEDIA_TYPE, "Upload-Offset": offset}
    if declared is not None:
        fields["Upload-Length"] = declared
    return head("PATCH", path, {**fields, "Content-Length": length})


def patch_in_chunks(path):
    """The head of a PATCH at offset 0 whose body comes in chunks."""
    return head("PATCH", path, {"Content-Type": MEDIA_TYPE, "Upload-Offset": 0, "Transfer-Encoding": "chunked"})


class Connection:
    """A connection to a server, from an address of the loopback. A read waits at most `MAX_WAIT` seconds. With `room`
    the system takes only about so many bytes for a client that doesn't read."""

    def __init__(self, server, address=None, room=None):
        self.socket = socket.socket()
        self.socket.settimeout(MAX_WAIT)
        if address:
            self.socket.bind((address, 0))
        if room:
            self.socket.setsockopt(socket.SOL_SOCKET, socket.SO_RCVBUF, room)
        self.socket.connect(("127.0.0.1", server.port))
        self.socket.setsockopt(socket.IPPROTO_TCP, socket.TCP_NODELAY, 1)
        self.read = b""

    def __enter__(self):
        return self

    def __exit__(self, *_):
        self.socket.close()

    def send(self, message):
        self.socket.sendall(message)

    def more(self):
        """Reads more bytes; returns nothing if the server has closed."""
        came = self.socket.recv(1 << 20)
        self.read += came
        return came

    def take(self, size):
        """The next bytes; fewer if the server closes before."""
        pieces, left = [self.read], size - len(self.read)
        while left > 0 and (came := self.socket.recv(1 << 20)):
            pieces.append(came)
            left -= len(came)
        whole = b"".join(pieces)
        taken, self.read = whole[:size], whole[size:]
        return taken

    def reply(self, bare=False):
        """The next reply. A bare reply has no body, whatever its fields say."""
        reply = self.reply_head()
        if not bare:
            reply.body = self.take(int(reply.fields.get("content-length", 0)))
            reply.whole += reply.body
        return reply

    def reply_head(self):
        """The next reply without its body, which is left to be read."""
        while b"\r\n\r\n" not in self.read:
            if not self.more():
                raise AssertionError(f"no reply but {self.read!r}")
        lines, end, self.read = self.read.partition(b"\r\n\r\n")
        first, *rest = lines.decode(errors="surrogateescape").split("\r\n")
        fields = {name.lower(): value.strip() for name, _, value in (line.partition(":") for line in rest)}
        return Reply(int(first.split()[1]), fields, b"", lines + end)

    def ask(self, method, target, **fields):
        """The reply to a message without a body; `upload_length=3` is the field `Upload-Length: 3`."""
        named = {name.replace("_", "-"): value for name, value in fields.items()}
        self.send(head(method, target, named))
        return self.reply(method == "HEAD")

    def make(self, length):
        """The path of a new upload of this length."""
        reply = self.ask("POST", "/files/", upload_length=length)
        same(reply.status, 201, "the status of a POST")
        return reply.fields["location"]

    def append(self, path, offset, body):
        """The reply to a PATCH."""
        self.send(patch(path, offset, len(body)) + body)
        return self.reply()

    def offset(self, path):
        """The offset of an upload, by a HEAD."""
        reply = self.ask("HEAD", path)
        same(reply.status, 200, "the status of a HEAD")
        return int(reply.fields["upload-offset"])

    def is_closed(self):
        """Whether the server closes without sending anything more."""
        return not self.read and not self.more()


class Maker:
    """A connection that is replaced before its 10,000 messages are used up."""

    def __init__(self, server):
        self.server, self.left = server, 0

    def ask(self, message, status):
        if self.left == 0:
            self.connection, self.left = Connection(self.server), 9_000
        self.left -= 1
        self.connection.send(message)
        reply = self.connection.reply()
        same(reply.status, status, "the status of a reply")
        return reply.fields.get("location")

    def make(self, length, **fields):
        named = {name.replace("_", "-"): value for name, value in fields.items()}
        return self.ask(head("POST", "/files/", {"Upload-Length": length, **named}), 201)


def at_once(work, count, meeting=None):
    """Runs `work` in `count` threads, each with its number. The first fault of a thread fails the case, and releases
    the threads that wait at `meeting`, a barrier."""
    faults = []

    def one(number):
        try:
            work(number)
        except Exception as fault:
            faults.append(fault)
            if meeting:
                meeting.abort()

    threads = [threading.Thread(target=one, args=(number,)) for number in range(count)]
    for thread in threads:
        thread.start()
    for thread in threads:
        thread.join()
    if faults:
        raise faults[0]


def numbered(events):
    """The events of an upload, as the lines of events report them."""
    return [f"{number} {event} done" for number, event in enumerate(events, 1)]


def events_of(text):
    """The events of each upload, in order, as the lines of a text report them."""
    events = {}
    for line in text.splitlines():
        found = re.fullmatch(r"([0-9a-f]{32}) (.*)", line)
        if found:
            events.setdefault("/files/" + found[1], []).append(found[2])
    return events


def same(got, wanted, what):
    """Fails the case if a result differs from the expected one."""
    if got != wanted:
        raise AssertionError(f"{what}: {str(got)[:200]!r}, not {str(wanted)[:200]!r}")


def below(got, limit, what):
    """Fails the case if a number isn't below its limit."""
    if not got < limit:
        raise AssertionError(f"{what}: {got:.3f}, not below {limit:.3f}")


def settled(server):
    """The server's memory once it has finished its work and has been idle for a moment."""
    before = -1.0
    while server.seconds() != before:
        before = server.seconds()
        time.sleep(0.3)
    return server.status("VmRSS")


def soon(holds, what, most=MAX_WAIT):
    """Waits until `holds()` is true; fails the case if that takes more than so many seconds."""
    end = time.monotonic() + most
    while not holds():
        if time.monotonic() > end:
            raise AssertionError(f"not in {most} s: {what}")
        time.sleep(0.01)


def words_of(about, **others):
    """The programs to try, each from its own option of the command line, `--program` first, and the names of the
    requested cases."""
    words = argparse.ArgumentParser(description=about)
    programs = {"program": "up", **others}
    for word, name in programs.items():
        words.add_argument(f"--{word}", metavar="PATH", help=f"what is tried in place of crates/{name}/out/{name}")
    words.add_argument("names", nargs="*", metavar="NAME", help="the cases to be tried, in place of all")
    given = words.parse_args()
    return *(getattr(given, word) or build(name) for word, name in programs.items()), given.names


def try_all(cases, names, passed_over=()):
    """Runs the cases, each a function with a sentence as its docstring, prints the results, and returns the exit
    status. What a case returns is printed with its seconds."""
    passed, failed = 0, 0
    for case in cases:
        if names and case.__name__ not in names:
            continue
        title = f"{case.__name__}: {' '.join(case.__doc__.split())}"
        start = time.monotonic()
        try:
            told = case()
            passed += 1
            front = f"{told}, " if told else ""
            print(f"passed: {title} ({front}{time.monotonic() - start:.1f} s)", flush=True)
        except Exception as fault:
            failed += 1
            print(f"failed: {title} {type(fault).__name__}: {fault}", flush=True)
            print(textwrap.indent(traceback.format_exc(), "    "), end="", flush=True)
    for what in passed_over:
        print(f"passed over: {what}")
    print(f"{passed} passed, {failed} failed")
    return 1 if failed else 0
