#!/usr/bin/env python3
"""Runs examples/scanner and examples/archive on `up serve --events`, and checks which uploads they leave, remove and
store.

    tests/readers.py [--program PATH] [NAME..]

It needs `curl`, and Debian's `rclone` for a store that isn't a folder. If something is missing, the script says so and
skips its cases. It takes some seconds. ClamAV isn't run: a script of three lines replaces it.

For each case, one line says whether it passed. The last line is `N passed, M failed`, and the exit status is 1 if a
case failed.
"""
import base64
import contextlib
import os
import select
import shutil
import signal
import subprocess
import sys
import tempfile
import time

from serving import ROOT, UNHEARD, Connection, Server, below, numbered, same, soon, try_all, words_of

EXAMPLES = os.path.join(ROOT, "examples")

# The most lines that an example may have.
MAX_LINES = 20

GOOD = b"nothing that anybody looks for"
EICAR = rb"X5O!P%@AP[4\PZX54(P^)7CC)7}$EICAR-STANDARD-ANTIVIRUS-TEST-FILE!$H+H*"

# The commands that the examples may call, without ClamAV.
TOOLS = "base64 curl cut grep mktemp mv rclone rm sed sleep stat sync tr".split()

# A replacement for ClamAV: it takes half a second, finds `bad` to be bad, and can't scan `odd`.
CLAMSCAN = '#!/bin/sh\nsleep 0.5\ngrep -q odd "$2" && exit 2\n! grep -q bad "$2"\n'

# A `curl` that loses everything after the third byte of an upload.
SHORT_CURL = f"""#!/bin/sh
case $* in *-sfI*|*DELETE*) exec {shutil.which("curl")} "$@" ;; esac
{shutil.which("curl")} "$@" | cut -b-3 | tr -d '\\n'
"""

# A `curl` that can't remove anything.
KEEPING_CURL = f"""#!/bin/sh
case $* in *DELETE*) exit 7 ;; esac
exec {shutil.which("curl")} "$@"
"""

# A `curl` that reaches no server.
FAILING_CURL = """#!/bin/sh
exit 7
"""


class Readers:
    """A server whose events are read by these examples, in a pipeline, each with its words. The examples find the
    tools and these scripts, and begin when they are started. With its one lane, the events of all uploads come in
    one order."""

    def __init__(self, *examples, **scripts):
        self.examples, self.scripts, self.running = examples, scripts, []

    def __enter__(self):
        with contextlib.ExitStack() as stack:
            self.folder = stack.enter_context(tempfile.TemporaryDirectory(prefix="up-readers-"))
            self.place = os.path.join(self.folder, "place")
            for folder in ("tools", "place", "temporary"):
                os.mkdir(os.path.join(self.folder, folder))
            self.install()
            self.lines, sink = os.pipe()
            given, self.writer = os.pipe()
            words = ["--events", "--until-eof", "--lanes", "1"]
            self.server = stack.enter_context(Server(program, *words, sink=sink, given=given))
            os.close(sink)
            os.close(given)
            self.out, self.err = (stack.enter_context(tempfile.TemporaryFile()) for _ in range(2))
            stack.callback(self.stop)
            self.connection = stack.enter_context(Connection(self.server))
            self.stack = stack.pop_all()
        return self

    def __exit__(self, *_):
        self.stack.close()

    def install(self):
        """Puts the tools where the examples find them, and nothing else."""
        for tool in TOOLS:
            if shutil.which(tool) and tool not in self.scripts:
                os.symlink(shutil.which(tool), os.path.join(self.folder, "tools", tool))
        for name, text in self.scripts.items():
            path = os.path.join(self.folder, "tools", name)
            with open(path, "w", encoding="ascii") as file:
                file.write(text)
            os.chmod(path, 0o755)

    def start(self):
        """Starts the examples."""
        environment = {"PATH": f"{self.folder}/tools", "HOME": self.folder, "TMPDIR": f"{self.folder}/temporary"}
        environment["no_proxy"] = "127.0.0.1"
        source = self.lines
        for number, (name, *words) in enumerate(self.examples, 1):
            is_last = number == len(self.examples)
            words = [self.place_of(word) for word in words]
            one = subprocess.Popen(
                [os.path.join(EXAMPLES, name), *words, self.server.url], stdin=source, env=environment, stderr=self.err,
                stdout=self.out if is_last else subprocess.PIPE, start_new_session=True,
            )
            self.running.append(one)
            source = one.stdout
        os.close(self.lines)

    def place_of(self, word):
        """The place that a word means: the folder (None), the same by rclone, or a folder that doesn't exist."""
        return {None: self.place, ":local:": f":local:{self.place}"}.get(word, f"{self.place}/{word}")

    def stop(self):
        """Kills the examples that are still running."""
        for one in self.running:
            with contextlib.suppress(ProcessLookupError):
                os.killpg(one.pid, signal.SIGKILL)
            one.wait()

    def end(self):
        """Ends the server, and checks that the examples end after it. Returns the lines that the last of them passed
        on."""
        self.connection.socket.close()
        os.close(self.writer)
        same(self.server.process.wait(20), 0, "the status of the server")
        same([one.wait(20) for one in self.running], [0] * len(self.running), "the statuses of the examples")
        same(os.listdir(os.path.join(self.folder, "temporary")), [], "the files that they leave")
        same(self.server.process.stderr.read(), b"", "what the server says")
        return os.pread(self.out.fileno(), 1 << 20, 0).decode().splitlines()

    def said(self):
        """What the examples have written to standard error, in lines."""
        return os.pread(self.err.fileno(), 1 << 20, 0).decode().splitlines()

    def doing(self):
        """The commands that the examples run at this moment."""
        groups, commands = {one.pid for one in self.running}, []
        for process in filter(str.isdigit, os.listdir("/proc")):
            with contextlib.suppress(OSError):
                if os.getpgid(int(process)) in groups:
                    commands.append(read(f"/proc/{process}/cmdline").rstrip(b"\0").replace(b"\0", b" ").decode())
        return commands

    def until(self, holds, what):
        """Waits until `holds()` is true. If it takes too long, the fault also has what the examples said, and what they
        run."""
        try:
            soon(holds, what)
        except AssertionError as fault:
            raise AssertionError(f"{fault}; they said {self.said()}, and run {self.doing()}") from fault

    def upload(self, body, **fields):
        """The id of a new upload with these bytes."""
        reply = self.connection.ask("POST", "/files/", upload_length=len(body), **fields)
        same(reply.status, 201, "the status of a POST")
        path = reply.fields["location"]
        if body:
            same(self.connection.append(path, 0, body).status, 204, "the status of a PATCH")
        return path.removeprefix("/files/")

    def remove(self, upload):
        same(self.connection.ask("DELETE", f"/files/{upload}").status, 204, "the status of a DELETE")

    def stands(self, upload):
        """Whether the upload still exists."""
        return self.connection.ask("HEAD", f"/files/{upload}").status == 200

    def stored(self):
        """The files at the place, with their bytes, by their names."""
        return {name: read(os.path.join(self.place, name)) for name in os.listdir(self.place)}


def read(path):
    with open(path, "rb") as file:
        return file.read()


def called(name):
    """The field with the name of a file."""
    return {"upload_metadata": f"filename {base64.b64encode(name.encode()).decode()}"}


def lines_of(upload, body, *more):
    """The lines of an upload whose bytes came at once."""
    size = len(body)
    events = [f"post-create 0/{size}", *[f"post-receive {size}/{size}"] * bool(body), f"post-finish {size}/{size}", *more]
    return [f"{upload} {line}" for line in numbered(events)]


def passed_on(lines, upload):
    return [line for line in lines if line.startswith(upload)]


def scanner():
    """Without ClamAV the scanner removes what has the text of the EICAR file, and leaves and passes on the rest, parts
    too."""
    with Readers(["scanner"]) as it:
        gone = it.upload(GOOD)
        it.remove(gone)
        it.start()
        good, bad, empty = it.upload(GOOD), it.upload(GOOD + EICAR + GOOD), it.upload(b"")
        part = it.upload(EICAR, upload_concat="partial")
        last = it.upload(EICAR)
        it.until(lambda: not it.stands(last), "the last is removed")
        same([it.stands(upload) for upload in (good, bad, empty, part)], [True, False, True, True], "which are left")
        lines = it.end()
        same(it.said(), [f"scanner: {gone} is gone"] + [f"scanner: {it} is bad" for it in (bad, last)], "what it says")
    for upload, body in ((good, GOOD), (empty, b""), (part, EICAR)):
        same(passed_on(lines, upload), lines_of(upload, body), "what it passes on")
    for upload, body in ((gone, GOOD), (bad, GOOD + EICAR + GOOD)):
        all_of = lines_of(upload, body, f"post-terminate {len(body)}/{len(body)}")
        same(passed_on(lines, upload), [line for line in all_of if "post-finish" not in line], "what it passes on")


def scanner_kept():
    """A bad upload that can't be removed from the server is reported, and not passed on."""
    with Readers(["scanner"], curl=KEEPING_CURL) as it:
        it.start()
        kept = it.upload(EICAR)
        it.until(lambda: it.said(), "the scanner says something")
        same(it.stands(kept), True, "whether it is left")
        lines = it.end()
        same(it.said(), [f"scanner: {kept} is bad, and isn't removed"], "what it says")
    same([line for line in lines if "post-finish" in line], [], "what it passes on as finished")


def out_of_reach():
    """An upload that can't be fetched, though it isn't gone, is reported as such."""
    for reader in (["scanner"], ["archive", None]):
        with Readers(reader, curl=FAILING_CURL) as it:
            it.start()
            there = it.upload(GOOD)
            it.until(lambda: it.said(), "the reader says something")
            it.end()
            same(it.said(), [f"{reader[0]}: {there} is out of reach"], "what it says")


def clamav():
    """What ClamAV finds bad is removed, what it can't scan is left and not passed on, and no reply waits for it."""
    with Readers(["scanner"], clamscan=CLAMSCAN) as it:
        it.start()
        start = time.monotonic()
        good, bad, odd, last = [it.upload(body) for body in (GOOD, b"a bad one", b"an odd one", b"a last bad one")]
        below(time.monotonic() - start, 0.5, "seconds until the replies came, and those that one scan takes")
        it.until(lambda: not it.stands(last), "the last is removed")
        below(2, time.monotonic() - start, "seconds that four scans take, and those until they were made")
        same([it.stands(upload) for upload in (good, bad, odd)], [True, False, True], "which are left")
        lines = it.end()
        wanted = [f"scanner: {bad} is bad", f"scanner: {odd} can't be scanned", f"scanner: {last} is bad"]
        same(it.said(), wanted, "what it says")
    same([line.split()[0] for line in lines if "post-finish" in line], [good], "what it passes on as finished")


def moved(it, names):
    """Makes uploads with these names, and others, and checks that exactly the right ones are moved, under the right
    names."""
    gone = it.upload(GOOD)
    it.remove(gone)
    it.start()
    wanted = {}
    for name, kept in names:
        body = os.urandom(100_000)
        wanted[f"{it.upload(body, **called(name))}-{kept}"] = body
    wanted[f"{it.upload(b'')}-"] = b""
    lone = it.upload(GOOD, upload_concat="partial")
    first, second = parts = [it.upload(body, upload_concat="partial") for body in (b"hello ", b"world")]
    list_of = f"https://else.where/files/{first} /files/{second} /files/{first}"
    reply = it.connection.ask("POST", "/files/", upload_concat=f"final;{list_of}", **called("joined"))
    same(reply.status, 201, "the status of a final POST")
    wanted[f"{reply.fields['location'].removeprefix('/files/')}-joined"] = b"hello worldhello "
    # Each one is waited for by itself, since a store may take seconds for each if others use the machine.
    for name in wanted:
        it.until(lambda: not it.stands(name[:32]), f"{name} is stored, and removed")
    it.until(lambda: not any(map(it.stands, parts)), "the parts of what is joined are removed")
    same(it.stands(lone), True, "whether a part that nothing is joined of is left")
    it.end()
    same(it.said(), [f"archive: {gone} is gone"], "what it says")
    same(it.stored(), wanted, "what is stored")


def archive():
    """The archive moves complete uploads into a folder, under names that stay in it, and leaves parts that are under
    way."""
    long = "ü" * 200
    names = [
        ("plain.txt", "plain.txt"), ("../../etc/passwd", ".._.._etc_passwd"), ("Übersicht 報告.md", "Übersicht 報告.md"),
        ("two\nlines\t$(id) 'x\";*", "two_lines_$(id) 'x\";*"), (long, long[:75]),
    ]
    with Readers(["archive", None]) as it:
        moved(it, names)


def archive_store():
    """The archive moves complete uploads into a store that rclone knows: a folder, as such."""
    with Readers(["archive", ":local:"]) as it:
        moved(it, [("plain.txt", "plain.txt"), ("../../etc/passwd", ".._.._etc_passwd"), ("a:b c.pdf", "a:b c.pdf")])


def archive_short():
    """An upload that comes incomplete, or has no place, stays on the server, has no name at the place, and is
    reported."""
    for place, scripts in ((None, {"curl": SHORT_CURL}), ("nowhere", {})):
        with Readers(["archive", place], **scripts) as it:
            it.start()
            first, second = it.upload(GOOD), it.upload(GOOD)
            it.until(lambda: f"archive: {second} isn't stored" in it.said(), "the archive says that the second isn't stored")
            same([it.stands(first), it.stands(second)], [True, True], "whether they are left")
            it.end()
            same([name for name in it.stored() if not name.startswith(".")], [], "what is stored")


def archive_kept():
    """An upload that is stored and can't be removed from the server is reported."""
    with Readers(["archive", None], curl=KEEPING_CURL) as it:
        it.start()
        kept = it.upload(GOOD)
        it.until(lambda: f"archive: {kept} isn't removed" in it.said(), "the archive says that it isn't removed")
        same(it.stands(kept), True, "whether it is left")
        it.end()
        same((it.stored(), len(it.said())), ({f"{kept}-": GOOD}, 1), "what is stored, and how many lines it says")


def both():
    """After the scanner, the archive moves what is good, and never sees what is bad."""
    with Readers(["scanner"], ["archive", None]) as it:
        it.start()
        bad, good = it.upload(EICAR, **called("bad")), it.upload(GOOD, **called("good"))
        it.until(lambda: not it.stands(good), "the good one is removed")
        it.end()
        same((it.stored(), it.said()), ({f"{good}-good": GOOD}, [f"scanner: {bad} is bad"]), "what is stored, and said")


def interrupted():
    """^C, which is sent to all of a pipeline, ends no reader before its lines end."""
    with Readers(["scanner"], ["archive", None], clamscan=CLAMSCAN) as it:
        it.start()
        good = it.upload(GOOD)
        time.sleep(0.2)
        for one in it.running:
            os.killpg(one.pid, signal.SIGINT)
        it.until(lambda: not it.stands(good), "what is scanned meanwhile is moved")
        last = it.upload(GOOD)
        it.until(lambda: not it.stands(last), "what comes behind it is moved")
        it.end()
        same(it.stored(), {f"{good}-": GOOD, f"{last}-": GOOD}, "what is stored")


def reader_ends():
    """If a reader ends, the server says so once, requests are answered as before, and the status at the end is 1."""
    with Readers(["archive", None]) as it:
        it.start()
        first = it.upload(GOOD)
        it.until(lambda: not it.stands(first), "the first is moved")
        it.stop()
        error = it.server.process.stderr
        # A process that the reader has started may keep its end of the pipe open for a moment longer.
        it.until(lambda: it.upload(GOOD) and select.select([error], [], [], 0.1)[0], "the server says something")
        same(error.readline(), UNHEARD, "what it says")
        same(it.stands(it.upload(GOOD)), True, "whether what comes behind that is there")
        it.connection.socket.close()
        os.close(it.writer)
        same(it.server.process.wait(20), 1, "the status of the server")
        same(error.read(), b"up_server: write failed\n", "what the server says at the end")


def lines():
    """Each example has 20 lines at most."""
    for name in ("scanner", "archive"):
        below(read(os.path.join(EXAMPLES, name)).count(b"\n"), MAX_LINES + 1, f"the lines of {name}")


program, names = words_of(__doc__)
passed_over = ["everything, since curl isn't installed"] * (not shutil.which("curl"))
cases = [
    scanner, scanner_kept, out_of_reach, clamav, archive, archive_store, archive_short, archive_kept, both, interrupted, reader_ends, lines,
]
if not shutil.which("rclone"):
    cases.remove(archive_store)
    passed_over.append("archive_store, since rclone isn't installed")
sys.exit(try_all(cases if shutil.which("curl") else [], names, passed_over))
