"""Cases of `tests/clients.py` with other clients, each of which also meets a refusal, and must report it: tuspy with
many uploads at once, curl with 1 GiB, and Go's net/http (tests/sender.go) and Node's fetch (tests/sender.mjs) with
streams.
"""
import contextlib
import filecmp
import io
import os
import subprocess
import tempfile
import time
import unittest.mock

from curled import VERSION, patch_words, replies, reply
from fronted import Front, Secure
from serving import MAX_SIZE, ROOT, Server, at_once, below, events_of, same, soon

try:
    from tusclient.client import TusClient
    from tusclient.exceptions import TusCommunicationError
except ImportError:
    TusClient = None

# The number of parts into which tuspy cuts a file, and of files that it uploads at once; nginx lets 16 in.
PARTS, FILES = 4, 12

# The bytes of a stream, and the largest upload of a server that refuses it in the middle.
STREAM, FEW = (32 << 20) + 1, 1 << 20

# The rate at which curl sends an upload that will be stopped, the seconds until then, and the most seconds that a
# client may take.
RATE, STOPPED, MAX_SECONDS = "200M", 1, 120

# The programs that send a stream, without the endings of their names.
SENDER = os.path.join(ROOT, "tests", "sender")

# The server's words for a body above its largest size, and for an upload that is longer than its operator allows.
TOO_LARGE, TOO_LONG = "413: 5 BodyTooLarge", "422: too long to finish"


def written(path, size):
    """Writes this many bytes, no part of which is like another, to the path, and returns it."""
    with open(path, "wb") as file:
        for start in range(0, size, 1 << 24):
            file.write(os.urandom(min(1 << 24, size - start)))
    return path


def trusting(place):
    """The environment of a client that trusts the certificate of this place, if the place has one."""
    if not isinstance(place, Front):
        return dict(os.environ)
    names = ("SSL_CERT_FILE", "NODE_EXTRA_CA_CERTS", "REQUESTS_CA_BUNDLE", "CURL_CA_BUNDLE")
    return {**os.environ, **dict.fromkeys(names, os.path.join(place.folder, "certificate.pem"))}


def url_of(place):
    """The URL of a server, or of an nginx."""
    return f"https://127.0.0.1:{place.port}" if isinstance(place, Front) else place.url


class Senders:
    """Where the uploads go: to a server, and to an nginx in front of it, if nginx is installed."""

    def __init__(self, program, has_nginx):
        self.program, self.has_nginx = program, has_nginx

    @contextlib.contextmanager
    def places(self, *words, size=MAX_SIZE):
        """A server with these words, and each place by which it is reached: itself, and nginx."""
        with contextlib.ExitStack() as stack:
            server = stack.enter_context(Server(self.program, "--events", *words, size=size))
            fronts = [stack.enter_context(Front(server))] if self.has_nginx else []
            yield server, [server, *fronts]


class Tuspy(Senders):
    """tuspy, which sends one upload after another by itself: threads send many at once."""

    def __init__(self, program):
        super().__init__(program, True)
        self.cases = [self.tuspy_parts, self.tuspy_many]

    @contextlib.contextmanager
    def fronted(self, *words):
        """An nginx in front of a server with these words, and the URL at which uploads are made there."""
        with self.places(*words) as (_, (_, front)), unittest.mock.patch.dict(os.environ, trusting(front)):
            yield front, f"{url_of(front)}/files"

    def tuspy_parts(self):
        """A file in four parts at once through nginx, each sent by a tuspy of its own, and joined by a POST."""
        body, urls = os.urandom(8_000_003), [None] * PARTS
        step = len(body) // PARTS + 1
        with self.fronted() as (front, files), Secure(front) as connection:

            def send(number):
                piece = body[number * step:(number + 1) * step]
                client = TusClient(files, headers={"Upload-Concat": "partial"})
                uploader = client.uploader(file_stream=io.BytesIO(piece), chunk_size=700_000)
                uploader.upload()
                urls[number] = uploader.url

            at_once(send, PARTS)
            made = connection.ask("POST", "/files", upload_concat=f"final;{' '.join(urls)}")
            same(made.status, 201, "the status of a final POST")
            same(connection.ask("GET", made.fields["location"]).body == body, True, "whether the bytes came back")

    def tuspy_many(self):
        """Twelve files at once through nginx: every third is refused at its last byte, as tuspy reports; others arrive."""
        sizes = [400_000 + (number % 3 == 0) for number in range(FILES)]
        bodies, told = [os.urandom(size) for size in sizes], [None] * FILES
        with self.fronted("--max-finish", "400000") as (front, files), Secure(front) as connection:

            def send(number):
                uploader = TusClient(files).uploader(file_stream=io.BytesIO(bodies[number]), chunk_size=150_000)
                try:
                    uploader.upload()
                except TusCommunicationError as error:
                    told[number] = (error.status_code, error.response_content)
                urls[number] = uploader.url

            urls = [None] * FILES
            at_once(send, FILES)
            refused = (422, b"too long to finish\n")
            same(told, [refused if size > 400_000 else None for size in sizes], "what each tuspy tells")
            for url, body, size in zip(urls, bodies, sizes):
                path = url.removeprefix(url_of(front))
                if size > 400_000:
                    same(connection.offset(path), 300_000, "the offset of what was refused")
                else:
                    same(connection.ask("GET", path).body == body, True, "whether the bytes came back")


class Large(Senders):
    """curl with 1 GiB, alone and through nginx."""

    def __init__(self, program, has_nginx):
        super().__init__(program, has_nginx)
        self.cases = [self.curl_gib, self.curl_gib_refused]

    def curl(self, place, *words):
        """The status and the fields of the last reply to a message, which may take long."""
        trusted = ["--cacert", os.path.join(place.folder, "certificate.pem")] if isinstance(place, Front) else []
        return reply("--max-time", str(MAX_SECONDS), *trusted, *words)[:2]

    def made(self, place, length):
        """The URL of a new upload of this length."""
        words = ["-X", "POST", "-H", VERSION, "-H", f"Upload-Length: {length}"]
        status, fields = self.curl(place, *words, f"{url_of(place)}/files")
        same(status, 201, "the status of a POST")
        return url_of(place) + fields["location"]

    def offset(self, place, url):
        return int(self.curl(place, "-I", url)[1]["upload-offset"])

    def stopped(self, place, url, path):
        """The offset of an upload to which curl sends this file until a signal ends curl."""
        words = ["curl", "-sS", *patch_words(0, "-T", path, "--limit-rate", RATE), url]
        with subprocess.Popen(words, env=trusting(place), stdout=subprocess.DEVNULL, stderr=subprocess.DEVNULL) as sending:
            time.sleep(STOPPED)
            sending.terminate()
        soon(lambda: self.offset(place, url) > 0, "what came before the signal stands in the upload")
        return self.offset(place, url)

    def curl_gib(self):
        """1 GiB by curl, alone and through nginx: a signal stops it, -C resumes it where HEAD says, and it comes
        back."""
        told = []
        with tempfile.TemporaryDirectory() as folder, self.places() as (_, places):
            given, fetched = written(os.path.join(folder, "given"), MAX_SIZE), os.path.join(folder, "fetched")
            for place in places:
                url = self.made(place, MAX_SIZE)
                offset = self.stopped(place, url, given)
                below(offset, MAX_SIZE, "the offset of what was stopped")
                status, fields = self.curl(place, *patch_words(offset, "-C", str(offset), "-T", given), url)
                same((status, fields["upload-offset"]), (204, str(MAX_SIZE)), "the reply to the rest")
                subprocess.run(["curl", "-sS", "-o", fetched, url], env=trusting(place), check=True, timeout=MAX_SECONDS)
                same(filecmp.cmp(given, fetched, shallow=False), True, "whether the bytes came back")
                self.curl(place, "-X", "DELETE", "-H", VERSION, url)
                told.append(f"{offset >> 20} MiB")
        return f"stopped at {' and '.join(told)}"

    def curl_gib_refused(self):
        """curl reports that 1 GiB is refused after its last byte, and one byte more before it: alone, and through
        nginx."""
        with tempfile.TemporaryDirectory() as folder, self.places("--max-finish", "1000") as (_, places):
            path = written(os.path.join(folder, "given"), MAX_SIZE)
            for place in places:
                url = self.made(place, MAX_SIZE)
                self.refused(place, url, path, 422, b"too long to finish\n")
            with open(path, "ab") as file:
                file.write(b"a")
            for place in places:
                url = self.made(place, MAX_SIZE)
                # nginx has its own words, and refuses before the server receives anything.
                self.refused(place, url, path, 413, b"5 BodyTooLarge\n" if isinstance(place, Server) else None)

    def refused(self, place, url, path, status, text):
        """Checks that a PATCH with this file is refused like this, that curl reports it, and that nothing changes."""
        words = ["curl", "-sS", "-i", "--fail-with-body", "-H", "Expect:", *patch_words(0, "-T", path), url]
        ran = subprocess.run(words, env=trusting(place), capture_output=True, timeout=MAX_SECONDS)
        told, _, body = ran.stdout.partition(b"\r\n\r\n")
        same((ran.returncode, replies(told + b"\r\n\r\n")[-1][0]), (22, status), f"how curl ends, and the status {ran.stderr}")
        same(body if text else None, text, "what the server says")
        same(self.offset(place, url), 0, "the offset of what was refused")


class Streamed(Senders):
    """A program that sends its standard input as one stream in chunks, and writes what it fetches back. `words` returns
    the words that run it, without the URL. The program needs this tool of this package."""

    tool, package = None, None

    def __init__(self, program, has_nginx):
        super().__init__(program, has_nginx)
        self.cases = [self.named(case) for case in (self.stream, self.refused, self.refused_late)]

    def named(self, case):
        """The case under the name of its client."""

        def one():
            return case()

        one.__name__, one.__doc__ = f"{self.tool}_{case.__name__}", case.__doc__
        return one

    def sent(self, folder, place):
        """The result of the program that sends the file `given` of this folder: its status and its outputs."""
        words = [*self.words(folder), f"{url_of(place)}/files"]
        with open(os.path.join(folder, "given"), "rb") as given:
            return subprocess.run(words, stdin=given, capture_output=True, env=trusting(place), timeout=MAX_SECONDS)

    def stream(self):
        """A stream of unknown length in chunks, alone and through nginx."""
        with tempfile.TemporaryDirectory() as folder, self.places() as (_, places):
            path = written(os.path.join(folder, "given"), STREAM)
            with open(path, "rb") as file:
                body = file.read()
            for place in places:
                ran = self.sent(folder, place)
                same((ran.returncode, ran.stderr), (0, b""), "how it ends, and what it says")
                same(ran.stdout == body, True, "whether the bytes came back")

    def is_told(self, words, size, why, events):
        """Checks that a stream is refused for this reason, alone and through nginx, that the program says so, and that
        the upload has exactly these events."""
        with tempfile.TemporaryDirectory() as folder, self.places(*words, size=size) as (server, places):
            written(os.path.join(folder, "given"), STREAM)
            for number, place in enumerate(places, 1):
                ran = self.sent(folder, place)
                said = (ran.returncode, ran.stderr.decode(), ran.stdout)
                same(said, (1, f"sender: {why}\n", b""), "how it ends, what it says, and what it writes")
                soon(lambda: server.output().count("\n") >= len(events) * number, "the events")
            same(list(events_of(server.output()).values()), [events] * len(places), "the events")

    def refused(self):
        """A stream above the largest size is refused in the middle, which the client reports: alone, and through
        nginx."""
        self.is_told([], FEW, TOO_LARGE, ["1 post-create 0/- done"])

    def refused_late(self):
        """A stream that a rule refuses once its length is declared, which the client reports: alone, and through
        nginx."""
        events = ["1 post-create 0/- done", f"2 post-receive {STREAM}/- done"]
        self.is_told(["--max-finish", str(STREAM - 1)], MAX_SIZE, TOO_LONG, events)


class Go(Streamed):
    """Go's net/http."""

    tool, package = "go", "golang-go"

    def words(self, folder):
        words = ["go", "build", "-o", os.path.join(folder, "sender"), f"{SENDER}.go"]
        subprocess.run(words, check=True, stdin=subprocess.DEVNULL, timeout=MAX_SECONDS)
        return words[3:4]


class Node(Streamed):
    """Node's fetch."""

    tool, package = "node", "nodejs"

    def words(self, folder):
        return ["node", f"{SENDER}.mjs"]
