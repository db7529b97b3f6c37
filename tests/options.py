"""Cases of `tests/clients.py` for the table of clients' options in docs/PROTOCOL.md: each answer of the server that it
names.
"""
import base64
import contextlib
import os
import re
import shutil
import subprocess
import urllib.parse

from curled import VERSION, patch_words, reply
from fronted import Front
from serving import MEDIA_TYPE, Connection, Server, free_port, head, patch, same, soon

# The largest upload here, and a checksum that no body here has.
MOST, WRONG_SUM = 1 << 20, f"sha1 {base64.b64encode(bytes(20)).decode()}"

# The first bytes of a client that speaks HTTP/2 from the start (RFC 9113, section 3.4), with its settings.
PREFACE = b"PRI * HTTP/2.0\r\n\r\nSM\r\n\r\n" + bytes([0, 0, 0, 4, 0, 0, 0, 0, 0])

# Where the nginx of a case gets an additional `listen`.
BESIDE = "location = /may {"


def sent(connection, method, target, body=b"", **fields):
    """The reply to a message with this body."""
    named = {name.replace("_", "-"): value for name, value in fields.items()}
    connection.send(head(method, target, {**named, "Content-Length": len(body)}) + body)
    return connection.reply(method == "HEAD")


def is_refused(reply, status, text):
    same((reply.status, reply.body), (status, text), "the refusal")


def holds(connection, path, body):
    """Checks that the upload is complete and has these bytes."""
    reply = connection.ask("GET", path)
    same((reply.status, reply.body == body), (200, True), "the status of a GET, and whether the bytes came back")


class Options:
    """The cases, in each of which this program serves."""

    def __init__(self, program, has_nginx):
        self.program = program
        self.cases = [
            self.option_bytes_at_creation, self.option_checksum, self.option_parallel, self.option_unfinished,
            self.option_deferred, self.option_override, self.option_location, self.option_http_2, self.option_expect,
            self.option_expiration, self.option_resume, self.option_offset, self.option_size_of_chunks,
            self.option_other_protocol, self.option_request_id, self.option_termination, self.option_metadata,
            self.option_media, self.option_range,
        ]
        if has_nginx and shutil.which("curl"):
            self.cases.append(self.option_http_2_by_nginx)

    @contextlib.contextmanager
    def open(self, *words):
        """A connection to a server with these words."""
        with Server(self.program, *words, size=MOST) as server, Connection(server) as connection:
            yield connection

    def option_bytes_at_creation(self):
        """Bytes that come with a creation are dropped: the reply has no offset, and HEAD reports 0."""
        with self.open() as connection:
            reply = sent(connection, "POST", "/files/", b"hello", upload_length=5, content_type=MEDIA_TYPE)
            same((reply.status, "upload-offset" in reply.fields), (201, False), "the status, and whether it has an offset")
            path = reply.fields["location"]
            same(connection.offset(path), 0, "the offset")
            same(connection.append(path, 0, b"hello").status, 204, "the status of a PATCH")
            holds(connection, path, b"hello")

    def option_checksum(self):
        """A checksum isn't checked, in a field or after the body: the bytes are stored, though it is wrong."""
        with self.open() as connection:
            path = connection.make(10)
            fields = {"upload_offset": 0, "content_type": MEDIA_TYPE, "upload_checksum": WRONG_SUM}
            same(sent(connection, "PATCH", path, b"hello", **fields).status, 204, "the status with a field")
            chunked = {"Transfer-Encoding": "chunked", "Trailer": "Upload-Checksum", "Content-Type": MEDIA_TYPE, "Upload-Offset": 5}
            body = f"5\r\nworld\r\n0\r\nUpload-Checksum: {WRONG_SUM}\r\n\r\n"
            connection.send(head("PATCH", path, chunked) + body.encode())
            same(connection.reply().status, 204, "the status with a trailer")
            holds(connection, path, b"helloworld")

    def option_parallel(self):
        """Parts need no metadata, and are joined by their URLs, of whatever origin, or by their paths; they stay."""
        with self.open("--require-key", "filename") as connection:
            paths = []
            for body in (b"hello ", b"world"):
                part = connection.ask("POST", "/files/", upload_length=len(body), upload_concat="partial")
                same(part.status, 201, "the status of a part")
                paths.append(part.fields["location"])
                same(connection.append(paths[-1], 0, body).status, 204, "the status of a PATCH")
            joined = f"final;https://page.example{paths[0]} {paths[1]}"
            is_refused(connection.ask("POST", "/files/", upload_concat=joined), 422, b"metadata key missing\n")
            final = connection.ask("POST", "/files/", upload_concat=joined, upload_metadata="filename YQ==")
            same(final.status, 201, "the status of a final upload")
            holds(connection, final.fields["location"], b"hello world")
            holds(connection, paths[0], b"hello ")

    def option_unfinished(self):
        """Parts that aren't complete aren't joined."""
        with self.open() as connection:
            part = connection.ask("POST", "/files/", upload_length=3, upload_concat="partial").fields["location"]
            reply = connection.ask("POST", "/files/", upload_concat=f"final;{part}")
            is_refused(reply, 400, b"29 PartUnfinished\n")

    def option_deferred(self):
        """A length may come with the last bytes, or after them; until then HEAD reports that it is deferred."""
        with self.open() as connection:
            reply = connection.ask("POST", "/files/", upload_defer_length=1)
            same(reply.status, 201, "the status of a POST")
            path = reply.fields["location"]
            same(connection.append(path, 0, b"hello ").status, 204, "the status of a PATCH")
            fields = connection.ask("HEAD", path).fields
            same((fields["upload-defer-length"], "upload-length" in fields), ("1", False), "what HEAD tells of the length")
            last = {"upload_offset": 6, "content_type": MEDIA_TYPE, "upload_length": 11}
            same(sent(connection, "PATCH", path, b"world", **last).status, 204, "the status of the last PATCH")
            same(connection.ask("HEAD", path).fields["upload-length"], "11", "the length that HEAD tells")
            holds(connection, path, b"hello world")
            path = connection.ask("POST", "/files/", upload_defer_length=1).fields["location"]
            same(connection.append(path, 0, b"hello ").status, 204, "the status of a PATCH")
            behind = {**last, "upload_length": 6}
            same(sent(connection, "PATCH", path, **behind).status, 204, "the status of a PATCH with a length alone")
            holds(connection, path, b"hello ")

    def option_override(self):
        """A POST with X-HTTP-Method-Override: PATCH is a PATCH."""
        with self.open() as connection:
            path = connection.make(5)
            fields = {"x_http_method_override": "PATCH", "upload_offset": 0, "content_type": MEDIA_TYPE}
            reply = sent(connection, "POST", path, b"hello", **fields)
            same((reply.status, reply.fields["upload-offset"]), (204, "5"), "the reply")
            holds(connection, path, b"hello")

    def option_location(self):
        """Location is a path alone, which is right relative to the URL at which a client made the upload."""
        with self.open() as connection:
            for target in ("/files", "/files/"):
                place = connection.ask("POST", target, upload_length=0).fields["location"]
                same(bool(re.fullmatch("/files/[0-9a-f]{32}", place)), True, f"whether {place} is a path and an id")
                url = urllib.parse.urljoin(f"https://page.example{target}", place)
                same(url, f"https://page.example{place}", "what a client makes of it")
                holds(connection, place, b"")

    def option_http_2(self):
        """HTTP/2 from the first byte is refused; an offer to upgrade isn't taken."""
        with Server(self.program) as server:
            with Connection(server) as connection:
                connection.send(PREFACE)
                is_refused(connection.reply(), 400, b"1 BadHead\n")
                same(connection.is_closed(), True, "whether the connection is closed")
            with Connection(server) as connection:
                offer = {"Connection": "Upgrade, HTTP2-Settings", "Upgrade": "h2c", "HTTP2-Settings": "AAMAAABkAAQAAP__"}
                connection.send(head("POST", "/files/", {**offer, "Upload-Length": 0}))
                same(connection.reply().whole.startswith(b"HTTP/1.1 201 "), True, "whether it is answered by HTTP/1.1")

    def option_http_2_by_nginx(self):
        """Behind an nginx that speaks HTTP/2, a client that does so too uploads, is told of a refusal, and fetches."""
        port, body = free_port(), os.urandom(3_000_001)
        # Since 1.25.1 nginx has a separate line for it, `http2 on;`, and still accepts this one, with a warning.
        change = (BESIDE, f"listen 127.0.0.1:{port} ssl http2; {BESIDE}")
        with Server(self.program) as server, Front(server, change) as front:
            words = ["--http2", "--cacert", os.path.join(front.folder, "certificate.pem")]
            path, fetched = os.path.join(front.folder, "given"), os.path.join(front.folder, "fetched")
            with open(path, "wb") as file:
                file.write(body)
            origin = f"https://127.0.0.1:{port}"
            made = reply(*words, "-X", "POST", "-H", VERSION, "-H", f"Upload-Length: {len(body)}", f"{origin}/files")
            same((made[0], "using HTTP/2" in made[2]), (201, True), "the status, and whether it came by HTTP/2")
            url = origin + made[1]["location"]
            for offset, status in ((1, 409), (0, 204)):
                same(reply(*words, *patch_words(offset, "-T", path), url)[0], status, f"the status of a PATCH at {offset}")
            subprocess.run(["curl", "-sS", "--max-time", "20", *words, "-o", fetched, url], check=True)
            with open(fetched, "rb") as file:
                same(file.read() == body, True, "whether the bytes came back")

    def option_expect(self):
        """`100 Continue` comes before the body, also if the offset is wrong; a body that is too large is refused
        instead."""
        with self.open() as connection:
            path, wait = connection.make(5), b"\r\nExpect: 100-continue\r\n\r\n"
            for offset, status in ((1, 409), (0, 204)):
                connection.send(patch(path, offset, 5).replace(b"\r\n\r\n", wait))
                same(connection.reply(bare=True).status, 100, "the status before the body")
                connection.send(b"hello")
                same(connection.reply().status, status, "the status behind the body")
            connection.send(patch(path, 5, MOST + 1).replace(b"\r\n\r\n", wait))
            is_refused(connection.reply(), 413, b"5 BodyTooLarge\n")

    def option_expiration(self):
        """No reply has an expiration; a server that was restarted knows no upload."""
        with self.open() as connection:
            made = connection.ask("POST", "/files/", upload_length=3)
            path = made.fields["location"]
            replies = [made, connection.append(path, 0, b"a"), connection.ask("HEAD", path), connection.ask("OPTIONS", path)]
            same([reply.status for reply in replies], [201, 204, 200, 204], "the statuses")
            same([reply for reply in replies if "upload-expires" in reply.fields], [], "the replies with an expiration")
            same("expiration" in replies[-1].fields["tus-extension"], False, "whether OPTIONS names it")
        with self.open() as connection:
            same(connection.ask("HEAD", path).status, 404, "the status at a server that was started anew")

    def option_resume(self):
        """The bytes of a PATCH that breaks off stay; HEAD reports how many, and a PATCH there continues."""
        with Server(self.program) as server, Connection(server) as other:
            path = other.make(10)
            with Connection(server) as connection:
                connection.send(patch(path, 0, 10) + b"hello")
            soon(lambda: other.offset(path) == 5, "the offset is that of the bytes that came")
            same(other.append(path, 5, b"world").status, 204, "the status of the rest")
            holds(other, path, b"helloworld")

    def option_offset(self):
        """A PATCH at another offset is refused, and changes nothing."""
        with self.open() as connection:
            path = connection.make(10)
            is_refused(connection.append(path, 1, b"hello"), 409, b"25 WrongOffset\n")
            same(connection.offset(path), 0, "the offset")

    def option_size_of_chunks(self):
        """Bodies of any size are accepted, up to the largest."""
        with self.open() as connection:
            path = connection.make(MOST)
            for offset, size in ((0, 1), (1, 2), (3, MOST - 3)):
                same(connection.append(path, offset, bytes(size)).status, 204, f"the status of a PATCH of {size} bytes")
            holds(connection, path, bytes(MOST))
            path = connection.make(MOST)
            same(connection.append(path, 0, bytes(MOST)).status, 204, "the status of a PATCH of the largest size")
            path = connection.make(MOST)
            connection.send(patch(path, 0, MOST + 1))
            is_refused(connection.reply(), 413, b"5 BodyTooLarge\n")

    def option_other_protocol(self):
        """The drafts of another protocol give no version of tus, and are refused."""
        with self.open() as connection:
            draft = {"Upload-Draft-Interop-Version": "5", "Upload-Complete": "?0", "Upload-Length": 5}
            connection.send(head("POST", "/files/", draft).replace(f"{VERSION}\r\n".encode(), b""))
            reply = connection.reply()
            is_refused(reply, 412, b"10 Version\n")
            same(reply.fields["tus-version"], "1.0.0", "the versions that it tells")

    def option_request_id(self):
        """A field that the server doesn't know is ignored, and not sent back."""
        with self.open() as connection:
            reply = connection.ask("POST", "/files/", upload_length=0, x_request_id="a")
            same((reply.status, "x-request-id" in reply.fields), (201, False), "the status, and whether the field comes back")

    def option_termination(self):
        """DELETE removes an upload for good; with `--keep` it is refused."""
        with self.open() as connection:
            path = connection.make(3)
            same(connection.ask("DELETE", path).status, 204, "the status of a DELETE")
            same(connection.ask("HEAD", path).status, 404, "the status of a HEAD behind it")
            is_refused(connection.ask("DELETE", path), 404, b"21 NotFound\n")
        with self.open("--keep") as connection:
            is_refused(connection.ask("DELETE", connection.make(3)), 403, b"uploads are kept\n")

    def option_metadata(self):
        """Metadata comes back as it was sent, and may be empty; if it repeats a key, it is refused."""
        with self.open() as connection:
            for told in ("filename YQ==,relativePath bnVsbA==,empty", ""):
                made = connection.ask("POST", "/files/", upload_length=3, upload_metadata=told)
                same(made.status, 201, f"the status with {told!r}")
                fields = connection.ask("HEAD", made.fields["location"]).fields
                same(fields.get("upload-metadata", ""), told, "what comes back")
            reply = connection.ask("POST", "/files/", upload_length=3, upload_metadata="name YQ==,name Yg==")
            is_refused(reply, 400, b"17 BadMetadata\n")

    def option_media(self):
        """A PATCH with the media type of a form, as curl's -d sends it, or with none, is refused."""
        with self.open() as connection:
            path = connection.make(5)
            for media in ({"content_type": "application/x-www-form-urlencoded"}, {}):
                reply = sent(connection, "PATCH", path, b"hello", upload_offset=0, **media)
                is_refused(reply, 415, b"23 MediaType\n")

    def option_range(self):
        """A GET that asks for a range, or for a coding, is answered with all bytes as they are."""
        with self.open() as connection:
            path = connection.make(5)
            same(connection.append(path, 0, b"hello").status, 204, "the status of a PATCH")
            reply = connection.ask("GET", path, range="bytes=2-", accept_encoding="gzip")
            same((reply.status, reply.body), (200, b"hello"), "the reply")
            others = [name for name in reply.fields if name in ("content-range", "accept-ranges", "content-encoding")]
            same(others, [], "fields of ranges and codings")
