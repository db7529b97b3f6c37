"""Cases of `tests/clients.py` with nginx in front of the server, and that nginx, which `tests/browser.py` uses too. Its
lines are those of examples/browser/nginx.conf, with other ports and paths, so what people copy is what is tried.
"""
import contextlib
import http.server
import os
import ssl
import subprocess
import threading
import time
import types

from serving import NOWHERE, ROOT, Connection, NginxServer, Server, free_port, head, patch, same, soon

EXAMPLE = os.path.join(ROOT, "examples", "browser")

# The comment in the example about whom to ask, and the line that makes nginx ask.
ASKED, ASKS = "# auth_request /may;", "auth_request /may;"

# The number of requests if there have to be more than the 10,000 of a conversation, and the number that a client sends
# over one connection, which nginx ends after the 1,000th.
MANY, AT_A_TIME = 10_500, 500

# The size of an upload that is larger than the buffers of sockets.
LARGE = 32 << 20

# The largest body that the example lets through, which is the greatest value of `--max-size`.
MOST = 1 << 30

# The fields that a page of another origin needs from nginx in each answer, and those that it must be able to send and
# to read.
CORS = [f"access-control-{name}" for name in "allow-headers allow-methods allow-origin expose-headers max-age".split()]
SENT = "content-type tus-resumable upload-concat upload-defer-length upload-length upload-metadata upload-offset"
READ = "location tus-extension tus-max-size tus-version upload-length upload-offset"


def replaced(text, old, new):
    """The text of an example with `new` instead of `old`, which must occur exactly once."""
    same(text.count(old), 1, f"how often the example says {old!r}")
    return text.replace(old, new)


def documented():
    """The lines of the example, which belong into the `http` block."""
    with open(os.path.join(EXAMPLE, "nginx.conf"), encoding="ascii") as file:
        return file.read()


def certificate(folder):
    """Makes a certificate for the loopback and its key in this folder, and returns their paths."""
    made, key = os.path.join(folder, "certificate.pem"), os.path.join(folder, "key.pem")
    words = "openssl req -x509 -newkey ec -pkeyopt ec_paramgen_curve:prime256v1 -nodes -days 2 -subj /CN=localhost".split()
    names = ["-addext", "subjectAltName=DNS:localhost,IP:127.0.0.1"]
    subprocess.run([*words, *names, "-keyout", key, "-out", made], check=True, capture_output=True)
    return made, key


class Front(NginxServer):
    """An nginx in front of this server as in the example, except for ports, paths and these changes. `others` returns
    lines to add at the end, from the paths of the certificate and of its key. `port` is for TLS, and `plain` is not."""

    def __init__(self, server, *changes, others=lambda certificate, key: ""):
        super().__init__(self.changed, workers=1)
        self.server, self.changes, self.others = server, changes, others

    def changed(self, port, folder):
        made, key = certificate(folder)
        self.context = ssl.create_default_context(cafile=made)
        self.plain = free_port()
        lines = documented()
        for old, new in (
            ("server 127.0.0.1:1080;", f"server 127.0.0.1:{self.server.port};"),
            ("listen 80;", f"listen 127.0.0.1:{self.plain};"),
            ("listen 443 ssl;", f"listen 127.0.0.1:{port} ssl;"),
            ("ssl_certificate /etc/nginx/up/certificate.pem;", f"ssl_certificate {made};"),
            ("ssl_certificate_key /etc/nginx/up/key.pem;", f"ssl_certificate_key {key};"),
            ("root /var/www/up;", f"root {EXAMPLE};"),
            *self.changes,
        ):
            lines = replaced(lines, old, new)
        return f"include /etc/nginx/mime.types;\n{lines}\n{self.others(made, key)}"


class Secure(Connection):
    """A connection over TLS, which trusts only the certificate of the nginx."""

    def __init__(self, front):
        super().__init__(front)
        self.socket = front.context.wrap_socket(self.socket, server_hostname="127.0.0.1")


class Doorman(http.server.BaseHTTPRequestHandler):
    """Decides who may upload: those whose cookie is `user=known`. The server has a list of the requests that were asked
    about."""

    def do_GET(self):
        asked = self.headers["X-Original-Method"], self.headers["X-Original-URI"], self.headers["Cookie"]
        self.server.asked.append(asked)
        self.send_response(204 if asked[2] == "user=known" else 401)
        self.end_headers()

    def log_message(self, *_):
        pass


@contextlib.contextmanager
def doorman():
    """A doorman at a free port, with the list of what it was asked."""
    with http.server.ThreadingHTTPServer(("127.0.0.1", 0), Doorman) as server:
        server.asked = []
        threading.Thread(target=server.serve_forever, daemon=True).start()
        yield server
        server.shutdown()


def asking(man):
    """The changes that make nginx ask this doorman."""
    return (ASKED, ASKS), ("proxy_pass http://127.0.0.1:1081;", f"proxy_pass http://127.0.0.1:{man.server_port};")


def most_of_an_address():
    """How many requests of one address the example lets in at a time."""
    return int(documented().partition("limit_conn uploads ")[2].partition(";")[0])


def names_of(text):
    """The names of a list, in lower case."""
    return {name.strip() for name in text.lower().split(",")}


class Fronted:
    """The cases, in which this program serves behind nginx."""

    def __init__(self, program):
        self.program = program
        self.cases = [
            self.nginx_whole, self.nginx_plain, self.nginx_breaks_off, self.nginx_no_file, self.nginx_largest,
            self.nginx_override, self.nginx_asks, self.nginx_cors, self.nginx_most_of_an_address,
            self.nginx_keeps_connections, self.nginx_longest_conversation,
        ]

    @contextlib.contextmanager
    def both(self, *words, changes=()):
        """A server with these words, and an nginx in front of it."""
        with Server(self.program, *words) as server, Front(server, *changes) as front:
            yield server, front

    def nginx_whole(self):
        """Through nginx an upload is made at `/files` and at `/files/`, filled, asked for, fetched and removed."""
        body = os.urandom(3_000_001)
        with self.both() as (_, front), Secure(front) as connection:
            for target in ("/files", "/files/"):
                reply = connection.ask("POST", target, upload_length=len(body))
                same(reply.status, 201, f"the status of a POST to {target}")
                path = reply.fields["location"]
                same(connection.append(path, 0, body[:400_000]).status, 204, "the status of a PATCH")
                same(connection.offset(path), 400_000, "the offset")
                same(connection.append(path, 400_000, body[400_000:]).status, 204, "the status of the second PATCH")
                same(connection.ask("GET", path).body == body, True, "whether the bytes came back")
                same(connection.ask("DELETE", path).status, 204, "the status of a DELETE")
                same(connection.ask("HEAD", path).status, 404, "the status afterwards")

    def nginx_plain(self):
        """Without TLS a request is redirected to the same place with TLS, by a status that keeps the method."""
        with self.both() as (_, front), Connection(types.SimpleNamespace(port=front.plain)) as connection:
            reply = connection.ask("POST", "/files", upload_length=3)
        same((reply.status, reply.fields["location"]), (308, "https://a/files"), "the reply")

    def nginx_breaks_off(self):
        """An upload through nginx that breaks off in its body keeps the bytes that came."""
        with self.both() as (_, front), Secure(front) as other:
            path = other.make(1_000_000)
            with Secure(front) as connection:
                connection.send(patch(path, 0, 1_000_000) + bytes(300_000))
                # When its client goes, nginx drops what it has read and not passed on yet.
                time.sleep(0.5)
            soon(lambda: other.offset(path) == 300_000, "the offset is that of the bytes that came")

    def nginx_no_file(self):
        """nginx makes no file for a large upload that a client fetches and doesn't read."""
        with self.both() as (_, front), Secure(front) as connection:
            path = connection.make(LARGE)
            same(connection.append(path, 0, bytes(LARGE)).status, 204, "the status of a PATCH")
            connection.send(head("GET", path, {}))
            time.sleep(0.5)
            same(front.open_files("proxy"), [], "the files of answers that nginx has open")
            same(connection.reply().body == bytes(LARGE), True, "whether the bytes came back")

    def nginx_largest(self):
        """A body of the greatest `--max-size` is let through, and one with one more byte is refused."""
        with self.both() as (_, front), Secure(front) as connection, Secure(front) as other:
            path = connection.make(MOST)
            connection.send(patch(path, 0, MOST) + b"abc")
            other.send(patch(path, 0, MOST + 1))
            same(other.reply().status, 413, "the status of a body that is larger")
            time.sleep(0.5)
            connection.socket.close()
            with Secure(front) as third:
                soon(lambda: third.offset(path) == 3, "the offset is that of the bytes that came of the other")

    def nginx_override(self):
        """A method in X-HTTP-Method-Override, which the server would accept, doesn't get through nginx."""
        with self.both() as (server, front), Secure(front) as connection, Connection(server) as behind:
            path = connection.make(3)
            override = {"x_http_method_override": "DELETE"}
            same(connection.ask("POST", path, **override).status, 405, "the status through nginx")
            same(connection.offset(path), 0, "the offset of the upload, which is still there")
            same(behind.ask("POST", path, **override).status, 204, "the status without nginx")

    def nginx_asks(self):
        """With `auth_request` nginx asks a program about each request, except for OPTIONS; unknown clients are answered
        401."""
        with doorman() as man, self.both(changes=asking(man)) as (_, front), Secure(front) as connection:
            reply = connection.ask("POST", "/files", upload_length=3)
            same([reply.status, *(name for name in CORS if name not in reply.fields)], [401], "the status, and what it hasn't")
            same(connection.ask("OPTIONS", "/files").status, 204, "the status of OPTIONS")
            reply = connection.ask("POST", "/files", upload_length=3, cookie="user=known")
            same(reply.status, 201, "the status of one who is known")
            path = reply.fields["location"]
            connection.send(patch(path, 0, 3).replace(b"\r\n\r\n", b"\r\nCookie: user=known\r\n\r\n") + b"abc")
            same(connection.reply().status, 204, "the status of a PATCH of theirs")
            same(connection.append(path, 3, b"").status, 401, "the status of a PATCH of another")
        posts = [("POST", "/files", cookie) for cookie in (None, "user=known")]
        patches = [("PATCH", path, cookie) for cookie in ("user=known", None)]
        same(man.asked, posts + patches, "what was asked")

    def nginx_cors(self):
        """nginx tells a page of another origin what the page needs, in each answer and refusal."""
        with self.both() as (_, front), Secure(front) as connection:
            preflight = connection.ask("OPTIONS", "/files/", access_control_request_method="PATCH")
            made = connection.ask("POST", "/files/", upload_length=3)
            path = made.fields["location"]
            connection.send(f"DELETE {path} HTTP/1.1\r\nHost: a\r\n\r\n".encode())
            replies = [preflight, made, connection.reply(), connection.append(path, 1, b"a")]
            replies.append(connection.ask("HEAD", NOWHERE))
            connection.send(patch(path, 0, MOST + 1))
            replies.append(connection.reply())
        same([reply.status for reply in replies], [204, 201, 412, 409, 404, 413], "the statuses")
        for reply in replies:
            names = sorted(name for name in reply.fields if name.startswith("access-control-"))
            same(names, CORS, f"the fields of a {reply.status}")
        methods = names_of(preflight.fields["access-control-allow-methods"])
        same(methods, {"post", "head", "get", "patch", "delete"}, "the methods")
        same(names_of(preflight.fields["access-control-allow-headers"]), set(SENT.split()), "what a page may send")
        exposed = names_of(made.fields["access-control-expose-headers"])
        same(set(READ.split()) - exposed, set(), "what a page can't read")

    def nginx_most_of_an_address(self):
        """An address that has as many bodies open as `limit_conn` allows is answered 503, until one of them ends."""
        most = most_of_an_address()
        with self.both() as (_, front), contextlib.ExitStack() as stack:
            held = [stack.enter_context(Secure(front)) for _ in range(most)]
            for connection in held:
                path = connection.make(2)
                connection.send(patch(path, 0, 2) + b"a")
            with Secure(front) as other:
                soon(lambda: other.ask("OPTIONS", "/files/").status == 503, "the status beyond the most is 503")
                reply = other.ask("OPTIONS", "/files/")
                same([name for name in CORS if name not in reply.fields], [], "the fields that it hasn't")
                held[0].send(b"b")
                same(held[0].reply().status, 204, "the status of the body that ends")
                same(other.ask("OPTIONS", "/files/").status, 204, "the status afterwards")

    def filled_byte_by_byte(self, front):
        """Fills an upload by PATCHes of one byte, and returns how many a second were answered."""
        with Secure(front) as connection:
            path = connection.make(MANY)
        start = time.monotonic()
        for first in range(0, MANY, AT_A_TIME):
            with Secure(front) as connection:
                for offset in range(first, first + AT_A_TIME):
                    same(connection.append(path, offset, b"a").status, 204, f"the status of the PATCH at {offset}")
        return f"{MANY / (time.monotonic() - start):,.0f} requests/s"

    def nginx_keeps_connections(self):
        """10,500 PATCHes through nginx arrive over few connections, and none fails."""
        # The server would let no connection in after the last of these. Before 1.19.10 nginx sent 100 requests over
        # each.
        with self.both("--connections", "128") as (_, front):
            return self.filled_byte_by_byte(front)

    def nginx_longest_conversation(self):
        """A kept connection that the server ends, after its 10,000th request, fails no request of nginx's."""
        change = ("keepalive 32;", "keepalive 32; keepalive_requests 20000;")
        with self.both("--connections", "2", changes=[change]) as (server, front):
            told = self.filled_byte_by_byte(front)
            front.process.terminate()  # This also ends the second connection, which nginx keeps.
            same(server.process.wait(20), 0, "the exit status behind the second connection")
            same(f"accepted {MANY + 1}" in server.output().splitlines(), True, "whether all requests were accepted")
        return told
