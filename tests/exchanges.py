"""Cases of `tests/hooked.py` in which each byte counts that a hook server answers or is told. `hooked` makes a server
that asks and tells the hook server at a URL.
"""
import contextlib
import socket
from base64 import b64encode

from hooking import TARGET, HookServer, Note
from operators import made
from serving import MAX_WAIT, Connection, at_once, head, same, soon

# Whole answers of success, with a body and without one.
WHOLE, EMPTY = b"HTTP/1.1 200 OK\r\nContent-Length: 2\r\n\r\n{}", b"HTTP/1.1 204 No Content\r\n\r\n"

# Answers to an event, after each of which the connection is closed, and whether they acknowledge the event.
ANSWERS = [
    (WHOLE, True),
    (EMPTY, True),
    (b"HTTP/1.0 299 Fine\r\n\r\nall until the end", True),
    (b"HTTP/1.1 500 No\r\nContent-Length: 2\r\n\r\n{}", False),
    (b"HTTP/1.1 302 Found\r\nLocation: /\r\nContent-Length: 0\r\n\r\n", False),
    (b"HTTP/1.1 199 Odd\r\nContent-Length: 0\r\n\r\n", False),
    (b"HTTP/1.1 200 OK\r\nContent-Length: 5\r\n\r\n{}", False),
    (b"nonsense\r\n\r\n", False),
    (b"", False),
]

# Answers to a question, after each of which the connection is closed, with the status and the body of the reply.
UNTIL_END = [
    (b"HTTP/1.0 200 OK\r\n\r\n{}", 201, b""),
    (b'HTTP/1.0 200 OK\r\n\r\n{"RejectUpload":false,"RejectTermination":true,"ChangeFileInfo":null}', 201, b""),
    (b'HTTP/1.0 200 OK\r\n\r\n{"RejectUpload":true,"HTTPResponse":{"StatusCode":422}}', 422, b"rejected by the hook\n"),
    (b"HTTP/1.0 200 OK\r\n\r\n[]", 409, b"the hook's answer is no JSON\n"),
    (b"HTTP/1.0 500 No\r\n\r\n{}", 409, b"the hook has failed\n"),
]

# All hooks, as they are asked and told if an upload is made, filled and removed.
HOOKS = ["pre-create", "post-create", "post-receive", "pre-finish", "post-finish", "pre-terminate", "post-terminate"]

# Lists of hooks, each with the hooks that are then asked and told.
CHOSEN = {
    "pre-create": ["pre-create"],
    "post-finish,pre-create": ["post-finish", "pre-create"],
    " post-create , post-receive ,post-terminate": ["post-create", "post-receive", "post-terminate"],
    "pre-finish,pre-terminate,pre-finish": ["pre-finish", "pre-terminate"],
    ",".join(HOOKS): sorted(HOOKS),
}


# Pairs of metadata, and the object that is told of them: with escapes as short as can be, in the order of the keys, with
# U+FFFD for what isn't UTF-8, and the later of two keys that become one.
METADATA = [
    ([], b"{}"),
    ([(b"alone", None)], b'{"alone":""}'),
    ([(b"name", b'"\\/\n\t\x01\x7f')], b'{"name":"\\"\\\\/\\n\\t\\u0001\x7f"}'),
    ([(b"name", b"\xff\xc3\xa9")], b'{"name":"\xef\xbf\xbd\xc3\xa9"}'),
    ([(b"b", b"1"), (b"a", b"2"), (b"c", None)], b'{"a":"2","b":"1","c":""}'),
]


class Listener:
    """A hook server that answers byte for byte, on one connection after another."""

    def __init__(self):
        self.socket = socket.create_server(("127.0.0.1", 0))
        self.socket.settimeout(MAX_WAIT)
        self.url = "http://127.0.0.1:{}{}".format(self.socket.getsockname()[1], TARGET)

    def __enter__(self):
        return self

    def __exit__(self, *_):
        self.socket.close()

    @contextlib.contextmanager
    def connection(self):
        """The next connection: a function that sends an answer to the next request, and returns what that says. The
        connection is closed in the end."""
        connection, _ = self.socket.accept()
        connection.settimeout(MAX_WAIT)
        with connection, connection.makefile("rb") as reader:

            def answered(answer):
                lines = list(iter(reader.readline, b"\r\n"))
                length = next(line for line in lines if line.lower().startswith(b"content-length:"))
                body = reader.read(int(length.partition(b":")[2]))
                connection.sendall(answer)
                return Note(b"".join(lines).decode(), body)

            yield answered

    def answer(self, answer):
        """What the only request of a connection says, which is answered so."""
        with self.connection() as answered:
            return answered(answer)


def acknowledged(hooked):
    """A whole answer of a status of 200 to 299 acknowledges an event, whatever its body is. After any other one the
    same event is sent again."""
    with Listener() as hooks, hooked(hooks.url, "--hooks-enabled-events", "post-create", lanes=1) as server:
        with Connection(server) as client:
            for said, is_acknowledged in ANSWERS:
                path = made(client).fields["location"]
                told = hooks.answer(said)
                same(told.id, path[-32:], f"the upload that is told of before {said!r}")
                if not is_acknowledged:
                    same(hooks.answer(WHOLE).body, told.body, f"what is told again after {said!r}")
        server.finish()


def until_end(hooked):
    """An answer that lasts until the connection is closed is read as any other."""
    with Listener() as hooks, hooked(hooks.url, "--hooks-enabled-events", "pre-create") as server:
        with Connection(server) as client:
            for said, status, body in UNTIL_END:
                replies = []
                at_once(lambda n: hooks.answer(said) if n else replies.append(made(client)), 2)
                same((replies[0].status, replies[0].body), (status, body), f"the reply after {said!r}")
        server.finish()


def kept(hooked):
    """A connection carries one event after another, and another one carries one question after another."""
    for hook, answers in ("post-create", (WHOLE, EMPTY, WHOLE)), ("pre-create", (WHOLE, WHOLE, WHOLE)):
        with Listener() as hooks, hooked(hooks.url, "--hooks-enabled-events", hook, lanes=1) as server:
            ids, asked = [], []

            def create():
                with Connection(server) as client:
                    for _ in answers:
                        ids.append(made(client).fields["location"][-32:])

            def answer_all():
                with hooks.connection() as answered:
                    asked.extend(answered(each).id for each in answers)

            at_once(lambda n: answer_all() if n else create(), 2)
            same(asked, ids, f"the uploads of {hook} over one connection")
            server.finish()


def chosen(hooked):
    """Those hooks are asked and told that a list names, which may have spaces and name a hook twice."""
    for names, wanted in CHOSEN.items():
        with HookServer() as hooks, hooked(hooks.url, "--hooks-enabled-events", names) as server:
            with Connection(server) as client:
                path = made(client).fields["location"]
                same(client.append(path, 0, b"abc").status, 204, "the status of a PATCH")
                same(client.ask("DELETE", path).status, 204, "the status of a DELETE")
            server.finish()
        same(sorted(note.hook for note in hooks.notes), wanted, f"the hooks by {names!r}")


def upload(path, offset, parts=None, size=None, metadata='{"filename":"a.txt"}'):
    """What a text says of a part with this metadata, or of an upload that is joined of these parts."""
    ids = ",".join(f'"{part[-32:]}"' for part in parts or [])
    return (
        f'{{"ID":"{path[-32:]}","IsFinal":{"true" if parts else "false"},"IsPartial":{"false" if parts else "true"},'
        f'"MetaData":{metadata},"Offset":{offset},"PartialUploads":{f"[{ids}]" if parts else "null"},'
        f'"Size":{size or 0},"SizeIsDeferred":{"true" if size is None else "false"},"Storage":null}}'
    )


def event(hook, number, upload):
    """The text that tells of an event."""
    return f'{{"Event":{{"HTTPRequest":null,"Number":{number},"Upload":{upload}}},"Type":"{hook}"}}'


def question(hook, client, upload):
    """The text that asks about a creation with a field that is told."""
    address = "{}:{}".format(*client.socket.getsockname())
    request = f'{{"Header":{{"X-Key":["1"]}},"Method":"POST","RemoteAddr":"{address}","URI":"/files/"}}'
    return f'{{"Event":{{"HTTPRequest":{request},"Upload":{upload}}},"Type":"{hook}"}}'


def texts(hooked):
    """What is asked and told are texts in the form of tusd, without spaces, with the names of each object in order."""
    name = {"Upload-Metadata": "filename YS50eHQ=", "X-Key": 1}
    words = ["--hooks-http-forward-headers", "x-key"]
    with HookServer() as hooks, hooked(hooks.url, *words, lanes=1) as server, Connection(server) as client:
        paths = []
        for fields in ({"Upload-Length": 1}, {"Upload-Length": 2}, {"Upload-Defer-Length": 1}):
            client.send(head("POST", "/files/", {**name, "Upload-Concat": "partial", **fields}))
            paths.append(client.reply().fields["location"])
        first, second, open_one = paths
        for path, body in (first, b"a"), (second, b"bc"), (open_one, b"hello world"):
            same(client.append(path, 0, body).status, 204, "the status of a PATCH")
        client.send(head("POST", "/files/", {**name, "Upload-Concat": f"final;{second} http://a{first}"}))
        whole = client.reply().fields["location"]
        soon(lambda: len(hooks.posts()) == 10, "all events are told")
        joined = upload(whole, 3, [second, first], 3)
        wanted = {
            question("pre-create", client, upload(open_one, 0)),
            event("post-receive", 2, upload(open_one, 11)),
            event("post-finish", 3, upload(second, 2, size=2)),
            question("pre-finish", client, joined),
            event("post-finish", 2, joined),
        }
        same(wanted - {note.body.decode() for note in hooks.notes}, set(), "the texts that are missing")
        server.finish()


def metadata(hooked):
    """The metadata of an upload is told as an object, whether it has no pair, one or several."""
    with HookServer() as hooks, hooked(hooks.url) as server, Connection(server) as client:
        wanted = set()
        for pairs, text in METADATA:
            sent = b",".join(key + (b"" if value is None else b" " + b64encode(value)) for key, value in pairs).decode()
            fields = {"Upload-Length": 1, "Upload-Concat": "partial", **({"Upload-Metadata": sent} if pairs else {})}
            client.send(head("POST", "/files/", fields))
            path = client.reply().fields["location"]
            wanted.add(event("post-create", 1, upload(path, 0, size=1, metadata=text.decode())))
        soon(lambda: len(hooks.posts()) == len(METADATA), "all events are told")
        same({note.body.decode() for note in hooks.posts()}, wanted, "the texts")
        server.finish()
