"""Cases of `tests/hooked.py` with hook servers as operators write them: examples/hooks, and one that was written for
tusd, from the names in its JSON alone. `hooked` makes a server that asks and tells the hook server at a URL.
"""
import contextlib
import json
import os
import re
import subprocess
import sys
import tempfile
import urllib.request

from crashed import coded
from serving import MEDIA_TYPE, ROOT, Connection, free_port, head, same, soon

EXAMPLE = os.path.join(ROOT, "examples", "hooks")
TUSD_HOOKS = os.path.join(ROOT, "tests", "tusd_hooks.py")


def made(connection, name="a.txt", length=3, **fields):
    """The reply to the creation of an upload of so many bytes, with this name of a file."""
    return connection.ask("POST", "/files/", upload_length=length, upload_metadata=f"filename {coded(name)}", **fields)


@contextlib.contextmanager
def running(words):
    """A process with these words, which is killed in the end."""
    with subprocess.Popen(words, stdout=subprocess.DEVNULL) as process:
        try:
            yield
        finally:
            process.kill()


def filled(client, name, body, key, **fields):
    """The id of an upload with this name of a file, these bytes and these fields, made with a key."""
    path = made(client, name, len(body), **key, **fields).fields["location"]
    media = {"Content-Type": MEDIA_TYPE, "Upload-Offset": 0, "Content-Length": len(body)}
    client.send(head("PATCH", path, {**key, **media}) + body)
    same(client.reply().status, 204, "the status of a PATCH")
    return path[-32:]


def joined(client, name, key):
    """The id of an upload that is joined of parts of one and three bytes, with this name of a file, and their ids."""
    parts = [filled(client, "part", body, key, upload_concat="partial") for body in (b"d", b"efg")]
    concat = "final;" + " ".join(f"/files/{part}" for part in parts)
    return made(client, name, **key, upload_concat=concat).fields["location"][-32:], parts


def paid(events):
    """How many events the example has written, and how many bytes are to be paid for."""
    with open(events, "rb") as file:
        each = [json.loads(line)["Paid"] for line in file.read().split(b"\n") if line.endswith(b"}")]
    return len(each), sum(each)


def example(hooked):
    """examples/hooks refuses by key and name, and stores and removes what is complete. That is to be paid for once,
    also if the example was killed before it had written so."""
    address, key = f"127.0.0.1:{free_port()}", {"authorization": "Bearer k"}
    words = [f"http://{address}/", "--hooks-http-forward-headers", "authorization"]
    with tempfile.TemporaryDirectory() as place, hooked(*words, timeout=10, lanes=1) as server:
        words = [EXAMPLE, "--key", "k", "--place", place, "--up", server.url, "--address", address]
        events = os.path.join(place, ".events")
        with running(words), Connection(server) as client:
            soon(lambda: made(client).status == 403, "who has no key is refused")
            same(made(client, "a.EXE", **key).status, 422, "the status for a program")
            good = filled(client, "a/ä", b"abc", key)
            filled(client, "bad", b"EICAR-STANDARD-ANTIVIRUS-TEST-FILE", key)
            final, parts = joined(client, "b", key)
            soon(lambda: paid(events)[0] == 19, "all is told, and removed")
            same(sorted(os.listdir(place)), sorted([".events", f"{good}-a_ä", f"{final}-b"]), "the files")
            same(paid(events), (19, 7), "how many events there are, and how many bytes are to be paid for")
        os.truncate(events, 5)
        with running(words), Connection(server) as client:
            upload = {"ID": final, "Size": 4, "MetaData": {"filename": "b"}}
            upload |= {"IsPartial": False, "PartialUploads": parts}
            said = {"Type": "post-finish", "Event": {"Number": 2, "Upload": upload}}
            soon(lambda: made(client).status == 403, "the example listens")
            for _ in range(2):
                urllib.request.urlopen(f"http://{address}/", json.dumps(said).encode()).close()
        same(paid(events), (1, 4), "the same after an event was told again")


@contextlib.contextmanager
def listening(words):
    """The port of a hook server with these words, which is killed in the end."""
    with subprocess.Popen([sys.executable, TUSD_HOOKS, *words], stderr=subprocess.PIPE, text=True) as process:
        try:
            yield re.fullmatch(r"listening on (\d+)\n", process.stderr.readline())[1]
        finally:
            process.kill()


def logged(upload, name, size, kind=None):
    """The lines about an upload in the log of tests/tusd_hooks.py."""
    said = {"id": upload, "size": size, "metadata": {"filename": name}}
    said |= {"partial": kind == "partial", "final": kind == "final"}
    hooks = {"post-create": 0, "post-receive": size, "post-finish": size}
    if kind == "final":
        hooks = {"post-create": size, "post-finish": size}
    return [{"type": hook, "offset": offset, **said} for hook, offset in hooks.items()]


def tusd(hooked):
    """A hook server that was written for tusd is understood, and understands what it is asked and told."""
    key = {"authorization": "Bearer k"}
    with tempfile.TemporaryDirectory() as folder:
        log = os.path.join(folder, "log")
        with listening(["--port", "0", "--log", log, "--token", "k", "--keep"]) as port:
            words = [f"http://127.0.0.1:{port}/hook", "--hooks-http-forward-headers", "Authorization"]
            with hooked(*words, timeout=10, lanes=1) as server, Connection(server) as client:
                replies = [made(client), made(client, "a.EXE", **key)]
                replies.append(client.ask("POST", "/files/", upload_length=1, **key))
                path = "/files/" + filled(client, "a.txt", b"abc", key)
                replies.append(client.ask("DELETE", path, **key))
                final, parts = joined(client, "b.txt", key)
                server.finish()
        with open(log, encoding="utf-8") as file:
            lines = [json.loads(line) for line in file]
    texts = [b"missing or wrong token\n", b".exe files are not accepted\n", b"no filename in the metadata\n"]
    wanted = list(zip([403, 422, 422, 403], [*texts, b"uploads are kept\n"]))
    same([(reply.status, reply.body) for reply in replies], wanted, "the replies to what it rejects")
    wanted = logged(path[-32:], "a.txt", 3) + logged(parts[0], "part", 1, "partial")
    wanted += logged(parts[1], "part", 3, "partial") + logged(final, "b.txt", 4, "final")
    same(lines, wanted, "the events that it has written down")
