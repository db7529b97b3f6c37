#!/usr/bin/python3
"""Tries real clients against `up serve`: tuspy, curl, Go's net/http and Node's fetch; nginx in front of it, as in
examples/browser; and the answers that docs/PROTOCOL.md lists for the options of clients.

    tests/clients.py [--program PATH] [NAME..]

It needs Debian's `python3-tuspy`, or pip's `tuspy` for the Python that runs it (then: `python3 tests/clients.py`),
`curl`, `golang-go`, `nodejs` 18 or later, and `nginx-light` with `openssl`. If something is missing, the script says so
and skips its cases. Each upload is fetched back by GET and compared byte for byte. It takes a minute, 1.1 GiB of
memory, and 2 GiB of TMPDIR.

For each case, one line says whether it passed. The last line is `N passed, M failed`, and the exit status is 1 if a
case failed.
"""
import asyncio
import base64
import io
import os
import shutil
import subprocess
import sys
import tempfile
import urllib.request

from curled import MEDIA, VERSION, curl, replies, reply
from fronted import Fronted
from options import Options
from senders import Go, Large, Node, Tuspy
from serving import MAX_SIZE, NOWHERE, Server, below, same, soon, try_all, words_of

try:
    from tusclient.client import TusClient
    from tusclient.exceptions import TusCommunicationError
    from tusclient.storage.filestorage import FileStorage
except ImportError:
    TusClient = None

server = None
folder = None


def drawn(size):
    """This many bytes, no part of which is like another."""
    return os.urandom(size)


def file_of(body, name="given"):
    path = os.path.join(folder, name)
    with open(path, "wb") as file:
        file.write(body)
    return path


def fetched(url):
    with urllib.request.urlopen(url, timeout=20) as reply:
        return reply.read()


def holds(url, body):
    """Checks that the upload at this URL has these bytes."""
    came = fetched(url)
    same(len(came), len(body), "the length of the upload")
    same(came == body, True, "whether the bytes came back")


# tuspy


def tus():
    return TusClient(f"{server.url}/files/")


def tuspy_whole():
    """A file of 3 MB in one PATCH."""
    body = drawn(3_000_001)
    uploader = tus().uploader(file_of(body))
    uploader.upload()
    holds(uploader.url, body)


def tuspy_chunks():
    """A file in chunks of 64 KiB, the last one short."""
    body = drawn(1_000_003)
    uploader = tus().uploader(file_of(body), chunk_size=1 << 16)
    uploader.upload()
    same(uploader.offset, len(body), "the offset that tuspy has")
    holds(uploader.url, body)


def tuspy_by_url():
    """An upload that stops in the middle is resumed by its URL."""
    body = drawn(500_000)
    first = tus().uploader(file_of(body), chunk_size=100_000)
    first.upload(stop_at=300_000)
    second = tus().uploader(file_of(body), url=first.url)
    same(second.offset, 300_000, "the offset of the second uploader")
    second.upload()
    holds(first.url, body)


def tuspy_by_fingerprint():
    """An upload that stops in the middle is resumed by the fingerprint of its file."""
    body = drawn(500_000)
    storage = FileStorage(os.path.join(folder, "urls"))
    path = file_of(body)
    first = tus().uploader(path, chunk_size=100_000, store_url=True, url_storage=storage)
    first.upload(stop_at=200_000)
    second = tus().uploader(path, store_url=True, url_storage=storage)
    same((second.url, second.offset), (first.url, 200_000), "the URL and offset that were found")
    second.upload()
    storage.close()
    holds(first.url, body)


def tuspy_stream():
    """A stream instead of a file, in chunks."""
    body = drawn(700_001)
    uploader = tus().uploader(file_stream=io.BytesIO(body), chunk_size=250_000)
    uploader.upload()
    holds(uploader.url, body)


def tuspy_async():
    """Eight asynchronous uploads at once, in chunks."""
    bodies = [drawn(300_000 + number) for number in range(8)]
    uploaders = [tus().async_uploader(file_stream=io.BytesIO(body), chunk_size=70_000) for body in bodies]

    async def upload_all():
        await asyncio.gather(*(uploader.upload() for uploader in uploaders))

    asyncio.run(upload_all())
    for uploader, body in zip(uploaders, bodies):
        holds(uploader.url, body)


def tuspy_metadata():
    """Metadata beyond ASCII comes back by HEAD as it was sent."""
    name = "Übersicht 報告.pdf"
    uploader = tus().uploader(file_stream=io.BytesIO(b"abc"), metadata={"empty": "", "filename": name})
    uploader.upload()
    head = urllib.request.Request(uploader.url, method="HEAD")
    with urllib.request.urlopen(head, timeout=20) as reply:
        told = reply.headers["Upload-Metadata"]
    same(told, f"empty ,filename {base64.b64encode(name.encode()).decode()}", "the metadata")
    holds(uploader.url, b"abc")


def tuspy_checksum():
    """A checksum, which isn't supported, does no harm."""
    body = drawn(100_000)
    uploader = tus().uploader(file_stream=io.BytesIO(body), chunk_size=30_000, upload_checksum=True)
    uploader.upload()
    holds(uploader.url, body)


def tuspy_unknown():
    """Asking for the offset of an upload that doesn't exist is an error of tuspy's, with the status."""
    try:
        tus().uploader(file_stream=io.BytesIO(b"abc"), url=server.url + NOWHERE)
    except TusCommunicationError as error:
        same(error.status_code, 404, "the status of the error")
        return
    raise AssertionError("tuspy found an upload")


# curl


def made(*fields):
    """The URL of a new upload."""
    words = [word for field in fields for word in ("-H", field)]
    status, told, _ = reply("-X", "POST", "-H", VERSION, *words, f"{server.url}/files/")
    same(status, 201, "the status of a POST")
    return server.url + told["location"]


def sent(url, offset, path, *words):
    """The offset after a PATCH with the file, and what curl said."""
    status, fields, said = reply(
        "-X", "PATCH", "-H", VERSION, "-H", MEDIA, "-H", f"Upload-Offset: {offset}", "--data-binary", f"@{path}", *words, url
    )
    same(status, 204, "the status of a PATCH")
    return int(fields["upload-offset"]), said


def curl_head(url):
    return reply("-I", "-H", VERSION, url)[1]


def curl_options():
    """OPTIONS reports the version, the extensions and the largest size."""
    status, fields, _ = reply("-X", "OPTIONS", f"{server.url}/files/")
    same(status, 204, "the status")
    same(fields["tus-version"], "1.0.0", "the versions")
    same(fields["tus-extension"], "creation,creation-defer-length,termination,concatenation", "the extensions")
    same(fields["tus-max-size"], str(MAX_SIZE), "the largest size")


def curl_expect():
    """A body that curl sends once `100 Continue` has come."""
    body = drawn(2_000_000)
    url = made(f"Upload-Length: {len(body)}")
    offset, said = sent(url, 0, file_of(body), "-H", "Expect: 100-continue", "--expect100-timeout", "15")
    same(offset, len(body), "the offset")
    same("HTTP/1.1 100 Continue" in said, True, "whether 100 Continue came")
    holds(url, body)


def curl_refused_expect():
    """A body that is too large is refused before it is sent."""
    url = made("Upload-Length: 3")
    words = ["-X", "PATCH", "-H", VERSION, "-H", MEDIA, "-H", "Upload-Offset: 0", "-H", "Expect: 100-continue"]
    status, _, said = reply(*words, "-H", f"Content-Length: {MAX_SIZE + 1}", "--data-binary", "@-", url, given=b"abc")
    same(status, 413, "the status")
    same("100 Continue" in said, False, "whether 100 Continue came")


def curl_chunked():
    """A body in chunks."""
    body = drawn(1_000_001)
    url = made(f"Upload-Length: {len(body)}")
    same(sent(url, 0, file_of(body), "-H", "Transfer-Encoding: chunked")[0], len(body), "the offset")
    holds(url, body)


def curl_unknown_length():
    """A stream of unknown length, in chunks from a pipe; its length is declared by the last PATCH."""
    body = drawn(300_000)
    url = made("Upload-Defer-Length: 1")
    words = ["-X", "PATCH", "-H", VERSION, "-H", MEDIA, "-H", "Upload-Offset: 0", "-H", "Transfer-Encoding: chunked"]
    status, fields, _ = reply(*words, "-T", "-", url, given=body)
    same((status, fields["upload-offset"]), (204, "300000"), "the reply to the stream")
    same(curl_head(url).get("upload-defer-length"), "1", "Upload-Defer-Length before the length is declared")
    same(sent(url, 300_000, file_of(b"end"), "-H", "Upload-Length: 300003")[0], 300_003, "the last offset")
    same(curl_head(url).get("upload-length"), "300003", "Upload-Length afterwards")
    holds(url, body + b"end")


def curl_partial_and_final():
    """Three parts are joined, one of them twice; the final upload stays when a part is removed."""
    bodies = [drawn(size) for size in (100_000, 1, 70_000)]
    urls = [made("Upload-Concat: partial", f"Upload-Length: {len(body)}") for body in bodies]
    for url, body in zip(urls, bodies):
        sent(url, 0, file_of(body))
    first, second, third = [url.removeprefix(server.url) for url in urls]
    final = made(f"Upload-Concat: final;{first} {second} {server.url}{third} {first}")
    whole = b"".join(bodies) + bodies[0]
    same(reply("-X", "DELETE", "-H", VERSION, urls[1])[0], 204, "the status of a DELETE")
    same(reply("-I", "-H", VERSION, urls[1])[0], 404, "the status of the part that was removed")
    same(curl_head(final)["upload-length"], str(len(whole)), "the length of the final upload")
    holds(final, whole)


def curl_override():
    """PATCH, HEAD and DELETE as POSTs with X-HTTP-Method-Override."""
    body = drawn(5_000)
    url = made("Upload-Length: 5000")
    override = ["-X", "POST", "-H", VERSION, "-H"]
    words = ["-H", MEDIA, "-H", "Upload-Offset: 0", "--data-binary", f"@{file_of(body)}"]
    same(reply(*override, "X-HTTP-Method-Override: PATCH", *words, url)[0], 204, "the status of the PATCH")
    status, fields, _ = reply(*override, "X-HTTP-Method-Override: HEAD", url)
    same((status, fields["upload-offset"]), (200, "5000"), "the reply to the HEAD")
    holds(url, body)
    same(reply(*override, "X-HTTP-Method-Override: DELETE", url)[0], 204, "the status of the DELETE")
    same(reply("-I", "-H", VERSION, url)[0], 404, "the status afterwards")


def curl_old_version():
    """HTTP/1.0, which closes after each reply."""
    body = drawn(400_000)
    status, fields, said = reply("-0", "-X", "POST", "-H", VERSION, "-H", f"Upload-Length: {len(body)}", f"{server.url}/files/")
    same((status, fields.get("connection")), (201, "close"), "the reply to the POST")
    url = server.url + fields["location"]
    same(sent(url, 0, file_of(body), "-0")[0], len(body), "the offset")
    told, _ = curl("-0", url)
    same(told.partition(b"\r\n\r\n")[2] == body, True, "whether the bytes came back over HTTP/1.0")
    holds(url, body)


def curl_resume():
    """An upload that breaks off at its time limit is resumed at the offset that HEAD reports."""
    body = drawn(3_000_000)
    url = made(f"Upload-Length: {len(body)}")
    words = ["-X", "PATCH", "-H", VERSION, "-H", MEDIA, "-H", "Upload-Offset: 0", "-H", "Expect:"]
    curl(*words, "--data-binary", f"@{file_of(body)}", "--limit-rate", "500k", "--max-time", "1", url, may_fail=True)
    soon(lambda: int(curl_head(url)["upload-offset"]) > 0, "what came of the PATCH")
    offset = int(curl_head(url)["upload-offset"])
    below(offset, len(body), "the offset of a PATCH that broke off")
    same(sent(url, offset, file_of(body[offset:]))[0], len(body), "the offset")
    holds(url, body)


def curl_one_connection():
    """A POST, two PATCHes and a GET over one connection."""
    url = made("Upload-Length: 6")
    words = ["-X", "PATCH", "-H", VERSION, "-H", MEDIA]
    first = [*words, "-H", "Upload-Offset: 0", "--data-binary", "abc", url]
    second = [*words, "-H", "Upload-Offset: 3", "--data-binary", "def", url]
    told, said = curl(*first, "--next", "-sS", "-i", "-v", *second, "--next", "-sS", "-i", "-v", url)
    same([status for status, _ in replies(told)], [204, 204, 200], "the statuses")
    same(said.count("Re-using existing connection"), 2, "how often the connection was used again")
    same(told.endswith(b"\r\n\r\nabcdef"), True, "whether the bytes came back")


def curl_refusals():
    """Refusals have their statuses and texts, and change nothing."""
    url = made("Upload-Length: 6")
    words = ["-X", "PATCH", "-H", VERSION, "--data-binary", "abc"]
    for fields, status, text in (
        (["-H", MEDIA, "-H", "Upload-Offset: 1"], 409, b"25 WrongOffset\n"),
        (["-H", "Content-Type: text/plain", "-H", "Upload-Offset: 0"], 415, b"23 MediaType\n"),
        (["-H", MEDIA], 400, b"24 BadOffset\n"),
    ):
        told, _ = curl(*words, *fields, url)
        same((replies(told)[-1][0], told.partition(b"\r\n\r\n")[2]), (status, text), "the refusal")
    told, _ = curl(url)
    same((replies(told)[-1][0], told.partition(b"\r\n\r\n")[2]), (409, b"33 Unfinished\n"), "the refusal of a GET")
    same(curl_head(url)["upload-offset"], "0", "the offset afterwards")


def curl_empty():
    """An upload of no bytes is complete at once."""
    holds(made("Upload-Length: 0"), b"")


def limited():
    """With `--connections 3` the server ends after three connections, and reports."""
    with Server(program, "--connections", "3") as other:
        files, path = f"{other.url}/files/", f"{other.url}/files"
        status, fields, _ = reply("-X", "POST", "-H", VERSION, "-H", "Upload-Length: 3", files)
        same(status, 201, "the status of the POST")
        url = other.url + fields["location"]
        same(sent(url, 0, file_of(b"abc"))[0], 3, "the offset")
        holds(url, b"abc")
        same(other.process.wait(20), 0, "the exit status")
        lines = other.output().splitlines()
        same("accepted 2" in lines, True, "whether the report says that two requests were accepted")
        identity = url.removeprefix(f"{path}/")
        told = [line.removeprefix(identity) for line in lines if line.startswith(identity)]
        events = [" 1 post-create 0/3 done", " 2 post-receive 3/3 done", " 3 post-finish 3/3 done"]
        same(told, events, "the events of the report")


def events():
    """With `--events` each event is a line on standard output as soon as it is handed over."""
    with Server(program, "--events") as other:
        status, fields, _ = reply("-X", "POST", "-H", VERSION, "-H", "Upload-Length: 3", f"{other.url}/files/")
        same(status, 201, "the status of the POST")
        identity = fields["location"].removeprefix("/files/")
        sent(other.url + fields["location"], 0, file_of(b"abc"))
        whole = "".join(
            f"{identity} {line} done\n" for line in ("1 post-create 0/3", "2 post-receive 3/3", "3 post-finish 3/3")
        )
        soon(lambda: other.output().count("\n") >= 3, "three lines")
        same(other.output(), whole, "the lines")


def statuses():
    """The program's messages and exit statuses if there is nothing to serve."""
    cases = [
        (["--help"], 2, "Usage: up <COMMAND>"),
        (["serve", "--lanes", "17"], 2, "--lanes <N>"),
        (["serve", "--address", "nowhere"], 1, 'up_server: cannot listen at "nowhere": '),
    ]
    for words, status, text in cases:
        ran = subprocess.run([program, *words], stdin=subprocess.DEVNULL, capture_output=True, text=True, timeout=20)
        same(ran.returncode, status, f"the exit status of {words}")
        same(text in ran.stderr, True, f"whether {ran.stderr!r} says {text!r}")
        same(ran.stdout, "", "the standard output")
    faults = [("/", "/dev/null", "read failed"), ("/dev/null", "/dev/full", "write failed")]
    for given, told, text in faults:
        source, sink = os.open(given, os.O_RDONLY), os.open(told, os.O_WRONLY)
        ran = subprocess.run([program, "replay"], stdin=source, stdout=sink, stderr=subprocess.PIPE, timeout=20)
        os.close(source)
        os.close(sink)
        same((ran.returncode, ran.stderr.decode()), (1, f"up_server: {text}\n"), f"what {given} to {told} ends with")


TUSPY = [
    tuspy_whole, tuspy_chunks, tuspy_by_url, tuspy_by_fingerprint, tuspy_stream, tuspy_async, tuspy_metadata,
    tuspy_checksum, tuspy_unknown,
]
CURL = [
    curl_options, curl_expect, curl_refused_expect, curl_chunked, curl_unknown_length, curl_partial_and_final,
    curl_override, curl_old_version, curl_resume, curl_one_connection, curl_refusals, curl_empty, limited, events,
    statuses,
]

program, names = words_of(__doc__)
packages = {"curl": "curl", "nginx": "nginx", "openssl": "openssl", Go.tool: Go.package, Node.tool: Node.package}
lacking = {tool for tool in packages if not shutil.which(tool)}
has_nginx = not lacking & {"nginx", "openssl"}
passed_over = [] if TusClient else ["tuspy, which isn't installed"]
passed_over += [f"{packages[tool]}, which isn't installed" for tool in sorted(lacking)]
passed_over += [] if has_nginx else ["the way through nginx of each client"]
cases = (TUSPY if TusClient else []) + (CURL if "curl" not in lacking else [])
groups = [Options(program, has_nginx), *(one(program, has_nginx) for one in (Go, Node) if one.tool not in lacking)]
groups += [Large(program, has_nginx)] * ("curl" not in lacking) + [Fronted(program)] * has_nginx
groups += [Tuspy(program)] * bool(has_nginx and TusClient)
cases += [case for group in groups for case in group.cases]
with tempfile.TemporaryDirectory() as folder, Server(program) as server:
    sys.exit(try_all(cases, names, passed_over))
