#!/usr/bin/env python3
"""Runs `up` with wrong words, and with words that it can't carry out, and compares its exit status and what it then
reports with docs/RUNNING.md. Also runs it on an empty input, and on one that can't be read.

    tests/words.py [--program PATH] [NAME..]

It needs only Python 3 and Linux, and takes less than a second. The gate, `.ci/run`, runs it with the program that it
has built.

For each case, one line says whether it passed. The last line is `N passed, M failed`, and the exit status is 1 if a
case failed.
"""
import os
import re
import shlex
import shutil
import socket
import subprocess
import sys
import tempfile

from serving import ROOT, same, try_all, words_of

# The most seconds that a run may take: looking up a name may take long.
MAX_SECONDS = 60

# A name that never resolves (RFC 6761, section 6.4).
NOBODY = "nobody.invalid"


def run(*words, **files):
    """The status of a run with these words, and its standard error. Its standard output must be empty."""
    files = {"stdin": subprocess.DEVNULL, "stdout": subprocess.PIPE, "stderr": subprocess.PIPE, **files}
    ran = subprocess.run([program, *words], timeout=MAX_SECONDS, **files)
    same(ran.stdout, b"", "what stands on standard output")
    return ran.returncode, ran.stderr


def refused(*words):
    """What the program reports about words that it refuses with status 2."""
    status, said = run(*words)
    same(status, 2, f"the status of {words}")
    same(said.endswith(b"\n"), True, f"whether {said!r} is whole lines")
    return said


def why_not(address):
    """Why the program can't listen at this address."""
    status, said = run("serve", "--address", address)
    found = re.fullmatch(rf'up_server: cannot listen at "{re.escape(address)}": ([^\n]+)\n', said.decode())
    same(found is not None, True, f"whether {said!r} says why it can't listen at {address}")
    same(status, 1, f"the status where it can't listen at {address}")
    return found[1]


def no_text():
    """Words that aren't UTF-8 are refused with status 2 and a line that says so."""
    for words in ((b"serve", b"--address", b"\xff:80"), (b"\xc3\x28",), (b"replay", b"--require-key", b"a\x80")):
        said = refused(*words)
        same((said.count(b"\n"), b"UTF-8" in said), (1, True), f"whether {said!r} is a line that says so")


def nobody_hears():
    """Wrong words, and words for help, end with status 2 if standard error is closed, and if its reader has gone."""
    for words in (["nonsense"], ["serve", "--lanes", "0"], ["replay", "--address", "a:1"], ["--help"], [b"\xff"]):
        status, _ = run(*words, stderr=None, preexec_fn=lambda: os.close(2))
        same(status, 2, f"the status of {words} with standard error closed")
        reader, writer = os.pipe()
        os.close(reader)
        try:
            status, _ = run(*words, stderr=writer)
        finally:
            os.close(writer)
        same(status, 2, f"the status of {words} where nobody reads standard error")


def taken_port():
    """A port at which another program listens is refused with its own reason."""
    with socket.create_server(("127.0.0.1", 0)) as other:
        address = f"127.0.0.1:{other.getsockname()[1]}"
        same(why_not(address) == why_not("127.0.0.1"), False, "whether an address without a port has its reason")


def unknown_name():
    """A name that doesn't resolve is refused with its own reason."""
    same(why_not(f"{NOBODY}:80") == why_not("127.0.0.1"), False, "whether an address without a port has its reason")


def no_port():
    """An address without a port is refused, and so is one whose port isn't the number of a port."""
    for address in ("127.0.0.1", "", "127.0.0.1:", "127.0.0.1:65536", "127.0.0.1:http?", "[::1"):
        why_not(address)


def too_few_and_too_many():
    """Numbers out of range, and texts that aren't numbers, are refused, and each is named as it was given."""
    for words in (
        ("replay", "--lanes", "0"), ("replay", "--lanes", "17"), ("serve", "--status", "0"), ("serve", "--status", "86401"),
        ("serve", "--status", "x"), ("serve", "--status", "1.5"), ("serve", "--grace", "0"),
        ("serve", "--grace", "86401"), ("serve", "--shard", "256"), ("serve", "--shard", "1a"), ("serve", "--shard", "0x1a"),
        ("serve", "--shard", "18446744073709551616"),
    ):
        said = refused(*words)
        named = [word.encode() in said for word in words[1:]]
        same(named, [True, True], f"whether {said!r} names the word and the number")


# Command lines that are refused: numbers out of range or not numbers, words without their value or with one that they
# don't take, words that are given twice or are unknown, and words of the other command.
WRONG = """
    replay --lanes 0
    replay --lanes 17
    replay --capacity 0
    replay --capacity 4097
    replay --max-size 0
    replay --max-size 1073741825
    replays
    replay --lane 1
    replay --max-length 18446744073709551616
    replay --max-length 0x10
    replay --max-length ''
    replay --max-length
    replay --max-length 4 --max-length 4
    replay --require-key
    replay --require-key --keep
    replay --require-key a --require-key b
    replay --keep=yes
    replay --keep --keep
    --keep replay
    replay filename
    replay --address 127.0.0.1:0
    replay --events
    replay --patience 1
    serve --events --events
    serve --connections 0
    serve --connections 65537
    serve --connections
    serve --open 0
    serve --open 4097
    serve --patience 0
    serve --patience 86401
    serve --least-rate 0
    serve --least-rate 1073741825
    serve --address
    serve --hooks-http
    serve --hooks-http http://a/ --hooks-http http://b/
    serve --hooks-http http://a/ --hooks-http-timeout 0
    serve --hooks-http http://a/ --hooks-http-timeout 601
    serve --hooks-http-timeout 10
    serve --hooks-http-forward-headers Authorization
    serve --hooks-enabled-events post-finish
    serve replay
    --help
"""


def wrong_words():
    """Wrong words are refused, and so are none at all, and words for help."""
    refused()
    for line in WRONG.strip().splitlines():
        refused(*shlex.split(line))


def version():
    """`--version` prints the version, and the logic that docs/PROVED.md and `rt version` name, with status 0."""
    ran = subprocess.run([program, "--version"], timeout=MAX_SECONDS, capture_output=True)
    same((ran.returncode, ran.stderr), (0, b""), "the status, and what is said on standard error")
    found = re.fullmatch(r"up 1\.0\.0\nproved by Rattle's logic ([0-9a-f]{16})\n", ran.stdout.decode())
    same(found is not None, True, f"whether {ran.stdout!r} is the version 1.0.0 and a logic")
    with open(os.path.join(ROOT, "docs", "PROVED.md"), encoding="utf-8") as file:
        same(f"logic {found[1]}" in file.read(), True, f"whether docs/PROVED.md names the logic {found[1]}")
    if shutil.which("rt"):
        toolchain = subprocess.run(["rt", "version"], timeout=MAX_SECONDS, stdout=subprocess.PIPE).stdout.decode()
        same(f"logic {found[1]}" in toolchain, True, f"whether {toolchain!r} is of the logic {found[1]}")
    reader, writer = os.pipe()
    os.close(reader)
    with open(writer, "wb") as nobody:
        ran = subprocess.run([program, "--version"], timeout=MAX_SECONDS, stdout=nobody, stderr=subprocess.PIPE)
    same((ran.returncode, ran.stderr), (1, b"up_server: write failed\n"), "what is said where nobody reads the version")


def nothing_asked():
    """`replay` of an empty input reports that nothing was accepted, and ends with status 0."""
    ran = subprocess.run([program, "replay"], timeout=MAX_SECONDS, input=b"", capture_output=True)
    report = b"\naccepted 0\nlane 0 drained 0\nlane 1 drained 0\n"
    same((ran.returncode, ran.stdout, ran.stderr), (0, report, b""), "the status, the report and what is said beside it")


def unread_and_unwritten():
    """`replay` ends with status 1 if its input can't be read, which it says after its report, and if its output can't
    be written."""
    report = b"\naccepted 0\nlane 0 drained 0\nlane 1 drained 0\n"
    folder = os.open("/", os.O_RDONLY)
    try:
        ran = subprocess.run([program, "replay"], timeout=MAX_SECONDS, stdin=folder, capture_output=True)
    finally:
        os.close(folder)
    same((ran.returncode, ran.stdout, ran.stderr), (1, report, b"up_server: read failed\n"), "what is said of a folder")
    with open("/dev/full", "wb") as full:
        ran = subprocess.run([program, "replay"], timeout=MAX_SECONDS, input=b"", stdout=full, stderr=subprocess.PIPE)
    same((ran.returncode, ran.stderr), (1, b"up_server: write failed\n"), "what is said of a full disk")


def closed_streams():
    """A standard stream that is closed when the program starts is empty, or drops what is written to it, with the same
    status as ever."""
    report = b"\naccepted 0\nlane 0 drained 0\nlane 1 drained 0\n"
    for bits in range(1, 8):
        closed = [stream for stream in range(3) if bits >> stream & 1]

        def close():
            for stream in closed:
                os.close(stream)

        for words, status, wanted in ((["replay"], 0, report), (["replay", "--lanes", "0"], 2, b"")):
            ran = subprocess.run(
                [program, *words], timeout=MAX_SECONDS, stdin=subprocess.DEVNULL, capture_output=True, preexec_fn=close,
            )
            same(ran.returncode, status, f"the status of {words} with {closed} closed")
            same(ran.stdout, b"" if 1 in closed else wanted, f"what {words} writes with {closed} closed")
            same(ran.stderr == b"", 2 in closed or status == 0, f"whether {words} say nothing with {closed} closed")


def words_of_serve():
    """`replay` refuses `--events`, whose lines would be among its replies, and words that are meaningless for it."""
    for words in (["--events"], ["--until-eof"], ["--shard", "1"]):
        same(words[0].encode() in refused("replay", *words), True, "whether the word is named that is refused")


# What is said of words about a hook server that can't be carried out.
NO_HOOKS = {
    b"up_server: --hooks-http takes http:// and a host\n": [
        ["--hooks-http", url] for url in (
            "", "a", "127.0.0.1:9000", "/hook", "http:", "http://", "http:///hook", "https://a/", "HTTPS://a/", "ftp://a/",
            "http://user@a/", "http://user:key@a/",
        )
    ],
    b"up_server: --hooks-http-forward-headers takes names of fields, with commas between\n": [
        ["--hooks-http", "http://a/", "--hooks-http-forward-headers", names] for names in ("", "a,", "a,,b", "a:", "a b")
    ],
    b"up_server: --hooks-enabled-events takes names of hooks, with commas between\n": [
        ["--hooks-http", "http://a/", "--hooks-enabled-events", names]
        for names in ("", ",", "post-finish,", "post-finished", "Post-Finish", "post-finish;post-create")
    ],
}


def no_hooks():
    """A hook server without a host, or by another scheme, is refused, and so are names of no field and of no hook. No
    folder of a store is made before. `replay` asks and tells nobody."""
    with tempfile.TemporaryDirectory() as folder:
        store = os.path.join(folder, "store")
        for line, wrong in NO_HOOKS.items():
            for words in wrong:
                same(refused("serve", "--store", store, *words), line, f"what is said of {words}")
        same(os.path.exists(store), False, "whether a folder was made")
    for word in ("--hooks-http", "--hooks-http-timeout", "--hooks-http-forward-headers", "--hooks-enabled-events"):
        same(word.encode() in refused("replay", word, "10"), True, f"whether {word} is named, which replay refuses")


def no_shard():
    """A shard that isn't a number, is negative, is repeated or is missing is refused."""
    for words in (["--shard="], ["--shard=-1"], ["--shard", "1", "--shard", "1"], ["--shard"]):
        same(b"--shard" in refused("serve", *words), True, "whether the word is named that is refused")


CASES = [
    no_text, nobody_hears, taken_port, unknown_name, no_port, too_few_and_too_many, wrong_words, version, nothing_asked,
    unread_and_unwritten, closed_streams, words_of_serve, no_shard,
    no_hooks,
]

program, names = words_of(__doc__)
sys.exit(try_all(CASES, names))
