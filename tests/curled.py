"""Running curl for `tests/clients.py`, and reading its output."""
import re
import subprocess

from serving import MEDIA_TYPE

MEDIA = f"Content-Type: {MEDIA_TYPE}"
VERSION = "Tus-Resumable: 1.0.0"


def curl(*words, given=None, may_fail=False):
    """The output of curl, with the heads, and its verbose messages. curl ends after 20 seconds, unless the words say
    more."""
    done = subprocess.run(
        ["curl", "-sS", "-i", "-v", "--max-time", "20", *words], input=given, capture_output=True, check=not may_fail
    )
    return done.stdout, done.stderr.decode(errors="replace")


def replies(told):
    """The status and the fields of each head in curl's output."""
    heads = re.findall(rb"HTTP/(?:1\.[01]|2) (\d+)[^\r\n]*\r\n((?:[^\r\n]+\r\n)*)\r\n", told)
    lines = [(int(status), fields.decode().splitlines()) for status, fields in heads]
    return [(status, dict(line.lower().split(": ", 1) for line in fields)) for status, fields in lines]


def reply(*words, given=None):
    """The status and the fields of the last reply, and curl's verbose messages."""
    told, said = curl(*words, given=given)
    return *replies(told)[-1], said


def patch_words(offset, *words):
    """The words by which curl sends a PATCH at this offset, without the URL and the bytes."""
    return ["-X", "PATCH", "-H", VERSION, "-H", MEDIA, "-H", f"Upload-Offset: {offset}", *words]
