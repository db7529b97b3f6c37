#!/usr/bin/env python3
"""Draws conversations with the server, each with the expected result, to the byte.

    tests/draw_talks.py [--seed N] [--talks N] [--messages N] [--count]

The conversations are printed in the form that up_test_data reads (crates/up_test_data/src/talks.rt). Without options
they are crates/up_test_data/data/drawn.talks. The expected results come from a plain model of the server
(tests/model.py), which knows nothing of the server's code. With --count the script reports on standard error how often
each kind of answer was drawn, and exits with status 1 if a kind was never drawn.
"""
import argparse
import base64
import collections
import random
import re
import sys

from messages import (
    CRLF, HEAD_END, MAX_CHUNK_LINE, MAX_FIELDS, MEDIA_TYPE, REFUSALS, VERSION, escaped_line, id_text,
)
from model import KEPT, KEY_MISSING, TOO_LONG_HERE, TOO_LONG_TO_FINISH, Rules, Server

# Each kind of answer and of end, by the name under which it is counted.
KINDS = [f"{number} {name}" for number, (name, _) in REFUSALS.items()]
KINDS += [reason for _, reason in (KEY_MISSING, TOO_LONG_HERE, KEPT, TOO_LONG_TO_FINISH)]
KINDS += [
    "OPTIONS",
    "POST of a Plain upload",
    "POST of a Partial upload",
    "POST of a Final upload",
    "POST without a length",
    "POST of a complete upload",
    "HEAD",
    "HEAD without a length",
    "GET",
    "DELETE",
    "PATCH of bytes",
    "PATCH of no bytes",
    "PATCH that declares",
    "PATCH that completes",
    "100 Continue",
    "a method in place of another",
    "a body in chunks",
    "a cut PATCH",
    "a cut PATCH that changes nothing",
    "another cut message",
    "Connection: close",
    "HTTP/1.0",
    "left unread",
    "the end of the input",
]

LETTERS = b"abcdefghijklmnopqrstuvwxyz \\'\"0123456789\x00\r\n\xff"
KEYS = [b"name", b"filename", b"a", b"is_secret", b"k;y=1", b"cl\xc3\xa9"]
BAD_PAIRS = [b"", b"a Y", b"a YQ", b"a YQ=", b"a Y!==", b"a =", b"a YQ==YQ==", b"a YR==", b"a YQ== x", b",", b"a YQ==,a", b"b,a,b"]
NO_DIGITS = [b"", b"x", b"-1", b"+5", b"5 5", b"0x5", b"1.0", b"5,5"]
NINES = b"9" * 30
BAD_MEDIA = [None, b"", b"text/plain", b"application/offset+octet-streams", b"application/octet-stream", b"x;" + MEDIA_TYPE]
GOOD_MEDIA = [MEDIA_TYPE] * 5 + [b"Application/Offset+Octet-Stream", MEDIA_TYPE + b"; charset=x", MEDIA_TYPE + b" \t;"]
ENDINGS = ["end", "cut", "close", "head", "fields", "framing", "other", "coding", "old", "large", "lost", "broken"]
RULES = ["none", "key", "length", "keep", "finish", "none", "all"]


class Ask:
    """A message before it is written: method, target, fields and body. Fields whose value is None are left out."""

    def __init__(self, method, target, fields=(), body=None):
        self.method = method
        self.target = target
        self.version = VERSION
        self.fields = [field for field in fields if field[1] is not None]
        self.body = body


class Draw:
    """Draws messages that continue from the state of a server."""

    def __init__(self, rng, server):
        self.rng = rng
        self.server = server
        self.max_size = server.rules.max_size

    def chance(self, percent):
        return self.rng.randrange(100) < percent

    def bytes(self, count):
        letters = LETTERS if self.chance(25) else LETTERS[:26]
        return bytes(self.rng.choice(letters) for _ in range(count))

    def digits(self, number):
        return (b"00" if self.chance(5) else b"") + b"%d" % number

    def length(self):
        """The length of a new upload."""
        if self.chance(10):
            return 0
        if self.chance(10):
            return self.max_size
        return self.rng.randint(1, max(1, self.max_size * 2 // 3))

    def number(self):
        """The id of an upload, mostly of one that exists."""
        if self.server.uploads and self.chance(85):
            return self.rng.choice(self.server.uploads[-8:]).number
        return self.rng.randint(0, self.server.next_id + 1)

    def target(self, number):
        return b"/files/" + id_text(number)

    def open_upload(self):
        """An upload that takes bytes, or None."""
        found = [upload for upload in self.server.uploads if upload.kind != "Final" and not upload.is_whole]
        return self.rng.choice(found[-5:]) if found else None

    # Metadata and lists of parts.

    def metadata(self):
        """A metadata text, or None; mostly with the key that the server requires."""
        keys = self.rng.sample(KEYS, self.rng.choice([0, 0, 1, 1, 2, 3]))
        required = self.server.rules.require_key
        if required is not None and required not in keys and self.chance(80):
            keys.append(required)
        if not keys:
            return None if self.chance(90) else b""
        return (b", " if self.chance(10) else b",").join(self.pair(key) for key in keys)

    def pair(self, key):
        value = base64.b64encode(self.bytes(self.rng.randrange(5)))
        if not value:
            return key + (b" " if self.chance(10) else b"")
        return key + (b"  " if self.chance(10) else b" ") + value

    def url(self, number):
        front = self.rng.choice([b"", b"", b"", b"http://a", b"https://b.example:8080"])
        return front + self.target(number) + (b"?x=1" if self.chance(5) else b"")

    def concat(self, parts):
        gap = b"  " if self.chance(10) else b" "
        return b"final;" + (b" " if self.chance(10) else b"") + gap.join(self.url(part) for part in parts)

    def parts(self):
        """The parts of a final upload: mostly complete ones, sometimes one that is none."""
        whole = [upload.number for upload in self.server.uploads if upload.kind == "Partial" and upload.is_whole]
        parts = self.rng.choices(whole, k=self.rng.choice([1, 1, 2, 2, 3])) if whole else []
        if not parts or self.chance(25):
            others = [upload.number for upload in self.server.uploads if upload.number not in whole]
            parts.append(self.rng.choice(others) if others and self.chance(75) else self.number())
            self.rng.shuffle(parts)
        return parts

    # Messages of each kind.

    def create(self):
        partial = b"partial" if self.chance(45) else (b"" if self.chance(3) else None)
        late = self.chance(25)
        length = None if late else self.digits(self.length())
        return Ask(b"POST", b"/files/" if self.chance(90) else b"/files", [
            (b"Upload-Length", length),
            (b"Upload-Defer-Length", b"1" if late else None),
            (b"Upload-Metadata", self.metadata()),
            (b"Upload-Concat", partial),
        ])

    def create_final(self):
        ignored = self.rng.choice(NO_DIGITS + [NINES]) if self.chance(10) else None
        return Ask(b"POST", b"/files/", [
            (b"Upload-Concat", self.concat(self.parts())),
            (b"Upload-Metadata", self.metadata()),
            (b"Upload-Length", ignored),
        ])

    def create_badly(self):
        """A POST with one fault or more."""
        length, late, concat, metadata = self.digits(self.length()), None, None, self.metadata()
        fault = self.rng.randrange(6)
        if fault == 0:
            length, late = self.rng.choice([(None, None), (length, b"1"), (None, b"2"), (None, b""), (None, b"01"), (NINES, b"1")])
        elif fault == 1:
            length = self.rng.choice(NO_DIGITS)
        elif fault == 2:
            length = self.rng.choice([self.digits(self.max_size + 1), NINES, b"18446744073709551616"])
        elif fault == 3:
            concat = self.bad_concat()
        elif fault == 4:
            metadata = self.rng.choice(BAD_PAIRS)
        else:
            concat, metadata = self.bad_concat(), self.rng.choice(BAD_PAIRS)
        return Ask(b"POST", b"/files/", [
            (b"Upload-Length", length),
            (b"Upload-Defer-Length", late),
            (b"Upload-Concat", concat),
            (b"Upload-Metadata", metadata),
        ])

    def bad_concat(self):
        url = self.target(self.number())
        return self.rng.choice([
            b"Partial", b"partial;", b"parts", b"final", b"final;", b"Final;" + url, b"final ;" + url, b"final;/files/", b"final;x",
            b"final;" + url + b"," + url, b"final;" + url + b"\t" + url, b"final;" + url + b" /files", b"final;" + url + b"/",
            b"final;" + url[:-1],
        ])

    def patch_fields(self, offset, length=None):
        return [(b"Content-Type", self.rng.choice(GOOD_MEDIA)), (b"Upload-Offset", offset), (b"Upload-Length", length)]

    def patch(self):
        """A correct PATCH if there is an upload that takes bytes, or else a POST."""
        upload = self.open_upload()
        if upload is None:
            return self.create()
        room = (self.max_size if upload.length is None else upload.length) - upload.offset
        count = room if self.chance(40) else self.rng.randint(0 if self.chance(15) else min(1, room), room)
        length = self.digits(upload.length) if upload.length is not None and self.chance(10) else None
        return Ask(b"PATCH", self.target(upload.number), self.patch_fields(self.digits(upload.offset), length), self.bytes(count))

    def patch_declaring(self):
        """A PATCH with a length, if possible for an upload without one."""
        found = [upload for upload in self.server.uploads if upload.kind != "Final" and upload.length is None]
        upload = self.rng.choice(found[-5:]) if found else self.open_upload()
        if upload is None:
            return self.create()
        body = self.bytes(self.rng.randint(0, self.max_size - upload.offset) // 2)
        reached = upload.offset + len(body)
        length = self.rng.choice([
            self.digits(reached), self.digits(reached), self.digits(reached), self.digits(self.rng.randint(reached, self.max_size)),
            self.digits(max(0, upload.offset - 1)), self.digits(max(0, reached - 1)), self.digits(self.max_size + 1), NINES,
            self.rng.choice(NO_DIGITS),
        ])
        return Ask(b"PATCH", self.target(upload.number), self.patch_fields(self.digits(upload.offset), length), body)

    def patch_badly(self):
        """A PATCH of any upload with one fault or more."""
        number = self.number()
        upload = self.server.find(number)
        at = upload.offset if upload else 0
        media, offset = MEDIA_TYPE, self.digits(at)
        body = self.bytes(self.rng.randint(0, min(4, self.max_size)))
        fault = self.rng.randrange(5)
        if fault == 0:
            media = self.rng.choice(BAD_MEDIA)
        elif fault == 1:
            offset = self.rng.choice([None, *NO_DIGITS])
        elif fault == 2:
            offset = self.rng.choice([self.digits(at + 1), self.digits(max(0, at - 1)), NINES])
        elif fault == 3:
            body = self.bytes(self.max_size)
        else:
            body = b""
        if self.chance(10):
            media, offset = self.rng.choice(BAD_MEDIA), self.rng.choice(NO_DIGITS)
        return Ask(b"PATCH", self.target(number), [(b"Content-Type", media), (b"Upload-Offset", offset)], body)

    def simple(self):
        method = self.rng.choice([b"HEAD", b"HEAD", b"GET", b"GET", b"GET", b"DELETE"])
        return Ask(method, self.target(self.number()))

    def options(self):
        return Ask(b"OPTIONS", self.rng.choice([b"/files/", b"*", b"/", b"/any?thing", b"http://a/b"]))

    def elsewhere(self):
        """A target that doesn't exist."""
        here = self.target(self.number())
        target = self.rng.choice([
            b"/", b"/file", b"/filess", b"/files/x", b"/files//", here + b"/", here[:-1], here + b"0", here[:-1] + b"A", b"/Files/",
            b"http://a/other", b"http://a/", b"*",
        ])
        return Ask(self.rng.choice([b"POST", b"PATCH", b"HEAD", b"GET", b"DELETE", b"PUT"]), target)

    def wrong_method(self):
        if self.chance(50):
            return Ask(self.rng.choice([b"PUT", b"GET", b"HEAD", b"PATCH", b"DELETE", b"post"]), b"/files/")
        return Ask(self.rng.choice([b"PUT", b"POST", b"BREW", b"patch", b"TRACE"]), self.target(self.number()))

    def other_version(self):
        ask = self.rng.choice([self.create, self.patch, self.simple])()
        ask.version = self.rng.choice([None, b"0.2.2", b"1.0.1", b"", b"1.0.0, 0.2.2", b"1"])
        return ask

    def repeated(self):
        """A message that repeats a field which may come only once."""
        ask = self.rng.choice([self.create, self.create_final, self.patch, self.patch_declaring, self.simple])()
        more = (b"Tus-Resumable", VERSION)
        if ask.fields and self.chance(75):
            more = self.rng.choice(ask.fields)
        elif self.chance(30):
            ask.fields.append((b"X-HTTP-Method-Override", ask.method))
            more = (b"X-HTTP-Method-Override", ask.method)
        ask.fields.append(more)
        return ask

    def overridden(self):
        """A message whose method is in a field."""
        ask = self.rng.choice([self.create, self.patch, self.patch, self.simple, self.simple, self.options])()
        ask.fields.append((b"X-HTTP-Method-Override", ask.method if self.chance(90) else self.rng.choice([b"", b"get", b"a b"])))
        ask.method = self.rng.choice([b"POST", b"POST", b"GET", b"HEAD", b"BREW"])
        return ask

    def message(self):
        """The next message of a conversation."""
        makers = {
            self.create: 17,
            self.create_final: 9,
            self.create_badly: 7,
            self.patch: 23,
            self.patch_declaring: 8,
            self.patch_badly: 9,
            self.simple: 13,
            self.options: 1,
            self.elsewhere: 2,
            self.wrong_method: 3,
            self.other_version: 2,
            self.repeated: 3,
            self.overridden: 5,
        }
        return self.rng.choices(list(makers), list(makers.values()))[0]()

    # How a message is written.

    def chunks(self, body):
        """A body in chunks, sometimes with an extension and a trailer."""
        text = b""
        while body:
            count = self.rng.randint(1, len(body))
            size = self.rng.choice([b"%x", b"%X", b"%04x"]) % count
            text += size + (b";x=y" if self.chance(10) else b"") + CRLF + body[:count] + CRLF
            body = body[count:]
        return text + b"0" + CRLF + (b"X-T: 1" + CRLF if self.chance(20) else b"") + CRLF

    def framed(self, ask):
        """The fields and the bytes of a body."""
        if ask.body is None and self.chance(95):
            return [], b""
        body = self.bytes(min(3, self.max_size)) if ask.body is None else ask.body
        if self.chance(25):
            return [(b"Transfer-Encoding", self.rng.choice([b"chunked", b"chunked", b"Chunked"]))], self.chunks(body)
        if not body and self.chance(50):
            return [], b""
        return [(b"Content-Length", self.digits(len(body)))], body

    def extras(self):
        """Fields that change nothing, or that ask for `100 Continue`."""
        extras = []
        if self.chance(6):
            extras.append((b"Expect", self.rng.choice([b"100-continue", b"100-Continue", b"100-continue, x", b"other"])))
        if self.chance(4):
            extras.append((b"Connection", self.rng.choice([b"keep-alive", b"x, y", b"closed"])))
        if self.chance(4):
            extras.append((b"X-Other", self.rng.choice([b"", b"1", b"a: b, c"])))
        return extras

    def written_target(self, target):
        if target.startswith(b"/") and self.chance(4):
            target = b"http://a" + target
        return target + (b"?x=1" if target != b"*" and self.chance(4) else b"")

    def line(self, field):
        """The line of a field, sometimes in other case or with blanks."""
        name, value = field
        if self.chance(4):
            name = self.rng.choice([name.lower(), name.upper()])
        return name + (b":" if self.chance(3) else b": ") + value + (b" \t" if self.chance(3) else b"")

    def write(self, ask, version=b"HTTP/1.1", framing=None):
        """The bytes of a message. `framing` replaces the fields and bytes of its body."""
        fields, body = self.framed(ask) if framing is None else framing
        fields = ask.fields + fields + self.extras()
        if self.chance(10):
            self.rng.shuffle(fields)
        lines = [ask.method + b" " + self.written_target(ask.target) + b" " + version, b"Host: a"]
        if ask.version is not None:
            lines.append(b"Tus-Resumable: " + ask.version)
        lines += [self.line(field) for field in fields]
        return (CRLF if self.chance(1) else b"") + CRLF.join(lines) + HEAD_END + body

    # How a conversation ends.

    def ending(self, name):
        """The last bytes of a conversation, and whether more bytes may follow them."""
        if name in ("close", "old"):
            return self.closing(name), True
        if name == "end":
            return b"", False
        return getattr(self, "ending_" + name)(), False

    def closing(self, name):
        """A message after which the conversation closes."""
        ask = self.message()
        body = ask.body or b""
        framing = [(b"Content-Length", b"%d" % len(body))]
        if name == "old":
            return self.write(ask, b"HTTP/1.0", (framing, body))
        ask.fields.append((b"Connection", self.rng.choice([b"close", b"Close", b"x, close"])))
        return self.write(ask, framing=(framing, body))

    def ending_cut(self):
        """A PATCH that breaks off inside its body."""
        return self.cut(self.patch_declaring() if self.chance(30) else self.patch())

    def ending_lost(self):
        """A PATCH that breaks off inside its body, mostly with a fault."""
        return self.cut(self.patch_badly())

    def ending_other(self):
        """A message other than a PATCH that breaks off inside its body."""
        ask = self.rng.choice([self.create, self.create_final, self.simple])()
        ask.body = self.bytes(min(4, self.max_size))
        return self.cut(ask)

    def cut(self, ask):
        """A message without the end of its body."""
        body = ask.body or b"x"
        if self.chance(30):
            text, field = self.chunks(body), (b"Transfer-Encoding", b"chunked")
        else:
            text, field = body, (b"Content-Length", b"%d" % len(body))
        kept = text[: self.rng.randrange(len(text))]
        return self.write(ask, framing=([field], kept))

    def ending_head(self):
        return self.rng.choice([b"POST", b"GET /files/", b"GET /files/ HTTP/2.0", b"GET / HTTP/1.1" + CRLF + b"no field"]) + HEAD_END

    def ending_broken(self):
        """A message that breaks off inside its head."""
        whole = self.write(self.message()).lstrip(CRLF)
        return whole[: self.rng.randint(1, whole.index(HEAD_END) + 3)]

    def ending_fields(self):
        ask = self.message()
        ask.fields += [(b"X", b"1")] * MAX_FIELDS
        return self.write(ask)

    def ending_framing(self):
        """A message whose body can't be delimited."""
        length, coding = (b"Content-Length", b"1"), (b"Transfer-Encoding", b"chunked")
        chunks = b"1" + CRLF + b"a" + CRLF + b"0" + HEAD_END
        fields, body, version = self.rng.choice([
            ([length, length], b"a", b"HTTP/1.1"),
            ([length, coding], chunks, b"HTTP/1.1"),
            ([coding, coding], chunks, b"HTTP/1.1"),
            ([coding], chunks, b"HTTP/1.0"),
            ([(b"Content-Length", b"+1")], b"a", b"HTTP/1.1"),
            ([(b"Content-Length", b"1, 1")], b"a", b"HTTP/1.1"),
            ([coding], b"zz" + CRLF + chunks, b"HTTP/1.1"),
            ([coding], b"1" + CRLF + b"ab" + CRLF + b"0" + HEAD_END, b"HTTP/1.1"),
            ([coding], b"1;" + b"x" * MAX_CHUNK_LINE + CRLF + b"a" + CRLF + b"0" + HEAD_END, b"HTTP/1.1"),
        ])
        return self.write(self.message(), version, (fields, body))

    def ending_coding(self):
        coding = self.rng.choice([b"gzip", b"gzip, chunked", b"identity", b""])
        return self.write(self.message(), framing=([(b"Transfer-Encoding", coding)], b""))

    def ending_large(self):
        """A message whose body exceeds the limit."""
        above = self.max_size + 1
        fields, body = self.rng.choice([
            ([(b"Content-Length", b"%d" % above)], b""),
            ([(b"Content-Length", NINES)], b""),
            ([(b"Transfer-Encoding", b"chunked")], b"%x" % above + CRLF),
            ([(b"Transfer-Encoding", b"chunked")], b"1" + CRLF + b"a" + CRLF + b"%x" % self.max_size + CRLF),
        ])
        return self.write(self.message(), framing=(fields, body))


# Talks as text.


def escaped(data):
    """A text that stands for these bytes, at the end of a line."""
    return escaped_line(data, quotes=False)


def marked(mark, data):
    """Bytes as lines of a talk: each one that ends with CRLF, and the rest after the last CRLF."""
    *lines, rest = data.split(CRLF)
    for line in lines:
        yield f"{mark} {escaped(line)}".rstrip()
    if rest:
        yield f"{mark}. {escaped(rest)}"


def asked_lines(data):
    """The lines of a request, with the usual start of a message abbreviated."""
    start = re.match(rb"([!-~]+ [!-~]+) HTTP/1\.1\r\nHost: a\r\nTus-Resumable: 1\.0\.0\r\n", data)
    if start:
        yield f">> {escaped(start[1])}"
        data = data[start.end() :]
    yield from marked(">", data)


def wanted_lines(data):
    """The lines of an expected reply, with the usual start of a response abbreviated."""
    start = re.match(rb"HTTP/1\.1 ([ -~]+)\r\nTus-Resumable: 1\.0\.0\r\nCache-Control: no-store\r\n", data)
    if start:
        yield f"<< {escaped(start[1])}"
        data = data[start.end() :]
    elif data.startswith(b"HTTP/1.1 100 Continue" + HEAD_END):
        cut = data.index(HEAD_END) + len(HEAD_END)
        yield from marked("<", data[:cut])
        yield from wanted_lines(data[cut:])
        return
    yield from marked("<", data)


def draw_rules(rng, name):
    """The words of a server, with these closures."""
    rules = Rules(rng.randint(1, 4), rng.randint(1, 4), rng.choice([5, 8, 12, 20, 33]))
    if name in ("key", "all"):
        rules.require_key = rng.choice(KEYS[:3])
    if name in ("length", "all"):
        rules.max_length = rng.randint(rules.max_size // 3, rules.max_size - 1)
    if name == "keep" or (name == "all" and rng.randrange(2) == 0):
        rules.keep = True
    if name in ("finish", "all"):
        rules.max_finish = rng.randint(rules.max_size // 3, rules.max_size - 1)
    return rules


def draw_talk(rng, place, messages, kinds):
    """The lines of a talk. Its place determines its closures and how it ends."""
    server = Server(draw_rules(rng, RULES[place % len(RULES)]), kinds)
    draw = Draw(rng, server)
    yield f"words {server.rules.words()}"
    for _ in range(messages - 1):
        data = draw.write(draw.message())
        yield from asked_lines(data)
        yield from wanted_lines(server.take(data))
    data, more = draw.ending(ENDINGS[place % len(ENDINGS)])
    yield from asked_lines(data)
    if data:
        yield from wanted_lines(server.take(data))
    else:
        kinds["the end of the input"] += 1
    if more:
        kinds["left unread"] += 1
        yield "unread"
        yield from asked_lines(draw.write(draw.message()))
    yield from (f"| {line}".rstrip() for line in server.report())


def main():
    words = argparse.ArgumentParser()
    words.add_argument("--seed", type=int, default=1, help="what is drawn follows from this number")
    words.add_argument("--talks", type=int, default=12, help="how many conversations")
    words.add_argument("--messages", type=int, default=80, help="how many messages each of them has")
    words.add_argument("--count", action="store_true", help="tell how often each kind of answer was drawn")
    given = words.parse_args()
    rng = random.Random(given.seed)
    kinds = collections.Counter()
    # The stored file names the script like this in its first line.
    print(f"# Conversations that tests/draw_talks.py drew: --seed {given.seed} --talks {given.talks} --messages {given.messages}")
    for place in range(given.talks):
        print(f"\ntalk drawn {given.seed}.{place + 1}")
        for line in draw_talk(rng, place, given.messages, kinds):
            print(line)
    if given.count:
        for kind in KINDS:
            print(f"{kinds[kind]:8} {kind}", file=sys.stderr)
        if not all(kinds[kind] for kind in KINDS):
            sys.exit("draw_talks: some kind of answer was never drawn")


main()
