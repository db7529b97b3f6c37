"""A plain reader of messages: what their bytes say, what they ask for by the rules of docs/PROTOCOL.md, which are
checked one after another, how an answer is written, and how bytes are escaped. `model.py`, `draw_rows.py` and
`draw_talks.py` use it, and it knows nothing of the server's code.
"""
import base64
import re
import types

CRLF = b"\r\n"
HEAD_END = CRLF + CRLF
MAX_HEAD = 16_384
MAX_FIELDS = 64
MAX_CHUNK_LINE = 256
VERSION = b"1.0.0"
MEDIA_TYPE = b"application/offset+octet-stream"
TEXT = (b"Content-Type", b"text/plain")
UPLOAD_METHODS = (b"HEAD", b"GET", b"PATCH", b"DELETE")

PHRASES = {
    200: "OK",
    201: "Created",
    204: "No Content",
    400: "Bad Request",
    403: "Forbidden",
    404: "Not Found",
    405: "Method Not Allowed",
    409: "Conflict",
    412: "Precondition Failed",
    413: "Payload Too Large",
    415: "Unsupported Media Type",
    422: "Unprocessable Entity",
    431: "Request Header Fields Too Large",
    501: "Not Implemented",
    503: "Service Unavailable",
}

# The name and the status of each refusal that a conversation can meet.
REFUSALS = {
    1: ("BadHead", 400),
    2: ("HeadTooLarge", 431),
    3: ("BadFraming", 400),
    4: ("UnknownCoding", 501),
    5: ("BodyTooLarge", 413),
    10: ("Version", 412),
    11: ("NoSuchPath", 404),
    12: ("Method", 405),
    13: ("Repeated", 400),
    14: ("BadLength", 400),
    15: ("TooLong", 413),
    16: ("BadConcat", 400),
    17: ("BadMetadata", 400),
    21: ("NotFound", 404),
    22: ("FinalUpload", 403),
    23: ("MediaType", 415),
    24: ("BadOffset", 400),
    25: ("WrongOffset", 409),
    26: ("TooMuch", 413),
    27: ("PartUnknown", 400),
    28: ("PartNotPartial", 400),
    29: ("PartUnfinished", 400),
    30: ("SumTooLong", 413),
    33: ("Unfinished", 409),
    36: ("BadDeclared", 400),
    37: ("DeclaredTooLong", 413),
}


class Refused(Exception):
    """A message is refused, with one of the numbers above or with the words of a closure."""

    def __init__(self, number, said=None, fields=()):
        super().__init__(number)
        if said:
            self.status, self.text = said
        else:
            name, self.status = REFUSALS[number]
            self.text = f"{number} {name}"
        self.fields = [*fields, TEXT]
        # The message, if its head could be read and its body is refused.
        self.message = None


class BrokenOff(Refused):
    """The input ends within a head, and the bytes that came are a prefix of one."""


# Bytes of a conversation: messages in, responses out.

TOKEN = rb"[!#-'*+.0-9A-Z^-z|~-]"
VALUE = rb"[\t -~\x80-\xff]"
START = re.compile(rb"(%s+) ([!-~\x80-\xff]+) (HTTP/1\.[01])\r?\n" % TOKEN)
FIELD = re.compile(rb"(%s+):(%s*)\r?\n" % (TOKEN, VALUE))
EMPTY = re.compile(rb"\r?\n")
CHUNK = re.compile(rb"([0-9A-Fa-f]{1,16})[ \t]*(;[^\r\n]*)?\r\n")


def prefixes_of(*parts):
    """A pattern for each prefix of a line that has these parts in this order."""
    text = b""
    for part in reversed(parts):
        text = b"(%s%s)?" % (part, text)
    return re.compile(text)


PREFIX_OF_START = prefixes_of(
    TOKEN + b"+", b" ", rb"[!-~\x80-\xff]+", b" ", b"H", b"T", b"T", b"P", b"/", b"1", rb"\.", b"[01]", b"\r"
)
PREFIX_OF_FIELD = prefixes_of(TOKEN + b"+", b":", VALUE + b"*", b"\r")


class Message:
    """A message that was read. `cut` says that the input ended inside its body, and `continues` that its sender waits
    for `100 Continue`."""

    def __init__(self, method, target, version):
        self.method = method
        self.target = target
        self.version = version
        self.fields = []
        self.body = b""
        self.cut = False
        self.continues = False

    def values(self, name):
        """The values of all fields of this name."""
        return [value for field, value in self.fields if field.lower() == name.lower()]

    def value(self, name):
        """The value of the only field of this name, or None."""
        return next(iter(self.values(name)), None)

    @property
    def bare(self):
        return self.method == b"HEAD"

    @property
    def closes(self):
        tokens = b",".join(self.values(b"Connection")).split(b",")
        return self.version == b"HTTP/1.0" or b"close" in [token.strip(b" \t").lower() for token in tokens]


def is_digits(text):
    return text is not None and re.fullmatch(rb"[0-9]+", text) is not None


def read_fields(data, place, fields, is_judged=True):
    """Appends the fields of these lines to a list, up to an empty line, and returns the place after that line, or None
    if the data ends before it. An incomplete last line is refused if `is_judged` is set and it can't become a field."""
    count = 0
    while not (empty := EMPTY.match(data, place)):
        if b"\n" not in data[place:]:
            if is_judged and not PREFIX_OF_FIELD.fullmatch(data[place:]) and data[place:] != b"\r":
                raise Refused(1)
            return None
        field = FIELD.match(data, place)
        if field is None:
            raise Refused(1)
        count += 1
        if count > MAX_FIELDS:
            raise Refused(2)
        fields.append((field[1], field[2].strip(b" \t")))
        place = field.end()
    return empty.end()


def read_head(data):
    """A message without its body, and the bytes after its head."""
    front, place = data[:MAX_HEAD], 0
    while empty := EMPTY.match(front, place):
        place = empty.end()
    start = START.match(front, place)
    if start is None and not PREFIX_OF_START.fullmatch(front, place) and front[place:] != b"\r":
        raise Refused(1)
    end = None
    if start is not None:
        message = Message(*start.groups())
        end = read_fields(front, start.end(), message.fields)
    if end is None:
        raise BrokenOff(1 if len(data) < MAX_HEAD else 2)
    return message, data[end:]


def check_framing(message, limit):
    """The number of bytes in the body, or None if the body comes in chunks."""
    lengths = message.values(b"Content-Length")
    codings = message.values(b"Transfer-Encoding")
    if len(lengths) + len(codings) > 1 or not all(map(is_digits, lengths)):
        raise Refused(3)
    if codings and message.version == b"HTTP/1.0":
        raise Refused(3)
    if codings and codings[0].lower() != b"chunked":
        raise Refused(4)
    if codings:
        return None
    length = int(lengths[0]) if lengths else 0
    if length > limit:
        raise Refused(5)
    return length


def expects_more(message, length):
    """Whether the sender waits for `100 Continue`."""
    expects = [value.lower() for value in message.values(b"Expect")]
    return message.version == b"HTTP/1.1" and b"100-continue" in expects and length != 0


def read_chunks(message, data, limit):
    """Reads a body in chunks, and returns the bytes after it."""
    while b"\n" in data:
        line = data[: data.index(b"\n") + 1]
        size = CHUNK.fullmatch(line)
        if size is None or len(line) > MAX_CHUNK_LINE:
            raise Refused(3)
        size, data = int(size[1], 16), data[len(line) :]
        if size == 0:
            return skip_trailers(message, data)
        if len(message.body) + size > limit:
            raise Refused(5)
        message.body += data[:size]
        data = data[size:]
        if data in (b"", b"\r"):
            message.cut = True
            return b""
        if not data.startswith(CRLF):
            raise Refused(3)
        data = data[2:]
    if len(data) >= MAX_CHUNK_LINE:
        raise Refused(3)
    message.cut = True
    return b""


def skip_trailers(message, data):
    """The bytes after the trailers of a body in chunks. A trailer that breaks off is not checked."""
    try:
        end = read_fields(data[:MAX_HEAD], 0, [], is_judged=False)
    except Refused:
        raise Refused(3) from None
    if end is None and len(data) >= MAX_HEAD:
        raise Refused(3)
    message.cut = end is None
    return b"" if end is None else data[end:]


def read_message(data, limit):
    """A message with a body of at most `limit` bytes, and the bytes after it. A fault in the body is raised with the
    message."""
    message, data = read_head(data)
    try:
        length = check_framing(message, limit)
        message.continues = expects_more(message, length)
        if length is None:
            return message, read_chunks(message, data, limit)
    except Refused as refused:
        refused.message = message
        raise
    message.body = data[:length]
    message.cut = len(data) < length
    return message, data[length:]


def write_response(status, fields, body, bare, closes):
    """The bytes of a response."""
    lines = [f"HTTP/1.1 {status} {PHRASES[status]}".encode(), b"Tus-Resumable: " + VERSION, b"Cache-Control: no-store"]
    lines += [name + b": " + value for name, value in fields]
    if status != 204 and not bare:
        lines.append(b"Content-Length: %d" % len(body))
    if closes:
        lines.append(b"Connection: close")
    return CRLF.join(lines) + HEAD_END + (b"" if bare else body)


# Bytes as texts.

ESCAPES = {b"\t": b"\\t", b"\n": b"\\n", b"\r": b"\\r", b"\\": b"\\\\", b'"': b'\\"', b"'": b"\\'"}


def escaped(data, quotes=True):
    """Bytes as Rust escapes them, in ASCII. Without `quotes`, quotes are not escaped."""
    odd = rb"""[^ -~]|[\\"']""" if quotes else rb"[^ -~]|\\"
    return re.sub(odd, lambda found: ESCAPES.get(found[0]) or b"\\x%02x" % ord(found[0]), data).decode("ascii")


def escaped_line(data, quotes=True):
    """Escapes bytes at the end of a line, where a trailing blank is escaped too."""
    text = escaped(data, quotes)
    return text[:-1] + "\\x20" if text.endswith(" ") else text


def unescaped(text):
    """The bytes that an escaped text stands for."""
    return re.sub(rb"\\(x..|.)", lambda found: bytes([int(found[1][1:], 16)]) if found[1][0] == 120 else
                  {b"r": b"\r", b"n": b"\n", b"t": b"\t"}.get(found[1], found[1]), text.encode())


# What a message asks for.


class Request(types.SimpleNamespace):
    """What a message asks for: a name, and the parts of this kind of request."""

    def __init__(self, name, **parts):
        super().__init__(name=name, **parts)


def id_text(number):
    return b"%032x" % number


def path_of(target):
    """The path of a target or of a URL, in origin or in absolute form."""
    found = re.fullmatch(rb"(?:[a-z]+://[^/?#]+)?(/[^?#]*)(\?[^#]*)?(#.*)?", target)
    return found[1] if found else None


def place_of(target):
    """None at the creation URL, or the id of an upload."""
    path = path_of(target)
    if path in (b"/files", b"/files/"):
        return None
    found = re.fullmatch(rb"/files/([0-9a-f]{32})", path or b"")
    if found is None:
        raise Refused(11)
    return int(found[1], 16)


def check_repeated(message, names):
    if any(len(message.values(name)) > 1 for name in names):
        raise Refused(13)


def check_version(message, method):
    """Refuses a message of another version, for methods that require one."""
    if method not in (b"POST", b"PATCH", b"DELETE", b"HEAD"):
        return
    check_repeated(message, [b"Tus-Resumable"])
    version = message.value(b"Tus-Resumable")
    if version != VERSION and not (method == b"HEAD" and version is None):
        raise Refused(10, fields=[(b"Tus-Version", VERSION)])


def check_method(method, place):
    """Refuses a method that doesn't exist at this place."""
    if method in ((b"POST",) if place is None else UPLOAD_METHODS):
        return
    allowed = b"OPTIONS, POST" if place is None else b"OPTIONS, HEAD, GET, PATCH, DELETE"
    raise Refused(12, fields=[(b"Allow", allowed)])


def request_of(message, max_size):
    """What a message asks for. The first check that fails is raised."""
    check_repeated(message, [b"X-HTTP-Method-Override"])
    method = message.value(b"X-HTTP-Method-Override")
    method = message.method if method is None else method
    if method == b"OPTIONS":
        return Request("Options")
    check_version(message, method)
    place = place_of(message.target)
    check_method(method, place)
    if method == b"POST":
        return creation_of(message, max_size)
    if method == b"PATCH":
        return patch_of(message, place)
    return Request(method.decode().capitalize(), id=place)


def creation_of(message, max_size):
    """The upload that a POST asks for."""
    names = [b"Upload-Length", b"Upload-Defer-Length", b"Upload-Metadata", b"Upload-Concat"]
    check_repeated(message, names)
    length, deferred, metadata, concat = [message.value(name) for name in names]
    concat, metadata = concat or None, metadata or None
    is_final = (concat or b"").startswith(b"final;")
    length = 0 if is_final else length_of(length, deferred, max_size)
    kind, parts = concat_of(concat)
    pairs = pairs_of(metadata)
    return Request("Create", kind=kind, length=length, parts=parts, pairs=pairs, metadata=metadata, concat=concat)


def length_of(length, deferred, max_size):
    """The length of a new upload, or None if the length comes later."""
    if deferred is not None:
        if length is not None or deferred != b"1":
            raise Refused(14)
        return None
    if not is_digits(length):
        raise Refused(14)
    if int(length) > max_size:
        raise Refused(15)
    return int(length)


def concat_of(concat):
    """The kind of a new upload, and the ids of its parts."""
    if concat is None:
        return "Plain", []
    if concat == b"partial":
        return "Partial", []
    urls = [url for url in concat[6:].split(b" ") if url]
    if not concat.startswith(b"final;") or not urls:
        raise Refused(16)
    try:
        parts = [place_of(url) for url in urls]
    except Refused:
        raise Refused(16) from None
    if None in parts:
        raise Refused(16)
    return "Final", parts


def pairs_of(metadata):
    """The pairs of a metadata text."""
    pairs = []
    for part in metadata.split(b",") if metadata else []:
        key, _, value = part.strip(b" ").partition(b" ")
        value = value.strip(b" ")
        if key == b"" or key in [other for other, _ in pairs] or not is_base64(value):
            raise Refused(17)
        pairs.append((key, base64.b64decode(value)))
    return pairs


def is_base64(text):
    """Whether a text is exactly the Base64 of its bytes."""
    if re.fullmatch(rb"([A-Za-z0-9+/]{4})*([A-Za-z0-9+/]{2}==|[A-Za-z0-9+/]{3}=)?", text) is None:
        return False
    return base64.b64encode(base64.b64decode(text)) == text


def patch_of(message, place):
    """The bytes of a PATCH, and what its fields say about them."""
    check_repeated(message, [b"Content-Type", b"Upload-Offset", b"Upload-Length"])
    media = (message.value(b"Content-Type") or b"").partition(b";")[0].rstrip(b" \t").lower() == MEDIA_TYPE
    offset = message.value(b"Upload-Offset")
    offset = int(offset) if is_digits(offset) else None
    said = message.value(b"Upload-Length")
    return Request("Patch", id=place, media=media, offset=offset, said=said, body=message.body)
