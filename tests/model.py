"""A plain model of the server, with which `tests/draw_talks.py` and `tests/memory.py` compare it. The uploads are in a
list that is scanned, and the events in a list for each lane. The model knows nothing of the server's code.
"""
from messages import (
    HEAD_END, UPLOAD_METHODS, VERSION, Refused, id_text, is_digits, read_message, request_of, write_response,
)

KEY_MISSING = (422, "metadata key missing")
TOO_LONG_HERE = (413, "too long for this server")
KEPT = (403, "uploads are kept")
TOO_LONG_TO_FINISH = (422, "too long to finish")


class Upload:
    """An upload that exists."""

    def __init__(self, number, request, body):
        self.number = number
        self.kind = request.kind
        self.length = len(body) if request.kind == "Final" else request.length
        self.body = body
        self.metadata = request.metadata
        self.concat = request.concat
        self.events = 0

    @property
    def offset(self):
        return len(self.body)

    @property
    def is_whole(self):
        return self.length == self.offset


class Rules:
    """The words with which a server is run."""

    def __init__(self, lanes, capacity, max_size, require_key=None, max_length=None, keep=False, max_finish=None):
        self.lanes = lanes
        self.capacity = capacity
        self.max_size = max_size
        self.require_key = require_key
        self.max_length = max_length
        self.keep = keep
        self.max_finish = max_finish

    def words(self):
        words = f"--lanes {self.lanes} --capacity {self.capacity} --max-size {self.max_size}"
        if self.require_key is not None:
            words += f" --require-key {self.require_key.decode()}"
        if self.max_length is not None:
            words += f" --max-length {self.max_length}"
        if self.keep:
            words += " --keep"
        if self.max_finish is not None:
            words += f" --max-finish {self.max_finish}"
        return words

    def ask_to_create(self, kind, length, pairs):
        """The closures that are asked before a creation."""
        if self.require_key is not None and kind != "Partial" and self.require_key not in [key for key, _ in pairs]:
            raise Refused(31, KEY_MISSING)
        if self.max_length is not None and length is not None and length > self.max_length:
            raise Refused(31, TOO_LONG_HERE)

    def ask_to_remove(self):
        """The closures that are asked before a removal."""
        if self.keep:
            raise Refused(31, KEPT)

    def ask_to_finish(self, length):
        """The closures that are asked before an upload becomes complete."""
        if self.max_finish is not None and length > self.max_finish:
            raise Refused(31, TOO_LONG_TO_FINISH)


class Server:
    """A server with uploads in a list that is scanned, and the events that each lane hands over."""

    def __init__(self, rules, kinds):
        self.rules = rules
        self.kinds = kinds
        self.uploads = []
        self.next_id = 1
        self.accepted = 0
        self.lanes = [[] for _ in range(rules.lanes)]
        self.closed = False

    def take(self, data):
        """What is written in reply to the next message, which has these bytes. After a closing answer, and if the input
        ended, the model is closed."""
        written, bare, closes = b"", False, True
        try:
            message, _ = read_message(data, self.rules.max_size)
            bare, closes = message.bare, message.closes
            if message.continues:
                written = self.go_on()
            if message.cut:
                self.take_cut(message)
                return written
            self.count_message(message)
            status, fields, body = self.answer(request_of(message, self.rules.max_size))
        except Refused as refused:
            status, fields, body = refused.status, refused.fields, refused.text.encode() + b"\n"
            self.kinds[refused.text] += 1
            if refused.message:
                bare = refused.message.bare
                written = self.go_on() if refused.message.continues else b""
        self.closed = closes
        return written + write_response(status, fields, body, bare, closes)

    def go_on(self):
        self.kinds["100 Continue"] += 1
        return b"HTTP/1.1 100 Continue" + HEAD_END

    def count_message(self, message):
        self.kinds["a method in place of another"] += message.value(b"X-HTTP-Method-Override") in UPLOAD_METHODS
        self.kinds["a body in chunks"] += bool(message.values(b"Transfer-Encoding"))
        self.kinds["HTTP/1.0"] += message.version == b"HTTP/1.0"
        self.kinds["Connection: close"] += message.version == b"HTTP/1.1" and message.closes

    def take_cut(self, message):
        """Stores the bytes that came of a PATCH that breaks off. Nothing is answered."""
        self.closed = True
        before = self.accepted
        try:
            request = request_of(message, self.rules.max_size)
            if request.name != "Patch":
                self.kinds["another cut message"] += 1
                return
            self.answer(request)
        except Refused:
            pass
        self.kinds["a cut PATCH" if self.accepted > before else "a cut PATCH that changes nothing"] += 1

    def find(self, number):
        return next((upload for upload in self.uploads if upload.number == number), None)

    def live(self, number):
        upload = self.find(number)
        if upload is None:
            raise Refused(21)
        return upload

    def answer(self, request):
        """Carries out a request, and returns the status, fields and body of the answer."""
        return getattr(self, "answer_" + request.name.lower())(request)

    def answer_options(self, _):
        self.kinds["OPTIONS"] += 1
        extensions = b"creation,creation-defer-length,termination,concatenation"
        size = b"%d" % self.rules.max_size
        return 204, [(b"Tus-Version", VERSION), (b"Tus-Extension", extensions), (b"Tus-Max-Size", size)], b""

    def answer_create(self, request):
        number = self.next_id
        self.next_id += 1
        parts = self.parts_of(request)
        upload = Upload(number, request, b"".join(part.body for part in parts))
        if upload.kind == "Final" and upload.length > self.rules.max_size:
            raise Refused(30)
        self.rules.ask_to_create(upload.kind, upload.length, request.pairs)
        if upload.is_whole:
            self.rules.ask_to_finish(upload.length)
        self.uploads.append(upload)
        self.accept(upload, "post-create", *(["post-finish"] if upload.is_whole else []))
        self.kinds[f"POST of a {upload.kind} upload"] += 1
        self.kinds["POST without a length"] += upload.length is None
        self.kinds["POST of a complete upload"] += upload.is_whole
        return 201, [(b"Location", b"/files/" + id_text(number))], b""

    def parts_of(self, request):
        """The parts of a final upload. Each check looks at all parts before the next check."""
        parts = [self.find(number) for number in request.parts]
        if None in parts:
            raise Refused(27)
        if any(part.kind != "Partial" for part in parts):
            raise Refused(28)
        if not all(part.is_whole for part in parts):
            raise Refused(29)
        return parts

    def answer_head(self, request):
        upload = self.live(request.id)
        fields = [(b"Upload-Offset", b"%d" % upload.offset)]
        if upload.length is None:
            fields.append((b"Upload-Defer-Length", b"1"))
        else:
            fields.append((b"Upload-Length", b"%d" % upload.length))
        if upload.metadata is not None:
            fields.append((b"Upload-Metadata", upload.metadata))
        if upload.concat is not None:
            fields.append((b"Upload-Concat", upload.concat))
        self.kinds["HEAD without a length" if upload.length is None else "HEAD"] += 1
        return 200, fields, b""

    def answer_get(self, request):
        upload = self.live(request.id)
        if not upload.is_whole:
            raise Refused(33)
        self.kinds["GET"] += 1
        return 200, [(b"Content-Type", b"application/octet-stream")], upload.body

    def answer_delete(self, request):
        upload = self.live(request.id)
        self.rules.ask_to_remove()
        self.uploads.remove(upload)
        self.accept(upload, "post-terminate")
        self.kinds["DELETE"] += 1
        return 204, [], b""

    def answer_patch(self, request):
        upload = self.live(request.id)
        length = self.check_patch(upload, request)
        declares = upload.length is None and length is not None
        changes = declares or request.body != b""
        offset = upload.offset + len(request.body)
        completes = changes and offset == length
        if completes:
            self.rules.ask_to_finish(length)
        upload.body += request.body
        upload.length = length
        if changes:
            self.accept(upload, *["post-receive"][: request.body != b""], *["post-finish"][:completes])
        self.kinds["PATCH of bytes" if request.body else "PATCH of no bytes"] += 1
        self.kinds["PATCH that declares"] += declares
        self.kinds["PATCH that completes"] += completes
        return 204, [(b"Upload-Offset", b"%d" % offset)], b""

    def check_patch(self, upload, request):
        """The length that the upload has after a PATCH, or None if the length is still unknown."""
        if upload.kind == "Final":
            raise Refused(22)
        if not request.media:
            raise Refused(23)
        if request.offset is None:
            raise Refused(24)
        if request.offset != upload.offset:
            raise Refused(25)
        length = self.declared_length(upload, request.said)
        if upload.offset + len(request.body) > (self.rules.max_size if length is None else length):
            raise Refused(26)
        return length

    def declared_length(self, upload, said):
        """The length that an upload has after a PATCH with this `Upload-Length`."""
        if said is None:
            return upload.length
        if not is_digits(said):
            raise Refused(36)
        length = int(said)
        if upload.length is not None and length != upload.length:
            raise Refused(36)
        if upload.length is None and length < upload.offset:
            raise Refused(36)
        if length > self.rules.max_size:
            raise Refused(37)
        return length

    def accept(self, upload, *hooks):
        """Counts a change, and hands its events over."""
        self.accepted += 1
        length = "-" if upload.length is None else upload.length
        for hook in hooks:
            upload.events += 1
            line = f"{id_text(upload.number).decode()} {upload.events} {hook} {upload.offset}/{length} done"
            self.lanes[upload.number % len(self.lanes)].append(line)

    def report(self):
        """The lines of the report."""
        lines = ["", f"accepted {self.accepted}"]
        for lane, events in enumerate(self.lanes):
            lines += [f"lane {lane} drained {len(events)}", *events]
        return lines
