#!/usr/bin/env python3
"""Refuses `up` memory, one request after another, and compares what it then does with a plain model of it.

    tests/memory.py [--program PATH] [--data PATH] [NAME..]

It needs Python 3 and a C compiler, for tests/memory.c. That library is loaded with the program, counts its requests for
memory, and refuses those that it is told to refuse. If there is no compiler, the script says so and skips everything.
It takes less than a minute. The gate, `.ci/run`, runs it with the programs that it has built.

Each case but the last is a conversation. The program is run on it with all the memory it asks for, then with its first
request refused, then with its second, and so on until a run meets no refusal. The model (tests/model.py) takes the same
messages, except those that were answered 503. In each run the program must end by itself, with status 0, or with 1 and
`out of memory` or `a lane stopped`. Each reply must be the model's to the byte, or an empty 503. The report must have
the model's number of changes, and a prefix of each upload's events; all of them if the lane drained. A refusal may show
in one place at most: as a 503, as a lane that stopped (or, in a server, one that waited and continued), as a connection
closed without an answer, or as the end of the program.

A 503 closes exactly if memory ran out while its message was read. A creation that was read has taken its id exactly if
its request was formed before memory ran out. On standard input the first thread serves, and asks for memory in the same
order in each run. So while later and later requests are refused, the answers to a message are first those that close,
then those after which no id was taken, then those after which an id was taken. An answer that closes ends the
conversation, and the id of the next creation shows which of the other two it was. No request of a lane is answered by a
503.

In the last case `up_test_data` (crates/up_test_data/src/calls.rt) replaces `up`. It makes calls, and prints for each
the state before it, its result, and the state after it. If no request is refused, that is the end of
its stored `stdout`. If requests are refused (one, four in a row, or all from some request on), it is still the same, with additional calls that
ran out of memory: each of these comes before the same call as it is stored, and leaves the state as it was. The program
may end there, with status 1 and `out of memory`.

For each case, one line says whether it passed, and the number of runs. The last line is `N passed, M failed`, and the
exit status is 1 if a case failed.
"""
import collections
import fcntl
import itertools
import mmap
import os
import re
import shutil
import socket
import struct
import subprocess
import sys
import tempfile
import termios
import time

from messages import write_response
from model import Rules
from model import Server as Model
from serving import (
    AGAIN, MAX_SIZE, NO_THREAD, NOWHERE, ROOT, Connection, Server, below, head, patch, patch_in_chunks, path_of, same, soon,
    try_all, words_of,
)

MIB = 1 << 20

# Whose requests for memory are counted: those of all threads, of the first one, which serves standard input, or of all
# other threads.
OF_ALL, OF_FIRST, OF_OTHERS = range(3)

# What an out-of-memory answer shows: it closes; or it doesn't close, and no id was taken; or an id was taken.
CLOSES, TAKES_NONE, TAKES_ID = range(3)

# The most seconds that a run may take.
MAX_SECONDS = 10

# The greatest number of a request.
LAST = (1 << 64) - 1

# What a server reports about a lane on standard error.
OF_LANE = re.compile(r"up_server: lane (\d+) (waits for memory|goes on)\n")

# The state that a server reports with `--status`: that its only lane drains or stopped, and how many events wait.
OF_STATUS = re.compile(r"up_server: uploads \d+, .*, lane 0 (drains|stopped) \((\d+) waiting\)\n")

# The fewest bytes by which a lane's report grows. If bodies are small, nothing else asks for so many at once, except
# for the journal's table of ended ids, which is made at the start.
REPORT_GROWTH = 80 << 10
AT_START = 1

# How often a lane that waits is tried at the end, and how many seconds it waits after five attempts.
LAST_TRIES = 3
PAUSE_AFTER_FIVE = 1.6

# What a server may report besides its lanes and its fault: that it can't start a thread, and that it can again; and
# that a change can't be written to the log, and that one was written again.
MAY_BE_SAID = [
    NO_THREAD,
    AGAIN,
    "up_server: changes can't be stored, and are refused: out of memory\n",
    "up_server: changes are stored again\n",
]

OUT_OF_MEMORY = "up_server: out of memory\n"
LANE_STOPPED = "up_server: a lane stopped\n"

HERE = os.path.dirname(os.path.abspath(__file__))

memory = None


class Memory:
    """The requests for memory of a program, as tests/memory.c counts them, and those that are refused."""

    def __init__(self, folder):
        path = os.path.join(folder, "control")
        with open(path, "w+b") as file:
            file.write(bytes(48))
            file.flush()
            self.numbers = memoryview(mmap.mmap(file.fileno(), 48)).cast("Q")
        library = os.path.join(folder, "memory.so")
        subprocess.run(["cc", "-O1", "-shared", "-fPIC", "-o", library, os.path.join(HERE, "memory.c")], check=True)
        self.environment = {**os.environ, "LD_PRELOAD": library, "MEMORY_CONTROL": path}

    def begin(self, first, last, whose=OF_ALL, least=0):
        """Counts from 1 again, for a program that is started next: requests of these threads, for at least this many
        bytes."""
        self.numbers[0] = self.numbers[1] = 0
        self.numbers[4] = whose
        self.numbers[5] = least
        self.refuse(first, last)

    def refuse(self, first, last):
        """From now on, refuses the requests with these numbers."""
        self.numbers[3] = 0
        self.numbers[2] = first
        self.numbers[3] = last

    @property
    def asked(self):
        return self.numbers[0]

    @property
    def refused(self):
        return self.numbers[1]


# What is compared with the model.


# What is written if memory runs out before a head is complete. A server that waits for a message may write it too,
# since it asks for memory before the first byte comes.
WANT_IN_HEAD = write_response(503, [], b"", False, True)


def wants(message):
    """The replies to a message if memory runs out."""
    bare = message.startswith(b"HEAD")
    return [*(write_response(503, [], b"", bare, closes) for closes in (False, True)), WANT_IN_HEAD]


def follow(model, talk, replies, takes_id):
    """Compares the replies of a conversation with the model. `takes_id` says whether a creation that ran out of memory
    and didn't close has taken its id. Returns the out-of-memory answers, each with its place and what it shows, and the
    bytes after the last reply."""
    want = []
    for place, (message, status) in enumerate(talk):
        if model.closed:
            break
        reply = next((form for form in wants(message) if replies.startswith(form)), None)
        if reply:
            model.closed = b"Connection: close" in reply
            took = takes_id and message.startswith(b"POST") and not model.closed
            model.next_id += took
            want.append((place, CLOSES if model.closed else TAKES_ID if took else TAKES_NONE))
        else:
            reply = model.take(message)
            same(replies[: len(reply)], reply, f"the reply to {message[:60]!r}")
            same(int(reply.split()[1]) == status or want != [], True, f"whether {reply[:40]!r} is what the talk says")
        replies = replies[len(reply) :]
    if not model.closed and replies.startswith(WANT_IN_HEAD):
        return [*want, (len(talk), CLOSES)], replies[len(WANT_IN_HEAD) :]
    return want, replies


def by_upload(events):
    """The events of each upload, in order."""
    found = {}
    for event in events:
        found.setdefault(event.split()[0], []).append(event)
    return found


def stopped_lanes(model, report):
    """Compares a report with the model, and returns how many lanes stopped."""
    front = f"\naccepted {model.accepted}\n"
    same((report[: len(front)], report[-1:]), (front, "\n"), "the front and the end of the report")
    lines = report[len(front) :].splitlines()
    stopped = 0
    for lane, events in enumerate(model.lanes):
        found = re.fullmatch(rf"lane {lane} (drained|stopped) (\d+)", "".join(lines[:1]))
        same(found is not None, True, f"whether {lines[:1]} is the line of lane {lane}")
        count = int(found[2])
        told, lines = by_upload(lines[1 : count + 1]), lines[count + 1 :]
        same(sum(map(len, told.values())), count, f"the number of events of lane {lane}")
        wanted = by_upload(events)
        if found[1] == "stopped":
            stopped += 1
            wanted = {upload: wanted.get(upload, [])[: len(front)] for upload, front in told.items()}
        same(told, wanted, f"the events of lane {lane}, which {found[1]}")
    same(lines, [], "what stands behind the last lane")
    return stopped


def check_end(model, status, fault, report):
    """Compares the end of a run with the model. Returns whether memory ran out for the report, and how many lanes
    stopped."""
    if (status, fault, report) == (1, OUT_OF_MEMORY, ""):
        return 1, 0
    ends = ((0, ""), (1, LANE_STOPPED))
    same((status, fault) in ends, True, f"whether status {status} and {fault!r} may stand behind {report!r}")
    stopped = stopped_lanes(model, report)
    same(status, int(stopped > 0), f"the status where {stopped} lanes stopped")
    return 0, stopped


def count_places(tally, want, dropped, ended, lanes, of_lanes="with a stopped lane"):
    """Counts a run, and checks that no refusal shows in two places."""
    places = want + dropped + ended + lanes
    shown = f"{want} replies, {dropped} connections, {ended} ends and {lanes} lanes"
    same(places <= memory.refused, True, f"whether {memory.refused} refusals show in {shown}")
    tally["runs"] += 1
    tally["out of memory"] += ended > 0
    tally["with a 503"] += want > 0
    tally["with a connection not served"] += dropped > 0
    tally[of_lanes] += lanes > 0
    tally["in which a refusal had no effect"] += memory.refused > 0 == places


def refuse_each(run):
    """Runs without a refusal, which returns how many requests there are to refuse, and then with each request refused
    in turn, until a run meets no refusal. Returns the counts."""
    tally = collections.Counter()
    for number in itertools.count():
        try:
            requests = run(number, tally)
        except (AssertionError, OSError, subprocess.SubprocessError) as fault:
            what = f"request {number} refused" if number else "nothing refused"
            raise AssertionError(f"{what}: {type(fault).__name__}: {fault}") from fault
        if number == 0:
            most = requests
            below(0, most, "requests that were counted")
        elif number > most and not memory.refused:
            return tally


def told(tally):
    """The counts, in words."""
    return ", ".join(f"{count} {name}" for name, count in tally.items() if count)


# Messages: functions of a list of paths, which has those of the uploads from index 1 on.


def create(length=None, **fields):
    """Makes an upload; `upload_concat="partial"` is the field `Upload-Concat: partial`."""
    named = {} if length is None else {"Upload-Length": length}
    named.update((name.replace("_", "-"), value) for name, value in fields.items())
    return lambda paths: head("POST", "/files/", named)


def join(*parts):
    """Makes a final upload of these parts."""
    return lambda paths: create(upload_concat="final;" + " ".join("http://a" + paths[part] for part in parts))(paths)


def append(upload, offset, body):
    return lambda paths: patch(paths[upload], offset, len(body)) + body


def declare(upload, offset, length, body):
    """A PATCH that declares the upload's length."""
    return lambda paths: patch(paths[upload], offset, len(body), length) + body


def ask(method, upload):
    return lambda paths: head(method, paths[upload], {})


# Conversations on standard input.


def replay(rules, talk, whose, number, tally, answers):
    """Runs a conversation with this request of these threads refused, and compares the result with the model. Adds the
    out-of-memory answers to a list."""
    memory.begin(number, number, whose)
    given = b"".join(message for message, _ in talk)
    words = [program, "replay", *rules.words().split()]
    ran = subprocess.run(words, input=given, capture_output=True, env=memory.environment, timeout=MAX_SECONDS)
    want, ended, stopped = check_replay(rules, talk, ran.stdout, ran.stderr, ran.returncode)
    same(stopped == 0 or whose == OF_OTHERS, True, "whether no lane stops where it was refused nothing")
    count_places(tally, len(want), 0, ended, stopped)
    answers += want
    return memory.asked


def check_replay(rules, talk, told, fault, status):
    """Compares a run with the model, both if a creation that runs out of memory takes its id and if it doesn't. Returns
    the out-of-memory replies, whether the program ended because of the refusal, and how many lanes stopped."""
    found, faults = {}, []
    for takes_id in (False, True):
        try:
            found[takes_id] = check_reading(rules, talk, takes_id, told, fault.decode(), status)
        except AssertionError as fault_of_reading:
            faults.append(fault_of_reading)
    if not found:
        raise faults[0]
    want, ended, stopped = found[min(found)]
    if len(found) == 2 and found[True][0] != want:
        last = max(place for place, (message, _) in enumerate(talk) if message.startswith(b"POST"))
        same([place for place, _ in want], [last], "the one place where nothing tells whether an id was taken")
    return want, ended, stopped


def check_reading(rules, talk, takes_id, told, fault, status):
    """Compares a run with the model, for one of the two cases of `takes_id`."""
    if memory.refused and not told:
        same((status, fault), (1, OUT_OF_MEMORY), "the status and the fault of a run without a reply")
        return [], 1, 0
    model = Model(rules, collections.Counter())
    want, report = follow(model, talk, told, takes_id)
    if not memory.refused:
        same(report.decode(), "\n".join(model.report()) + "\n", "the report")
    return want, *check_end(model, status, fault, report.decode())


def told_apart(talk, answers):
    """Checks the order of the out-of-memory answers while later and later requests of the serving thread are refused:
    by message, and for each message those that close, then those that took no id, then those that took one."""
    same(answers, sorted(answers), "the order of the answers for want of memory")
    for place, (message, _) in enumerate(talk[:-1]):
        wanted = {CLOSES, TAKES_ID if message.startswith(b"POST") else TAKES_NONE}
        lacking = wanted - {what for where, what in answers if where == place}
        same(lacking, set(), f"which answers for want of memory were never given to {message[:60]!r}")


def replay_each(rules, talk):
    """Refuses each request of a conversation in turn: first those of the thread that serves it, then those of the
    lanes. The talk has each message with the status expected if memory suffices. Its last message makes an upload,
    whose id shows how many ids were taken before."""
    paths = [path_of(number) for number in range(10)]
    talk = [(make(paths), status) for make, status in talk]
    answers, by_lanes = [], []
    tally = refuse_each(lambda number, tally: replay(rules, talk, OF_FIRST, number, tally, answers))
    tally += refuse_each(lambda number, tally: replay(rules, talk, OF_OTHERS, number, tally, by_lanes))
    same(by_lanes, [], "the answers for want of memory where a lane was refused it")
    told_apart(talk, answers)
    counts = collections.Counter(what for _, what in answers)
    tally["answers that close"], tally["that took an id"] = counts[CLOSES], counts[TAKES_ID]
    return tally


def one_patch():
    """An upload in one PATCH."""
    talk = [(create(11), 201), (append(1, 0, b"hello world"), 204), (create(3), 201)]
    return told(replay_each(Rules(1, 4, MIB), talk))


def two_patches():
    """An upload in two PATCHes, with one at a wrong offset between them."""
    talk = [
        (create(11), 201), (append(1, 0, b"hello "), 204), (append(1, 5, b"world"), 409),
        (append(1, 6, b"world"), 204), (ask("GET", 1), 200), (create(3), 201),
    ]
    return told(replay_each(Rules(2, 16, MIB), talk))


def final_upload():
    """A final upload of two parts, one of which it contains twice."""
    talk = [
        (create(3, upload_concat="partial"), 201), (append(1, 0, b"abc"), 204),
        (create(4, upload_concat="partial"), 201), (append(2, 0, b"defg"), 204),
        (join(2, 1, 2), 201), (ask("HEAD", 3), 200), (ask("GET", 3), 200), (append(3, 11, b""), 403),
        (create(3), 201),
    ]
    return told(replay_each(Rules(2, 16, MIB), talk))


def removed_upload():
    """An upload that is removed, and asked for afterwards."""
    talk = [
        (create(5), 201), (ask("DELETE", 1), 204), (ask("DELETE", 1), 404), (ask("HEAD", 1), 404),
        (append(1, 0, b"a"), 404), (create(3), 201),
    ]
    return told(replay_each(Rules(2, 16, MIB), talk))


def required_key():
    """A server that requires a key and keeps all uploads."""
    talk = [
        (create(5), 422), (create(5, upload_metadata="filename d29ybGQucGRm"), 201), (ask("DELETE", 2), 403),
        (ask("HEAD", 2), 200), (ask("HEAD", 1), 404), (create(5, upload_metadata="filename d29ybGQucGRm"), 201),
    ]
    return told(replay_each(Rules(2, 16, MIB, require_key=b"filename", keep=True), talk))


def longest_upload():
    """A server with a limit on the length of new uploads."""
    return told(replay_each(Rules(2, 16, MIB, max_length=4), [(create(4), 201), (create(5), 413), (create(3), 201)]))


def full_queues():
    """Five uploads by turns, through queues for one event."""
    talk = [(create(2), 201) for _ in range(5)]
    talk += [(append(upload, 0, b"a"), 204) for upload in range(1, 6)]
    talk += [(append(upload, 1, b"b"), 204) for upload in range(1, 6)]
    talk += [(ask("GET", upload), 200) for upload in range(1, 6)]
    return told(replay_each(Rules(2, 1, MIB), [*talk, (create(3), 201)]))


def declared_length():
    """An upload whose length comes with its last bytes."""
    talk = [
        (create(upload_defer_length=1), 201), (ask("HEAD", 1), 200), (append(1, 0, b"abc"), 204),
        (declare(1, 3, 5, b"de"), 204), (ask("GET", 1), 200), (create(3), 201),
    ]
    return told(replay_each(Rules(2, 16, MIB), talk))


def longest_to_finish():
    """A server with a limit on the length of complete uploads."""
    talk = [
        (create(4), 201), (append(1, 0, b"abc"), 204), (append(1, 3, b"d"), 422), (ask("HEAD", 1), 200),
        (append(1, 3, b""), 204), (create(0), 201),
    ]
    return told(replay_each(Rules(2, 16, MIB, max_finish=3), talk))


# The least number of requests for memory while a body of `LONG` bytes comes: its buffer doubles, from 8 KiB on.
LONG = 40_000
LEAST_GROWTHS = 3


def is_asleep(process):
    """Whether the first thread of a process is waiting."""
    with open(f"/proc/{process}/stat", encoding="ascii") as file:
        return file.read().rpartition(") ")[2].startswith("S")


def quiet(server):
    """Waits until a program has read its input and waits for more, or has ended."""
    before = None
    while server.poll() is None:
        unread = struct.unpack("i", fcntl.ioctl(server.stdin, termios.FIONREAD, bytes(4)))[0]
        if not unread and memory.asked == before and is_asleep(server.pid):
            return
        before = memory.asked
        time.sleep(0.01)


def withhold(rules, talk, number, tally, answers):
    """Runs a conversation with this request refused, and withholds the last byte of its last message until the server
    waits for it. Returns how many requests are made until then."""
    memory.begin(number, number, OF_FIRST)
    given = b"".join(message for message, _ in talk)
    words = [program, "replay", *rules.words().split()]
    with tempfile.TemporaryFile() as said, tempfile.TemporaryFile() as fault:
        files = {"stdin": subprocess.PIPE, "stdout": said, "stderr": fault}
        with subprocess.Popen(words, bufsize=0, env=memory.environment, **files) as server:
            try:
                server.stdin.write(given[:-1])
                quiet(server)
                asked = memory.asked
                server.stdin.write(given[-1:])
                server.stdin.close()
            except BrokenPipeError:
                asked = memory.asked
            server.wait(MAX_SECONDS)
        texts = [os.pread(file.fileno(), MIB, 0) for file in (said, fault)]
    want, ended, stopped = check_replay(rules, talk, *texts, server.returncode)
    count_places(tally, len(want), 0, ended, stopped)
    answers += want
    return asked


def withheld():
    """A message whose last byte is still to come: if memory runs out, the answer is a 503 that closes."""
    chunks = b"%x\r\n" % LONG + bytes(LONG) + b"\r\n0\r\n\r\n"
    talk = [(create(LONG)([]), 201), (patch_in_chunks(path_of(1)) + chunks, 204)]
    answers, tally, rules = [], collections.Counter(), Rules(2, 16, MIB)
    most = withhold(rules, talk, 0, tally, answers)
    for number in range(1, most + 1):
        withhold(rules, talk, number, tally, answers)
    while_read = [what for place, what in answers if place == 1]
    same(set(while_read), {CLOSES}, "what is told by the answers to a message that isn't there yet")
    below(LEAST_GROWTHS, len(while_read), "answers to a message that isn't there yet")
    return told(tally)


# Connections.


class Visit:
    """A connection that makes an upload and sends requests about it. If the server is gone, it counts as one that
    closes."""

    def __init__(self, server, model):
        self.model = model
        self.paths = [NOWHERE, NOWHERE]
        self.heard = self.want = self.dropped = 0
        self.connection = None
        try:
            self.connection = Connection(server)
        except ConnectionError:
            self.dropped = 1

    def close(self):
        self.connection.socket.close()
        self.connection = None

    def end(self):
        """Stops sending. The server must reply nothing, unless memory ran out while it waited."""
        if self.connection:
            self.connection.socket.shutdown(socket.SHUT_WR)
            behind = self.connection.take(len(WANT_IN_HEAD) + 1)
            self.want += behind == WANT_IN_HEAD
            same(behind in (b"", WANT_IN_HEAD), True, f"whether {behind!r} may stand behind the last reply")
            self.close()

    def send(self, make):
        self.message = make(self.paths)
        try:
            self.connection.send(self.message)
        except ConnectionError:
            pass

    def reply(self):
        """The next reply, or None if the server closes instead."""
        try:
            if self.connection.read or self.connection.more():
                return self.connection.reply(self.message.startswith(b"HEAD"))
        except ConnectionError:
            pass
        return None

    def hear(self):
        """Compares the next reply with the model."""
        reply = self.reply()
        if reply is None:
            same(self.heard, 0, "how many replies a connection had that was closed without one")
            self.dropped = 1
            self.close()
            return
        self.heard += 1
        if reply.whole in wants(self.message):
            self.want += 1
            if "connection" in reply.fields:
                same(self.connection.is_closed(), True, "whether an answer closes that says so")
                self.close()
            return
        if reply.status == 201:
            self.paths[1] = reply.fields["location"]
            self.model.next_id = int(self.paths[1][-32:], 16)
            same(self.model.find(self.model.next_id), None, "an upload that has the id already")
        same(reply.whole, self.model.take(self.message), f"the reply to {self.message[:60]!r}")


def speak(*visits):
    """Has these visits, each with its talk, send their messages at once, one of each at a time."""
    for messages in itertools.zip_longest(*(talk for _, talk in visits)):
        spoken = [(visit, make) for (visit, _), make in zip(visits, messages) if make and visit.connection]
        for visit, make in spoken:
            visit.send(make)
        for visit, _ in spoken:
            visit.hear()


def first_half(body):
    """A talk that makes an upload and sends some of its bytes."""
    return [create(len(body), upload_metadata="filename d29ybGQucGRm"), append(1, 0, body[:6]), ask("HEAD", 1)]


def second_half(body):
    """A talk that sends the rest, first at a wrong offset, and fetches everything."""
    return [append(1, 5, body[6:]), append(1, 6, body[6:]), ask("GET", 1)]


def served(connections, lanes=2, more=()):
    """A server with this number of lanes that ends after this number of connections, with `more` words, and its
    model."""
    words = ["--connections", str(connections), "--lanes", str(lanes), *more]
    server = Server(program, *words, environment=memory.environment, may_fail=True)
    return server, Model(Rules(lanes, 16, MAX_SIZE), collections.Counter())


def said_of_lanes(said):
    """What a server reports besides its lanes, how often a lane waited for memory, and which lanes still wait."""
    waiting, waits = [], 0
    for lane, what in OF_LANE.findall(said):
        same(lane in waiting, what == "goes on", f"whether lane {lane} waits that {what}")
        if what == "goes on":
            waiting.remove(lane)
        else:
            waiting.append(lane)
            waits += 1
    return OF_LANE.sub("", said), waits, waiting


def check_served(server, model, visits, tally, may_stop=False):
    """Waits for the end of a server, and compares it with the model. Unless `may_stop` is set, no lane may stop.
    Returns how often a lane waited for memory, which lanes still wait, and the states that the server reported."""
    for visit in visits:
        visit.end()
    status = server.process.wait(MAX_SECONDS)
    said = ("" if server.port else server.first_line) + server.process.stderr.read().decode()
    fault, waits, waiting = said_of_lanes(OF_STATUS.sub("", said))
    report = server.output()
    dropped = sum(visit.dropped for visit in visits)
    lines = fault.splitlines(keepends=True)
    notices = [line for line in lines if line in (NO_THREAD, AGAIN)]
    same(notices in ([], [NO_THREAD], [NO_THREAD, AGAIN]), True, f"whether {fault!r} tells of a thread in order")
    same(dropped > 0 or not notices, True, "whether a connection was dropped where no thread could be started")
    fault = "".join(line for line in lines if line not in notices)
    if not report and not any(visit.heard for visit in visits):
        same((status, fault), (1, OUT_OF_MEMORY), "the status and the fault of a server that served nobody")
        ended, dropped = 1, 0
    else:
        ended, stopped = check_end(model, status, fault, report)
        same(stopped == len(waiting) or ended > 0, True, f"whether the lanes {waiting} stopped, and no other")
        same(stopped == 0 or may_stop, True, "whether no lane stopped")
    count_places(tally, sum(visit.want for visit in visits), dropped, ended, waits, "with a lane that waited")
    return waits, waiting, OF_STATUS.findall(said)


def serve_two(number, tally):
    """Serves two connections at once with this request refused, and compares the result with the model."""
    memory.begin(number, number)
    server, model = served(2)
    with server:
        visits = [Visit(server, model) for _ in range(2 if server.port else 0)]
        talks = [first_half(body) + second_half(body) for body in (b"hello world", b"HELLO WORLD")]
        talks[0].append(ask("DELETE", 1))
        speak(*zip(visits, talks))
        check_served(server, model, visits, tally)
    return memory.asked


def lane_in_want(is_over):
    """Serves a connection while its lane's report can't grow. After five attempts of the lane the report can grow if
    `is_over` is set; otherwise the connection ends. Meanwhile the server must report that the lane stopped, and how
    many events wait."""
    memory.begin(AT_START + 1, LAST, least=REPORT_GROWTH)
    server, model = served(1, lanes=1, more=["--status", "1"])
    with server:
        visit, body, tally = Visit(server, model), b"hello world", collections.Counter()
        speak((visit, first_half(body)))
        soon(lambda: memory.refused == 5, "the lane is tried five times")
        end = time.monotonic()
        if is_over:
            memory.refuse(0, 0)
            soon(lambda: memory.asked == AT_START + 6, "the lane is tried once more")
            speak((visit, second_half(body)))
        waits, waiting, stood = check_served(server, model, [visit], tally, may_stop=not is_over)
        same((waits, waiting), (1, [] if is_over else ["0"]), "how often a lane waited, and which waits still")
        same(("stopped", "2") in stood, True, f"whether {stood} tells of a lane that stopped, and of two events")
        same(stood[-1:], [("drains", "0") if is_over else ("stopped", "2")], "how the server stood at its end")
        if not is_over:
            same(memory.refused, 5 + LAST_TRIES, "how many times the lane was tried")
            below(time.monotonic() - end, PAUSE_AFTER_FIVE, "seconds until the server ended")
    return tally


def heard_waiting(*visits):
    """Sends requests on connections on which the server waited while memory ran out: each is served, or closed by a
    503."""
    before = [visit.want for visit in visits]
    speak(*((visit, [ask("HEAD", 1)]) for visit in visits))
    for visit, want in zip(visits, before):
        same(visit.want == want or visit.connection is None, True, "whether a 503 behind the want of memory closes")


def serve_in_want(number, count, tally):
    """Serves a connection. Refuses `count` requests from this one on while it continues and a second connection comes.
    Then compares what both are told, and a third connection, with the model."""
    memory.begin(0, 0)
    server, model = served(3)
    with server:
        first, body, other = Visit(server, model), b"hello world", b"HELLO WORLD"
        speak((first, first_half(body)))
        same((first.want, first.dropped), (0, 0), "what is refused before memory is wanting")
        start = memory.asked
        if number:
            memory.refuse(start + number, min(start + number + count - 1, LAST))
        second = Visit(server, model)
        speak((first, second_half(body) + first_half(body)), (second, first_half(other)))
        memory.refuse(0, 0)
        requests = memory.asked - start
        heard_waiting(first, second)
        before = first.want + second.want
        speak((first, second_half(body)), (second, second_half(other)))
        first.end()
        second.end()
        third = Visit(server, model)
        look = [lambda _, path=path_of(upload.number): head("HEAD", path, {}) for upload in model.uploads]
        speak((third, look + first_half(body) + second_half(body) + [ask("DELETE", 1)]))
        after = (first.want + second.want - before, third.want, third.dropped)
        same(after, (0, 0, 0), "what is refused once memory is there again")
        check_served(server, model, [first, second, third], tally)
    return requests


# Stores.


def run_stored(store, model, talk):
    """Serves a connection with this talk over a store. Returns the visit, the status, what the server reported, and its
    output."""
    words = ["--connections", "1", "--lanes", "1", "--events", "--store", store]
    with Server(program, *words, environment=memory.environment, may_fail=True) as server:
        visits = [Visit(server, model)] if server.port else []
        speak(*((visit, talk) for visit in visits))
        for visit in visits:
            visit.end()
        status = server.process.wait(MAX_SECONDS)
        said = ("" if server.port else server.first_line) + server.process.stderr.read().decode()
        return visits, status, said, server.output()


def check_stored(visits, status, said, tally):
    """Checks that the end of a run over a store is one that a refusal may cause."""
    said, waits, waiting = said_of_lanes(said)
    fault = "".join(line for line in said.splitlines(keepends=True) if line not in MAY_BE_SAID)
    ended = status != 0 and not waiting
    faults = [OUT_OF_MEMORY, "up_server: cannot read the store: out of memory\n"] if ended else [""]
    faults += [LANE_STOPPED] if waiting else []
    opening = re.fullmatch(r'up_server: cannot open the store at "[^"]*": out of memory\n', fault)
    same(fault in faults or (ended and opening is not None), True, f"whether {fault!r} is the fault, with status {status}")
    same(status, int(ended or bool(waiting)), "the status")
    want, dropped = sum(visit.want for visit in visits), sum(visit.dropped for visit in visits)
    count_places(tally, want, dropped, int(ended), waits, "with a lane that waited")


def serve_stored(number, tally):
    """Serves a connection over a store with this request refused. A second run must have exactly what was answered in
    the first, and must hand over the events that the first didn't."""
    model, body = Model(Rules(1, 16, MAX_SIZE), collections.Counter()), b"hello world"
    talk = first_half(body) + second_half(body) + [create(4), append(1, 0, b"abcd"), ask("DELETE", 1), create(2)]
    with tempfile.TemporaryDirectory(prefix="up-memory-") as folder:
        store = os.path.join(folder, "store")
        memory.begin(number, number)
        visits, status, said, first = run_stored(store, model, talk)
        asked = memory.asked
        check_stored(visits, status, said, tally)
        memory.refuse(0, 0)
        paths = [path_of(upload.number) for upload in model.uploads]
        look = [lambda _, what=what, path=path: head(what, path, {}) for path in paths for what in ("HEAD", "GET")]
        visits, status, said, second = run_stored(store, model, look + first_half(body) + second_half(body))
    same((status, said), (0, ""), "how the second run ends")
    same([(visit.want, visit.dropped) for visit in visits], [(0, 0)], "what is refused in the second run")
    lines, _, report = second.rpartition("\n\n") if not second.startswith("\n") else ("", "", second[1:])
    same(report, f"accepted {model.accepted}\nlane 0 drained {len(model.lanes[0])}\n", "the report of both runs")
    told = [line for line in (first + "\n" + lines).splitlines() if re.match("[0-9a-f]{32} ", line)]
    same(by_upload(told), by_upload(model.lanes[0]), "the events of both runs")
    return asked


def stored_changes():
    """A server over a store, which is started a second time."""
    return told(refuse_each(serve_stored))


def two_connections():
    """Two connections to a server at once."""
    return told(refuse_each(serve_two))


def lane_that_waits():
    """A lane whose report can't grow waits and continues; at the end it is tried three more times, and waits no
    longer."""
    return told(lane_in_want(True) + lane_in_want(False))


def want_for_a_while():
    """A server is refused all memory from some request on; once it gets memory again, it serves as before."""
    return told(refuse_each(lambda number, tally: serve_in_want(number, LAST, tally)))


def want_of_four():
    """A server is refused four requests in a row, and then serves as before."""
    return told(refuse_each(lambda number, tally: serve_in_want(number, 4, tally)))


# Single calls.


Call = collections.namedtuple("Call", "before made name answer word after")

# The lines that report a call.
CALL = re.compile(r"before: (.*)\n((.+?)\(.*\)) => (.*)\n(after|after, the same|after, not the same): (.*)\n")

# The functions that must have been called.
CALLED = {
    "lane_queue", "BoardParts::new", "Board::new", "plan", "commit", "note", "pairs_of", "request_of", "step", "finish",
}

# The result of a call that runs out of memory.
WANT = "out of memory"


def calls_in(text):
    """The calls that a text reports."""
    lines = text.splitlines(keepends=True)
    found = [CALL.fullmatch("".join(lines[place : place + 3])) for place in range(0, len(lines), 3)]
    same(None in found, False, f"whether some lines of {text[-200:]!r} tell of no call")
    return [Call(*call.groups()) for call in found]


def make_calls(number, count, tally, wanting):
    """Makes the calls with `count` requests refused from this one on, and compares them with the stored ones. Counts in
    `wanting` the calls that ran out of memory."""
    memory.begin(number, number and min(number + count - 1, LAST))
    folder = os.path.join(ROOT, "crates", "up_test_data")
    with open(os.path.join(folder, "stdout")) as stored:
        text = stored.read()
    left = calls_in(text[text.index("before: ") :])
    calls = os.path.join(folder, "data", "single.calls")
    ran = subprocess.run([data, calls], capture_output=True, env=memory.environment, timeout=MAX_SECONDS)
    refused = 0
    for call in calls_in(ran.stdout.decode()):
        same(bool(left), True, f"whether there is a call for {call.made}")
        if call.answer == WANT:
            wanted = left[0]._replace(answer=WANT, word="after, the same", after=left[0].before)
            refused += 1
            wanting[call.name] += 1
        else:
            wanted = left.pop(0)
        for field, found, is_wanted in zip(Call._fields, call, wanted):
            same(found, is_wanted, f"`{field}` of {call.made}")
    ended = bool(left)
    same((ran.returncode, ran.stderr.decode()), (1, f"up_test_data: {WANT}\n") if ended else (0, ""), "the end")
    shown = refused + ended if count == 1 else max(refused, ended)
    same(shown <= memory.refused, True, f"whether {memory.refused} refusals show in {refused} calls and {ended} ends")
    tally["runs"] += 1
    tally["out of memory"] += ended
    tally["in which a refusal had no effect"] += memory.refused > 0 == shown
    tally["calls refused memory"] += refused
    return memory.asked


def single_calls():
    """Single calls: one that runs out of memory leaves the state as it was, and the next one succeeds."""
    tally, wanting = collections.Counter(), collections.Counter()
    for count in (1, 4, LAST):
        tally += refuse_each(lambda number, tally: make_calls(number, count, tally, wanting))
    same(CALLED - wanting.keys(), set(), "the functions that were never refused memory")
    return told(tally)


CASES = [
    one_patch, two_patches, final_upload, removed_upload, required_key, longest_upload, full_queues, declared_length,
    longest_to_finish, withheld, two_connections, lane_that_waits, want_for_a_while, want_of_four, stored_changes,
    single_calls,
]

program, data, names = words_of(__doc__, data="up_test_data")
if shutil.which("cc") is None:
    sys.exit(try_all([], names, ["all cases, for there is no C compiler (Debian's `gcc`, with `libc6-dev`)"]))
with tempfile.TemporaryDirectory() as folder:
    memory = Memory(folder)
    sys.exit(try_all(CASES, names))
