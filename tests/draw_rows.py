#!/usr/bin/env python3
"""Draws messages that break off anywhere, have one byte changed, or are put together at random, each with its expected
result.

    tests/draw_rows.py [--seed N] [--drawn N]
    tests/draw_rows.py --hold FILE

The rows are printed in the form that up_test_data reads (crates/up_test_data/src/rows.rt). Without options they are
crates/up_test_data/data/drawn.rows. The expected results come from the plain reader of tests/messages.py, which takes a
whole input at once, line by line, and knows nothing of the server's code. With --hold the script compares the rows of a
file that read messages with this reader, and prints those that the reader reads in another way.
"""
import argparse
import random
import re
import sys

from messages import CRLF, MAX_HEAD, BrokenOff, Refused, escaped, escaped_line, read_message, unescaped

# The most bytes of a body.
LIMIT = 20

CONTINUE = b"HTTP/1.1 100 Continue\r\n\r\n"

# Faults that only a failing source or sink causes.
READ_FAILED = "6 ReadFailed"
WRITE_FAILED = "8 WriteFailed"


def words_of(message):
    """A message that was read, in words."""
    words = "cut " if message.cut else ""
    words += f"{escaped(message.method)} {escaped(message.target)}"
    words += "".join(f" {escaped(name)}: {escaped(value)};" for name, value in message.fields)
    return words + f" [{escaped(message.body)}]" + marks_of(message, " close" * message.closes)


def marks_of(message, closes=""):
    return " bare" * message.bare + closes + " asked" * message.continues


def read(data, fails):
    """The next message of an input, in words, and the bytes after it, or None if nothing more can be read. If `fails`
    is set, the input fails at its end."""
    try:
        message, rest = read_message(data, LIMIT)
    except BrokenOff as broken:
        if len(data) >= MAX_HEAD:
            return broken.text, None
        if fails:
            return READ_FAILED, None
        return ("end" if data == CRLF * (len(data) // 2) else broken.text), None
    except Refused as refused:
        return refused.text + (marks_of(refused.message) if refused.message else ""), None
    return words_of(message), None if message.cut else rest


def answer(data, fails=False, calls=1):
    """The results of this many calls."""
    words, rest = [], data
    for _ in range(calls):
        if rest is None:
            words.append(READ_FAILED if fails else "end")
            continue
        said, rest = read(rest, fails)
        words.append(said)
    return " | ".join(words) + (f" rest [{escaped(rest)}]" if rest else "")


def row(mark, data, wanted):
    text = escaped_line(data)
    print(f"{mark} {text} => {wanted}" if text else f"{mark} => {wanted}")


# The drawn rows.

SIZED = b"HEAD / HTTP/1.1\r\nContent-Length: 3\r\nExpect: 100-continue\r\n\r\nabcGET"
CHUNKED = b"POST / HTTP/1.1\r\nTransfer-Encoding: chunked\r\n\r\n4\r\nabcd\r\n0\r\nX: 1\r\n\r\nGET"
WAITING = b"POST / HTTP/1.1\r\nContent-Length: 3\r\nExpect: 100-continue\r\n\r\nabc"
TWO = (
    b"POST /files/ HTTP/1.1\r\nHost: a\r\nTus-Resumable: 1.0.0\r\nUpload-Length: 11\r\n\r\n"
    b"PATCH /files/00000000000000000000000000000001 HTTP/1.1\r\nHost: a\r\nTus-Resumable: 1.0.0\r\n"
    b"Content-Type: application/offset+octet-stream\r\nUpload-Offset: 0\r\nContent-Length: 11\r\n\r\nhello world"
)
REPLY = (
    b"HTTP/1.1 400 Bad Request\r\nTus-Resumable: 1.0.0\r\nCache-Control: no-store\r\nX: 1\r\nY: \r\n"
    b"Content-Length: 10\r\nConnection: close\r\n\r\n1 BadHead\n"
)
UPLOAD = "/files/0123456789abcdef0123456789abcdef"

# The faults of a POST, in the order of the checks. An unknown target is no upload's, so these two never meet.
WRONGS = [
    ("13 Repeated", "lines", ["X-HTTP-Method-Override: POST", "X-HTTP-Method-Override: POST"]),
    ("10 Version", "version", "0.2.2"),
    ("11 NoSuchPath", "target", "/other"),
    ("12 Method of an upload", "target", UPLOAD),
    ("13 Repeated", "lines", ["Upload-Concat:", "Upload-Concat:"]),
    ("14 BadLength", "lines", ["Upload-Defer-Length: 1"]),
    ("15 TooLong", "length", "11"),
    ("16 BadConcat", "lines", ["Upload-Concat: Partial"]),
    ("17 BadMetadata", "lines", ["Upload-Metadata: a b"]),
]


def print_fronts():
    for message in (SIZED, CHUNKED):
        print("\n# A message that breaks off anywhere.\n")
        for count in range(len(message) + 1):
            for mark, fails in (("end", False), ("fail", True)):
                row(mark, message[:count], answer(message[:count], fails))
    print("\n# Two messages, of which any read fails.\n")
    for count in range(len(TWO) + 1):
        row("fail", TWO[:count], answer(TWO[:count], True, 3))


def print_changes():
    for message in (SIZED, CHUNKED):
        print("\n# A message with one byte changed.\n")
        for place, before in enumerate(message):
            for byte in b"\0\r\n :;,0a":
                if byte != before:
                    changed = message[:place] + bytes([byte]) + message[place + 1 :]
                    row("end", changed, answer(changed))


def print_writes():
    print("\n# A sink that fails at any byte of `100 Continue`, and of a response.\n")
    for room in range(len(CONTINUE) + 1):
        print(f"writes {room} 0 0")
        wrote = f" wrote [{escaped(CONTINUE[:room])}]" * (room > 0)
        whole = answer(WAITING) + f" at {len(WAITING) - 3}"
        row("slow", WAITING, f"{WRITE_FAILED}{wrote} rest [abc]" if room < len(CONTINUE) else whole)
    for room in range(len(REPLY) + 1):
        print(f"writes {room} 0 0")
        is_whole = room == len(REPLY)
        row("respond 400 c", b"1 BadHead\n", "failed " * (not is_whole) + f"[{escaped(REPLY[:room])}]" + " unsent" * (not is_whole))


def print_request(*wrongs):
    """A POST with these faults. The lines of the first come before those of the second."""
    parts = {"target": "/files", "version": "1.0.0", "length": "10"}
    parts.update({name: value for _, name, value in wrongs if name != "lines"})
    front, back = [[], [], *(value for _, name, value in wrongs if name == "lines")][-2:]
    lines = [f"POST {parts['target']}", *front, f"Tus-Resumable: {parts['version']}", f"Upload-Length: {parts['length']}", *back]
    first = min(wrongs, key=WRONGS.index, default=("create Plain Some(10) - -",))
    row("request", "\n".join(lines).encode(), first[0])


def print_wrongs():
    print("\n# The first of two faults of a request, in whichever order they stand.\n")
    print_request()
    for place, one in enumerate(WRONGS):
        print_request(one)
        for other in WRONGS[place + 1 :]:
            if one[1] == other[1] == "lines":
                print_request(other, one)
            if one[1] != other[1] or one[1] == "lines":
                print_request(one, other)


def draw(rng):
    """A message made of pieces that mostly fit."""
    pick = rng.choice
    end = lambda: b"\n" if rng.randrange(8) == 0 else CRLF
    fields = rng.choices(
        [b"Host: a", b"A:\t b \t", b"X:", b"Expect: 100-continue", b"expect:100-Continue", b"Connection: x,  close", b"Connection: closed",
         b"Content-Length: 3", b"content-length: 03", b"Content-Length: 20", b"Content-Length: 21", b"Content-Length: 3,3", b"Content-Length: ",
         b"Transfer-Encoding: chunked", b"transfer-encoding: CHUNKED", b"Transfer-Encoding: gzip", b"A : b", b" a: b", b"a", b"A: \x80\xff"],
        [6, 2, 2, 5, 2, 1, 1, 7, 2, 2, 1, 1, 1, 9, 2, 1, 1, 1, 1, 1],
        k=rng.randrange(4),
    )
    head = pick([b""] * 8 + [CRLF, b"\n"]) + pick([b"GET", b"POST", b"PATCH", b"HEAD", b"OPTIONS", b"pUT", b"P T"]) + b" "
    head += pick([b"/", b"/files", b"*", b"h:80"]) + b" " + pick([b"HTTP/1.1"] * 9 + [b"HTTP/1.0", b"HTTP/1.2", b"HTTP/1"]) + end()
    head += b"".join(field + end() for field in fields) + end()
    sizes = [b"3", b"03", b"3 ", b"3;a=b", b"3 ; a", b"a", b"B", b"f", b"14", b"11", b"x", b"", b"3 3", b"000000000000000003", b"-3"]
    chunks = b""
    for _ in range(rng.randrange(3)):
        size = rng.choices(sizes, [9, 4, 2, 2, 1, 4, 3, 2, 1, 1, 1, 1, 1, 1, 1])[0]
        count = int(size, 16) if re.fullmatch(rb"[0-9a-fA-F]{1,3}", size) else 3
        chunks += size + pick([CRLF] * 12 + [b"\n"]) + b"abcdefghijklmnopqrstuvwxyz"[:count] + pick([CRLF] * 12 + [b"\n", b"", b"x"])
    chunks += pick([b"0", b"0", b"00", b"0;x"]) + CRLF + pick([b"", b"", b"", b"X-T: 1" + CRLF, b"a" + CRLF, b"a:" + b"\n"]) + end() + pick([b"", b"rest"])
    data = head + (chunks if b"chunked" in head.lower() else pick([b"abc", b"ab", b"abcdef", b"01234567890123456789x"]))
    return data[: rng.randrange(len(data))] if rng.randrange(6) == 0 else data


def print_drawn(rng, count):
    print("\n# Messages that were drawn.\n")
    for _ in range(count):
        data = draw(rng)
        calls = rng.choice([1, 1, 2])
        first = read(data, False)
        row("end", data, answer(data, False, calls if first[1] is not None else 1))


# Rows that others wrote.


def hold(path):
    """Prints the rows of a file that this reader reads in another way, and returns whether there are none."""
    start, text, is_odd, held, well = b"", b"", False, 0, True
    for line in open(path, encoding="ascii").read().splitlines():
        line, _, wanted = line.partition(" => ")
        mark, _, rest = line.partition(" ")
        if mark == "start":
            start = unescaped(rest)
        elif mark == "put":
            text += unescaped(rest)
        elif mark == "times":
            count, _, rest = rest.partition(" ")
            text += unescaped(rest) * int(count)
        elif mark in ("reads", "writes"):
            is_odd = True
        elif wanted:
            for fails in {"end": [False], "fail": [True], "both": [False, True]}.get(mark, []):
                found = answer(start + text + unescaped(rest), fails, wanted.count(" | ") + 1)
                if not is_odd:
                    held += 1
                    if found != wanted:
                        well = False
                        print(f"{line}\n    wanted {wanted}\n    found  {found}")
            text, is_odd = b"", False
    print(f"{held} held")
    return well


def main():
    words = argparse.ArgumentParser()
    words.add_argument("--seed", type=int, default=1, help="what is drawn follows from this number")
    words.add_argument("--drawn", type=int, default=300, help="how many messages are drawn")
    words.add_argument("--hold", help="a file of rows")
    given = words.parse_args()
    if given.hold:
        sys.exit(0 if hold(given.hold) else 1)
    # The stored file names the script like this in its first line.
    print(f"# What tests/draw_rows.py drew: --seed {given.seed} --drawn {given.drawn}")
    print_fronts()
    print_changes()
    print_writes()
    print_wrongs()
    print_drawn(random.Random(given.seed), given.drawn)


main()
