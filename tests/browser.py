#!/usr/bin/env python3
"""Has a browser upload through nginx, as in examples/browser, from a page of the same origin and of another.

    tests/browser.py [--program PATH] [NAME..]

It needs Debian's `chromium`, `chromium-driver`, `nginx-light` and `openssl`. If one is missing, the script says so and
skips everything. It takes a minute, and reaches nothing but the loopback. Afterwards, tests/out has pictures of an
upload that runs, of one that was resumed and of one that is refused.

A file of 50 MiB is uploaded in parts over a slow network, paused, found again by the page after a reload, resumed, and
fetched back. The lines of `--events` must be those of what the page did, each once and in order. For each case, one
line says whether it passed. The last line is `N passed, M failed`, and the exit status is 1 if a case failed.
"""
import base64
import contextlib
import os
import re
import shutil
import sys
import tempfile
import time

from driven import Browser
from fronted import EXAMPLE, Front, Secure, asking, doorman, replaced
from serving import ROOT, Connection, Server, below, events_of, free_port, numbered, same, soon, try_all, words_of

NEEDED = {"chromium": "chromium", "chromedriver": "chromium-driver", "nginx": "nginx-light", "openssl": "openssl"}
PICTURES = os.path.join(ROOT, "tests", "out")

# The bytes of a file that is uploaded in parts, and the number of parts; the bytes of one that is uploaded in one
# piece; and the bytes that the slow network carries each second.
LARGE, PARTS, SMALL, SLOW = 50 << 20, 4, 300_000, 6_000_000

# File names whose letters take two to four bytes.
NAME, OTHER_NAME = "Überblick – Říjen ☀.zip", "報告 🐟.bin"

# The most lines that the page's script may have.
MAX_LINES = 120

ORIGIN, PLACE = '"https://page.example"', 'data-uploads="/files"'


class Stage:
    """A server that writes events, nginx in front of it, and the page in the browser: of the same origin, of the other
    origin that nginx lets in, or of a stranger's."""

    def __init__(self, *words, origin="same", changes=(), size=1 << 30):
        self.words, self.origin, self.changes, self.size = words, origin, list(changes), size

    def __enter__(self):
        with contextlib.ExitStack() as stack:
            self.server = stack.enter_context(Server(program, "--events", *self.words, size=self.size))
            self.pages = stack.enter_context(tempfile.TemporaryDirectory())
            other, self.page = free_port(), None
            if self.origin != "same":
                self.page = f"https://127.0.0.1:{other}"
            if self.origin == "other":
                self.changes.append((ORIGIN, f'"{self.page}"'))
            self.front = stack.enter_context(Front(self.server, *self.changes, others=lambda *them: self.second(other, *them)))
            self.files = f"https://127.0.0.1:{self.front.port}/files"
            self.write_page()
            browser.network()
            browser.go(self.page or self.files.removesuffix("files"))
            self.stack = stack.pop_all()
        return self

    def __exit__(self, *_):
        browser.go("about:blank")
        self.stack.close()

    def second(self, port, certificate, key):
        """The lines for pages of the other origin."""
        return (
            f"server {{ listen 127.0.0.1:{port} ssl; ssl_certificate {certificate}; ssl_certificate_key {key};"
            f" root {self.pages}; }}"
        )

    def write_page(self):
        """Writes the page of the other origin, which uploads to nginx's."""
        with open(os.path.join(EXAMPLE, "index.html"), encoding="utf-8") as file:
            text = replaced(file.read(), PLACE, f'data-uploads="{self.files}"')
        with open(os.path.join(self.pages, "index.html"), "w", encoding="utf-8") as file:
            file.write(text)

    def events(self):
        return events_of(self.server.output())

    def parts(self):
        """The paths of the uploads of the page, as the browser stores them for the page."""
        (kept,) = browser.run("return Object.values(localStorage).map((kept) => JSON.parse(kept)[2])")
        return [part["url"] for part in kept]

    def offsets(self, paths):
        with Connection(self.server) as connection:
            return [connection.offset(path) for path in paths]

    def fetched(self, called=NAME):
        """The path of the upload that the page shows as done, its bytes, and the fields of a HEAD."""
        href, name = browser.run("const link = document.querySelector('.open'); return [link.href, link.download]")
        same(name, called, "the name under which it is saved")
        path = "/files" + href.removeprefix(self.files)
        with Secure(self.front) as connection:
            reply = connection.ask("GET", path)
            same(reply.status, 200, "the status of a GET")
            return path, reply.body, connection.ask("HEAD", path).fields


def file_of(size):
    """A new file of this size, no part of which is like another: its path, and its bytes."""
    body = os.urandom(size)
    path = os.path.join(folder, NAME)
    with open(path, "wb") as file:
        file.write(body)
    return path, body


def metadata(name):
    """The metadata that a HEAD reports for a file of this name."""
    return f"filename {base64.b64encode(name.encode()).decode()}"


def choose(path):
    browser.type("#choose", path)


def said():
    return browser.text(".said")


def says(words):
    """Waits until the page says this about the upload."""
    soon(lambda: said() == words, f"the page says {words!r}, and not {said()!r}")


def reaches(share):
    """Waits until the bar has passed this share."""
    soon(lambda: browser.run("return document.querySelector('.bar').value") > share, f"the bar is beyond {share}")


def received(lines):
    """The offsets that the lines of an upload report."""
    return [int(found[1]) for line in lines if (found := re.search(r" post-receive (\d+)/", line))]


def hold_course(lines, length, *ends):
    """Checks that the lines of an upload are those of one that got all its bytes, in pieces. Returns the number of
    pieces."""
    offsets = received(lines)
    same(offsets, sorted(set(offsets)), "the offsets that were reached, in order")
    came = [f"post-receive {offset}/{length}" for offset in offsets]
    all_of = [f"post-create 0/{length}", *came, f"post-finish {length}/{length}", *ends]
    same(lines, numbered(all_of), "the events of an upload")
    same(offsets[-1], length, "the last offset")
    return len(offsets)


def hold_events(events, parts, final, stopped):
    """Compares the events of an upload in parts with what the page did. The page asked whether the upload would be
    taken, uploaded the parts, which had these offsets when it stopped, joined them, and removed them."""
    events = dict(events)
    same(events.pop(final), numbered(f"{hook} {LARGE}/{LARGE}" for hook in ("post-create", "post-finish")), "the final's")
    for path, offset in zip(parts, stopped):
        lines = events.pop(path)
        hold_course(lines, LARGE // PARTS, f"post-terminate {LARGE // PARTS}/{LARGE // PARTS}")
        same(offset in [0, *received(lines)], True, f"whether {offset} is in {lines}")
    same(list(events.values()), [numbered(f"{hook} 0/{LARGE}" for hook in ("post-create", "post-terminate"))], "the first's")


def upload_in_parts(stage, pictures):
    """Uploads a large file, and stops, reloads the page and continues on the way."""
    path, body = file_of(LARGE)
    browser.network(SLOW)
    choose(path)
    reaches(0.25)
    same(said(), "Uploading.", "what the page says")
    pictures and browser.picture(os.path.join(PICTURES, "running.png"))
    browser.click(".go")
    says("Paused.")
    parts = stage.parts()
    same(len(parts), PARTS, "how many parts there are")
    time.sleep(0.5)
    stopped = stage.offsets(parts)
    below(LARGE // 10, sum(stopped), "the bytes that came before the pause")
    browser.do("refresh")
    says("Choose this file again to go on.")
    pictures and browser.picture(os.path.join(PICTURES, "found.png"))
    same(stage.offsets(parts), stopped, "the offsets after the pause")
    choose(path)
    reaches(sum(stopped) / LARGE + 0.2)
    pictures and browser.picture(os.path.join(PICTURES, "resumed.png"))
    browser.network()
    says("Uploaded.")
    pictures and browser.picture(os.path.join(PICTURES, "uploaded.png"))
    final, came, fields = stage.fetched()
    same(came == body, True, "whether the bytes came back")
    same(fields["upload-metadata"], metadata(NAME), "the metadata")
    same(fields["upload-concat"], f"final;{' '.join(parts)}", "of what it is joined")
    soon(lambda: all("post-terminate" in stage.events()[path][-1] for path in parts), "the parts are removed")
    hold_events(stage.events(), parts, final, stopped)
    same(browser.run("return localStorage.length"), 0, "what the browser keeps")


def same_origin():
    """A page of the same origin uploads 50 MiB in parts, is stopped and reloaded, and continues; all comes back,
    once."""
    with Stage() as stage:
        upload_in_parts(stage, True)


def other_origin():
    """A page of another origin, which nginx lets in, does the same."""
    with Stage(origin="other") as stage:
        upload_in_parts(stage, False)


def stranger():
    """A page of an origin that nginx doesn't let in uploads nothing."""
    with Stage(origin="stranger") as stage:
        choose(file_of(SMALL)[0])
        says("The server can’t be reached. Trying again.")
        same(stage.events(), {}, "the events")


def one_piece():
    """A small file that is dropped on the page is uploaded in one piece, and an empty one is there at once."""
    script = """
        const files = new DataTransfer();
        files.items.add(new File([new Uint8Array(arguments[1]).fill(7)], arguments[0]));
        document.querySelector(".drop").dispatchEvent(
            new DragEvent("drop", { dataTransfer: files, bubbles: true, cancelable: true }));
    """
    for size, came in ((SMALL, [f"post-receive {SMALL}/{SMALL}"]), (0, [])):
        with Stage() as stage:
            browser.run(script, OTHER_NAME, size)
            says("Uploaded.")
            path, body, fields = stage.fetched(OTHER_NAME)
            same(fields["upload-metadata"], metadata(OTHER_NAME), "the metadata")
            same(body == b"\7" * size, True, "whether the bytes came back")
            wanted = numbered([f"post-create 0/{size}", *came, f"post-finish {size}/{size}"])
            same(stage.events(), {path: wanted}, "the events")


def refused():
    """An upload without a key that the server requires is refused, in words and before any byte is sent, on both
    pages."""
    for origin in ("same", "other"):
        with Stage("--require-key", "project", origin=origin) as stage:
            choose(file_of(LARGE)[0])
            says("The server doesn’t take this file. It says: “metadata key missing”.")
            same(stage.events(), {}, "the events")
            if origin == "same":
                browser.picture(os.path.join(PICTURES, "refused.png"))


def too_large():
    """A file that is larger than the server takes is refused in words."""
    with Stage(size=LARGE - 1) as stage:
        choose(file_of(LARGE)[0])
        says("This file is too large.")
        same(stage.events(), {}, "the events")


def signed_in():
    """If nginx asks, a visitor who isn't known is told to sign in, and one who is known uploads."""
    with doorman() as man, Stage(changes=asking(man)) as stage:
        choose(file_of(SMALL)[0])
        says("Please sign in first.")
        same(stage.events(), {}, "the events")
        browser.run("document.cookie = 'user=known; SameSite=Strict; Secure'")
        browser.click(".go")
        says("Uploaded.")
        browser.run("document.cookie = 'user=; Max-Age=0; SameSite=Strict; Secure'")
        same(len(stage.events()), 1, "how many uploads have events")


def breaks():
    """An upload whose network breaks continues by itself when the network is back."""
    with Stage() as stage:
        path, body = file_of(LARGE)
        browser.network(SLOW)
        choose(path)
        reaches(0.2)
        parts = stage.parts()
        browser.network(offline=True)
        says("The server can’t be reached. Trying again.")
        stopped = stage.offsets(parts)
        browser.network()
        says("Uploaded.")
        final, came, _ = stage.fetched()
        same(came == body, True, "whether the bytes came back")
        soon(lambda: all("post-terminate" in stage.events()[path][-1] for path in parts), "the parts are removed")
        hold_events(stage.events(), parts, final, stopped)


def cancelled():
    """An upload that is cancelled is removed from the page, the browser and the server."""
    with Stage() as stage:
        browser.network(SLOW)
        choose(file_of(LARGE)[0])
        reaches(0.1)
        parts = stage.parts()
        browser.click(".away")
        soon(lambda: browser.run("return document.querySelectorAll('li').length") == 0, "nothing is in the list")
        soon(lambda: all("post-terminate" in stage.events()[path][-1] for path in parts), "the parts are removed")
        same(len(stage.events()), PARTS + 1, "how many uploads have events")
        same(browser.run("return localStorage.length"), 0, "what the browser keeps")


def gone():
    """An upload that the server no longer has is said to be gone, and is restarted when the visitor says so."""
    with Stage() as stage:
        path, body = file_of(LARGE)
        browser.network(SLOW)
        choose(path)
        reaches(0.1)
        browser.click(".go")
        says("Paused.")
        with Connection(stage.server) as connection:
            same(connection.ask("DELETE", stage.parts()[1]).status, 204, "the status of a DELETE")
        browser.network()
        browser.click(".go")
        says("This upload is gone.")
        browser.click(".go")
        says("Uploaded.")
        same(stage.fetched()[1] == body, True, "whether the bytes came back")


def keyboard():
    """Everything is reached by the keyboard, and has a name for those who don't see it."""
    tab, space = "\ue004", " "
    with Stage() as stage:
        browser.press(tab)
        same(browser.run("return document.activeElement.id"), "choose", "what the first Tab leads to")
        same(browser.label("#choose"), "Choose files or drop them here", "what it is called")
        browser.network(SLOW)
        choose(file_of(LARGE)[0])
        reaches(0.1)
        same(browser.label(".bar"), NAME, "what the bar is called")
        browser.press(tab)
        browser.press(space)
        says("Paused.")
        same([browser.label(".go"), browser.label(".away")], ["Resume", "Cancel"], "what the buttons are called")
        browser.press(tab)
        browser.press(space)
        soon(lambda: browser.run("return document.querySelectorAll('li').length") == 0, "nothing is in the list")
        del stage


def lines():
    """The page's script has 120 lines at most."""
    with open(os.path.join(EXAMPLE, "index.html"), encoding="utf-8") as file:
        script = file.read().partition("<script")[2].partition("</script>")[0]
    below(script.count("\n") - 1, MAX_LINES + 1, "the lines of the script")


program, names = words_of(__doc__)
missing = [f"everything, since {package} isn't installed" for name, package in NEEDED.items() if not shutil.which(name)]
if missing:
    sys.exit(try_all([], names, missing))
os.makedirs(PICTURES, exist_ok=True)
cases = [
    same_origin, other_origin, stranger, one_piece, refused, too_large, signed_in, breaks, cancelled, gone, keyboard, lines,
]
with tempfile.TemporaryDirectory() as folder, Browser() as browser:
    sys.exit(try_all(cases, names))
