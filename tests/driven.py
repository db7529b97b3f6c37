"""A Chromium for the time of a `with`, which `tests/browser.py` drives by WebDriver: JSON over HTTP to Debian's
`chromium-driver`. Neither reaches anything but the loopback.
"""
import base64
import http.client
import json
import os
import shutil
import subprocess
import tempfile

from serving import MAX_WAIT, free_port, same, soon

# No window, nothing that Chromium does by itself in the background, and no look-up of any name but `localhost`.
FLAGS = """
--headless=new --window-size=1000,760 --lang=en-US --no-first-run --no-default-browser-check --disable-sync
--disable-background-networking --disable-component-update --disable-default-apps --disable-extensions --no-pings
--disable-domain-reliability --disable-client-side-phishing-detection --metrics-recording-only --disable-breakpad
--disable-features=OptimizationHints,MediaRouter,Translate,CertificateTransparencyComponentUpdater --no-sandbox
--disable-dev-shm-usage --disable-gpu
""".split()
RESOLVER = "--host-resolver-rules=MAP * ~NOTFOUND, EXCLUDE localhost, EXCLUDE 127.0.0.1"

# The key of a reference to an element in a reply, by the standard (WebDriver, section 12.2).
ELEMENT = "element-6066-11e4-a52e-4f735466cecf"


class Browser:
    """A browser with a profile of its own, which trusts any certificate."""

    def __enter__(self):
        self.folder = tempfile.TemporaryDirectory(prefix="up-chromium-")
        self.port, self.session = free_port(), None
        self.process = subprocess.Popen(
            ["chromedriver", f"--port={self.port}"], stdout=subprocess.DEVNULL, stderr=subprocess.DEVNULL,
            env={**os.environ, "HOME": self.folder.name},
        )
        try:
            soon(self.is_ready, "chromedriver listens")
            flags = [*FLAGS, RESOLVER, f"--user-data-dir={self.folder.name}/profile"]
            options = {"binary": shutil.which("chromium"), "args": flags}
            wanted = {"browserName": "chrome", "acceptInsecureCerts": True, "goog:chromeOptions": options}
            self.session = self.ask("POST", "/session", {"capabilities": {"alwaysMatch": wanted}})["sessionId"]
        except BaseException:
            self.__exit__()
            raise
        return self

    def __exit__(self, *_):
        try:
            if self.session:
                self.ask("DELETE", f"/session/{self.session}")
        finally:
            self.process.terminate()
            self.process.wait()
            self.folder.cleanup()

    def is_ready(self):
        try:
            return self.ask("GET", "/status")["ready"]
        except OSError:
            return False

    def ask(self, method, path, given=None):
        """The value in the driver's reply; a fault of the driver fails the case."""
        connection = http.client.HTTPConnection("127.0.0.1", self.port, timeout=3 * MAX_WAIT)
        body = None if given is None else json.dumps(given).encode()
        connection.request(method, path, body, {"Content-Type": "application/json"})
        reply = connection.getresponse()
        value = json.load(reply)["value"]
        connection.close()
        same(reply.status, 200, f"the status of {method} {path}, behind {value}")
        return value

    def do(self, word, **given):
        """Runs a command of the session."""
        return self.ask("POST", f"/session/{self.session}/{word}", given)

    def go(self, url):
        self.do("url", url=url)

    def run(self, script, *given):
        """The result of a script in the page; a promise is waited for."""
        return self.do("execute/sync", script=script, args=list(given))

    def find(self, selector):
        """The element that a selector names; fails if there is none."""
        return self.do("element", using="css selector", value=selector)[ELEMENT]

    def click(self, selector):
        self.do(f"element/{self.find(selector)}/click")

    def type(self, selector, text):
        """Types into an element. For an input for files, the text is their paths, one a line."""
        self.do(f"element/{self.find(selector)}/value", text=text)

    def press(self, key):
        """Presses a key, whichever element has the focus."""
        keys = [{"type": kind, "value": key} for kind in ("keyDown", "keyUp")]
        self.do("actions", actions=[{"type": "key", "id": "keys", "actions": keys}])

    def text(self, selector):
        """The text that an element shows; empty if there is no such element."""
        return self.run("return document.querySelector(arguments[0])?.innerText ?? ''", selector)

    def label(self, selector):
        """The accessible name of an element."""
        return self.ask("GET", f"/session/{self.session}/element/{self.find(selector)}/computedlabel")

    def picture(self, path):
        """Writes a picture of the window as a PNG."""
        with open(path, "wb") as file:
            file.write(base64.b64decode(self.ask("GET", f"/session/{self.session}/screenshot")))

    def network(self, rate=-1, offline=False):
        """Lets the network carry this many bytes a second (-1: as many as it can), or none."""
        conditions = {"latency": 0, "offline": offline, "download_throughput": rate, "upload_throughput": rate}
        self.do("chromium/network_conditions", network_conditions=conditions)
