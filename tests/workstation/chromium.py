"""Debian's chromium without a window, driven over its debugging pipe, and the pictures that it takes. No wait is without a limit."""

import base64
import fcntl
import json
import os
import select
import shutil
import signal
import struct
import time
import zlib

FLAGS = """--headless=new --no-sandbox --disable-gpu --disable-dev-shm-usage --no-first-run --no-default-browser-check
    --disable-background-networking --disable-component-update --disable-sync --disable-extensions --disable-breakpad
    --disable-default-apps --force-color-profile=srgb --hide-scrollbars --remote-debugging-pipe""".split()
WAIT = 20


class Browser:
    """One browser with one tab. `events` are those of the tab since the last load began."""

    def __init__(self, folder, log):
        """The browser's files stand in the folder, and what it says in the log."""
        ours, theirs = os.pipe(), os.pipe()
        # The browser has its ends as 3 and 4: out of the way of these, so that none is overwritten.
        ends = [fcntl.fcntl(fd, fcntl.F_DUPFD_CLOEXEC, 10) for fd in (ours[0], theirs[1])]
        said = os.open(log, os.O_WRONLY | os.O_CREAT | os.O_TRUNC, 0o666)
        # No name resolves: what would be fetched isn't, be there a network or not.
        flags = FLAGS + [f"--user-data-dir={folder}/profile", "--host-resolver-rules=MAP * ~NOTFOUND", "about:blank"]
        self.process = os.posix_spawn(
            shutil.which("chromium"), ["chromium", *flags], {**os.environ, "HOME": folder, "XDG_CONFIG_HOME": folder},
            file_actions=[(os.POSIX_SPAWN_DUP2, ends[0], 3), (os.POSIX_SPAWN_DUP2, ends[1], 4),
                          (os.POSIX_SPAWN_DUP2, said, 1), (os.POSIX_SPAWN_DUP2, said, 2)], setpgroup=0)
        for fd in (ours[0], theirs[1], said, *ends):
            os.close(fd)
        self.to, self.of, self.rest, self.calls, self.events, self.tab = ours[1], theirs[0], b"", 0, [], None

    def open(self):
        """Opens the tab, in which no script runs."""
        target = self.call("Target.createTarget", url="about:blank")["targetId"]
        self.tab = self.call("Target.attachToTarget", targetId=target, flatten=True)["sessionId"]
        for domain in ("Page", "Network", "Log", "Runtime"):
            self.call(f"{domain}.enable")
        self.call("Emulation.setScriptExecutionDisabled", value=True)

    def close(self):
        """Ends the browser and all that it started. It ends by itself where its pipe is closed; if not soon, it is killed."""
        os.close(self.to)
        until = time.monotonic() + 2
        while os.waitid(os.P_PID, self.process, os.WEXITED | os.WNOHANG | os.WNOWAIT) is None and time.monotonic() < until:
            time.sleep(0.02)
        # Its process isn't waited for before this, so the group is there and no other's.
        os.killpg(self.process, signal.SIGKILL)
        os.waitpid(self.process, 0)

    def message(self, until):
        while b"\0" not in self.rest:
            if not select.select([self.of], [], [], max(0, until - time.monotonic()))[0]:
                raise TimeoutError("chromium doesn't answer")
            more = os.read(self.of, 1 << 20)
            if not more:
                raise EOFError("chromium has ended")
            self.rest += more
        one, self.rest = self.rest.split(b"\0", 1)
        one = json.loads(one)
        if "method" in one and one.get("sessionId") == self.tab:
            self.events.append(one)
        return one

    def call(self, method, **parameters):
        self.calls += 1
        asked = {"id": self.calls, "method": method, "params": parameters, **({"sessionId": self.tab} if self.tab else {})}
        os.write(self.to, json.dumps(asked).encode() + b"\0")
        until = time.monotonic() + WAIT
        while True:
            answer = self.message(until)
            if answer.get("id") == self.calls:
                if "error" in answer:
                    raise RuntimeError(f"{method}: {answer['error']}")
                return answer["result"]

    def load(self, url):
        self.events = []
        self.call("Page.navigate", url=url)
        until = time.monotonic() + WAIT
        while not any(one["method"] == "Page.loadEventFired" for one in self.events):
            self.message(until)

    def evaluate(self, expression):
        """The value of an expression of JavaScript in the page."""
        answer = self.call("Runtime.evaluate", expression=expression, returnByValue=True)
        if "exceptionDetails" in answer:
            raise RuntimeError(f"JavaScript: {answer['exceptionDetails']}")
        return answer["result"].get("value")

    def show(self, width, height=800, media="screen", scheme="light"):
        self.call("Emulation.setDeviceMetricsOverride", width=width, height=height, deviceScaleFactor=1, mobile=width < 600)
        self.call("Emulation.setEmulatedMedia", media=media, features=[{"name": "prefers-color-scheme", "value": scheme}])

    def picture(self):
        """The whole page, as the bytes of a PNG."""
        size = self.call("Page.getLayoutMetrics")["cssContentSize"]
        return base64.b64decode(self.call("Page.captureScreenshot", captureBeyondViewport=True,
                                          clip={"x": 0, "y": 0, "width": size["width"], "height": size["height"], "scale": 1})["data"])

    def pdf(self):
        """The page as it is printed, on paper of its own choice and without the backgrounds that a browser leaves out."""
        self.call("Emulation.setEmulatedMedia", media="print")
        return base64.b64decode(self.call("Page.printToPDF", preferCSSPageSize=True, printBackground=False)["data"])


def undo(kind, row, above, step):
    """A row of a PNG without its filter."""
    if kind == 2:
        return bytearray((a + b) & 255 for a, b in zip(row, above))
    for i in range(len(row) if kind else 0):
        left, up, corner = (row[i - step], above[i], above[i - step]) if i >= step else (0, above[i], 0)
        if kind == 1:
            guess = left
        elif kind == 3:
            guess = (left + up) // 2
        else:
            guess = min((abs(up - corner), 0, left), (abs(left - corner), 1, up), (abs(left + up - 2 * corner), 2, corner))[2]
        row[i] = (row[i] + guess) & 255
    return row


def pixels(png):
    """The rows of a PNG of 8 bits a channel: lists of (red, green, blue)."""
    at, packed = 8, b""
    while at < len(png):
        size, kind = struct.unpack_from(">I4s", png, at)
        if kind == b"IHDR":
            width, height, depth, colour, _, _, interlaced = struct.unpack_from(">IIBBBBB", png, at + 8)
        if kind == b"IDAT":
            packed += png[at + 8:at + 8 + size]
        at += size + 12
    assert depth == 8 and colour in (2, 6) and not interlaced, "a PNG of another form"
    step = 3 if colour == 2 else 4
    raw, long = zlib.decompress(packed), width * step
    rows, above = [], bytearray(long)
    for y in range(height):
        start = y * (long + 1)
        above = undo(raw[start], bytearray(raw[start + 1:start + 1 + long]), above, step)
        rows.append(list(zip(above[0::step], above[1::step], above[2::step])))
    return rows
