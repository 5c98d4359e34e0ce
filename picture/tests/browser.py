"""A browser without a window, Debian's chromium, told over two pipes what to open and asked what it shows."""

import base64
import json
import os
import select
import shutil
import struct
import subprocess
import tempfile
import zlib

PROGRAM = "chromium"
OPTIONS = ["--headless", "--no-sandbox", "--disable-gpu", "--disable-dev-shm-usage", "--hide-scrollbars", "--remote-debugging-pipe"]
SECONDS = 60  # that an answer may take


def is_installed():
    return shutil.which(PROGRAM) is not None


def only_pixel(png):
    """The colour of a PNG file of one pixel."""
    data, at = b"", 8
    while at < len(png):
        length, kind = struct.unpack_from(">I4s", png, at)
        data += png[at + 8 : at + 8 + length] if kind == b"IDAT" else b""
        at += length + 12
    return tuple(zlib.decompress(data)[1:4])


class Browser:
    """One page in one browser. It reads requests from its file 3 and writes to its file 4, each a JSON text that ends with a zero byte."""

    def __init__(self):
        self.folder = tempfile.TemporaryDirectory(ignore_cleanup_errors=True)
        self.number, self.rest, self.session = 0, b"", None
        theirs_in, self.requests = os.pipe()
        self.replies, theirs_out = os.pipe()

        def place_pipes():
            given = os.dup(theirs_in), os.dup(theirs_out)
            os.dup2(given[0], 3)
            os.dup2(given[1], 4)

        words = [PROGRAM, *OPTIONS, "--user-data-dir=" + self.folder.name, "about:blank"]
        silent = dict.fromkeys(("stdin", "stdout", "stderr"), subprocess.DEVNULL)
        self.process = subprocess.Popen(words, close_fds=False, preexec_fn=place_pipes, **silent)
        os.close(theirs_in)
        os.close(theirs_out)
        target = self.call("Target.createTarget", url="about:blank")["targetId"]
        self.session = self.call("Target.attachToTarget", targetId=target, flatten=True)["sessionId"]
        self.call("Page.enable")

    def __enter__(self):
        return self

    def __exit__(self, *_):
        os.close(self.requests)
        self.process.kill()
        self.process.wait()
        os.close(self.replies)
        self.folder.cleanup()

    def message(self):
        """The next message of the browser."""
        while b"\0" not in self.rest:
            assert select.select([self.replies], [], [], SECONDS)[0], "the browser did not answer within %d s" % SECONDS
            read = os.read(self.replies, 1 << 20)
            assert read, "the browser ended"
            self.rest += read
        text, self.rest = self.rest.split(b"\0", 1)
        return json.loads(text)

    def call(self, method, **values):
        """The browser's answer; its other messages are passed over."""
        self.number += 1
        request = {"id": self.number, "method": method, "params": values}
        if self.session:
            request["sessionId"] = self.session
        os.write(self.requests, json.dumps(request).encode() + b"\0")
        while True:
            message = self.message()
            if message.get("id") == self.number:
                assert "result" in message, message
                return message["result"]

    def open(self, file, width, height):
        """Opens a file in a window of this size and waits until it is loaded."""
        self.call("Emulation.setDeviceMetricsOverride", width=width, height=height, deviceScaleFactor=1, mobile=False)
        self.call("Page.navigate", url="file://" + str(file))
        self.value("new Promise(done => document.readyState == 'complete' ? done() : addEventListener('load', done))")

    def value(self, expression):
        """What an expression of JavaScript is in the page."""
        done = self.call("Runtime.evaluate", expression=expression, awaitPromise=True, returnByValue=True)
        assert "exceptionDetails" not in done, done
        return done["result"].get("value")

    def point_at(self, x, y):
        self.call("Input.dispatchMouseEvent", type="mouseMoved", x=x, y=y)

    def screenshot(self, **values):
        """What is seen, as a PNG file's bytes."""
        return base64.b64decode(self.call("Page.captureScreenshot", format="png", **values)["data"])

    def colour_at(self, x, y):
        """Red, green and blue at a place of the window."""
        left, top = self.value("[scrollX, scrollY]")
        return only_pixel(self.screenshot(clip={"x": x + left, "y": y + top, "width": 1, "height": 1, "scale": 1}))
