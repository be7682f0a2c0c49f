"""Chromium without a window, driven over its debugging pipe: opens a page, evaluates scripts in it and takes pictures."""
import base64
import http.server
import json
import os
import pathlib
import shutil
import signal
import subprocess
import tempfile
import threading
import time
import zlib

PROGRAM = next(filter(None, map(shutil.which, ("chromium", "chromium-browser", "google-chrome"))), None)
OPTIONS = ["--headless", "--no-sandbox", "--disable-gpu", "--hide-scrollbars", "--remote-debugging-pipe", "about:blank"]
TWO_FRAMES = "new Promise((done) => requestAnimationFrame(() => requestAnimationFrame(done)))"


class Failed(Exception):
    """The browser ended, or a script in a page failed."""


class Browser:
    """A browser with one page. It is ended by `close`, and when it has run for longer than the limit, in seconds."""

    def __init__(self, limit=1500):
        self.folder = tempfile.mkdtemp()
        commands, self.requests = os.pipe()
        self.replies, answers = os.pipe()
        words = [PROGRAM, f"--user-data-dir={self.folder}", *OPTIONS]
        # Chromium reads requests from descriptor 3 and writes replies to 4.
        line = f'exec "$@" 3<&{commands} 4>&{answers}'
        self.process = subprocess.Popen(["/bin/sh", "-c", line, "sh", *words], pass_fds=(commands, answers), stdin=subprocess.DEVNULL,
                                        stdout=subprocess.DEVNULL, stderr=subprocess.DEVNULL, start_new_session=True)
        os.close(commands)
        os.close(answers)
        self.timer = threading.Timer(limit, self.kill)
        self.timer.start()
        self.read, self.count, self.session = b"", 0, {}
        try:
            target = self.ask("Target.createTarget", url="about:blank")["targetId"]
            self.session = {"sessionId": self.ask("Target.attachToTarget", targetId=target, flatten=True)["sessionId"]}
        except BaseException:
            self.close()
            raise

    def kill(self):
        try:
            os.killpg(self.process.pid, signal.SIGKILL)
        except ProcessLookupError:
            pass

    def close(self):
        self.timer.cancel()
        self.kill()
        self.process.wait()
        os.close(self.requests)
        os.close(self.replies)
        shutil.rmtree(self.folder, ignore_errors=True)

    def message(self):
        """What the browser says next."""
        while b"\0" not in self.read:
            more = os.read(self.replies, 1 << 16)
            if not more:
                raise Failed("the browser ended")
            self.read += more
        text, self.read = self.read.split(b"\0", 1)
        return json.loads(text)

    def ask(self, method, **parameters):
        """What the browser answers to a request."""
        self.count += 1
        request = {"id": self.count, "method": method, "params": parameters, **self.session}
        rest = json.dumps(request).encode() + b"\0"
        while rest:
            rest = rest[os.write(self.requests, rest):]
        while True:
            message = self.message()
            if message.get("id") == self.count:
                if "error" in message:
                    raise Failed(message["error"]["message"])
                return message["result"]

    def open(self, address):
        """Opens a page, and waits until all of it is read, and its script has run."""
        self.ask("Page.navigate", url="about:blank")
        self.ask("Page.navigate", url=address)
        self.wait("document.URL + ' ' + document.readyState", address + " complete")

    def wait(self, script, value):
        """Waits until a script has this value."""
        while self.run(script) != value:
            time.sleep(0.02)

    def run(self, script):
        """The value of a script's last expression, where that is a promise when it is kept."""
        answer = self.ask("Runtime.evaluate", expression=script, returnByValue=True, awaitPromise=True)
        if "exceptionDetails" in answer:
            details = answer["exceptionDetails"]
            raise Failed(details.get("exception", {}).get("description", details["text"]))
        return answer["result"].get("value")

    def processor_time(self):
        """What all processes of the browser have used so far, in seconds."""
        ticks = 0
        for path in pathlib.Path("/proc").glob("[0-9]*/stat"):
            try:
                numbers = path.read_text(errors="replace").rpartition(")")[2].split()
            except OSError:
                continue  # it has ended
            if int(numbers[2]) == self.process.pid:  # its group
                ticks += sum(map(int, numbers[11:15]))
        return ticks / os.sysconf("SC_CLK_TCK")

    def look(self, width, height, scheme="light", media="screen"):
        """From now on the page is so wide and high, and is shown light or dark, on a screen or in print."""
        self.ask("Emulation.setDeviceMetricsOverride", width=width, height=height, deviceScaleFactor=1, mobile=False)
        self.ask("Emulation.setEmulatedMedia", media=media, features=[{"name": "prefers-color-scheme", "value": scheme}])

    def picture(self):
        """A picture of the page as it is shown, as a PNG."""
        self.run(TWO_FRAMES)
        return base64.b64decode(self.ask("Page.captureScreenshot", format="png")["data"])


class Slow(http.server.ThreadingHTTPServer):
    """Serves a page on a port of this machine: a part of its bytes at once, and the others once `rest` is set."""

    daemon_threads = True

    def __init__(self, page, part):
        super().__init__(("127.0.0.1", 0), Answer)
        text = page.read_bytes()
        self.beginning, self.others = text[:int(len(text) * part)], text[int(len(text) * part):]
        self.rest, self.address = threading.Event(), f"http://127.0.0.1:{self.server_port}/"
        threading.Thread(target=self.serve_forever, daemon=True).start()


class Answer(http.server.BaseHTTPRequestHandler):
    def do_GET(self):
        self.send_response(200)
        self.send_header("Content-Type", "text/html")
        self.end_headers()
        self.wfile.write(self.server.beginning)
        self.server.rest.wait()
        self.wfile.write(self.server.others)

    def log_message(self, *_):
        pass


def rows_of(png):
    """The rows of a PNG's pixels as they are packed, each with a byte before it that says how; and the bytes of a pixel."""
    width, height = int.from_bytes(png[16:20], "big"), int.from_bytes(png[20:24], "big")
    each = {2: 3, 6: 4}[png[25]]
    packed, at = b"", 8
    while at < len(png):
        size, kind = int.from_bytes(png[at:at + 4], "big"), png[at + 4:at + 8]
        packed += png[at + 8:at + 8 + size] if kind == b"IDAT" else b""
        at += size + 12
    pixels = zlib.decompress(packed)
    long = 1 + each * width
    assert len(pixels) == long * height
    return [pixels[long * row:long * (row + 1)] for row in range(height)], each
