"""A headless Chromium for `.ci/try_picture.py`, led through a pipe by the DevTools protocol."""
import base64
import fcntl
import json
import os
import shutil
import subprocess
import tempfile


def found():
    """The browser's program, or None."""
    return shutil.which("chromium") or shutil.which("chromium-browser")


class Browser:
    """One page of a browser that ends with the block."""

    def __init__(self, program, width=1280, height=800, scale=1):
        self._program, self._width, self._height, self._scale = program, width, height, scale
        self._number, self._left, self._session = 0, b"", None

    def __enter__(self):
        self._folder = tempfile.TemporaryDirectory(ignore_cleanup_errors=True)
        their_in, self._to = (self._moved(end) for end in os.pipe())
        self._from, their_out = (self._moved(end) for end in os.pipe())

        def as_three_and_four():
            os.dup2(their_in, 3)
            os.dup2(their_out, 4)

        words = [self._program, "--headless=new", "--no-sandbox", "--disable-gpu", "--no-first-run",
                 "--disable-extensions", "--remote-debugging-pipe", "--hide-scrollbars",
                 "--disable-background-networking", f"--user-data-dir={self._folder.name}",
                 "about:blank"]
        self._process = subprocess.Popen(words, close_fds=False, preexec_fn=as_three_and_four,
                                         stdin=subprocess.DEVNULL, stdout=subprocess.DEVNULL,
                                         stderr=subprocess.DEVNULL)
        os.close(their_in)
        os.close(their_out)
        pages = self._ask("Target.getTargets")["targetInfos"]
        page = next(it["targetId"] for it in pages if it["type"] == "page")
        session = self._ask("Target.attachToTarget", targetId=page, flatten=True)
        self._session = session["sessionId"]
        self._ask("Page.enable")
        self._ask("Performance.enable", timeDomain="threadTicks")
        self._ask("Emulation.setDeviceMetricsOverride", width=self._width, height=self._height,
                  deviceScaleFactor=self._scale, mobile=False)
        self._set_scheme("light")
        return self

    def __exit__(self, *_):
        self._process.kill()
        self._process.wait()
        os.close(self._to)
        os.close(self._from)
        self._folder.cleanup()

    @staticmethod
    def _moved(end):
        """This end of a pipe, under a number that is neither 3 nor 4."""
        moved = fcntl.fcntl(end, fcntl.F_DUPFD_CLOEXEC, 10)
        os.close(end)
        return moved

    def _message(self):
        while b"\0" not in self._left:
            more = os.read(self._from, 1 << 20)
            if not more:
                raise EOFError("the browser ended")
            self._left += more
        message, _, self._left = self._left.partition(b"\0")
        return json.loads(message)

    def _ask(self, method, **parameters):
        self._number += 1
        asked = {"id": self._number, "method": method, "params": parameters}
        if self._session:
            asked["sessionId"] = self._session
        text = json.dumps(asked).encode() + b"\0"
        while text:
            text = text[os.write(self._to, text):]
        while (answer := self._message()).get("id") != self._number:
            pass
        if "error" in answer:
            raise RuntimeError(f"{method}: {answer['error']['message']}")
        return answer["result"]

    def _set_scheme(self, scheme):
        self._ask("Emulation.setEmulatedMedia",
                  features=[{"name": "prefers-color-scheme", "value": scheme}])

    def set_dark(self):
        """Asks for dark colours."""
        self._set_scheme("dark")

    def open(self, file):
        """Opens a page, and returns when it is loaded."""
        self._ask("Page.navigate", url=file.resolve().as_uri())
        while self._message().get("method") != "Page.loadEventFired":
            pass

    def value(self, script):
        """What a script gives in the page."""
        answer = self._ask("Runtime.evaluate", expression=script, returnByValue=True,
                           awaitPromise=True)
        if "exceptionDetails" in answer:
            raise RuntimeError(answer["exceptionDetails"]["exception"]["description"])
        return answer["result"].get("value")

    def processor_seconds(self):
        """The processor time that the page has taken, which other work on the machine doesn't
        make longer."""
        metrics = self._ask("Performance.getMetrics")["metrics"]
        return next(it["value"] for it in metrics if it["name"] == "TaskDuration")

    def move_to(self, x, y):
        """Moves the pointer, and returns when the page has been drawn again."""
        self._ask("Input.dispatchMouseEvent", type="mouseMoved", x=x, y=y)
        self.value("new Promise(done => requestAnimationFrame(() => requestAnimationFrame(done)))")

    def click(self, x, y):
        """Clicks with the left button."""
        for kind in ("mousePressed", "mouseReleased"):
            self._ask("Input.dispatchMouseEvent", type=kind, x=x, y=y, button="left", clickCount=1)

    def picture(self, file):
        """Writes what is seen as a PNG file."""
        answer = self._ask("Page.captureScreenshot", format="png")
        file.write_bytes(base64.b64decode(answer["data"]))
