"""A browser that a test drives: chromium without a window, spoken to over two pipes by its own debugging protocol. Nothing but Python's
standard library is needed.
"""
import base64
import fcntl
import json
import os
import shutil
import subprocess
import time

CHROMIUM = next((path for path in map(shutil.which, ("chromium", "chromium-browser", "google-chrome")) if path), None)


class Browser:
    def __init__(self, room):
        """The browser reads commands from its file 3 and writes to its file 4; ours get numbers above these first."""
        ends = [fcntl.fcntl(end, fcntl.F_DUPFD, 10) for pair in (os.pipe(), os.pipe()) for end in pair]
        its_in, self.to, self.back, its_out = ends[0], ends[1], ends[2], ends[3]
        words = [CHROMIUM, "--headless", "--no-sandbox", "--disable-gpu", "--disable-dev-shm-usage", "--remote-debugging-pipe", "--no-first-run",
                 "--user-data-dir=" + os.path.join(room, "browser"), "--window-size=1280,900"]
        self.process = subprocess.Popen(["bash", "-c", 'exec "$@" 3<&%d 4>&%d' % (its_in, its_out), "-"] + words, pass_fds=(its_in, its_out),
                                        stdin=subprocess.DEVNULL, stdout=subprocess.DEVNULL, stderr=subprocess.DEVNULL)
        os.close(its_in)
        os.close(its_out)
        self.number, self.read, self.events, self.session = 0, b"", [], None
        target = self.call("Target.createTarget", url="about:blank")["targetId"]
        self.session = self.call("Target.attachToTarget", targetId=target, flatten=True)["sessionId"]
        for part in ("Page", "Network", "Runtime", "Log"):
            self.call(part + ".enable")

    def message(self):
        """The next message of the browser."""
        while b"\0" not in self.read:
            part = os.read(self.back, 1 << 16)
            if not part:
                raise OSError("the browser has ended")
            self.read += part
        said, _, self.read = self.read.partition(b"\0")
        return json.loads(said)

    def call(self, method, **words):
        self.number += 1
        call = {"id": self.number, "method": method, "params": words}
        if self.session:
            call["sessionId"] = self.session
        os.write(self.to, json.dumps(call).encode() + b"\0")
        while True:
            said = self.message()
            if said.get("id") == self.number:
                if "error" in said:
                    raise OSError("%s: %s" % (method, said["error"]))
                return said["result"]
            self.events.append(said)

    def is_open(self, url):
        """Whether the page is there and whole."""
        said = self.call("Runtime.evaluate", expression="[location.href, document.readyState]", returnByValue=True)
        return said["result"].get("value") == [url, "complete"]

    def go(self, url):
        self.call("Page.navigate", url=url)
        self.until(lambda: self.is_open(url), "the browser doesn't open %s" % url)

    def until(self, is_so, otherwise):
        end = time.monotonic() + 20
        while not is_so():
            if time.monotonic() > end:
                raise AssertionError(otherwise)
            time.sleep(0.01)

    def becomes_true(self, expression):
        """Waits for what happens a moment after a click."""
        self.until(lambda: self.ask(expression), "%s doesn't become true" % expression)

    def open(self, url):
        """Opens a page and waits for it; what it fetches, and what it complains of, is in `events` from then on. An empty page comes between,
        since a link within one page would not load it anew."""
        self.go("about:blank")
        del self.events[:]
        self.go(url)

    def ask(self, expression):
        """The value of an expression in the page."""
        said = self.call("Runtime.evaluate", expression=expression, returnByValue=True, awaitPromise=True)
        if "exceptionDetails" in said:
            raise AssertionError(said["exceptionDetails"])
        return said["result"].get("value")

    def point_at(self, selector):
        """Moves the pointer to the middle of an element."""
        box = self.ask("(function () { var e = document.querySelector(%s); e.scrollIntoView({block: 'center'}); var b = e.getBoundingClientRect(); "
                       "return [b.x + b.width / 2, b.y + b.height / 2]; })()" % json.dumps(selector))
        self.call("Input.dispatchMouseEvent", type="mouseMoved", x=box[0], y=box[1])

    def click(self, selector):
        self.point_at(selector)
        place = dict(zip("xy", self.ask("(function () { var b = document.querySelector(%s).getBoundingClientRect(); "
                                        "return [b.x + Math.min(b.width, 20) / 2, b.y + b.height / 2]; })()" % json.dumps(selector))))
        for kind in ("mousePressed", "mouseReleased"):
            self.call("Input.dispatchMouseEvent", type=kind, button="left", clickCount=1, **place)

    def fetched(self):
        return [said["params"]["request"]["url"] for said in self.events if said.get("method") == "Network.requestWillBeSent"]

    def complaints(self):
        return [said["params"] for said in self.events if said.get("method") in ("Runtime.exceptionThrown", "Log.entryAdded")]

    def picture(self, path):
        with open(path, "wb") as f:
            f.write(base64.b64decode(self.call("Page.captureScreenshot", captureBeyondViewport=False)["data"]))

    def close(self):
        try:
            self.session = None
            self.call("Browser.close")
        except OSError:
            pass
        self.process.wait(20)
        os.close(self.to)
        os.close(self.back)
