"""A browser without a window, led over two pipes by the DevTools protocol: messages of JSON, each ended by a zero byte."""
import json
import os
import select
import shutil
import signal
import subprocess
import tempfile
import time

NAMES = ("chromium", "chromium-browser", "google-chrome")
PATIENCE = 120


def found():
    """The browser of this machine, or None."""
    return next(filter(None, map(shutil.which, NAMES)), None)


class Browser:
    """One browser with one page. What its console says of errors is kept in `errors`."""

    def __init__(self, program):
        self.home = tempfile.mkdtemp(prefix="viewer-test-")
        to_browser, self.writes = os.pipe()
        self.reads, from_browser = os.pipe()
        words = [program, "--headless=new", "--no-sandbox", "--disable-gpu", "--disable-dev-shm-usage", "--no-first-run", "--hide-scrollbars",
                 "--force-color-profile=srgb", "--user-data-dir=" + self.home, "--remote-debugging-pipe", "about:blank"]
        led = 'exec "$@" 3<&%d 4>&%d' % (to_browser, from_browser)
        self.process = subprocess.Popen(["sh", "-c", led, "sh"] + words, pass_fds=(to_browser, from_browser), stdin=subprocess.DEVNULL,
                                        stdout=subprocess.DEVNULL, stderr=subprocess.DEVNULL, start_new_session=True)
        os.close(to_browser)
        os.close(from_browser)
        self.read = b""
        self.last = 0
        self.session = None
        self.loaded = False
        self.errors = []
        try:
            self.attach()
        except BaseException:
            self.close()
            raise

    def attach(self):
        """Begins to lead the browser's page."""
        targets = self.ask("Target.getTargets")["targetInfos"]
        page = next(target for target in targets if target["type"] == "page")
        self.session = self.ask("Target.attachToTarget", targetId=page["targetId"], flatten=True)["sessionId"]
        for domain in ("Page", "Runtime", "Log", "DOM"):
            self.ask(domain + ".enable")

    def message(self, until):
        """The next message of the browser."""
        while b"\0" not in self.read:
            ready, _, _ = select.select([self.reads], [], [], max(0, until - time.monotonic()))
            piece = os.read(self.reads, 1 << 20) if ready else b""
            if not piece:
                raise RuntimeError("the browser ended" if ready else "the browser says nothing")
            self.read += piece
        said, _, self.read = self.read.partition(b"\0")
        said = json.loads(said)
        self.hear(said)
        return said

    def hear(self, said):
        """Keeps errors, and that a page is loaded."""
        method, of = said.get("method"), said.get("params", {})
        if method == "Page.loadEventFired":
            self.loaded = True
        elif method == "Runtime.exceptionThrown":
            details = of["exceptionDetails"]
            self.errors.append(details.get("exception", {}).get("description", details["text"]))
        elif method == "Runtime.consoleAPICalled" and of["type"] in ("error", "assert"):
            self.errors.append(str([arg.get("value", arg.get("description")) for arg in of["args"]]))
        elif method == "Log.entryAdded" and of["entry"]["level"] == "error":
            self.errors.append(of["entry"]["text"])

    def ask(self, method, **of):
        """Asks the browser for something, and answers its reply."""
        self.last += 1
        asked = {"id": self.last, "method": method, "params": of}
        if self.session:
            asked["sessionId"] = self.session
        os.write(self.writes, json.dumps(asked).encode() + b"\0")
        until = time.monotonic() + PATIENCE
        while True:
            said = self.message(until)
            if said.get("id") == self.last:
                if "error" in said:
                    raise RuntimeError("%s: %s" % (method, said["error"]))
                return said["result"]

    def open(self, path):
        """Opens a page by its file, as a double click does."""
        self.loaded = False
        self.ask("Page.navigate", url="file://" + os.path.abspath(path))
        until = time.monotonic() + PATIENCE
        while not self.loaded:
            self.message(until)
        self.settle()

    def run(self, code):
        """The value of an expression of the page; one that is a promise is waited for."""
        result = self.ask("Runtime.evaluate", expression=code, returnByValue=True, awaitPromise=True)
        if "exceptionDetails" in result:
            raise RuntimeError(result["exceptionDetails"].get("exception", {}).get("description", code))
        return result["result"].get("value")

    def until(self, code):
        """Waits until an expression of the page holds."""
        patience = time.monotonic() + PATIENCE
        while not self.run(code):
            if time.monotonic() > patience:
                raise RuntimeError("never: " + code)
            time.sleep(0.02)
        self.settle()

    def settle(self):
        """Waits until what the page asked to be drawn is drawn."""
        self.run("new Promise((done) => requestAnimationFrame(() => requestAnimationFrame(() => done(1))))")

    def size(self, width, height, scale=1):
        self.ask("Emulation.setDeviceMetricsOverride", width=width, height=height, deviceScaleFactor=scale, mobile=False)

    def scheme(self, name):
        """Dark or light."""
        self.ask("Emulation.setEmulatedMedia", features=[{"name": "prefers-color-scheme", "value": name}])

    def click(self, x, y):
        for kind in ("mouseMoved", "mousePressed", "mouseReleased"):
            self.ask("Input.dispatchMouseEvent", type=kind, x=x, y=y, button="none" if kind == "mouseMoved" else "left", clickCount=1)
        self.settle()

    def drag(self, x, y, to_x, to_y):
        self.ask("Input.dispatchMouseEvent", type="mousePressed", x=x, y=y, button="left", clickCount=1)
        for part in (0.3, 0.7, 1):
            self.ask("Input.dispatchMouseEvent", type="mouseMoved", x=x + (to_x - x) * part, y=y + (to_y - y) * part, button="left")
        self.ask("Input.dispatchMouseEvent", type="mouseReleased", x=to_x, y=to_y, button="left", clickCount=1)
        self.settle()

    def wheel(self, x, y, by):
        self.ask("Input.dispatchMouseEvent", type="mouseWheel", x=x, y=y, deltaX=0, deltaY=by)
        self.settle()

    def key(self, key, text=None):
        """Presses a key; a capital letter with Shift."""
        more = {"modifiers": 8} if len(key) == 1 and key.isupper() else {}
        self.ask("Input.dispatchKeyEvent", type="keyDown" if text else "rawKeyDown", key=key, **more, **({"text": text} if text else {}))
        self.ask("Input.dispatchKeyEvent", type="keyUp", key=key, **more)
        self.settle()

    def drop(self, paths):
        """Drops files on the page."""
        data = {"items": [], "files": [os.path.abspath(path) for path in paths], "dragOperationsMask": 1}
        for kind in ("dragEnter", "dragOver", "drop"):
            self.ask("Input.dispatchDragEvent", type=kind, x=300, y=300, data=data)

    def choose(self, paths):
        """Chooses files in the page's dialog."""
        root = self.ask("DOM.getDocument")["root"]["nodeId"]
        node = self.ask("DOM.querySelector", nodeId=root, selector="#files")["nodeId"]
        self.ask("DOM.setFileInputFiles", nodeId=node, files=[os.path.abspath(path) for path in paths])

    def picture(self):
        """The page as it is seen, as a PNG in base 64."""
        return self.ask("Page.captureScreenshot", format="png")["data"]

    def close(self):
        try:
            os.write(self.writes, json.dumps({"id": 0, "method": "Browser.close"}).encode() + b"\0")
            self.process.wait(5)
        except (OSError, subprocess.TimeoutExpired):
            os.killpg(self.process.pid, signal.SIGKILL)
            self.process.wait()
        os.close(self.writes)
        os.close(self.reads)
        shutil.rmtree(self.home, ignore_errors=True)
