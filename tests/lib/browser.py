"""A real browser for the cases: Debian's chromium without a window, spoken to by its own protocol over a pipe (DevTools, one JSON object after the other,
each with a zero byte behind it). What a page says on the console, throws, or asks of the network is kept."""
import base64
import json
import os
import select
import shutil
import subprocess
import tempfile
import time

from cases import Wrong

NAMES = ("chromium", "chromium-browser", "google-chrome", "chrome")
PATIENCE = 30  # seconds for one answer


def found():
    """The browser's name; it is installed where that can be done, else None."""
    for again in (False, True):
        if again and shutil.which("apt-get") and os.getuid() == 0:
            quiet = {"stdin": subprocess.DEVNULL, "stdout": subprocess.DEVNULL, "stderr": subprocess.DEVNULL, "check": False, "timeout": 600}
            plain = {**os.environ, "DEBIAN_FRONTEND": "noninteractive"}
            subprocess.run(["apt-get", "install", "-y", "-q", "--no-install-recommends", "chromium"], env=plain, **quiet)
        for name in NAMES:
            if shutil.which(name):
                return name
    return None


class Browser:
    """One browser with one page."""

    def __init__(self, name):
        self.room = tempfile.mkdtemp()
        commands, self.say = os.pipe()
        self.hear, answers = os.pipe()
        alone = ["--no-sandbox"] if os.geteuid() == 0 else []
        words = [name, "--headless", *alone, "--disable-gpu", "--disable-dev-shm-usage", "--no-first-run", "--disable-extensions",
                 "--disable-background-networking", f"--user-data-dir={self.room}", "--remote-debugging-pipe", "about:blank"]
        shell = ["bash", "-c", f'exec "$@" 3<&{commands} 4>&{answers}', "bash", *words]
        self.process = subprocess.Popen(shell, stdin=subprocess.DEVNULL, stdout=subprocess.DEVNULL, stderr=subprocess.DEVNULL, pass_fds=(commands, answers))
        os.close(commands)
        os.close(answers)
        self.held, self.last, self.session = b"", 0, None
        self.console, self.requests = [], []
        pages = [target for target in self.ask("Target.getTargets")["targetInfos"] if target["type"] == "page"]
        self.session = self.ask("Target.attachToTarget", targetId=pages[0]["targetId"], flatten=True)["sessionId"]
        for domain in "Page", "Runtime", "Log", "Network":
            self.ask(domain + ".enable")

    def __enter__(self):
        return self

    def __exit__(self, *fault):
        self.process.terminate()
        try:
            self.process.wait(10)
        except subprocess.TimeoutExpired:
            self.process.kill()
            self.process.wait()
        os.close(self.say)
        os.close(self.hear)
        shutil.rmtree(self.room, ignore_errors=True)

    def ask(self, method, **words):
        """Asks the browser for something, and waits for the answer."""
        self.last += 1
        message = {"id": self.last, "method": method, "params": words}
        if self.session:
            message["sessionId"] = self.session
        os.write(self.say, json.dumps(message).encode() + b"\0")
        until = time.monotonic() + PATIENCE
        while True:
            told = self.next(until)
            if told.get("id") == self.last:
                if "error" in told:
                    raise Wrong(f"the browser says of {method}: {told['error']['message']}")
                return told["result"]
            self.note(told)

    def next(self, until):
        while b"\0" not in self.held:
            if not select.select([self.hear], [], [], max(0, until - time.monotonic()))[0]:
                raise Wrong("the browser does not answer")
            more = os.read(self.hear, 1 << 16)
            if not more:
                raise Wrong("the browser has gone")
            self.held += more
        told, _, self.held = self.held.partition(b"\0")
        return json.loads(told)

    def note(self, told):
        """Keeps what the page says, throws or asks for."""
        method, words = told.get("method"), told.get("params", {})
        if method == "Runtime.consoleAPICalled":
            self.console.append(f"{words['type']}: {[each.get('value', each.get('description')) for each in words['args']]}")
        elif method == "Runtime.exceptionThrown":
            self.console.append("thrown: " + json.dumps(words["exceptionDetails"])[:500])
        elif method == "Log.entryAdded":
            self.console.append(f"{words['entry']['level']}: {words['entry']['text']}")
        elif method == "Network.requestWillBeSent":
            self.requests.append(words["request"]["url"])
        elif method == "Page.loadEventFired":
            self.loaded = True

    def open(self, path, width=1100, height=900, dark=False):
        """Opens a file in a window of some size."""
        self.ask("Emulation.setDeviceMetricsOverride", width=width, height=height, deviceScaleFactor=1, mobile=width < 600)
        self.ask("Emulation.setEmulatedMedia", features=[{"name": "prefers-color-scheme", "value": "dark" if dark else "light"}])
        self.console, self.requests, self.loaded = [], [], False
        self.ask("Page.navigate", url="file://" + path)
        until = time.monotonic() + PATIENCE
        while not self.loaded:
            self.note(self.next(until))

    def value(self, script):
        """What an expression is worth in the page."""
        told = self.ask("Runtime.evaluate", expression=script, returnByValue=True, awaitPromise=True)
        if "exceptionDetails" in told:
            raise Wrong(f"{script} throws {json.dumps(told['exceptionDetails'])[:400]}")
        return told["result"].get("value")

    def key(self, name, code, text=""):
        """A key, pressed and let go."""
        for kind in ("keyDown", "keyUp"):
            self.ask("Input.dispatchKeyEvent", type=kind, key=name, code=name, windowsVirtualKeyCode=code, nativeVirtualKeyCode=code,
                     text=text if kind == "keyDown" else "")

    def point(self, x, y, click=False):
        self.ask("Input.dispatchMouseEvent", type="mouseMoved", x=x, y=y)
        for kind in ("mousePressed", "mouseReleased") if click else ():
            self.ask("Input.dispatchMouseEvent", type=kind, x=x, y=y, button="left", clickCount=1)

    def picture(self, path, whole=True):
        """A picture of the page, as PNG."""
        told = self.ask("Page.captureScreenshot", format="png", captureBeyondViewport=whole)
        with open(path, "wb") as file:
            file.write(base64.b64decode(told["data"]))

    def printed(self, path):
        """The page as a printer gets it, as PDF."""
        with open(path, "wb") as file:
            file.write(base64.b64decode(self.ask("Page.printToPDF", printBackground=False)["data"]))
