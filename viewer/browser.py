"""A Chromium without a window, driven over a pair of pipes by its DevTools protocol. Only the standard library is used."""
import base64
import json
import os
import shutil
import subprocess
import tempfile

NAMES = ("chromium", "chromium-browser", "google-chrome", "chrome")


class Failed(Exception):
    """The browser refused a command, or went away."""


class Browser:
    """A browser with one page. Use it in a `with`; it ends with that."""

    def __init__(self, width=1400, height=1000):
        program = os.environ.get("CHROMIUM") or next(filter(None, map(shutil.which, NAMES)), None)
        if program is None:
            raise Failed("no chromium is found (Debian: apt-get install chromium); CHROMIUM may name one")
        self.folder = tempfile.mkdtemp(prefix="viewer-check-")
        to_browser, self.to = os.pipe()
        self.back, from_browser = os.pipe()

        def place_pipes():
            # the protocol's pipes are descriptors 3 and 4
            given, taken = os.dup(to_browser), os.dup(from_browser)
            os.dup2(given, 3)
            os.dup2(taken, 4)

        words = [program, "--headless=new", "--remote-debugging-pipe", f"--user-data-dir={self.folder}"]
        words += [f"--window-size={width},{height}", "--no-first-run", "--disable-gpu", "--hide-scrollbars"]
        words += ["--disable-background-networking", "--disable-component-update", "--disable-sync"]
        words += ["--no-sandbox"] if os.geteuid() == 0 else []
        words += ["about:blank"]
        quiet = {"stdin": subprocess.DEVNULL, "stdout": subprocess.DEVNULL, "stderr": subprocess.DEVNULL}
        self.process = subprocess.Popen(words, close_fds=False, preexec_fn=place_pipes, **quiet)
        os.close(to_browser)
        os.close(from_browser)
        self.rest = b""
        self.number = 0
        self.events = []
        self.session = None
        targets = self.call("Target.getTargets")["targetInfos"]
        page = next(it["targetId"] for it in targets if it["type"] == "page")
        self.session = self.call("Target.attachToTarget", targetId=page, flatten=True)["sessionId"]
        self.call("Page.enable")
        self.call("Runtime.enable")
        self.call("Network.enable")
        self.size(width, height)

    def __enter__(self):
        return self

    def __exit__(self, *_):
        self.process.terminate()
        try:
            self.process.wait(10)
        except subprocess.TimeoutExpired:
            self.process.kill()
            self.process.wait()
        os.close(self.to)
        os.close(self.back)
        shutil.rmtree(self.folder, ignore_errors=True)

    def message(self):
        """The next message of the browser."""
        while b"\0" not in self.rest:
            piece = os.read(self.back, 1 << 20)
            if not piece:
                raise Failed("the browser went away")
            self.rest += piece
        text, self.rest = self.rest.split(b"\0", 1)
        return json.loads(text)

    def call(self, method, **params):
        """A command's answer. Events that come before it are kept."""
        self.number += 1
        asked = {"id": self.number, "method": method, "params": params}
        if self.session:
            asked["sessionId"] = self.session
        text = json.dumps(asked).encode() + b"\0"
        while text:
            text = text[os.write(self.to, text) :]
        while True:
            said = self.message()
            if said.get("id") == self.number:
                if "error" in said:
                    raise Failed(f"{method}: {said['error']['message']}")
                return said["result"]
            if "method" in said:
                self.events.append(said)

    def open(self, url):
        """Goes to a page, and waits until it is loaded."""
        self.events = [it for it in self.events if it["method"] != "Page.loadEventFired"]
        self.call("Page.navigate", url=url)
        while not any(it["method"] == "Page.loadEventFired" for it in self.events):
            self.events.append(self.message())

    def value(self, expression):
        """What an expression of the page comes to."""
        answer = self.call("Runtime.evaluate", expression=expression, returnByValue=True, awaitPromise=True)
        if "exceptionDetails" in answer:
            raise Failed(f"{expression[:80]}: {answer['exceptionDetails'].get('exception', {}).get('description')}")
        return answer["result"].get("value")

    def key(self, key, shift=False, control=False):
        """Presses a key and lets it go."""
        named = {" ": ("Space", " "), "Tab": ("Tab", ""), "Enter": ("Enter", "\r")}
        code, text = named.get(key, (key, ""))
        codes = {"ArrowLeft": 37, "ArrowUp": 38, "ArrowRight": 39, "ArrowDown": 40, "PageUp": 33, "PageDown": 34}
        codes |= {"Home": 36, "End": 35, " ": 32, "Tab": 9, "Enter": 13, "Backspace": 8}
        codes |= {key: ord(key.upper())} if len(key) == 1 and key.isalpha() else {}
        held = (8 if shift else 0) + (2 if control else 0)
        how = {"key": key, "code": code, "windowsVirtualKeyCode": codes.get(key, 0), "modifiers": held}
        self.call("Input.dispatchKeyEvent", type="keyDown", text="" if control else text, **how)
        self.call("Input.dispatchKeyEvent", type="keyUp", **how)

    def type(self, text):
        """Types a text where the cursor is."""
        self.call("Input.insertText", text=text)

    def choose_file(self, selector, file):
        """Gives a file to the page's field for files."""
        root = self.call("DOM.getDocument")["root"]["nodeId"]
        node = self.call("DOM.querySelector", nodeId=root, selector=selector)["nodeId"]
        self.call("DOM.setFileInputFiles", nodeId=node, files=[os.path.abspath(file)])

    def wait_for(self, expression, seconds=60):
        """Waits until an expression of the page is true."""
        said = self.value(
            f"new Promise((done) => {{ const end = Date.now() + {1000 * seconds};"
            f"const look = () => ({expression}) ? done(true) : Date.now() > end ? done(false) : setTimeout(look, 5); look(); }})"
        )
        if not said:
            raise Failed(f"it doesn't become so: {expression[:80]}")

    def scheme(self, name):
        """Light or dark, as the user would prefer it."""
        self.call("Emulation.setEmulatedMedia", features=[{"name": "prefers-color-scheme", "value": name}])

    def size(self, width, height):
        self.call("Emulation.setDeviceMetricsOverride", width=width, height=height, deviceScaleFactor=1, mobile=False)

    def picture(self, file):
        """Writes what the page looks like, whole, as a PNG."""
        image = self.call("Page.captureScreenshot", format="png", captureBeyondViewport=True)
        with open(file, "wb") as it:
            it.write(base64.b64decode(image["data"]))
