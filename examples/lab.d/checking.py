"""What all checks of the lab page use: the server, questions to it, and a hand on the page."""
import contextlib
import json
import os
import re
import socket
import subprocess
import tempfile

from browser import Failed

HERE = os.path.dirname(os.path.realpath(__file__))
EXAMPLES = os.path.dirname(HERE)
LAB = f"{EXAMPLES}/lab"
SECONDS = 4
# root's own rights, as that to raise a limit, are given up: an ordinary user hasn't them
UNPRIVILEGED = ["setpriv", "--bounding-set=-all", "--inh-caps=-all"] if os.geteuid() == 0 else []


class Check:
    """Counts what was compared, and tells what differs."""

    def __init__(self):
        self.compared = self.bad = 0

    def same(self, what, found, wanted):
        """Compares two values."""
        self.compared += 1
        if found != wanted:
            self.bad += 1
            print(f"{what}: {found!r:.300}, wanted {wanted!r:.300}", flush=True)


class Lab:
    """A server of the page, for as long as its block, without privilege. With no seconds it is as a user begins it."""

    def __init__(self, program, seconds=SECONDS, folder=None, kept=None, **how):
        self.state = tempfile.TemporaryDirectory(prefix="lab-state-")
        around = os.environ | {"XDG_STATE_HOME": kept or self.state.name} | ({"VMRUN": program} if program else {}) | ({"TMPDIR": folder} if folder else {})
        words = [*UNPRIVILEGED, LAB, "--no-open", *(["--seconds", str(seconds)] if seconds else [])]
        self.said = tempfile.TemporaryFile("w+", encoding="utf-8")
        self.process = subprocess.Popen(words, env=around, stdout=subprocess.PIPE, stderr=self.said, text=True, **how)
        self.address = self.process.stdout.readline().strip()
        found = re.fullmatch(r"http://127\.0\.0\.1:(\d+)/([\w-]{40,})/", self.address)
        if not found:
            raise Failed(f"the lab says no address: {self.address}")
        self.port, self.token = int(found[1]), found[2]
        self.host = f"127.0.0.1:{self.port}"

    def __enter__(self):
        return self

    def __exit__(self, *_):
        self.process.terminate()
        self.process.wait(60)
        self.process.stdout.close()
        self.said.close()
        self.state.cleanup()

    def says(self):
        """What it wrote to standard error."""
        self.said.seek(0)
        return self.said.read()

    def raw(self, request, patience=60):
        """What the server sends for these bytes: the status, the headers and the body; status 0 where it only closes."""
        with socket.create_connection(("127.0.0.1", self.port), patience) as it:
            with contextlib.suppress(ConnectionError):
                it.sendall(request)
            answer = b""
            with contextlib.suppress(ConnectionError):
                while piece := it.recv(1 << 16):
                    answer += piece
        head, _, body = answer.partition(b"\r\n\r\n")
        lines = head.decode("latin-1").split("\r\n")
        status = int(lines[0].split(" ")[1]) if lines[0].startswith("HTTP/") else 0
        return status, {name.lower(): value for name, _, value in (it.partition(": ") for it in lines[1:])}, body

    def request(self, name, body=None, **changed):
        """A request as the page makes it, but for what is changed: a header, where None leaves it out, or `path` or `method`."""
        method = changed.pop("method", "GET" if body is None else "POST")
        path = changed.pop("path", f"/{self.token}/{name}")
        headers = {"Host": self.host}
        content = b""
        if body is not None:
            content = body if isinstance(body, bytes) else json.dumps(body).encode()
            headers |= {"Origin": f"http://{self.host}", "Content-Type": "application/json", "Content-Length": str(len(content))}
        headers |= {name.replace("_", "-"): value for name, value in changed.items()}
        lines = [f"{method} {path} HTTP/1.1", *(f"{name}: {value}" for name, value in headers.items() if value is not None)]
        return self.raw("\r\n".join([*lines, "", ""]).encode("latin-1") + content)

    def page(self):
        """The name of a new page."""
        return re.search(rb'name="page" content="([\w-]+)"', self.request("")[2])[1].decode()

    def ask(self, name, page, **asked):
        """The status and the answer of a question."""
        status, _, body = self.request(name, {"page": page, **asked})
        return status, json.loads(body) if status == 200 else body.decode()


def setup_of(source="nop", **changed):
    """What a page sends of a run."""
    words = {"frames": "64", "swap": "256", "limit": "100", "images": "mine", "schedule": "", "programs": {"mine": source}}
    return words | changed


def shown(browser, name):
    """What an element of the page says."""
    return browser.value(f"document.getElementById('{name}').textContent")


def write(browser, name, text):
    """Writes a text in place of what a field has, as by hand."""
    browser.value(f"(() => {{ const it = document.getElementById('{name}'); it.focus(); it.select(); }})()")
    browser.type(text) if text else browser.key("Backspace")


def choose(browser, name, text):
    """Chooses what begins so in a list."""
    browser.value(
        f"(() => {{ const it = document.getElementById('{name}'), text = {json.dumps(text)};"
        "it.value = [...it.options].find((one) => one.textContent.startsWith(text)).value;"
        "it.dispatchEvent(new Event('change', { bubbles: true })); })()"
    )


def idle(browser):
    """Waits until nothing is asked any more."""
    browser.wait_for("document.body.dataset.waiting === '0'")


def run(browser):
    """Runs by the keys, and waits for the picture."""
    asked = browser.value("Number(document.body.dataset.asked || 0)")
    browser.key("Enter", control=True)
    browser.wait_for(f"Number(document.body.dataset.asked) > {asked}", 5)
    idle(browser)


def program_said(folder, *words):
    """What the program itself writes."""
    made = subprocess.run([launcher(), *words], cwd=folder, stdout=subprocess.PIPE, stderr=subprocess.PIPE)
    return made.stdout.decode("latin-1")


def transcript(browser):
    """The lines of a short transcript, as they are drawn."""
    return browser.value("[...document.querySelectorAll('#lab-lines > div')].map((it) => it.querySelector('b').textContent)")


def make(folder, name, source):
    """Makes a program's image, and an empty schedule, outside the page."""
    with open(f"{folder}/{name}.s", "w", encoding="ascii") as it:
        it.write(source)
    with open(f"{folder}/{name}", "wb") as it:
        subprocess.run([launcher(), "as", f"{name}.s"], cwd=folder, stdout=it, check=True)
    open(f"{folder}/s", "w", encoding="ascii").close()


def launcher():
    """The program, as it is called."""
    return os.environ.get("VMRUN") or f"{EXAMPLES}/../vmrun"
