"""Runs of the program: one at a time for each page, each in a folder of its own, within bounds of time, memory and output."""
import functools
import os
import secrets
import selectors
import shutil
import signal
import subprocess
import tempfile
import threading
import time

HERE = os.path.dirname(os.path.realpath(__file__))
EXAMPLES = os.path.dirname(HERE)
LAUNCHER = f"{EXAMPLES}/../vmrun"
FILM = f"{EXAMPLES}/film"
# what a command may write to standard output and to standard error, in bytes
MOST_OUTPUT = 32 << 20
MOST_SAID = 64 << 10
# what a command may have: no core file, seconds of a processor, files of 64 MiB, 4 GiB of addresses
BOUNDED = 'ulimit -c 0; ulimit -t "$0"; ulimit -f 131072; ulimit -v 4194304; exec "$@"'
MOST_PAGES = 64


@functools.cache
def which():
    """The program that the launcher runs."""
    return subprocess.run([LAUNCHER, "--which"], stdin=subprocess.DEVNULL, stdout=subprocess.PIPE, text=True, check=True).stdout.strip()


class Refused(Exception):
    """What is asked for isn't done: the status of HTTP, and why."""

    def __init__(self, status, why):
        super().__init__(why)
        self.status = status


class Answer:
    """What a command wrote, its status, and why it was ended before its own end: `time`, `output`, `stopped`, or nothing."""

    def __init__(self, status, output, said, cut):
        self.status, self.output, self.said, self.cut = status, output, said, cut

    def text(self):
        """What it wrote to standard output."""
        return self.output.decode("ascii", errors="replace")

    def told(self):
        """What it wrote to standard error."""
        return self.said.decode("utf-8", errors="replace")


class Run:
    """A run for a page: its folder, and the time until which it may go on."""

    def __init__(self, top, seconds):
        self.folder = tempfile.mkdtemp(prefix="run-", dir=top)
        self.seconds = seconds
        self.ends = time.monotonic() + seconds
        self.stopped = False

    def cut(self, written):
        """Why a command is to be ended now, or nothing."""
        if self.stopped:
            return "stopped"
        if time.monotonic() > self.ends:
            return "time"
        return "output" if written > MOST_OUTPUT else ""

    def read(self, process):
        """What a command writes, up to its end or its bounds: standard output, standard error, and why it was cut."""
        kept = {process.stdout: bytearray(), process.stderr: bytearray()}
        cut = ""
        with selectors.DefaultSelector() as pipes:
            for pipe in kept:
                pipes.register(pipe, selectors.EVENT_READ)
            while pipes.get_map() and not cut:
                for key, _ in pipes.select(0.05):
                    piece = os.read(key.fd, 1 << 16)
                    if not piece:
                        pipes.unregister(key.fileobj)
                    elif key.fileobj is process.stdout or len(kept[process.stderr]) < MOST_SAID:
                        kept[key.fileobj] += piece
                cut = self.cut(len(kept[process.stdout]))
        return bytes(kept[process.stdout][:MOST_OUTPUT]), bytes(kept[process.stderr][:MOST_SAID]), cut

    def wait(self, process, cut):
        """Waits until a command has ended, or its time has; it isn't reaped, so that its number stays its own."""
        while not cut and os.waitid(os.P_PID, process.pid, os.WEXITED | os.WNOWAIT | os.WNOHANG) is None:
            time.sleep(0.002)
            cut = self.cut(0)
        return cut

    def command(self, words):
        """Runs a command in the run's folder. All that it started is ended with it: the processes of its group."""
        bounded = ["/bin/sh", "-c", BOUNDED, str(int(self.seconds) + 1), *words]
        pipes = {"stdin": subprocess.DEVNULL, "stdout": subprocess.PIPE, "stderr": subprocess.PIPE}
        with subprocess.Popen(bounded, cwd=self.folder, start_new_session=True, **pipes) as process:
            try:
                output, said, cut = self.read(process)
                cut = self.wait(process, cut)
            finally:
                os.killpg(process.pid, signal.SIGKILL)
        return Answer(process.returncode, output, said, cut)

    def launched(self, *words):
        """The launcher's answer, which refuses a program that is older than its sources."""
        return self.command([os.environ.get("VMRUN") or LAUNCHER, *words])

    def program(self, *words):
        """The program's answer, at once. `launched` comes first in each run."""
        return self.command([os.environ.get("VMRUN") or which(), *words])

    def film(self, *words):
        """A film's text."""
        return self.command([FILM, *words])

    def close(self):
        """Drops the folder."""
        shutil.rmtree(self.folder, ignore_errors=True)


class Runs:
    """The pages that were given out, and the run of each that is under way."""

    def __init__(self, top, seconds, at_once):
        self.top, self.seconds, self.at_once = top, seconds, at_once
        self.lock = threading.Lock()
        self.pages = {}

    def new_page(self):
        """A new page's name. Where there are many pages, the oldest with no run is forgotten."""
        page = secrets.token_urlsafe(12)
        with self.lock:
            idle = [it for it, run in self.pages.items() if run is None]
            if len(self.pages) >= MOST_PAGES and idle:
                del self.pages[idle[0]]
            if len(self.pages) < MOST_PAGES:
                self.pages[page] = None
        return page

    def begin(self, page):
        """A run for a page, which has none."""
        with self.lock:
            if page not in self.pages:
                raise Refused(409, "this page is too old: load it again")
            if self.pages[page] is not None:
                raise Refused(409, "a run of this page is under way")
            if sum(run is not None for run in self.pages.values()) >= self.at_once:
                raise Refused(503, f"{self.at_once} runs are under way, and no more at a time")
            self.pages[page] = Run(self.top, self.seconds)
            return self.pages[page]

    def end(self, page):
        """Ends a page's run."""
        with self.lock:
            run, self.pages[page] = self.pages[page], None
        run.close()

    def stop(self, page):
        """Asks a page's run to end."""
        with self.lock:
            if self.pages.get(page):
                self.pages[page].stopped = True

    def stop_all(self):
        """Asks all runs to end, and waits for them."""
        with self.lock:
            for run in filter(None, self.pages.values()):
                run.stopped = True
        for _ in range(100):
            with self.lock:
                if not any(self.pages.values()):
                    return
            time.sleep(0.05)
