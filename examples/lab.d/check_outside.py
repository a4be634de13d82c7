"""What is tried from outside, with a stand-in for the program: what a server on a shared machine must refuse."""
import contextlib
import os
import resource
import signal
import socket
import stat
import subprocess
import sys
import tempfile
import threading
import time

from checking import LAB, SECONDS, Lab, setup_of

PATIENCE = 10
MOST_CONNECTIONS = 48
# a user who is nobody here
NOBODY = 64613
# two processes that are begun by a run, and by nobody else
SLEEPS = (f"sleep {os.getpid()}613", f"sleep {os.getpid()}617")
# Stands in for the program: what it does is the first word of the source that it assembles.
STAND_IN = """#!/bin/sh
case $1 in
--help) echo 'usage: vmrun stats FRAMES SWAP LIMIT SCHED IMAGE..' ;;
as)
    read -r first <"$2"
    case $first in
    sleep) sleep ONE & sleep TWO ;;
    flood) yes ;;
    bounds) echo "$(ulimit -c) $(ulimit -t) $(ulimit -f) $(ulimit -v)" >&2; exit 17 ;;
    large) head -c 100000000 /dev/zero >large; wc -c <large >&2; exit 17 ;;
    *) echo image ;;
    esac ;;
dis) pwd; stat -c %a .; ls -a; cat "$2" "$2.s" ;;
run) printf 'words %s\\n' "$*"; cat "$6" ;;
stats) printf 'process 1 instructions 7\\nhands moves 0\\n' ;;
esac
"""


def by_address(check, lab):
    """It listens on the loopback address alone, and nobody sees its token among the words of processes."""
    port = f":{lab.port:04X}"
    listens = []
    for file in ("/proc/net/tcp", "/proc/net/tcp6"):
        with open(file, encoding="ascii") as it:
            listens += [line.split()[1] for line in it.readlines()[1:] if line.split()[3] == "0A" and port in line.split()[1]]
    check.same("where it listens", listens, [f"0100007F{port}"])
    words = subprocess.run(["ps", "-eo", "args", "ww"], stdout=subprocess.PIPE, text=True).stdout
    check.same("whether a process shows the token", lab.token in words, False)


def by_token(check, lab):
    """Without its token a request gets nothing, not even one for a file of the page."""
    token = lab.token
    other = token[:-1] + ("A" if token[-1] != "A" else "B")
    paths = ["/", "//", "/lab.js", "/x/", "/\u00e9/", f"/?{token}", f"/x/{token}/", f"http://{lab.host}/{token}/"]
    paths += [f"/{it}/" for it in (token[:-1], f"{token}x", other, token.swapcase(), f"%{ord(token[0]):x}{token[1:]}")]
    for path in paths:
        status, headers, body = lab.request("", path=path)
        check.same(f"the status of {path[:8]}..", status, 403)
        check.same(f"what is told at {path[:8]}..", body, b"no token, or another one\n")
    for name in ("check", "run", "stop"):
        check.same(f"{name} without the token", lab.request("", {"page": lab.page()}, path=f"/{other}/{name}")[0], 403)
    status, headers, _ = lab.request("")
    check.same("with the token", status, 200)
    policy = headers.get("content-security-policy", "")
    check.same("the policy", ["default-src 'none'" in policy, "frame-ancestors 'none'" in policy, "unsafe" in policy], [True, True, False])
    for name, value in (("referrer-policy", "no-referrer"), ("cache-control", "no-store"), ("x-content-type-options", "nosniff")):
        check.same(f"the header {name}", headers.get(name), value)


def by_origin(check, lab):
    """Another host or origin is refused, whatever the token is."""
    page = lab.page()
    evil = ("evil.example", f"localhost:{lab.port}", "127.0.0.1", f"127.0.0.1:{lab.port + 1}", f"[::1]:{lab.port}", f"{lab.host}.evil.example", None, "")
    for host in evil:
        check.same(f"the host {host}", lab.request("", Host=host)[0], 403)
        check.same(f"a question to the host {host}", lab.request("stop", {"page": page}, Host=host)[0], 403)
    twice = f"GET /{lab.token}/ HTTP/1.1\r\nHost: {lab.host}\r\nHost: evil.example\r\n\r\n"
    check.same("two hosts", lab.raw(twice.encode())[0], 400)
    for origin in ("null", "", "http://evil.example", f"https://{lab.host}", f"http://127.0.0.1:{lab.port + 1}", f"http://{lab.host}/", None):
        check.same(f"the origin {origin}", lab.request("stop", {"page": page}, Origin=origin)[0], 403)
        if origin is not None:
            check.same(f"a page for the origin {origin}", lab.request("", Origin=origin)[0], 403)
    for site in ("cross-site", "same-site", "none"):
        check.same(f"a question from {site}", lab.request("stop", {"page": page}, Sec_Fetch_Site=site)[0], 403)
    check.same("a question of its own", lab.request("stop", {"page": page}, Sec_Fetch_Site="same-origin")[0], 200)
    for method in ("OPTIONS", "PUT", "DELETE", "HEAD", "TRACE", "CONNECT", "get"):
        status, headers, _ = lab.request("", method=method, Origin="http://evil.example")
        check.same(f"the method {method}", status, 501)
        check.same("whether another origin may read it", any(name.startswith("access-control") for name in headers), False)


def by_size(check, lab):
    """What is too large, or isn't in the form, is refused; what a program writes is cut."""
    page = lab.page()
    form = {"Content_Type": "text/plain"}
    check.same("a form's body", lab.request("stop", {"page": page}, **form)[0], 415)
    check.same("no length", lab.request("stop", {"page": page}, Content_Length=None)[0], 411)
    check.same("pieces", lab.request("stop", {"page": page}, Transfer_Encoding="chunked")[0], 411)
    for length in ("-1", "1e3", "0x10", "", "9" * 30, "1 1"):
        check.same(f"the length {length[:5]!r}", lab.request("stop", b"", Content_Length=length)[0], 400)
    begun = time.monotonic()
    check.same("a body that is too large", lab.request("stop", b"", Content_Length=str((4 << 20) + 1))[0], 413)
    check.same("whether it is refused at once", time.monotonic() - begun < 5, True)
    for body in (b"", b"{", b"[]", b"7", b"{}", b'{"page": 7}', b"[" * 200000, b"\xff\xfe", b'{"page": "\\ud800"}'):
        check.same(f"the body {body[:12]!r}", lab.request("run", body)[0] in (400, 409), True)
    check.same("a page that isn't there", lab.ask("run", "nopage", **setup_of())[0], 409)
    check.same("a head that is too large", lab.request("", X="x" * 100000)[0] in (0, 431), True)
    check.same("an address that is too large", lab.request("", path="/" + "x" * 100000)[0] in (0, 403, 414), True)
    check.same("a source that is too large", lab.ask("check", page, program="mine", source="x" * ((1 << 20) + 1))[0], 400)
    check.same("C that is too large", lab.ask("check", page, program="mine", source={"c": "x" * ((1 << 20) + 1)})[0], 400)
    check.same("a course of no step", lab.ask("course", page, **setup_of(), last=-1)[0], 400)
    check.same("a film of too many steps", lab.ask("film", page, **setup_of(), first=0, last=401)[0], 400)
    check.same("to keep what is no text", [lab.request("keep", {"page": page, "kept": it})[0] for it in (None, 7, [])], 3 * [400])
    check.same("half a letter that is kept", (lab.request("keep", {"page": page, "kept": "\ud800"})[0], lab.request("kept")[2]), (200, b"?"))
    check.same("a schedule that is no text", lab.ask("schedule", page, schedule=7)[0], 400)
    check.same("half a letter", lab.ask("check", page, program="mine", source="\ud800")[0], 200)
    status, answer = lab.ask("check", page, program="mine", source="flood\n")
    check.same("an output without an end", (status, answer["cut"]), (200, "output"))
    status, answer = lab.ask("check", page, program="mine", source="bounds\n")
    check.same("core file, seconds, blocks of a file, KiB of memory", answer["said"], f"0 {SECONDS + 1} 131072 4194304\n")
    status, answer = lab.ask("check", page, program="mine", source="large\n")
    check.same("a file that is too large", (status, int(answer["said"].split()[-1]) <= 64 << 20), (200, True))


def by_name(check, lab, folder):
    """No name from the page becomes a path: one that the server doesn't know is refused, and none of its files is made or read."""
    page = lab.page()
    names = ["../mine", "/etc/passwd", "..", ".", "", "mine/../../x", "schedule", "mine.s", "-x", "--to", "MINE", "mine\x00"]
    for name in [*names, "mine\n", " mine", "vmrun.swap0", "\u043cine", "x" * 999]:
        check.same(f"the program {name[:12]!r}", lab.ask("check", page, program=name, source="nop")[0], 400)
        check.same(f"the program {name[:12]!r} of a run", lab.ask("run", page, **setup_of(programs={name: "nop"}))[0], 400)
    for word in ("../mine", "/etc/passwd", "schedule", "--trace", "==mine", "=", "=../x", "mine2", "mine;ls", "$(ls)", "vmrun.swap0"):
        check.same(f"the image {word!r}", lab.ask("run", page, **setup_of(images=f"mine {word}"))[0], 400)
    for value in (None, 7, [], {"a": 1}):
        check.same(f"an image that is {value}", lab.ask("run", page, **setup_of(images=value))[0], 400)
        check.same(f"a source that is {value}", lab.ask("check", page, program="mine", source=value)[0], 400)
    for number in ("/etc/passwd", "$(ls)", "--to", "../x", "6" * 13, "64\n"[:1] + "\n4"):
        check.same(f"the frames {number!r}", lab.ask("run", page, **setup_of(frames=number))[0], 400)
    for first in (-1, 1.5, "0", True, None, 1 << 25):
        check.same(f"the step {first}", lab.ask("film", page, **setup_of(), first=first, last=1)[0], 400)
    paths = ["../lab", "lab", "lab.d/lab.js", "..%2flab", "%2e%2e/lab", "./lab.js", "lab.js/", "/lab.js", "/etc/passwd", "index.html"]
    for path in [*paths, "lab.js%00", "viewer.js?", "LAB.JS"]:
        check.same(f"the file {path}", lab.request(path)[0], 404)
        check.same(f"the question {path}", lab.request(path, {"page": page})[0], 404)
    for value in ({}, {"c": "", "image": ""}, {"pascal": "x"}, {"c": 7}, {"c": None}, {"image": []}, [["c", "x"]], {"image": "!"}, {"image": "AAA"}, {"image": "A\u00e9=="}):
        check.same(f"a program that is {value}", lab.ask("check", page, program="mine", source=value)[0], 400)
        check.same(f"a program of a run that is {value}", lab.ask("run", page, **setup_of(programs={"mine": value}))[0], 400)
    status, answer = lab.ask("run", page, **setup_of(schedule="d 1 1\n", images="mine hi7 =auto"))
    check.same("a run", (status, answer["transcript"]), (200, "words run --trace 64 256 100 schedule mine hi7 =auto\nd 1 1\n"))
    kept = [name for _, folders, names in os.walk(folder) for name in (*folders, *names) if not name.startswith("lab-")]
    check.same("what is left of all these", kept, [])


def running(words):
    """How many processes have these words."""
    found = subprocess.run(["ps", "-eo", "args", "ww"], stdout=subprocess.PIPE, text=True).stdout.splitlines()
    return sum(line in words for line in found)


def left(words):
    """How many processes have these words still, a while after they were ended."""
    for _ in range(40):
        if running(words) == 0:
            return 0
        time.sleep(0.1)
    return running(words)


def by_run(check, lab, folder):
    """A page has one run at a time; it is ended after its time, or when it is asked, with all that it began."""
    pages = [lab.page() for _ in range((os.cpu_count() or 1) + 1)]
    answers = {}

    def sleep(page):
        answers[page] = lab.ask("check", page, program="mine", source="sleep\n")

    begun = time.monotonic()
    threads = [threading.Thread(target=sleep, args=(page,)) for page in pages[:-1]]
    for thread in threads:
        thread.start()
    while running(SLEEPS) < 2 * len(threads) and time.monotonic() - begun < SECONDS:
        time.sleep(0.05)
    folders = [name for _, names, _ in os.walk(folder) for name in names if name.startswith("run-")]
    check.same("the folders of runs", len(set(folders)), len(threads))
    status, why = lab.ask("check", pages[0], program="mine", source="nop")
    check.same("a second run of a page", (status, why), (409, "a run of this page is under way\n"))
    check.same("one run more than may be", lab.ask("check", pages[-1], program="mine", source="nop")[0], 503)
    lab.ask("stop", pages[0])
    for thread in threads:
        thread.join()
    cuts = [answers[page][1]["cut"] for page in pages[:-1]]
    check.same("how they ended", cuts, ["stopped"] + ["time"] * (len(threads) - 1))
    check.same("whether they ended in time", time.monotonic() - begun < SECONDS + 5, True)
    check.same("what goes on", left(SLEEPS), 0)


def by_folder(check, lab):
    """A run has a folder of its own, which nobody else may enter, with nothing of other runs, and which is gone after it."""
    pages = [lab.page(), lab.page()]
    one, two = (lab.ask("check", page, program="mine", source="nop 5\n")[1]["listing"].splitlines() for page in pages)
    check.same("whether two runs have one folder", one[0] == two[0], False)
    check.same("who may enter it", one[1], "700")
    check.same("what it has", one[2:], [".", "..", "mine", "mine.s", "image", "nop 5"])
    check.same("whether it is there after its run", os.path.exists(one[0]), False)
    rows = lab.ask("stats", pages[0], **setup_of())[1]["rows"]
    check.same("a count", rows, [["process", "1", "instructions", "7"], ["hands", "moves", "0"]])


def ends(connection):
    """Whether a connection is ended by the other side, soon."""
    with connection:
        connection.settimeout(5)
        try:
            while connection.recv(1 << 16):
                pass
        except ConnectionError:
            return True
        except TimeoutError:
            return False
        return True


def is_ended(connection):
    """Whether a connection is ended already."""
    connection.settimeout(0.01)
    try:
        return connection.recv(1) == b""
    except ConnectionError:
        return True
    except TimeoutError:
        return False


def by_patience(check, lab):
    """Who is slow, or comes with many connections, keeps nobody else out for long."""
    begun = time.monotonic()
    slow = [socket.create_connection(("127.0.0.1", lab.port)) for _ in range(3)]
    slow[1].sendall(f"GET /{lab.token}/ HTTP/1.1\r\nHost: ".encode())
    head = f"POST /{lab.token}/stop HTTP/1.1\r\nHost: {lab.host}\r\nOrigin: http://{lab.host}\r\nContent-Type: application/json\r\nContent-Length: 9999\r\n\r\n"
    slow[2].sendall(head.encode())
    check.same("another request meanwhile", lab.request("lab.css")[0], 200)
    while time.monotonic() - begun < PATIENCE + 3:
        for it in slow[1:]:
            with contextlib.suppress(OSError):
                it.sendall(b" ")
        time.sleep(0.5)
    for name, it in zip(("silent", "slow in its head", "slow in its body"), slow):
        check.same(f"whether one that is {name} is ended", ends(it), True)
    check.same("whether it took its time", time.monotonic() - begun < PATIENCE + 8, True)
    crowd = [socket.create_connection(("127.0.0.1", lab.port)) for _ in range(2 * MOST_CONNECTIONS)]
    for _ in range(50):
        time.sleep(0.2)
        served = sum(not is_ended(it) for it in crowd)
        if served == MOST_CONNECTIONS:
            break
    check.same("how many of a crowd are served at a time", served, MOST_CONNECTIONS)
    for it in crowd:
        it.close()
    time.sleep(0.5)
    check.same("a request after a crowd", lab.request("lab.css")[0], 200)


# Becomes another user, and opens so many connections to a port, some from another address of this machine, and some by IPv6; tells
# how many of them stay open for a while.
CROWD = """
import os, socket, sys
os.setgroups([])
os.setgid(int(sys.argv[3]))
os.setuid(int(sys.argv[3]))
crowd = []
for number in range(int(sys.argv[2])):
    it = socket.socket(socket.AF_INET if number % 2 else socket.AF_INET6)
    if number % 4 == 1:
        it.bind(("127.0.0.9", 0))
    it.connect(("127.0.0.1" if number % 2 else "::ffff:127.0.0.1", int(sys.argv[1])))
    it.settimeout(3)
    crowd.append(it)
print("all", flush=True)
sys.stdin.readline()
left = 0
for it in crowd:
    try:
        left += it.recv(1) != b""
    except ConnectionError:
        pass
    except TimeoutError:
        left += 1
print(left, flush=True)
"""


def by_user(check, lab):
    """Who is another user on this machine gets no connection. It can be tried by root alone, and where the system tells whose
    connections are."""
    if os.geteuid() != 0 or not os.path.exists("/proc/net/tcp"):
        print("another user's connections: not tried, since this is not root", flush=True)
        return
    words = [sys.executable, "-c", CROWD, str(lab.port), str(MOST_CONNECTIONS), str(NOBODY)]
    pipes = {"stdin": subprocess.PIPE, "stdout": subprocess.PIPE, "text": True}
    with subprocess.Popen(words, **pipes) as crowd:
        crowd.stdout.readline()
        check.same("a request beside another user's connections", lab.request("lab.css")[0], 200)
        left, _ = crowd.communicate("\n", timeout=60)
    check.same("how many of another user's connections stay", left.strip(), "0")


def by_disk(check, program):
    """Where nothing can be written, that is answered."""
    with Lab(program, SECONDS, preexec_fn=lambda: resource.setrlimit(resource.RLIMIT_FSIZE, (16, 16))) as lab:
        page = lab.page()
        status, why = lab.ask("check", page, program="mine", source=20 * "nop\n")
        check.same("a run with no room", (status, why), (500, "the lab can't do it: File too large\n"))
        check.same("the page's next one", lab.ask("check", page, program="mine", source="")[0], 200)


def by_desktop(check, program, place):
    """Where there is a desktop the page is opened, by a file that only its owner can read, and not by words that have the token."""
    browser, seen, folder = f"{place}/a-browser", f"{place}/seen", f"{place}/desktop"
    os.mkdir(folder)
    with open(browser, "w", encoding="ascii") as it:
        it.write(f'#!/bin/sh\nfile=${{1#file://}}\n{{ echo "$*"; stat -c %a "$file"; cat "$file"; }} >{seen}.new && mv {seen}.new {seen}\n')
    os.chmod(browser, stat.S_IRWXU)
    around = os.environ | {"VMRUN": program, "TMPDIR": folder, "DISPLAY": ":613", "BROWSER": browser}
    with subprocess.Popen([LAB], env=around, stdout=subprocess.PIPE, text=True) as server:
        address = server.stdout.readline().strip()
        for _ in range(200):
            if os.path.exists(seen):
                break
            time.sleep(0.05)
        server.terminate()
        server.wait(20)
    with open(seen, encoding="ascii") as it:
        words, mode, text = it.read().split("\n", 2)
    check.same("whether the words have the token", address.split("/")[3] in words, False)
    check.same("who may read the file", mode, "600")
    check.same("where it leads", address in text, True)
    check.same("whether it stays", os.listdir(folder), [])


def by_end(check, program, folder):
    """When the server is ended, so are its runs, and nothing stays."""
    for how in (signal.SIGTERM, signal.SIGINT, signal.SIGHUP, signal.SIGQUIT):
        with Lab(program, 60, folder) as lab:
            page = lab.page()
            thread = threading.Thread(target=lab.request, args=("check", {"page": page, "program": "mine", "source": "sleep\n"}))
            thread.start()
            begun = time.monotonic()
            while running(SLEEPS) < 2 and time.monotonic() - begun < 20:
                time.sleep(0.05)
            lab.process.send_signal(how)
            check.same(f"its status after {how.name}", lab.process.wait(20), 130)
            thread.join()
        check.same("what goes on", left(SLEEPS), 0)
        check.same("what stays", os.listdir(folder), [])


def from_outside(check):
    """All that is tried with no browser."""
    with tempfile.TemporaryDirectory() as place:
        program, folder = f"{place}/stand-in", f"{place}/folders"
        os.mkdir(folder)
        with open(program, "w", encoding="ascii") as it:
            it.write(STAND_IN.replace("sleep ONE", SLEEPS[0]).replace("sleep TWO", SLEEPS[1]))
        os.chmod(program, stat.S_IRWXU)
        with Lab(program, SECONDS, folder) as lab:
            by_address(check, lab)
            by_token(check, lab)
            by_origin(check, lab)
            by_size(check, lab)
            by_name(check, lab, folder)
            by_run(check, lab, folder)
            by_folder(check, lab)
            by_patience(check, lab)
            by_user(check, lab)
            check.same("what it says on standard error", lab.says(), "")
        by_end(check, program, folder)
        by_disk(check, program)
        by_desktop(check, program, place)
    for words in (["--port", "0"], ["--port"], ["--seconds", "601"], ["--seconds", "x"], ["x"]):
        check.same(f"the words {words}", subprocess.run([LAB, *words], stderr=subprocess.DEVNULL).returncode, 1)
