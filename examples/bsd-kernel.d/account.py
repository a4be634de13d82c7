"""A model of what may come in the whole trace of bsd-kernel: an account of pages, frames and transfers, without bytes. It stands for no proof, and `vmrun repage`
knows none of its longer lines. Blocks of swap are left out: a page has its place there, and no other page has it.

Of each page it keeps whether it has a frame, and how (`valid`, `idle`: invalid off the free list, `listed`: on it, `coming`: being read); the push of it that is
in flight, which may free the frame at its end (`frees`) and is spoiled by a change meanwhile (`kept`); whether swap has its present bytes (`saved`); and whether
zeros or its image's file have them (`origin`). A page is clean where swap, zeros or the file have its bytes. Nothing else is asked than this:

- each frame is once on the list, or a page's, or that of a transfer whose page was given up;
- a page on the list is clean, and isn't pushed;
- no page and no frame is in two transfers;
- a process takes a step while all that it touches is valid, as the programs have it.

Beside these a number is kept for each version of a page, in its frame and on swap, and looked at wherever a page becomes valid.
"""
import collections
import programs

MOST_FLIGHT, MOST_RUN = 16, 16


class Wrong(Exception):
    """A line that can't come, with the reason."""


def want(holds, why):
    if not holds:
        raise Wrong(why)


class Page:
    def __init__(self, name, origin):
        self.name, self.origin, self.saved = name, origin, False
        self.frame, self.use, self.push = None, None, None
        self.now = 0  # the version that a process would read
        self.held = self.stored = None  # the versions in its frame and on swap

    def clean(self):
        return self.saved or self.origin is not None

    def seated(self):
        return self.use in ("valid", "idle")


class Transfer:
    def __init__(self, reads, wanted, pages, frames):
        self.reads, self.wanted, self.pages, self.frames = reads, wanted, pages, frames


class Push:
    def __init__(self, frees):
        self.frees, self.kept = frees, True


class Account:
    def __init__(self, frames, images, first):
        self.programs = programs.Programs(images, first)
        self.pages, self.sticky, self.transfers, self.due, self.out, self.begun = {}, set(), [], {}, set(), None
        self.free, self.frames = collections.deque(range(1, frames + 1)), frames
        self.whose = {}  # frame: the page in it
        for number, image in enumerate(images, 1):
            for v in range(len(image.text) // programs.PAGE):
                self.new(("x", number, v), "file")
        for process in self.programs.processes.values():
            self.enter(process.space)

    def new(self, name, origin):
        self.pages[name] = Page(name, origin)

    def enter(self, space):
        for v in range(len(space.data) // programs.PAGE):
            self.new(("d", space.sid, v), "file" if v * programs.PAGE < space.image.filled else "zeros")
        self.new(("s", space.sid, 0), None)
        self.due[("s", space.sid, 0)] = None

    def page(self, kind, owner, number):
        name = (kind, int(owner), int(number))
        want(name in self.pages, "there is no such page")
        return self.pages[name]

    def run(self, page, low, count):
        want(1 <= count <= MOST_RUN, "a transfer has 1 to 16 pages")
        want(low <= page.name[2] < low + count, "the page isn't among them")
        return [self.page(*page.name[:2], v) for v in range(low, low + count)]

    # Frames.

    def forget(self, page):
        """A page on the list is no more in its frame, which goes to the head."""
        if page.use == "listed":
            self.free.remove(page.frame)
            self.free.appendleft(page.frame)
            del self.whose[page.frame]
            page.frame = page.use = page.held = None

    def take(self, page, frame, use):
        """The page takes this frame, or the next one."""
        want(self.free, "no frame is free")
        frame = self.free[0] if frame is None else frame
        want(frame in self.free, f"frame {frame} isn't free")
        self.free.remove(frame)
        old = self.whose.get(frame)
        if old:
            old.frame = old.use = old.held = None
        self.whose[frame], page.frame, page.use = page, frame, use

    def list(self, page):
        want(page.clean(), "its bytes are in its frame alone")
        page.use = "listed"
        self.free.append(page.frame)

    def taking(self, page):
        want(page.use in (None, "listed") and not page.push, "it has a frame, or is in a transfer")
        self.forget(page)

    def valid(self, page):
        want(page.held == page.now, "its frame has older bytes")
        page.use = "valid"

    # Lines of pages.

    def zero(self, page, frame=None):
        start = page.name in self.due and self.due[page.name] is None
        want(page.origin == "zeros" or start, "it isn't filled with zeros")
        self.taking(page)
        self.take(page, frame, "valid")
        page.saved, page.held = False, page.now
        if start:
            del self.due[page.name]

    def copy(self, page, frame=None):
        source = self.due.get(page.name)
        want(source, "no copy of it is due")
        want(source.seated(), "its source isn't in a frame")
        self.taking(page)
        self.take(page, frame, "valid")
        page.saved, page.held, page.origin = False, page.now, source.origin
        del self.due[page.name]

    def get(self, page, low, count, frames):
        run = self.run(page, low, count)
        self.shared(page)
        for it in run:
            want(it.use in (None, "listed") and not it.push and it.name not in self.due, "a page of the run has a frame, or is in a transfer")
        swap = all(it.saved for it in run)
        want(swap or all(it.origin == "file" for it in run), "not all are read from where the wanted one is")
        want(not swap or self.near(page, low, count), "they lie in two chunks")
        want(len(self.transfers) < MOST_FLIGHT, "16 transfers are in flight")
        want(len(set(frames)) == len(frames) and len(frames) in (0, count), "not as many frames as pages")
        for it in run:
            self.forget(it)
        for at, it in enumerate(run):
            self.take(it, frames[at] if frames else None, "coming")
            it.held = it.stored if swap else 0
        self.transfers.append(Transfer(True, page, run, [it.frame for it in run]))

    @staticmethod
    def near(page, low, count):
        if page.name[0] == "x":
            return low // 512 == (low + count - 1) // 512
        chunk = 16
        while low >= chunk:
            low, chunk = low - chunk, min(2 * chunk, 512)
        return low + count <= chunk

    def shared(self, page):
        want(page.name[0] != "x" or page.name[1] in self.sticky or any(it.number == page.name[1] for it in self.programs.spaces()), "nobody runs this text")

    def reclaim(self, page):
        want(page.use in ("idle", "listed"), "it isn't invalid in a frame")
        self.shared(page)
        if page.use == "listed":
            self.free.remove(page.frame)
        if page.push:
            page.push.frees = False
        self.valid(page)

    def expire(self, page):
        want(page.use == "valid", "it isn't valid")
        page.use = "idle"

    def write(self, page, run, frees):
        want(len(self.transfers) < MOST_FLIGHT, "16 transfers are in flight")
        want(self.near(page, run[0].name[2], len(run)), "they lie in two chunks")
        for it in run:
            want(it.seated() and not it.push, "a page of the run isn't in a frame, or is pushed")
        for it in run:
            it.push = Push(it in frees)
            it.saved = False
            if it in frees:
                it.use = "idle"
        self.transfers.append(Transfer(False, page, run, [it.frame for it in run]))

    def release(self, page):
        want(page.use == "idle", "it isn't invalid in a frame off the list")
        if page.push:
            want(page.push.kept, "it was changed since its push began")
            page.push.frees = True
        else:
            self.list(page)

    def put(self, page, count):
        want(page.name[0] != "x", "text goes out with no process")
        pid = next((it.pid for it in self.programs.processes.values() if it.space and it.space.sid == page.name[1]), None)
        want(pid and pid not in self.out and not self.programs.lender(pid), "its process isn't in, or borrowed its space")
        run = self.run(page, page.name[2], count)
        if page.saved:
            want(count == 1 and page.seated() and not page.push, "a clean page goes alone")
            self.list(page)
        else:
            self.write(page, run, run)

    def done(self, which=1):
        want(1 <= which <= len(self.transfers), "there is no such transfer")
        it = self.transfers.pop(which - 1)
        for page, frame in zip(it.pages, it.frames):
            if page is None:
                self.free.appendleft(frame)
            elif it.reads:
                page.use = "idle"
                if page is it.wanted:
                    self.valid(page)
                else:
                    self.list(page)
            else:
                push, page.push = page.push, None
                page.saved = push.kept
                page.stored = page.held if push.kept else None
                if push.frees:
                    self.list(page)

    # Processes.

    def space_of(self, pid):
        process = self.programs.processes.get(pid)
        want(process and process.space, "it holds no space")
        return process.space

    def pages_of(self, space):
        return [self.pages["d", space.sid, v] for v in range(len(space.data) // programs.PAGE)] + \
            [self.pages["s", space.sid, v] for v in range(len(space.stack) // programs.PAGE)]

    def swap_out(self, pid):
        want(not self.due and pid not in self.out and not self.programs.lender(pid), "it is out, or something is due")
        for it in self.pages_of(self.space_of(pid)):
            want(it.use in (None, "listed") and not it.push, "a page of it is in flight or off the list")
        self.out.add(pid)

    def swap_in(self, pid):
        want(pid in self.out, "it isn't out")
        self.out.remove(pid)

    def give_up(self, page):
        """A page is forgotten. In flight, its frame is the transfer's."""
        for it in self.transfers:
            if page in it.pages:
                it.pages[it.pages.index(page)] = None
                self.whose.pop(page.frame, None)
                page.frame = None
        if page.frame is not None:
            if page.use == "listed":
                self.free.remove(page.frame)
            self.free.appendleft(page.frame)
            self.whose.pop(page.frame)
        del self.pages[page.name]

    def step(self, pid, lines):
        """The step of a process, of these lines; `r` makes as many as it counts."""
        want(pid in self.programs.processes and self.programs.processes[pid].can_step(), "it can't step")
        step = self.programs.step(pid)
        want(not self.due and pid not in self.out, "it is out, or something is due")
        want((step.lines or ["r"]) == lines, f"the programs have {step.lines}")
        for name in step.touched:
            want(self.pages[name].use == "valid", f"{name} isn't valid")
        for name in step.written:
            page = self.pages[name]
            page.now += 1
            page.held, page.saved, page.origin, page.stored = page.now, False, None, None
            if page.push:
                page.push.kept = False
        before = {it.sid: it for it in self.programs.spaces()}
        mine = self.programs.processes[pid].space
        had = self.pages_of(mine)
        step.make()
        after = {it.sid: it for it in self.programs.spaces()}
        if step.change == "grow" or step.change == "break":
            stays = [("d", mine.sid, v) for v in range(len(mine.data) // programs.PAGE)] + [("s", mine.sid, v) for v in range(len(mine.stack) // programs.PAGE)]
            for page in had:
                if page.name not in stays:
                    self.give_up(page)
            for name in stays:
                if name not in self.pages:
                    self.new(name, "zeros")
        for sid in before.keys() - after.keys():
            for page in [it for it in self.pages.values() if it.name[0] != "x" and it.name[1] == sid]:
                self.give_up(page)
        for sid in after.keys() - before.keys():
            if step.change == "fork":
                self.forked(mine, after[sid])
            else:
                self.enter(after[sid])
        for number in {it.number for it in before.values()} - {it.number for it in after.values()} - self.sticky:
            self.leaves(number)

    def forked(self, parent, space):
        for kind, count in (("d", len(space.data)), ("s", len(space.stack))):
            for v in range(count // programs.PAGE):
                source = self.pages[kind, parent.sid, v]
                self.new((kind, space.sid, v), source.origin)
                if source.use or source.saved:
                    self.due[kind, space.sid, v] = source

    def leaves(self, number):
        """Nobody runs a text: its file has it, and frames that still have it are free."""
        for page in [it for it in self.pages.values() if it.name[:2] == ("x", number)]:
            for it in self.transfers:
                if page in it.pages:
                    it.pages[it.pages.index(page)] = None
                    self.whose.pop(page.frame, None)
                    page.frame = page.use = page.held = page.push = None
            page.saved, page.stored = False, None
            if page.seated():
                self.list(page)

    # Lines.

    def line(self, words):
        kind, *parts = words
        want(self.begun is None or kind in "cD", "a step is begun")
        if kind in "ZCGREFWPS":
            page, numbers = self.page(*parts[:3]), [int(it) for it in parts[3:]]
            if kind in "ZC":
                (self.zero if kind == "Z" else self.copy)(page, *numbers)
            elif kind == "G":
                self.get(page, *numbers[:2], numbers[2:])
            elif kind == "W":
                low, count = numbers if len(numbers) == 2 else (page.name[2], numbers[0])
                run = self.run(page, low, count)
                want(all(it.use == "idle" for it in (run if len(numbers) == 1 else [page])), "it is valid")
                self.write(page, run, run if len(numbers) == 1 else [page])
            elif kind == "P":
                self.put(page, *numbers)
            else:
                {"R": self.reclaim, "E": self.expire, "F": self.release}[kind](page)
        elif kind == "D":
            self.done(*map(int, parts))
        elif kind in "OI":
            (self.swap_out if kind == "O" else self.swap_in)(int(parts[0]))
        elif kind == "K":
            (self.sticky.add if parts[1] == "1" else self.sticky.discard)(int(parts[0]))
        elif kind == "t":
            want(int(parts[0]) in self.programs.processes, "there is no such process")
        elif kind == "r":
            for _ in range(int(parts[1])):
                self.step(int(parts[0]), ["r"])
        elif kind == "o":
            self.begun = " ".join(words)
        else:
            said, self.begun = [self.begun] if self.begun else [], None
            self.step(int(parts[0]), [*said, " ".join(words)])

    def check(self):
        """The account is sound."""
        owners = collections.Counter(self.free)
        for page in self.pages.values():
            if page.use == "listed":
                want(page.clean() and not page.push and self.whose.get(page.frame) is page, f"{page.name} lies in a free frame, and isn't clean")
            elif page.use:
                owners[page.frame] += 1
            want(not page.saved or page.stored == page.now, f"swap hasn't the bytes of {page.name}")
            want(page.use != "valid" or page.held == page.now, f"the frame of {page.name} has older bytes")
            want(page.use or page.saved or page.origin or page.name in self.due, f"the bytes of {page.name} are nowhere")
        inside = [it for transfer in self.transfers for it in transfer.pages if it]
        want(len(inside) == len(set(inside)), "a page is in two transfers")
        for transfer in self.transfers:
            owners.update(frame for page, frame in zip(transfer.pages, transfer.frames) if page is None)
        want(len(owners) == self.frames and all(it == 1 for it in owners.values()), "a frame has two owners or none")


def judged(frames, lines, images, first, every=1):
    """The first line that can't come, with the reason; None where all may. The account is looked at after each `every`th line."""
    account = Account(frames, images, first)
    for number, line in enumerate(lines, 1):
        try:
            account.line(line.split(" "))
            if number % every == 0 or number == len(lines):
                account.check()
        except Wrong as why:
            return number, str(why)
    return None
