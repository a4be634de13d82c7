"""What the programs do: the machine of docs/FORMATS.md in which nothing is paged, an instruction at a time.

A kernel asks `Programs.step` for the next step of a process: its lines of the trace, the pages that it touches and those that it writes. The step
is made by `make`, once each of these pages is there. `bsd-kernel try` holds this machine to `vmrun run` and to `vmrun refs`, which is the proved one.
"""
PAGE, TOP, LOWEST, M32 = 1024, 0x7FFFEC00, 0x7FFFEC00 - 512 * 1024, 0xFFFFFFFF
EXIT, FORK, WRITE, BREAK, GETPID, EXECVE, VFORK, WAIT = 1, 2, 4, 17, 20, 59, 66, 84
ENOENT, E2BIG, EBADF, ECHILD, EAGAIN, ENOMEM, EFAULT = 2, 7, 9, 10, 11, 12, 14
MOST_PROCESSES, MOST_DATA = 64, 4096


def pages(size):
    return (size + PAGE - 1) // PAGE


def signed(value, size):
    return value - (1 << 8 * size) if value >> 8 * size - 1 & 1 else value


class Refused(Exception):
    """An access below the stack, with its address; or one, or an instruction, that a signal ends."""

    def __init__(self, signal=None, below=None):
        super().__init__()
        self.signal, self.below = signal, below


class NoImage(Exception):
    """A file that is no image, by its name."""


class Image:
    """An image of a.out(5): text, data with zeros after them, and how many bytes of the data its file has."""

    def __init__(self, name, content):
        magic, text, data, bss, _, self.entry, _, _ = (int.from_bytes(content[at:at + 4], "little") for at in range(0, 32, 4))
        if magic not in (0o407, 0o410, 0o413) or len(content) < 32:
            raise NoImage(name)
        at, self.name = 1024 if magic == 0o413 else 32, name
        if magic == 0o407:
            text, data = 0, text + data
        given = content[at + text:at + text + data]
        self.text = content[at:at + text] + bytes(pages(text) * PAGE - text)
        self.data, self.filled = given + bytes(pages(data + bss) * PAGE - len(given)), len(given)


class Space:
    """The memory of a process. `stack` has the lowest byte first."""

    def __init__(self, sid, number, image, arguments=()):
        self.sid, self.number, self.image = sid, number, image
        self.data, self.stack = bytearray(image.data), bytearray(PAGE)
        strings = b"".join(it + b"\0" for it in arguments)
        strings += bytes(-len(strings) % 4)
        at, words = TOP - 4 - len(strings), [len(arguments)]
        for it in arguments:
            words.append(at)
            at += len(it) + 1
        area = b"".join(it.to_bytes(4, "little") for it in [*words, 0, 0]) + strings + bytes(4)
        self.stack[PAGE - len(area):], self.pointer = area, TOP - len(area)

    def copy(self, sid):
        space = Space(sid, self.number, self.image)
        space.data, space.stack = bytearray(self.data), bytearray(self.stack)
        return space

    def resize(self, data, stack):
        """The data and the stack have so many pages."""
        self.data = self.data[:data * PAGE] + bytes(max(0, data * PAGE - len(self.data)))
        self.stack = bytearray(max(0, stack * PAGE - len(self.stack))) + self.stack

    def place(self, at):
        """The page of an address, its bytes, and the place of the byte in them."""
        at &= M32
        text, stack = len(self.image.text), TOP - len(self.stack)
        if at < text:
            return ("x", self.number, at // PAGE), self.image.text, at
        if at < text + len(self.data):
            return ("d", self.sid, (at - text) // PAGE), self.data, at - text
        if stack <= at < TOP:
            return ("s", self.sid, (TOP - 1 - at) // PAGE), self.stack, at - stack
        raise Refused(below=at) if LOWEST <= at < stack else Refused(signal=11)


class Accesses:
    """What a step accesses: the pages that it touches, in order, and what it is to write."""

    def __init__(self, space):
        self.space, self.touched, self.puts = space, [], []

    def touch(self, page):
        if page not in self.touched:
            self.touched.append(page)

    def byte(self, at):
        page, held, index = self.space.place(at)
        self.touch(page)
        return held[index]

    def read(self, at, size):
        return sum(self.byte(at + it) << 8 * it for it in range(size))

    def test(self):
        """All bytes that are to be written may be; answers their pages."""
        written = []
        for at, size, _ in self.puts:
            for it in range(size):
                page, _, _ = self.space.place(at + it)
                if page[0] == "x":
                    raise Refused(signal=10)
                self.touch(page)
                written += [page] * (page not in written)
        return written

    def write(self):
        for at, size, value in self.puts:
            for it in range(size):
                _, held, index = self.space.place(at + it)
                held[index] = value >> 8 * it & 255


# Instructions: of each opcode its name, and what is done with each operand (r, w, m, a, b), with its size.

SIZES = {"b": 1, "w": 2, "l": 4}
OPCODES = {
    0x01: ("nop", ""), 0x04: ("ret", ""), 0x05: ("rsb", ""), 0x10: ("bsb", "bb"), 0x30: ("bsb", "bw"), 0x11: ("br", "bb"), 0x31: ("br", "bw"),
    0x16: ("jsb", "ab"), 0x17: ("jmp", "ab"), 0x78: ("ash", "rb rl wl"), 0xBC: ("chmk", "rw"), 0x98: ("cvtbl", "rb wl"), 0x9A: ("movz", "rb wl"),
    0x9E: ("mova", "ab wl"), 0xDE: ("mova", "al wl"), 0x9F: ("push", "ab"), 0xDF: ("push", "al"), 0xDD: ("push", "rl"), 0xCE: ("mneg", "rl wl"),
    0xD2: ("mcom", "rl wl"), 0xD3: ("bit", "rl rl"), 0xE8: ("blbs", "rl bb"), 0xE9: ("blbc", "rl bb"), 0xF2: ("aoblss", "rl ml bb"),
    0xF3: ("aobleq", "rl ml bb"), 0xF4: ("sobgeq", "ml bb"), 0xF5: ("sobgtr", "ml bb"), 0xF6: ("cvtlb", "rl wb"), 0xFA: ("callg", "ab ab"),
    0xFB: ("calls", "rl ab"),
}
OPCODES |= {0x12 + at: (name, "bb") for at, name in enumerate(("bneq", "beql", "bgtr", "bleq"))}
OPCODES |= {0x18 + at: (name, "bb") for at, name in enumerate(("bgeq", "blss", "bgtru", "blequ", "bvc", "bvs", "bcc", "bcs"))}
for base, letter in ((0x90, "b"), (0xB0, "w"), (0xD0, "l")):
    OPCODES |= {base: ("mov", f"r{letter} w{letter}"), base + 1: ("cmp", f"r{letter} r{letter}")}
for base, letter in ((0x94, "b"), (0xD4, "l")):
    OPCODES |= {base: ("clr", f"w{letter}"), base + 1: ("tst", f"r{letter}"), base + 2: ("inc", f"m{letter}"), base + 3: ("dec", f"m{letter}")}
for at, name in enumerate(("add", "sub", "mul", "div", "bis", "bic", "xor")):
    OPCODES |= {0xC0 + 2 * at: (name, "rl ml"), 0xC1 + 2 * at: (name, "rl rl wl")}
BRANCHES = {
    "br": lambda n, z, v, c: True, "bneq": lambda n, z, v, c: not z, "beql": lambda n, z, v, c: z, "bgtr": lambda n, z, v, c: not (n or z),
    "bleq": lambda n, z, v, c: n or z, "bgeq": lambda n, z, v, c: not n, "blss": lambda n, z, v, c: n, "bgtru": lambda n, z, v, c: not (c or z),
    "blequ": lambda n, z, v, c: c or z, "bvc": lambda n, z, v, c: not v, "bvs": lambda n, z, v, c: v, "bcc": lambda n, z, v, c: not c,
    "bcs": lambda n, z, v, c: c,
}
SUMS = {"add": 0, "sub": 0, "mul": 0, "div": 0, "inc": 1, "dec": -1, "mneg": 0, "aoblss": 1, "aobleq": 1, "sobgeq": -1, "sobgtr": -1}
LOGIC = {"bis": lambda a, b: a | b, "bic": lambda a, b: b & ~a, "xor": lambda a, b: a ^ b, "bit": lambda a, b: a & b}


class Operand:
    """An operand: what is done with it, its size, and its value, its address or its register."""

    def __init__(self, kind, size):
        self.kind, self.size, self.value, self.address, self.register = kind, size, None, None, None


class Instruction:
    """One instruction of a process, carried out on a copy of its registers."""

    def __init__(self, accesses, registers, codes):
        self.memory, self.r, self.codes, self.call, self.later = accesses, list(registers), list(codes), None, []
        self.at = self.r[15]
        opcode = self.fetch(1)
        if opcode not in OPCODES:
            raise Refused(signal=4)
        self.name, kinds = OPCODES[opcode]
        decoded = [self.decode(it[0], SIZES[it[1]]) for it in kinds.split()]
        self.r[15] = self.at
        self.operands = [self.evaluate(*it) for it in decoded]
        self.compute()
        self.written = self.memory.test()
        for register, value in self.later:
            self.r[register] = value

    def fetch(self, size):
        value = self.memory.read(self.at, size)
        self.at = self.at + size & M32
        return value

    # Operands.

    def decode(self, kind, size, indexed=None):
        """The bytes of an operand: kind, size, mode, register, value, index register. The mode is that of the byte, 15 for what has a value."""
        if kind == "b":
            by = signed(self.fetch(size), size)
            return kind, size, 0, None, self.at + by & M32, None
        mode, register = divmod(self.fetch(1), 16)
        program = register == 15
        if indexed is not None and (mode <= 5 or (mode == 8 and program) or (mode in (7, 8, 9) and register == indexed)):
            raise Refused(signal=4)
        if (mode <= 3 and kind != "r") or (4 <= mode <= 7 and program) or (mode == 5 and kind == "a") or (mode == 8 and program and kind != "r"):
            raise Refused(signal=4)
        if mode <= 3:
            return kind, size, 0, None, mode * 16 + register, None
        if mode == 4:
            return self.decode(kind, size, register)[:5] + (register,)
        if mode == 8 and program:
            return kind, size, 0, None, self.fetch(size), indexed
        if mode == 9 and program:
            return kind, size, 16, None, self.fetch(4), indexed
        if mode < 10:
            return kind, size, mode, register, None, indexed
        long = (1, 2, 4)[(mode - 10) // 2]
        by = signed(self.fetch(long), long)
        if program:
            return kind, size, 17 if mode & 1 else 16, None, self.at + by & M32, indexed
        return kind, size, 11 if mode & 1 else 10, register, by, indexed

    def evaluate(self, kind, size, mode, register, value, index):
        """An operand with the changes of registers that it makes: mode 0 has its value, 16 its address, 17 the address of that."""
        it, r = Operand(kind, size), self.r
        if mode == 5:
            it.register = register
        elif mode == 7:
            r[register] = r[register] - size & M32
            it.address = r[register]
        elif mode in (6, 8):
            it.address = r[register]
            r[register] = r[register] + (size if mode == 8 else 0) & M32
        elif mode == 9:
            pointer, r[register] = r[register], r[register] + 4 & M32
            it.address = self.memory.read(pointer, 4)
        elif mode in (10, 16):
            it.address = (value if mode == 16 else r[register] + value) & M32
        elif mode in (11, 17):
            it.address = self.memory.read((value if mode == 17 else r[register] + value) & M32, 4)
        if index is not None:
            it.address = it.address + r[index] * size & M32
        if mode == 0:
            it.value = value
        elif kind == "a":
            it.value = it.address
        elif kind in "rm":
            it.value = r[register] & (1 << 8 * size) - 1 if mode == 5 else self.memory.read(it.address, size)
        return it

    # Results.

    def put(self, it, value):
        value &= (1 << 8 * it.size) - 1
        if it.register is None:
            self.memory.puts.append((it.address, it.size, value))
        else:
            self.later.append((it.register, self.r[it.register] & ~((1 << 8 * it.size) - 1) & M32 | value))

    def push(self, value):
        self.r[14] = self.r[14] - 4 & M32
        self.memory.puts.append((self.r[14], 4, value & M32))

    def pop(self):
        value = self.memory.read(self.r[14], 4)
        self.r[14] = self.r[14] + 4 & M32
        return value

    def sets(self, value, size, overflow=False, carry=None):
        self.codes[:3] = [bool(value >> 8 * size - 1 & 1), value & (1 << 8 * size) - 1 == 0, overflow]
        if carry is not None:
            self.codes[3] = carry

    def compute(self):
        name, ops, r = self.name, self.operands, self.r
        a = ops[0].value if ops else None
        if name in BRANCHES:
            if BRANCHES[name](*self.codes):
                r[15] = a
        elif name in ("bsb", "jsb"):
            self.push(r[15])
            r[15] = a
        elif name == "jmp":
            r[15] = a
        elif name == "rsb":
            r[15] = self.pop()
        elif name in ("mov", "movz", "mova"):
            self.sets(a, ops[1].size)
            self.put(ops[1], a)
        elif name == "clr":
            self.sets(0, ops[0].size)
            self.put(ops[0], 0)
        elif name == "push":
            self.sets(a, 4)
            self.push(a)
        elif name == "cmp":
            first, second = signed(a, ops[0].size), signed(ops[1].value, ops[0].size)
            self.codes = [first < second, first == second, False, a < ops[1].value]
        elif name == "tst":
            self.sets(a, ops[0].size, False, False)
        elif name == "cvtbl":
            self.sets(signed(a, 1) & M32, 4, False, False)
            self.put(ops[1], signed(a, 1))
        elif name == "cvtlb":
            self.sets(a & 255, 1, not -128 <= signed(a, 4) <= 127, False)
            self.put(ops[1], a)
        elif name == "mcom":
            self.sets(~a & M32, 4)
            self.put(ops[1], ~a)
        elif name in LOGIC:
            value = LOGIC[name](a, ops[1].value) & M32
            self.sets(value, 4)
            if name != "bit":
                self.put(ops[-1], value)
        elif name in SUMS:
            self.sums()
        elif name == "ash":
            count, value = signed(a, 1), signed(ops[1].value, 4)
            whole = value << count if count >= 0 else value >> -count
            self.sets(whole & M32, 4, not -(1 << 31) <= whole < 1 << 31, False)
            self.put(ops[2], whole)
        elif name in ("blbs", "blbc"):
            if a & 1 == (name == "blbs"):
                r[15] = ops[1].value
        elif name == "chmk":
            self.call = signed(a, 2)
        elif name in ("calls", "callg"):
            self.enter(a, ops[1].value)
        elif name == "ret":
            self.leave()

    def sums(self):
        """Arithmetic: of two values, or of one and the 1 of those that count."""
        name, ops = self.name, self.operands
        counts, by = name[:3] in ("aob", "sob"), SUMS[name]
        goal = ops[1] if name[:3] == "aob" else ops[0] if counts or by else ops[-1]
        size = goal.size
        a, b = (abs(by), goal.value) if by else (ops[0].value, 0 if name == "mneg" else ops[1].value)
        first, second = signed(a, size), signed(b, size)
        if name == "add" or by > 0:
            whole, carry = second + first, a + b >> 8 * size > 0
        elif name == "mul":
            whole, carry = second * first, False
        elif name == "div":
            if not a:
                raise Refused(signal=8)
            whole, carry = abs(second) // abs(first) * (1 if (first < 0) == (second < 0) else -1), False
        else:
            whole, carry = second - first, b < a
        value = whole & (1 << 8 * size) - 1
        self.sets(value, size, not -(1 << 8 * size - 1) <= whole < 1 << 8 * size - 1, None if counts else carry)
        self.put(goal, value)
        new, limit = signed(value, size), signed(ops[0].value, 4) if name[:3] == "aob" else 0
        if (name == "aoblss" and new < limit) or (name == "aobleq" and new <= limit) or (name == "sobgeq" and new >= 0) or (name == "sobgtr" and new > 0):
            self.r[15] = ops[-1].value

    def enter(self, a, target):
        """CALLS and CALLG."""
        r, mask = self.r, self.memory.read(target, 2)
        if mask >> 12:
            raise Refused(signal=4)
        if self.name == "calls":
            self.push(a)
            a = r[14]
        low, r[14] = r[14] & 3, r[14] & ~3
        for register in range(11, -1, -1):
            if mask >> register & 1:
                self.push(r[register])
        for value in (r[15], r[13], r[12], low << 30 | (self.name == "calls") << 29 | mask << 16, 0):
            self.push(value)
        r[13], r[12], r[15], self.codes = r[14], a, target + 2 & M32, [False] * 4

    def leave(self):
        """RET."""
        r = self.r
        r[14] = r[13] + 4 & M32
        state = self.pop()
        if state >> 4 & 0xFFF:
            raise Refused(signal=4)
        r[12], frame, r[15] = self.pop(), self.pop(), self.pop()
        saved = [(register, self.pop()) for register in range(12) if state >> 16 + register & 1]
        r[14] = r[14] + (state >> 30) & M32
        if state >> 29 & 1:
            r[14] = r[14] + 4 * (self.pop() & 255) & M32
        for register, value in saved:
            r[register] = value
        r[13], self.codes = frame, [bool(state >> bit & 1) for bit in (3, 2, 1, 0)]


# Processes.

class Process:
    def __init__(self, pid, parent, space, registers, codes):
        self.pid, self.parent, self.space, self.registers, self.codes = pid, parent, space, registers, codes
        self.lent, self.status, self.asleep = None, None, False

    def can_step(self):
        return self.space is not None and not self.asleep


class Step:
    """The next step of a process: its lines, the pages that it touches and writes, what it changes (`keep`, `grow`, `break`, `fork`, `vfork`,
    `execve`, `end`, `sleep`, `reap`), and how it is made."""

    def __init__(self, lines, accesses, change, make, written=()):
        self.lines, self.touched, self.change, self.make, self.written = lines, accesses.touched, change, make, written


def begun(space):
    """The registers and codes of a process that begins in this space."""
    return [0] * 14 + [space.pointer, space.image.entry + 2 & M32], [False] * 4


class Programs:
    def __init__(self, images, first):
        self.images, self.processes, self.pids, self.sids = images, {}, 0, 0
        for number in first:
            space = self.space(number, [images[number - 1].name.encode()])
            self.pids += 1
            self.processes[self.pids] = Process(self.pids, 0, space, *begun(space))

    def space(self, number, arguments):
        self.sids += 1
        return Space(self.sids, number, self.images[number - 1], arguments)

    def spaces(self):
        return [it.space for it in self.processes.values() if it.space]

    def children(self, pid):
        return [it for it in self.processes.values() if it.parent == pid]

    def lender(self, pid):
        return next((it for it in self.processes.values() if it.lent == pid), None)

    def step(self, pid):
        """The next step of a process that can step."""
        p = self.processes[pid]
        accesses = Accesses(p.space)
        try:
            it = Instruction(accesses, p.registers, p.codes)
        except Refused as why:
            if why.below is None:
                return self.ends(p, accesses, why.signal)
            count = (TOP - 1 - why.below) // PAGE + 1
            return Step([f"g {pid} {count}"], accesses, "grow", lambda: p.space.resize(len(p.space.data) // PAGE, count))
        if it.call is not None:
            accesses.puts = []
            return self.calls(p, accesses, it.call, it.r, it.codes)

        def make():
            accesses.write()
            p.registers, p.codes = it.r, it.codes
        return Step(None, accesses, "keep", make, it.written)

    def ends(self, p, accesses, status):
        return Step([f"x {p.pid} {status}"], accesses, "end", lambda: self.end(p, status))

    def end(self, p, status):
        self.give_back(p)
        p.space, p.asleep = None, False
        for child in self.children(p.pid):
            child.parent = 0
            if child.status is not None:
                del self.processes[child.pid]
        if p.parent:
            p.status, self.processes[p.parent].asleep = status, False
        else:
            del self.processes[p.pid]

    def give_back(self, p):
        """A space that was lent to it goes back."""
        lender = self.lender(p.pid)
        if lender:
            lender.space, lender.lent = p.space, None

    # Calls.

    def calls(self, p, accesses, call, r, codes):
        def answers(r0, r1=r[1], change="keep", make=None, lines=()):
            def made():
                p.registers, p.codes = [r0, r1, *r[2:]], [*codes[:3], False]
                if make:
                    make()
            return Step([*lines, f"c {p.pid} {call} 0 {r0} {r1}"], accesses, change, made)

        def fails(error):
            def make():
                p.registers, p.codes = [error, *r[1:]], [*codes[:3], True]
            return Step([f"c {p.pid} {call} 1 {error} {r[1]}"], accesses, "keep", make)

        def argument(number):
            return accesses.read(r[12] + 4 * number & M32, 4)

        def text(at):
            """The bytes from an address up to a 0, or None where 64 bytes have none."""
            found = bytearray()
            while len(found) < 64:
                byte = accesses.byte(at + len(found))
                if not byte:
                    return bytes(found)
                found.append(byte)
            return None

        try:
            if call == EXIT:
                return self.ends(p, accesses, argument(1) % 256 * 256)
            if call == GETPID:
                return answers(p.pid, p.parent)
            if call in (FORK, VFORK):
                if len(self.processes) >= MOST_PROCESSES:
                    return fails(EAGAIN)
                return answers(self.pids + 1, 0, "fork" if call == FORK else "vfork", lambda: self.child(p, call == VFORK, r, codes))
            if call == WRITE:
                file, at, count = argument(1), argument(2), argument(3)
                if file not in (1, 2):
                    return fails(EBADF)
                count = min(count, 1024)
                out = bytes(accesses.byte(at + it) for it in range(count))
                return answers(count, lines=[f"o {p.pid} {out.hex()}"] if out else ())
            if call == BREAK:
                at, start = argument(1), len(p.space.image.text)
                count = pages(at - start) if at > start else 0
                if count > MOST_DATA:
                    return fails(ENOMEM)
                return answers(0, change="break", make=lambda: p.space.resize(count, len(p.space.stack) // PAGE))
            if call == WAIT:
                if not self.children(p.pid):
                    return fails(ECHILD)
                ended = min((it.pid for it in self.children(p.pid) if it.status is not None), default=None)
                if ended is None:
                    return Step([f"s {p.pid}"], accesses, "sleep", lambda: setattr(p, "asleep", True))
                return answers(ended, self.processes[ended].status, "reap", lambda: self.processes.pop(ended))
            if call == EXECVE:
                return self.execve(p, [argument(1), argument(2), argument(3)], text, accesses, fails)
        except Refused:
            return fails(EFAULT)
        return self.ends(p, accesses, 12)

    def child(self, p, lends, r, codes):
        self.pids += 1
        space = p.space if lends else p.space.copy(self.sids + 1)
        self.sids += not lends
        self.processes[self.pids] = Process(self.pids, p.pid, space, [p.pid, 1, *r[2:]], [*codes[:3], False])
        if lends:
            p.space, p.lent = None, self.pids

    def execve(self, p, given, text, accesses, fails):
        path, list_at, _ = given
        name = text(path)
        number = next((at for at, it in enumerate(self.images, 1) if name == it.name.encode()), None)
        if name is None or number is None:
            return fails(ENOENT)
        arguments = []
        while list_at:
            pointer = accesses.read(list_at + 4 * len(arguments), 4)
            if not pointer:
                break
            argument = text(pointer) if len(arguments) < 8 else None
            if argument is None:
                return fails(E2BIG)
            arguments.append(argument)

        def make():
            self.give_back(p)
            p.space = self.space(number, arguments)
            p.registers, p.codes = begun(p.space)
        return Step([f"c {p.pid} {EXECVE} 0 0 0"], accesses, "execve", make)


def load(words):
    """The images of the words of `vmrun run`, and the numbers of the first processes'."""
    names, first = [], []
    for word in words:
        name = word.removeprefix("=")
        if name not in names:
            names.append(name)
        if name == word:
            first.append(names.index(name) + 1)
    images = []
    for name in names:
        with open(name, "rb") as file:
            images.append(Image(name, file.read()))
    return images, first
