"""Makes an image of units: chooses those that the start leads to, gives each an address, has `vmrun as` assemble the
functions, and writes the file that FORMATS describes."""

import os
import struct
import subprocess
import tempfile

from compiler_text import BRANCHES, OPERANDS, SIZES, Operand, Refused, Step, constant
from constructs import of_function

PAGE = 1024
START = "start"
# what `vmrun as` takes as one source
LINES, BYTES = 4096, 65536
TEXT_PAGES, DATA_PAGES = 2048, 4096
# by the last digits of the kind's octal number
KINDS = {"0407": 0o407, "0410": 0o410, "0413": 0o413}


def up_to(value, step):
    return (value + step - 1) // step * step


class Program:
    """The units that a program consists of, in the order in which they were read."""

    def __init__(self):
        self.units = []
        self.own = {}
        self.shared = {}

    def add(self, units, wins=True):
        """adds the units of one file; of names that are known already those of a library don't win"""
        names = {}
        for unit in units:
            names[unit.name] = unit
            if not unit.shared:
                continue
            known = self.shared.get(unit.name)
            if known is None or known.segment == "zeros" and unit.segment != "zeros":
                self.shared[unit.name] = unit
            elif unit.segment == "zeros":
                known.size = max(known.size, unit.size)
            elif wins:
                raise Refused(f"{unit.file}: {unit.name} is defined in {known.file} too")
        for unit in units:
            self.own[id(unit)] = names
        self.units += units

    def named(self, unit, symbol):
        """the unit that a symbol of this unit names, or None"""
        own = self.own[id(unit)].get(symbol)
        if own is not None and not own.shared:
            return own
        return self.shared.get(symbol)

    def reached(self):
        """the units that the start leads to, the start first"""
        if "main" not in self.shared:
            raise Refused("there is no function main")
        first = self.shared[START]
        found, waiting = {id(first)}, [first]
        while waiting:
            unit = waiting.pop()
            for symbol, line in uses(unit):
                if symbol == "end":
                    continue
                other = self.named(unit, symbol)
                if other is None:
                    at = ":" + str(line) if line else ""
                    raise Refused(f"{unit.file}{at}: {unit.name} needs {symbol}, which neither these files nor the "
                                  "library of examples/c has" + of_function(symbol))
                if id(other) not in found:
                    found.add(id(other))
                    waiting.append(other)
        kept = [unit for unit in self.units if id(unit) in found]
        return [first] + [unit for unit in kept if unit is not first]


def uses(unit):
    """the symbols that a unit names, each with its line"""
    for part in unit.body:
        if unit.segment == "text" and part.kind == "instruction":
            for operand in part.operands:
                if operand.symbol is not None:
                    yield operand.symbol, part.line
        elif isinstance(part, tuple) and part[1].symbol is not None:
            yield part[1].symbol, 0


# the variable of the library's time.c that has the count of instructions
COUNT = "__instructions"


def count_steps(unit):
    """Puts before each piece of a function that runs as a whole a step that adds its instructions to the count, itself too. A piece begins
    at the entry, at a label and behind a jump. Where a jump comes first the codes are of what ran before, and no step goes there."""
    pieces = [[]]
    for step in unit.body:
        if step.kind in ("label", "word"):
            pieces[-1].append(step)
            pieces.append([])
            continue
        pieces[-1].append(step)
        if step.kind == "jump" or step.name in ("ret", "rsb", "jmp"):
            pieces.append([])
    body = []
    for piece in pieces:
        if piece and piece[0].kind == "instruction":
            many = 1 + sum(step.kind in ("instruction", "jump") for step in piece)
            body.append(Step("instruction", "addl2", [constant(many), Operand("*${}", 0, COUNT)], piece[0].line))
        body += piece
    unit.body = body


def step_size(step, far):
    if step.kind == "label":
        return 0
    if step.kind == "word":
        return 2
    if step.kind == "jump":
        return (3 if step.name == "jbr" else 5) if far else 2
    return 1 + sum(operand.bytes(SIZES[size]) for operand, size in zip(step.operands, OPERANDS[step.name]))


def place_steps(unit):
    """which jumps of a function are far, and the function's size"""
    far = set()
    while True:
        at, starts, labels = 0, [], {}
        for number, step in enumerate(unit.body):
            starts.append(at)
            if step.kind == "label":
                labels[step.name] = at
            at += step_size(step, number in far)
        grown = set()
        for number, step in enumerate(unit.body):
            if step.kind == "jump" and number not in far:
                if step.operands[0] not in labels:
                    raise Refused(f"{unit.file}:{step.line}: {unit.name} jumps out of itself")
                if not -128 <= labels[step.operands[0]] - starts[number] - 2 <= 127:
                    grown.add(number)
        if not grown:
            return far, at
        far |= grown


class Lines:
    """The lines of functions as `vmrun as` takes them. Labels are numbered through; `value` gives the text of an
    operand's value."""

    def __init__(self, value):
        self.value = value
        self.lines = []
        self.labels = 0
        self.waiting = ""

    def put(self, text):
        self.lines.append(self.waiting + text)
        self.waiting = ""

    def label(self, name):
        if self.waiting:
            self.lines.append(self.waiting.rstrip())
        self.waiting = name + ": "

    def new_label(self):
        self.labels += 1
        return "l" + str(self.labels)

    def function(self, unit, far, remarks=False):
        """the lines of a function; with remarks the lines of C stand as remarks"""
        wanted = {step.operands[0] for step in unit.body if step.kind == "jump"}
        names = {step.name: self.new_label() for step in unit.body if step.kind == "label" and step.name in wanted}
        line = 0
        for number, step in enumerate(unit.body):
            if remarks and step.line != line:
                line = step.line
                self.lines.append(f"# {unit.file}:{line}")
            if step.kind == "label":
                if step.name in names:
                    self.label(names[step.name])
            elif step.kind == "word":
                self.put(f".word 0x{step.operands[0]:x}")
            elif step.kind == "jump":
                self.jump(step.name, names[step.operands[0]], number in far)
            else:
                texts = [operand.form.format(self.value(unit, operand)) for operand in step.operands]
                self.put((step.name + " " + ",".join(texts)).rstrip())
        if self.waiting:
            self.lines.append(self.waiting.rstrip())
            self.waiting = ""

    def jump(self, name, label, is_far):
        branch, opposite = BRANCHES[name]
        if not is_far:
            self.put(branch + " " + label)
        elif opposite is None:
            self.put("brw " + label)
        else:
            over = self.new_label()
            self.put(opposite + " " + over)
            self.put("brw " + label)
            self.label(over)


def assemble(lines, size, folder, vmrun):
    """the bytes of these lines, by `vmrun as`; the last line tells whether they are as many as they were taken for"""
    source = os.path.join(folder, "source.s")
    with open(source, "w", encoding="ascii") as file:
        file.write("\n".join(lines + ["behind: .long behind"]) + "\n")
    ran = subprocess.run([vmrun, "as", "source.s"], cwd=folder, capture_output=True, check=False)
    if ran.returncode:
        said = (ran.stderr or ran.stdout).decode("latin-1").strip()
        if ran.returncode == 125:
            raise Refused(f"there is no vmrun that could assemble the functions\n{said}")
        raise Refused(f"`vmrun as` refused the functions, with status {ran.returncode}\n{said}")
    octets = ran.stdout[PAGE:PAGE + size + 4]
    if octets[size:] != struct.pack("<I", size):
        raise Refused("`vmrun as` gave the functions another size")
    return octets[:size]


class Layout:
    """Where each unit stands, and the image made of them."""

    def __init__(self, program, kind):
        self.program = program
        self.kind = kind
        self.addresses = {}
        self.far = {}
        units = program.reached()
        segments = {name: [unit for unit in units if unit.segment == name] for name in ("text", "constant", "data", "zeros")}
        self.functions = segments["text"]
        if any(unit.name == COUNT for unit in units):
            for unit in self.functions:
                if unit.file != "start.s":
                    count_steps(unit)
        self.constants = segments["constant"]
        self.objects = segments["data"]
        at = 0
        self.sizes = {}
        for unit in self.functions:
            self.far[id(unit)], size = place_steps(unit)
            self.sizes[id(unit)] = size
            self.addresses[id(unit)] = at
            at += size
        self.code_size = at
        at = self.place(self.constants, at)
        self.text_size = up_to(at, 4 if kind == 0o407 else PAGE)
        at = self.place(self.objects, self.text_size)
        # an image of kind 0413 has whole pages of data in its file
        self.data_end = up_to(at, PAGE) if kind == 0o413 else up_to(at, 4)
        self.end = up_to(self.place(segments["zeros"], at), 4)
        self.zeros = max(0, self.end - self.data_end)
        text_pages = 0 if kind == 0o407 else self.text_size // PAGE
        data_pages = up_to(self.end, PAGE) // PAGE - text_pages
        for pages, most, what in ((text_pages, TEXT_PAGES, "text"), (data_pages, DATA_PAGES, "data")):
            if pages > most:
                raise Refused(f"the {what} has {pages} pages, and an image has {most} at most")

    def place(self, units, at):
        for unit in units:
            at = up_to(at, unit.align)
            self.addresses[id(unit)] = at
            at += unit.size + sum(len(part) if isinstance(part, bytes) else part[0] for part in unit.body)
        return at

    def address(self, unit, operand):
        """the value of an operand, with the address of its symbol"""
        if operand.symbol is None:
            return operand.value
        if operand.symbol == "end":
            return self.end + operand.value
        return self.addresses[id(self.program.named(unit, operand.symbol))] + operand.value

    def code(self, vmrun):
        """the bytes of the functions, assembled in as many sources as are needed"""
        pieces, size, lines = [], 0, Lines(self.address)
        octets = b""
        with tempfile.TemporaryDirectory() as folder:
            for unit in self.functions:
                own = Lines(self.address)
                own.labels = lines.labels
                own.function(unit, self.far[id(unit)])
                if len(own.lines) >= LINES or self.sizes[id(unit)] > BYTES - 4:
                    raise Refused(f"{unit.file}: {unit.name} is longer than a source of `vmrun as`, which has "
                                  f"{LINES} lines and {BYTES} bytes")
                if len(pieces) + len(own.lines) >= LINES or size + self.sizes[id(unit)] > BYTES - 4:
                    octets += assemble(pieces, size, folder, vmrun)
                    pieces, size = [], 0
                pieces += own.lines
                size += self.sizes[id(unit)]
                lines = own
            return octets + assemble(pieces, size, folder, vmrun)

    def lines(self):
        """the addresses of the text at which another line of a file begins, each with its line, or 0 for none, and its file; at
        last where the functions end"""
        told = (0, "")
        for unit in self.functions:
            at = self.addresses[id(unit)]
            for number, step in enumerate(unit.body):
                size = step_size(step, number in self.far[id(unit)])
                if size and told != (step.line, unit.file):
                    told = (step.line, unit.file)
                    yield at, *told
                at += size
        yield self.code_size, 0, "-"

    def packed(self, units, base, size):
        octets = bytearray(size)
        for unit in units:
            at = self.addresses[id(unit)] - base
            for part in unit.body:
                if not isinstance(part, bytes):
                    width, operand = part
                    part = (self.address(unit, operand) & ((1 << 8 * width) - 1)).to_bytes(width, "little")
                octets[at:at + len(part)] = part
                at += len(part)
        return bytes(octets)

    def image(self, vmrun):
        code = self.code(vmrun)
        text = code + self.packed(self.constants, self.code_size, self.text_size - self.code_size)
        data = self.packed(self.objects, self.text_size, self.data_end - self.text_size)
        header = struct.pack("<8I", self.kind, len(text), len(data), self.zeros, 0, 0, 0, 0)
        return (header.ljust(PAGE, b"\0") if self.kind == 0o413 else header) + text + data


def shown(units):
    """the text of units, as it is assembled but for the names, which stand for their addresses"""

    def named(_, operand):
        if operand.symbol is None:
            return operand.value
        return operand.symbol + (f"{operand.value:+d}" if operand.value else "")

    lines = Lines(named)
    for unit in units:
        if unit.segment == "text":
            lines.lines.append("")
            lines.label(unit.name)
            lines.function(unit, place_steps(unit)[0], remarks=True)
    for unit in units:
        if unit.segment == "text":
            continue
        lines.lines += ["", f"# {unit.segment}"]
        lines.label(unit.name)
        for part in unit.body:
            if isinstance(part, bytes):
                for at in range(0, len(part), 16):
                    lines.put(".byte " + ",".join(str(octet) for octet in part[at:at + 16]))
            else:
                names = {size: name for name, size in (("byte", 1), ("word", 2), ("long", 4))}
                lines.put(f".{names[part[0]]} {part[1].form.format(named(unit, part[1]))}")
        if unit.size:
            lines.put(f".space {unit.size}")
        if lines.waiting:
            lines.put("")
    return "\n".join(line.rstrip() for line in lines.lines) + "\n"
