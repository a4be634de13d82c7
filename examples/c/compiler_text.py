"""Reads the assembler text that the compiler writes, and says it in the instructions that the machine has.

`read_text` makes units of a text: a unit is a function or an object of data, with what stands in it. Of a function the
instructions that the machine hasn't are said by those that it has. What can't be said so is refused, with the function
and the line of C that needs it.
"""

import re
from dataclasses import dataclass, field


class Refused(Exception):
    """What a program needs that the machine hasn't, in words that name the file, the line and the function."""


@dataclass(frozen=True)
class Operand:
    """An operand as `vmrun as` takes it. Where `form` has `{}`, the value stands, to which the address of `symbol` is
    added, if there is one."""

    form: str
    value: int = 0
    symbol: str = None

    def says(self, register):
        """whether the operand names the register, such as `r0`"""
        return re.search(register + r"\b", self.form) is not None

    def is_register(self):
        return re.fullmatch(r"r\d+", self.form) is not None

    def is_constant(self):
        return self.symbol is None and self.form in ("${}", "i^${}")

    def is_memory(self):
        return not self.is_register() and not self.form.startswith(("$", "i^$"))

    def bytes(self, operand_size):
        """how many bytes the operand has, where it stands for a value of so many bytes"""
        if self.form.startswith("i^"):
            return 1 + operand_size
        if self.form.startswith("*${"):
            return 5
        width = re.match(r"\*?([bwl])\^", self.form)
        return 1 + {"b": 1, "w": 2, "l": 4}[width[1]] if width else 1


@dataclass
class Step:
    """A line of a function: a label, an instruction, or a jump, whose form is chosen when its distance is known."""

    kind: str
    name: str
    operands: list = field(default_factory=list)
    line: int = 0


@dataclass
class Unit:
    """A function (`text`) or an object: of `constant` bytes, of `data`, or of `zeros`. `body` has the steps of a
    function, and of an object pairs of a size and a value or a symbol's operand, or bytes. `size` is that of zeros."""

    name: str
    segment: str
    file: str
    align: int = 1
    body: list = field(default_factory=list)
    size: int = 0
    shared: bool = False


# the sizes of the operands of each instruction that may stand in a function; FORMATS has the whole table
SIZES = {"b": 1, "w": 2, "l": 4}
OPERANDS = {"nop": "", "ret": "", "rsb": "", "jsb": "b", "jmp": "b", "chmk": "w", "ashl": "bll", "cvtbl": "bl", "movzbl": "bl",
            "cvtlb": "lb", "movab": "bl", "moval": "ll", "pushab": "b", "pushal": "l", "pushl": "l", "calls": "lb",
            "callg": "bb", "mnegl": "ll", "mcoml": "ll", "bitl": "ll", "clrb": "b", "clrl": "l", "tstb": "b", "tstl": "l",
            "incb": "b", "incl": "l", "decb": "b", "decl": "l"}
OPERANDS.update({name + size: 2 * size for name in ("mov", "cmp") for size in "bwl"})
OPERANDS.update({name + "l" + count: int(count) * "l" for name in ("add", "sub", "mul", "div", "bis", "bic", "xor")
                 for count in "23"})

# the branches that the compiler's jumps become, each with the one for the opposite condition
BRANCHES = {"jbr": ("brb", None), "jeql": ("beql", "bneq"), "jneq": ("bneq", "beql"), "jgtr": ("bgtr", "bleq"),
            "jleq": ("bleq", "bgtr"), "jgeq": ("bgeq", "blss"), "jlss": ("blss", "bgeq"), "jgtru": ("bgtru", "blequ"),
            "jlequ": ("blequ", "bgtru"), "jcc": ("bcc", "bcs"), "jcs": ("bcs", "bcc"), "jgequ": ("bcc", "bcs"),
            "jlssu": ("bcs", "bcc")}

REGISTERS = {"%r" + str(number): "r" + str(number) for number in range(16)}
REGISTERS.update({"%ap": "r12", "%fp": "r13", "%sp": "r14", "%pc": "r15"})
STACK = "r14"
PUSH, TOP, POP = Operand("-(r14)"), Operand("(r14)"), Operand("(r14)+")

# a stack has at most so many bytes
MOST_STACK = 512 * 1024

FLOATS = re.compile(r"(mov|cmp|tst|mneg|add|sub|mul|div|clr|pol|emod)[fdgh][23]?$|(cvtr?)([fdgh][bwlfdgh]|[bwl][fdgh])$|acb[fdgh]$")
LONG_LONGS = re.compile(r"(movq|clrq|ashq|adwc|sbwc|emul|ediv|cmpq|tstq|pushaq|movaq)$")
LONG_LONG_CALLS = re.compile(r"__\w+di[0-9]?$|__(fix|fixuns)\w+di$|__float\w*di\w*$")


def constant(value, size=4):
    """the operand of a constant, which is taken modulo 2 to the bits of `size` bytes"""
    bits = 8 * size
    value &= (1 << bits) - 1
    if 0 <= value <= 63:
        return Operand("${}", value)
    return Operand("i^${}", value - (1 << bits) if value >> (bits - 1) else value)


def displaced(value, symbol, register, deferred=""):
    if symbol is not None:
        return Operand(deferred + "l^{}(" + register + ")", value, symbol)
    if value == 0 and not deferred:
        return Operand("(" + register + ")")
    width = "b" if -128 <= value <= 127 else "w" if -32768 <= value <= 32767 else "l"
    return Operand(deferred + width + "^{}(" + register + ")", value)


ADDRESS = re.compile(r"(?P<star>\*?)(?P<symbol>[A-Za-z_.$][\w.$]*)?(?P<value>[+-]?\w+)?(\((?P<register>%\w+)\))?")


def read_number(text):
    text = text.lstrip("+")
    sign = text.startswith("-")
    digits = text.lstrip("-")
    base = 16 if digits[:2].lower() == "0x" else 8 if len(digits) > 1 and digits[0] == "0" else 10
    return -int(digits, base) if sign else int(digits, base)


def read_value(text):
    """the number, and the symbol it is added to, of a text such as `12`, `name` or `name+4`"""
    found = re.fullmatch(r"([A-Za-z_.$][\w.$]*)?([+-]?\w+)?", text)
    if not text or not found:
        raise ValueError(text)
    return (read_number(found[2]) if found[2] else 0), found[1]


def read_operand(text):
    """the operand of a text of the compiler's, or ValueError"""
    if text in REGISTERS:
        return Operand(REGISTERS[text])
    if text.startswith("$"):
        value, symbol = read_value(text[1:])
        return Operand("i^${}", value, symbol) if symbol else constant(value)
    stepped = re.fullmatch(r"(-?)\((%\w+)\)(\+?)", text)
    if stepped and stepped[1] + stepped[3] and stepped[2] in REGISTERS:
        return Operand(stepped[1] + "(" + REGISTERS[stepped[2]] + ")" + stepped[3])
    found = ADDRESS.fullmatch(text)
    if not found or not text:
        raise ValueError(text)
    value = read_number(found["value"]) if found["value"] else 0
    if found["register"]:
        return displaced(value, found["symbol"], REGISTERS[found["register"]], found["star"])
    if found["star"] or found["symbol"] is None and not re.fullmatch(r"-?\d+|0x[0-9a-f]+", text):
        raise ValueError(text)
    return Operand("*${}", value, found["symbol"])


def split_operands(text):
    return [part.strip() for part in text.split(",")] if text else []


def moved(operand, distance):
    """the operand of what lies `distance` bytes behind that of a plain address, or None"""
    found = re.fullmatch(r"(?:[bwl]\^\{\})?\((r\d+)\)", operand.form)
    if found:
        return displaced(operand.value + distance, operand.symbol, found[1])
    if operand.form == "*${}":
        return Operand(operand.form, operand.value + distance, operand.symbol)
    return None


class Function:
    """The steps of a function, to which instructions of the compiler are added one after another."""

    def __init__(self, unit, where):
        self.unit = unit
        self.where = where
        self.line = 0
        self.loops = 0
        self.narrow = None
        self.variables = 0  # how many bytes they have, where these are too many

    def at_line(self, line):
        """a line of C begins; the room for variables is made before the first one"""
        self.line = line
        if self.variables:
            self.refuse(f"{self.variables} bytes for its variables, and a stack has {MOST_STACK}")

    def refuse(self, needs):
        line = ":" + str(self.line) if self.line else ""
        raise Refused(f"{self.where}{line}: {self.unit.name} needs {needs}")

    def emit(self, name, *operands):
        self.unit.body.append(Step("instruction", name, list(operands), self.line))

    def label(self, name):
        self.narrow = None
        self.unit.body.append(Step("label", name, [], self.line))

    def jump(self, name, label):
        if self.narrow and name != "jbr":
            size, register = self.narrow
            self.emit("mov" + size, register, register)
        self.narrow = None
        self.unit.body.append(Step("jump", name, [label], self.line))

    def add(self, name, texts):
        """adds an instruction of the compiler's"""
        if name in BRANCHES:
            self.jump(name, texts[0])
            return
        try:
            operands = [read_operand(text) for text in texts]
        except (ValueError, KeyError):
            self.refuse("an operand that the machine hasn't: " + name + " " + ",".join(texts))
        self.narrow = None
        if name == "calls" and LONG_LONG_CALLS.match(operands[1].symbol or ""):
            self.refuse("64-bit numbers, which the machine hasn't")
        if name == "subl2" and operands[1].form == STACK and operands[0].is_constant() and not 0 <= operands[0].value < MOST_STACK:
            self.variables = operands[0].value & 0xffffffff
        if name in OPERANDS and len(operands) == len(OPERANDS[name]):
            self.emit(name, *operands)
        elif not self.other(name, operands):
            if FLOATS.match(name):
                self.refuse("floats, which the machine hasn't")
            if LONG_LONGS.match(name):
                self.refuse("64-bit numbers, which the machine hasn't")
            self.refuse("an instruction that the machine hasn't: " + name + " " + ",".join(texts))

    def other(self, name, operands):
        """says an instruction that the machine hasn't by those that it has; false where that isn't known"""
        found = re.fullmatch(r"(cvt|movz)([bw])([wl])|(mneg|inc|dec|clr)([bw])|(add|sub|mul|bis|bic|xor)([bw])[23]|bit([bw])",
                             name)
        if found and found[1]:
            return self.widen(found[1] == "cvt", found[2], found[3], *operands)
        if found and found[4]:
            return self.alter(found[4], found[5], *operands)
        if found and found[6]:
            return self.compute(found[6], found[7], operands)
        if found:
            return self.test_bits(found[8], *operands)
        if name in ("extzv", "extv"):
            return self.extract(name == "extv", *operands)
        if name == "movc3" and operands[0].is_constant():
            return self.copy(operands[0].value, *operands[1:])
        if name == "movq" and all(operand.is_memory() for operand in operands):
            return self.copy(8, *operands)
        return False

    def widen(self, signed, size, to, source, target):
        if source.is_constant():
            bits = 8 * SIZES[size]
            value = source.value & ((1 << bits) - 1)
            if signed and value >> (bits - 1):
                value -= 1 << bits
            self.emit("mov" + to, constant(value, SIZES[to]), target)
            return True
        if not target.is_register():
            return False
        if size == "b":
            self.emit("cvtbl" if signed else "movzbl", source, target)
            return True
        if not source.is_register():
            self.emit("movw", source, target)
            source = target
        if signed:
            self.emit("ashl", constant(16), source, target)
            self.emit("ashl", constant(-16, 1), target, target)
        else:
            self.emit("bicl3", constant(0xffff0000), source, target)
        return True

    def alter(self, name, size, *operands):
        """the negative of a byte or word, one more, one less, or 0"""
        target = operands[-1]
        if name == "clr":
            self.emit("mov" + size, constant(0), target)
            return True
        if name == "mneg" and operands[0].is_constant():
            self.emit("mov" + size, constant(-operands[0].value, SIZES[size]), target)
            return True
        if not target.is_register():
            return False
        if name == "mneg" and not operands[0].is_register():
            self.emit("mov" + size, operands[0], target)
            self.emit("mnegl", target, target)
        else:
            self.emit(name + "l", *operands)
        self.narrow = (size, target)
        return True

    def push_narrow(self, size, source):
        """pushes a byte or word as a longword; false where its address is one of the stack's top"""
        if source.says(STACK):
            return False
        self.emit("clrl", PUSH)
        self.emit("mov" + size, source, TOP)
        return True

    def compute(self, name, size, operands):
        """a sum, difference, product or mask of bytes or words: its low bits are those of the longwords'"""
        *sources, target = operands
        if not target.is_register():
            return False
        for place in reversed(range(len(sources))):
            if sources[place].is_memory():
                if not self.push_narrow(size, sources[place]):
                    return False
                sources[place] = POP
        self.emit(name + "l" + str(len(operands)), *sources, target)
        self.narrow = (size, target)
        return True

    def test_bits(self, size, mask, source):
        """tests bits of a byte or word, as the upper bits of a longword, so that its sign is theirs"""
        if not mask.is_constant() or source.says(STACK):
            return False
        bits = 8 * SIZES[size]
        self.emit("clrl", PUSH)
        self.emit("mov" + size, source, displaced(4 - SIZES[size], None, STACK))
        self.emit("bitl", constant(mask.value << (32 - bits)), POP)
        return True

    def extract(self, signed, first, count, source, target):
        """a field of bits of a register"""
        if not target.is_register() or not source.is_register():
            return False
        if first.is_constant() and count.is_constant() and 0 < count.value <= 32 - first.value:
            first, count = first.value, count.value
            if signed:
                self.emit("ashl", constant(32 - first - count), source, target)
                self.emit("ashl", constant(count - 32, 1), target, target)
                return True
            if first:
                self.emit("ashl", constant(-first, 1), source, target)
                source = target
            self.emit("bicl3", constant(-1 << count), source, target)
            return True
        return not signed and source == target and self.shift_right(first, count, target)

    def shift_right(self, distance, count, target):
        """An unsigned number shifted right by a distance that isn't known: the compiler has just put its bits less the
        distance into `count`. The shift makes copies of the sign, which are cleared then."""
        before = self.unit.body[-1]
        if before.name != "subl3" or before.operands[0] != distance or before.operands[2] != count:
            return False
        bits = before.operands[1]
        self.unit.body.pop()
        self.emit("mnegl", distance, count)
        self.emit("ashl", count, target, target)
        self.emit("addl2", bits, count)
        self.emit("ashl", count, constant(-1), count)
        self.emit("bicl2", count, target)
        return True

    def copy(self, size, source, target):
        """copies the bytes of a structure; the compiler keeps nothing in R0 to R5 meanwhile"""
        if size <= 32 and moved(source, 0) and moved(target, 0):
            at = 0
            for name, width in (("movl", 4), ("movw", 2), ("movb", 1)):
                while size - at >= width:
                    self.emit(name, moved(source, at), moved(target, at))
                    at += width
            return True
        first, second, count = Operand("r1"), Operand("r3"), Operand("r0")
        if not target.says("r1"):
            self.emit("movab", source, first)
            self.emit("movab", target, second)
        elif not source.says("r3"):
            self.emit("movab", target, second)
            self.emit("movab", source, first)
        else:
            self.emit("movab", source, count)
            self.emit("movab", target, second)
            self.emit("movl", count, first)
        self.emit("movl", constant(size // 4), count)
        self.loops += 1
        name = f".copy{self.loops}"
        self.label(name)
        self.emit("movl", Operand("(r1)+"), Operand("(r3)+"))
        self.emit("decl", count)
        self.jump("jneq", name)
        for _ in range(size % 4):
            self.emit("movb", Operand("(r1)+"), Operand("(r3)+"))
        return True


def read_string(text):
    """the bytes of a text between quotes, with the escapes of the compiler's assembler"""
    octets = bytearray()
    escapes = {"n": 10, "t": 9, "r": 13, "b": 8, "f": 12, "v": 11, "a": 7}
    for part in re.findall(r"\\[0-7]{1,3}|\\x[0-9a-fA-F]+|\\.|[^\\]+", text):
        if part[0] != "\\":
            octets += part.encode("latin-1")
        elif part[1] in "01234567":
            octets.append(int(part[1:], 8) & 255)
        elif part[1] == "x" and len(part) > 2:
            octets.append(int(part[2:], 16) & 255)
        else:
            octets.append(escapes.get(part[1], ord(part[1])))
    return bytes(octets)


class Reader:
    """Makes units of the lines of a text."""

    def __init__(self, where):
        self.where = where
        self.units = {}
        self.segment = "text"
        self.align = 1
        self.unit = None
        self.function = None
        self.shared = set()
        self.private = set()

    def begin(self, name, segment, align):
        self.unit = Unit(name, segment, self.where, align)
        self.units[name] = self.unit
        return self.unit

    def label(self, name):
        if name.startswith(".LL"):
            # that of a line of C, to which nothing jumps
            return
        if self.segment == "text" and name.startswith(".L"):
            self.function.label(name)
            return
        self.begin(name, self.segment, self.align)
        self.function = Function(self.unit, self.where) if self.segment == "text" else None
        self.align = 1

    def directive(self, name, rest):
        if name in (".text", ".data"):
            self.segment = name[1:]
        elif name == ".section":
            self.segment = "text" if "text" in rest else "constant" if "rodata" in rest else "data"
        elif name == ".align":
            self.align = 1 << int(rest)
        elif name == ".globl":
            self.shared.add(rest.strip())
        elif name == ".local":
            self.private.add(rest.strip())
        elif name == ".comm":
            symbol, size, align = split_operands(rest)
            unit = self.begin(symbol, "zeros", int(align))
            unit.size = read_number(size)
            if symbol not in self.private:
                self.shared.add(symbol)
            self.unit = self.function = None
        elif name == ".stabn":
            values = split_operands(rest)
            if values[0] == "68" and self.function:
                self.function.at_line(int(values[2]))
        elif name in (".byte", ".word", ".long"):
            self.values(SIZES[name[1]], split_operands(rest))
        elif name in (".ascii", ".asciz"):
            octets = read_string(re.search(r'"(.*)"', rest, re.S)[1])
            self.unit.body.append(octets + b"\0" if name == ".asciz" else octets)
        elif name in (".space", ".zero"):
            self.unit.body.append(bytes(read_number(rest)))
        elif name not in (".file", ".type", ".size", ".stabs", ".ident", ".end"):
            raise Refused(f"{self.where}: the compiler wrote what isn't known: {name} {rest}")

    def values(self, size, texts):
        for text in texts:
            value, symbol = read_value(text)
            if self.function:
                self.unit.body.append(Step("word", ".word", [value], self.function.line))
            else:
                self.unit.body.append((size, Operand("{}", value, symbol)))

    def read(self, text):
        for line in text.split("\n"):
            found = re.match(r"([A-Za-z_.$][\w.$]*):(.*)", line)
            if found:
                self.label(found[1])
                line = found[2]
            if '"' not in line:
                line = line.split("#")[0]
            words = line.split(None, 1)
            if not words:
                continue
            name, rest = words[0], words[1].strip() if len(words) > 1 else ""
            if name.startswith("."):
                self.directive(name, rest)
            elif self.function:
                self.function.add(name, split_operands(rest))
            else:
                raise Refused(f"{self.where}: the compiler wrote an instruction outside of a function: {line.strip()}")
        for unit in self.units.values():
            unit.shared = unit.name in self.shared
        return list(self.units.values())


def read_text(text, where):
    """the units of a text of the compiler's, of the C file `where`"""
    return Reader(where).read(text)
