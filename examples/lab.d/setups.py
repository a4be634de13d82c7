"""What a page has set up: its programs, of which the images are made here, and the words of its run."""
import base64
import binascii
import os
import re
import shutil
import types

import lessons
from runs import Refused

# a number as the page gives it: the program says what is wrong with it
NUMBER = re.compile(r"[0-9A-Za-z.,_ ]{0,12}")
MOST_PROGRAMS = 16
# what a source may have, in characters, and an image as it is sent
MOST_SOURCE = 1 << 20
MOST_IMAGE = 4 << 20
SOURCES = lessons.sources()
# every name that a file of a run may have. A name that a page gives is looked for here, and is never itself a file's name
NAMES = {name: name for name in (*SOURCES, *lessons.IMAGES, *lessons.OWN)}
# the C compiler, and the folder that examples/c/setup makes for it
CC = f"{lessons.EXAMPLES}/c/cc"
TOOLS = f"{lessons.EXAMPLES}/c/tools/bin"
# what stands in a line of its own where the compiler isn't there
NO_COMPILER = "C needs a compiler: examples/c/setup builds it, on Debian 12, in two minutes, by the network"


def text(asked, name, most):
    """A text of what is asked."""
    value = asked.get(name)
    if not isinstance(value, str) or len(value) > most:
        raise Refused(400, f"{name} is no text of at most {most} characters")
    return value


def all_known(names):
    """The names of this table that a page's names are. Each that is none is named."""
    others = [name for name in dict.fromkeys(names) if name not in NAMES]
    if others:
        shown = ascii(", ".join(others))[1:-1][:400]
        raise Refused(400, f"no program of this page, and no example, has the name{'s' if others[1:] else ''} {shown}")
    return [NAMES[name] for name in names]


def known(name):
    """The name of this table that a page's name is."""
    if not isinstance(name, str):
        raise Refused(400, "a name is no text")
    return all_known([name])[0]


def schedule_of(asked):
    """The text of a schedule."""
    return text(asked, "schedule", 1 << 21)


def has_compiler():
    """Whether the C compiler is there."""
    return os.access(f"{TOOLS}/ccom", os.X_OK)


class Program:
    """A program of a page: a source of the assembler, which is a text; or, in a table, a source of `c`, or an `image` in base 64."""

    def __init__(self, asked, name):
        given = asked.get(name)
        table = given if isinstance(given, dict) and len(given) == 1 else {"source": given}
        [self.kind] = table
        if self.kind not in ("source", "c", "image"):
            raise Refused(400, f"{name} is no source, no C and no image")
        self.text = text({name: table[self.kind]}, name, MOST_IMAGE if self.kind == "image" else MOST_SOURCE)

    def image(self):
        """The bytes of an image."""
        try:
            return base64.b64decode(self.text, validate=True)
        except (binascii.Error, ValueError):
            raise Refused(400, "an image is not in base 64") from None


class Setup:
    """What a page has set up: its programs, and the words of its run."""

    def __init__(self, asked):
        self.numbers = [text(asked, name, 12).strip() for name in ("frames", "swap", "limit")]
        if not all(map(NUMBER.fullmatch, self.numbers)):
            raise Refused(400, "a number has a character that no number has")
        self.schedule = schedule_of(asked)
        programs = asked.get("programs")
        if not isinstance(programs, dict) or len(programs) > MOST_PROGRAMS:
            raise Refused(400, f"programs is no table of at most {MOST_PROGRAMS}")
        self.programs = {known(name): Program(programs, name) for name in programs}
        words = text(asked, "images", 1024).split()
        names = all_known([word.removeprefix("=") for word in words])
        self.images = [("=" if word.startswith("=") else "") + name for word, name in zip(words, names)]

    def words(self, frames=None):
        """The words of the run, with as many frames as it has, or others."""
        own, swap, limit = self.numbers
        return [str(frames or own), swap, limit, "schedule", *self.images]


def write(folder, name, content):
    """Writes a file of the run's folder."""
    with open(f"{folder}/{name}", "wb") as it:
        it.write(content)


def bad(answer, **more):
    """What is told of an answer that isn't one of status 0."""
    last = answer.text().rstrip("\n").rpartition("\n")[2][-400:]
    return {"status": answer.status, "line": last, "said": answer.told()[-2000:], "cut": answer.cut, **more}


def neat():
    """The script that writes a source of ordinary style in the assembler's exact form."""
    names = types.ModuleType("neat")
    with open(f"{lessons.EXAMPLES}/neat", encoding="utf-8") as it:
        exec(compile(it.read(), f"{lessons.EXAMPLES}/neat", "exec"), names.__dict__)
    return names


NEAT = neat()


def ended(source):
    """A text whose last line has an end."""
    return source if source == "" or source.endswith("\n") else source + "\n"


def assemble(run, name, source):
    """Makes the image of a source: nothing, or what is told of a bad one."""
    lines = ended(source).split("\n")[:-1]
    write(run.folder, f"{name}.s", "".join(f"{line}\n" for line in NEAT.exact(lines)).encode(errors="replace"))
    answer = run.launched("as", f"{name}.s")
    if answer.status or answer.cut:
        return bad(answer, program=name)
    write(run.folder, name, answer.output)
    return None


def compile_c(run, name, source):
    """Makes the image of a source of C, and its table of lines: nothing, or what is told of a bad one."""
    if not has_compiler():
        return {"status": 1, "line": "", "said": f"vmrun: {NO_COMPILER}\n", "cut": "", "program": name}
    write(run.folder, f"{name}.c", ended(source).encode(errors="replace"))
    answer = run.command([CC, "--lines", f"{name}.lines", f"{name}.c", "-o", name])
    return bad(answer, program=name, c=True) if answer.status or answer.cut else None


def make(run, name, program):
    """Makes the image of a program of the page: nothing, or what is told of a bad one."""
    if program.kind == "c":
        return compile_c(run, name, program.text)
    if program.kind == "image":
        write(run.folder, name, program.image())
        return None
    return assemble(run, name, program.text)


def prepare(run, setup):
    """Makes the files of a run: nothing, or what is told of a program that is bad."""
    write(run.folder, "schedule", ended(setup.schedule).encode(errors="replace"))
    named = {image.removeprefix("=") for image in setup.images}
    for name in [name for name in NAMES if name in named]:
        if name in setup.programs:
            wrong = make(run, name, setup.programs[name])
        elif name in SOURCES:
            wrong = assemble(run, name, SOURCES[name])
        elif name in lessons.IMAGES:
            wrong = shutil.copyfile(f"{lessons.EXAMPLES}/{name}", f"{run.folder}/{name}") and None
        else:
            raise Refused(400, f"the page has no program {name}")
        if wrong:
            return wrong
    return None


def lines_of(run, name):
    """Of a program in C the addresses at which its lines begin: pairs of an address and a line, which is 0 in the library."""
    try:
        with open(f"{run.folder}/{name}.lines", encoding="utf-8") as it:
            rows = [row.rstrip("\n").split(" ", 2) for row in it]
    except FileNotFoundError:
        return None
    return [(int(at), int(line) if file == f"{name}.c" else 0) for at, line, file in rows]
