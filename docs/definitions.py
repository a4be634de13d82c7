"""What the scripts of this folder know of the sources: definitions and types by name, what each cites, and the clauses of functions."""
import collections
import functools
import os
import re

Place = collections.namedtuple("Place", "file first last text name")
Clause = collections.namedtuple("Clause", "kind label text")
Function = collections.namedtuple("Function", "crate owner name file line signature clauses traits")

IDENTIFIER = r"[^\W\d][\w'\-]*"
# a name with what follows its dots, a sign made of symbols, or a single character
TOKEN = re.compile(rf"{IDENTIFIER}(?:\.{IDENTIFIER})*|\d+|[^\s\w(){{}}\[\],;.\"']+|\S")
HEAD = re.compile(rf"^(?:(?:pub|abbrev|unfoldable|opaque) )*(?:(?:data|record) (?:pub )?)?({IDENTIFIER}|\S*◌\S*)(?= |$)")
NO_HEAD = ("use ", "pub use ", "mod ", "pub mod ", "--", "infix")
COMMENT = re.compile(r"(?m)--.*$|//.*$")
RUST_ITEM = re.compile(r"(?m)^(?:pub(?:\([a-z]+\))? )?(?:(?:enum|struct|trait|type) (\w+)\b[^;{]*(?:\{.*?^\}|\{[^\n]*\}$|;)|(?:const|static) (\w+)\b.*?;$)", re.S)
FUNCTION = re.compile(r"(?m)^( *)((?:pub(?:\([a-z]+\))? )?)(?:unsafe |const )*fn (\w+)")
OWNER = re.compile(r"(?m)^(?:(impl)\b([^{]*)|pub trait (\w+)\b[^{]*)\{")


def without_comments(text):
    return COMMENT.sub("", text)


class Repository:
    """The sources of a checkout."""

    def __init__(self, top):
        self.top = top
        self.libraries, self.rooms, room = {}, {}, ""
        for line in self.text_of(f"{top}/crates.txt").split("\n"):
            if line.startswith("# "):
                room = line[2:].partition(":")[0]
            name, colon, libraries = line.partition("#")[0].partition(":")
            if colon:
                self.libraries[name.split()[0]] = libraries.split()
                self.rooms[name.split()[0]] = room

    @functools.lru_cache(maxsize=None)
    def text_of(self, path):
        with open(path, encoding="utf-8") as it:
            return it.read()

    def files(self, crate, part, ending):
        """Returns the files of a crate's part, in order."""
        found = []
        for at, _, names in os.walk(f"{self.top}/crates/{crate}/{part}"):
            found += [f"{at}/{it}" for it in names if it.endswith(ending)]
        return sorted(found)

    @functools.lru_cache(maxsize=None)
    def imports(self, path):
        """Returns what a file's imports bring: a name's home as (module, name), and modules under a name of their own."""
        names, modules = {}, {}
        for line in re.findall(r"(?m)^\s*(?:ghost )?(?:pub )?use ([^\n;]*(?:\n[ \t}][^\n;]*)*)", self.text_of(path)):
            line = " ".join(line.split())
            found = re.fullmatch(r"(Rattle\.[\w.]+?)\.\{(.*)\}", line)
            if found:
                for item in found[2].split(","):
                    name, _, other = item.strip().partition(" as ")
                    names[(other or name).strip()] = found[1], name.strip()
            elif line.startswith("Rattle."):
                module, _, other = line.partition(" as ")
                modules[(other or module.rpartition(".")[2]).strip()] = module.strip()
        return names, modules

    @functools.lru_cache(maxsize=None)
    def words_of_others(self, path):
        """Returns the names that a file imports from the toolchain's library, operators by their signs."""
        return {name.strip("◌") for module, name in self.imports(path)[0].values() if self.home_of(module)[0] not in self.libraries}

    @functools.lru_cache(maxsize=None)
    def rust_imports(self, path):
        """Returns what the Rust imports of a file bring: a name's crate, and the name that it has there."""
        own = os.path.relpath(path, f"{self.top}/crates").split(os.sep)[0]
        found = {}
        for line in re.findall(r"(?m)^ *(?:pub )?use ([a-z_]\w*::[^;]*);", self.text_of(path)):
            line = " ".join(line.split())
            crate = own if line.split("::")[0] in ("crate", "super", "self") else line.split("::")[0]
            if crate not in self.libraries and os.path.isfile(f"{self.top}/crates/{own}/src/{crate}.rt"):
                crate = own
            for item in re.findall(r"(\w+)(?: as (\w+))?(?=[,}\s]|$)", line):
                found[item[1] or item[0]] = crate, item[0]
        return found

    @functools.lru_cache(maxsize=None)
    def passed_on(self, crate, part):
        """Returns the modules that a crate passes on, by the name that they have there."""
        path = f"{self.top}/crates/{crate}/{part}/Lib.antt"
        if not os.path.isfile(path):
            return {}
        found = re.findall(r"(?m)^(?:unfoldable )?pub use (Rattle\.[\w.]+)(?: as (\w+))?$", self.text_of(path))
        return {other or module.rpartition(".")[2]: module for module, other in found}

    def home_of(self, module):
        """Returns the crate, part and path where a module stands itself."""
        words = module.split(".")
        while len(words) > 3 and words[2] in ("specs", "proofs"):
            there = self.passed_on(words[1], words[2]).get(words[3])
            if not there:
                break
            words = [*there.split("."), *words[4:]]
        return words[1], words[2] if len(words) > 2 else "", words[3:]

    @functools.lru_cache(maxsize=None)
    def definitions(self, path):
        """Returns the definitions of a file of specs/ by name."""
        lines, found, at = self.text_of(path).split("\n"), {}, 0
        while at < len(lines):
            line = lines[at]
            head = HEAD.match(line)
            if not head or line.startswith(NO_HEAD) or " : " not in line and "record" not in line and "data" not in line:
                at += 1
                continue
            name, first, end = head[1], at, at + 1
            while first and lines[first - 1].startswith(("--", "infix")):
                first -= 1

            def goes_on(line):
                return line.startswith((" ", name + " ", name + "\t")) or "◌" in name and line.strip() and not line.startswith(NO_HEAD)

            while end < len(lines) and (goes_on(lines[end]) or not lines[end].strip() and end + 1 < len(lines) and lines[end + 1].startswith(" ")):
                end += 1
            found[name] = Place(path, first + 1, end, "\n".join(lines[first:end]), name)
            at = end
        return found

    @functools.lru_cache(maxsize=None)
    def parts(self, path):
        """Returns the constructors and fields of the data and records of a file, each with what it belongs to."""
        found = {}
        for place in self.definitions(path).values():
            if re.search(r"(?m)^(?:(?:pub|abbrev|unfoldable|opaque) )*(?:data|record) ", place.text):
                for name in re.findall(rf"(?m)^ +(?:pub )?({IDENTIFIER})\b[^=\n]* : ", without_comments(place.text)):
                    found.setdefault(name, place)
        return found

    @functools.lru_cache(maxsize=None)
    def declarations(self, path):
        """Returns the types, traits and constants that a file of src/ declares."""
        text, found = self.text_of(path), {}
        lines = text.split("\n")
        for item in RUST_ITEM.finditer(text):
            first = text[: item.start()].count("\n")
            end = text[: item.end()].count("\n") + 1
            while first and lines[first - 1].startswith(("///", "#[")):
                first -= 1
            name = item[1] or item[2]
            found[name] = Place(path, first + 1, end, "\n".join(lines[first:end]), name)
        return found

    @functools.lru_cache(maxsize=None)
    def declared(self, crate, name):
        """Returns where the code of a crate declares a type, trait or constant, or passes it on from another one."""
        for file in self.files(crate, "src", ".rt"):
            if name in self.declarations(file):
                return self.declarations(file)[name]
        for file in self.files(crate, "src", ".rt"):
            there = self.rust_imports(file).get(name)
            if there and there[0] != crate and there[0] in self.libraries:
                return self.declared(*there)
        return None

    def place_of(self, module, name):
        """Returns where a name of a module is defined, None for the toolchain's, or False where it isn't found."""
        crate, part, path = self.home_of(module)
        if crate not in self.libraries:
            return None
        return self.place_in(crate, part, tuple(path), module, name) or False

    @functools.lru_cache(maxsize=None)
    def place_in(self, crate, part, path, module, name):
        if path[:1] == ("declared",):
            # what is generated of a type: its variants, fields and views, and of a trait what its ghost members are
            if path[-1] != "TheConstants" and path[-1].startswith("The"):
                return self.declared(crate, path[-2])
            return self.declared(crate, path[-1]) if name == "Ghosts" else self.declared(crate, name.removeprefix("out-"))
        for depth in range(len(path), 0, -1):
            file = f"{self.top}/crates/{crate}/{part}/{'/'.join(path[:depth])}.antt"
            if os.path.isfile(file):
                names, _ = self.imports(file)
                if name in self.definitions(file):
                    return self.definitions(file)[name]
                if name in names and names[name] != (module, name):
                    return self.place_of(*names[name])
                return self.parts(file).get(name)
        return None

    def resolved(self, text, path, traits=None, name=None):
        """Yields each sign of a text with the place that it names: None for the toolchain's and for what is bound in the text, and False
        where a name of the repository isn't found. An imported name is the one that it has at home, and a bound one its number in
        the text. `traits` has the trait of each type parameter."""
        traits = traits or {}
        names, modules = self.imports(path)
        is_code = path.endswith(".rt")
        own = self.declarations(path) if is_code else self.definitions(path)
        rust = self.rust_imports(path) if is_code else {}
        operators = {it.strip("◌"): it for it in {*names, *own} if "◌" in it and it.strip("◌")}
        text = without_comments(text)
        for piece in pieces(text, name):
            bound, numbers = bound_in(piece, name), {}
            for found in TOKEN.finditer(piece):
                sign = found[0]
                if sign.startswith("Rattle."):
                    module, _, last = sign.rpartition(".")
                    yield sign, self.place_of(module, last)
                    continue
                first, _, rest = sign.partition(".")
                if sign in operators or sign in ("←",) and ">>=" in operators:
                    operator = operators.get(sign, "◌>>=◌")
                    yield sign, self.place_of(*names[operator]) if operator in names else own[operator]
                elif first in traits and (rest or is_code):
                    yield rest or first, traits[first]
                elif sign == name and name in own:
                    yield sign, own[name]
                elif first in bound:
                    # (a bound variable's own name says nothing: its number in the piece does)
                    numbers.setdefault(first, f"°{len(numbers)}")
                    yield numbers[first] + sign[len(first) :], None
                elif is_field(piece, found):
                    yield sign, None
                elif first in modules and rest:
                    yield rest, self.place_of(modules[first], rest.partition(".")[0])
                elif first in names:
                    yield names[first][1] + sign[len(first) :], self.place_of(*names[first])
                elif first in own:
                    yield sign, own[first]
                elif first in rust:
                    yield sign, self.declared(*rust[first]) if rust[first][0] in self.libraries else None
                else:
                    yield sign, None

    def cited(self, place):
        """Yields the places that a definition or type cites, in the order of its text; False for a name that isn't found."""
        for _, there in self.resolved(place.text, place.file, self.bounds(place.text, place.file), place.name):
            if there is False or there and there[:2] != place[:2]:
                yield there

    def bounds(self, header, path):
        """Returns the trait of this repository that bounds each type parameter of a function or block."""
        found, rust, own = {}, self.rust_imports(path), self.declarations(path)
        if not path.endswith(".rt"):
            return found
        for name, bound in re.findall(r"\b([A-Z]\w*): ((?:\w|::)+)", header):
            bound = bound.rpartition(":")[2]
            there = own.get(bound) or bound in rust and rust[bound][0] in self.libraries and self.declared(*rust[bound])
            if there and re.search(r"(?m)^pub trait ", there.text):
                found[name] = there
        return found

    def functions(self, crate):
        """Yields the functions of a crate that are public or a trait's, with their clauses."""
        for file in self.files(crate, "src", ".rt"):
            text = self.text_of(file)
            owners = [(it.start(), it) for it in OWNER.finditer(text)]
            for found in FUNCTION.finditer(text):
                owner = next((it for at, it in reversed(owners) if at < found.start()), None) if found[1] else None
                is_method_of_trait = owner and (owner[3] or re.search(r"\bfor\b", owner[2]))
                if found[2].startswith("pub(") or not found[2] and not is_method_of_trait or len(found[1]) > 4:
                    continue
                signature, clauses = clauses_after(text, found.end())
                if is_method_of_trait and not clauses:
                    continue
                header = owner[0] if owner else ""
                bounds = self.bounds(header, file) | self.bounds(signature, file)
                if owner and owner[3]:
                    bounds |= {name: self.declarations(file)[owner[3]] for name in re.findall(r"(?m)^    ghost (\w+): ", text)}
                line = text[: found.start()].count("\n") + 1
                name = owner[3] or " ".join(owner[2].split()) if owner else ""
                name = re.sub(r"^<[^>]*> |<.*?>", "", name).strip()
                yield Function(crate, name, found[3], file, line, signature, clauses, bounds)


def pieces(text, name):
    """Returns the statement of a definition and its equations, each of which binds variables of its own."""
    if not name:
        return [text]
    found, last = [], 0
    for line in re.finditer(r"(?m)^(?=\S)", text):
        if line.start() > last:
            found.append(text[last : line.start()])
            last = line.start()
    return [*found, text[last:]]


def bound_in(piece, name):
    """Returns the variables that a statement or equation binds."""
    found = set(re.findall(rf"λ \(?({IDENTIFIER})", piece)) | set(re.findall(rf"({IDENTIFIER}) ←", piece))
    for group in re.findall(rf"[({{]((?:{IDENTIFIER} )+):(?= )", piece):
        found |= set(group.split())
    left, *right = re.split(r" =\s", piece, maxsplit=1)
    if name and right and " : " not in re.sub(r"\([^()]*\)", "", left):
        found |= {it for it in re.findall(rf"(?<![\w.'])({IDENTIFIER})(?![\w.'])", left) if it[0].islower()} - {name}
    return found


def is_field(piece, found):
    """Whether a name is that of a field which is given a value, or has its type stated."""
    before, after = piece[: found.start()].rstrip(" "), piece[found.end() :]
    if after.startswith(" = ") and (before.endswith(("{", ";", "{\n", ";\n")) or before.rstrip().endswith(("record {", ";"))):
        return True
    return after.startswith((" : ", ": ")) and (before.endswith("\n") or before.endswith(("pub", "ghost", ",", "{")))


def clauses_after(text, at):
    """Returns the signature from a place on, and the clauses that follow it."""
    start, depth, clauses, signature = at, 0, [], None
    word = re.compile(r"(requires|ensures)\b(?: (\w+))? ?\{")
    while at < len(text):
        if text.startswith("//", at):
            at = text.find("\n", at)
            continue
        sign = text[at]
        if sign in "([":
            depth += 1
        elif sign in ")]":
            depth -= 1
        elif depth == 0:
            clause = word.match(text, at) if sign in "re" and not (text[at - 1].isalnum() or text[at - 1] == "_") else None
            if clause:
                signature = text[start:at] if signature is None else signature
                end, deep = clause.end(), 1
                while deep:
                    deep += {"{": 1, "}": -1}.get(text[end], 0)
                    end += 1
                clauses.append(Clause(clause[1], clause[2] or "", " ".join(without_comments(text[clause.end() : end - 1]).split())))
                at = end
                continue
            if sign in "{;":
                break
        at += 1
    return text[start:at] if signature is None else signature, clauses
