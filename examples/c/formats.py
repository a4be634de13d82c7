"""Reads the formats of printf and its kin in a preprocessed text, and refuses what the library's doesn't know.

The library shows an unknown conversion as it stands and takes no argument for it, so that all later ones would take the
wrong ones. So a format that stands in the call as a text is looked at before the program runs.
"""

import re

from compiler_text import Refused

# of each function which argument is its format
PLACES = {"printf": 0, "vprintf": 0, "fprintf": 1, "vfprintf": 1, "sprintf": 1, "vsprintf": 1, "snprintf": 2, "vsnprintf": 2}
CHARACTER = r"'(?:[^'\\]|\\.)*'"
# a call of one of these, or a text or a character, in which none is looked for
CALL = re.compile(r"\b(" + "|".join(PLACES) + r')\s*\(|"(?:[^"\\]|\\.)*"|' + CHARACTER)
# a text, a character, or any other byte
TOKEN = re.compile(r'"((?:[^"\\]|\\.)*)"|' + CHARACTER + "|(.)", re.S)
MARK = re.compile(r'^# (\d+) "([^"]*)".*$', re.M)
KNOWN = re.compile(r"%[-0+ #]*(\d+|\*)?(\.(\d+|\*)?)?((hh?|l|z|t)?[diuoxX]|l?[csp]|%)")
ANY = re.compile(r"%[-0+ #]*[\d*]*(?:\.[\d*]*)?(?:hh|h|ll|l|j|z|t|q|L)?(?:.|$)", re.S)


def place_of(text, at):
    """the file and the line of a place in a preprocessed text"""
    file, line, begun = "", 1, 0
    for mark in MARK.finditer(text, 0, at):
        file, line, begun = mark[2], int(mark[1]), mark.end() + 1
    return file, line + text.count("\n", begun, at)


def arguments_of(text, at):
    """the arguments of a call whose parenthesis is open, each as the texts in it and what else it has"""
    depth, texts, rest = 1, [], ""
    for token in TOKEN.finditer(text, at):
        if token[1] is not None:
            texts.append(token[1])
            continue
        octet = token[2] or token[0]
        depth += (octet in "([{") - (octet in ")]}") if len(octet) == 1 else 0
        if depth == 0 or depth == 1 and octet == ",":
            yield texts, MARK.sub("", rest).strip()
            texts, rest = [], ""
            if depth == 0:
                return
        else:
            rest += octet


def unknown(form):
    """the first conversion of a format that the library doesn't know, or None"""
    at = form.find("%")
    while at >= 0:
        known = KNOWN.match(form, at)
        if not known:
            return ANY.match(form, at)[0]
        at = form.find("%", known.end())
    return None


def why(conversion):
    """what a conversion would need that there isn't"""
    if conversion[-1] in "aAeEfFgG":
        return ": the machine has no floats"
    if re.search(r"ll|[jqL]", conversion):
        return ": the machine has no numbers of 64 bits"
    return ""


def check(text, name, defined):
    """refuses a format of the file `name` with an unknown conversion; a function that the file itself defines has its own"""
    for call in CALL.finditer(text):
        function = call[1]
        if function is None or function in defined:
            continue
        file, line = place_of(text, call.start())
        if file != name:
            continue
        arguments = list(arguments_of(text, call.end()))
        if len(arguments) <= PLACES[function]:
            continue
        texts, rest = arguments[PLACES[function]]
        conversion = unknown("".join(texts)) if texts and not rest else None
        if conversion is not None:
            raise Refused(f"{name}:{line}: {function} has no conversion {conversion!r}{why(conversion)}")
