"""What a page may ask of a run. Each answer is the program's; what is counted here are lines that it wrote."""
import json
import re
import shutil

import lessons
from runs import Refused
from setups import (
    NAMES, NO_COMPILER, SOURCES, Program, Setup, bad, ended, has_compiler, known, lines_of, make, prepare, schedule_of, write,
)

# how many steps a film may have, by the frames of its machine
MOST_STEPS = ((256, 400), (1024, 100), (4096, 30))
# what of a transcript is handed to the page, in bytes
MOST_TRANSCRIPT = 8 << 20
# the most blocks of swap
MOST_SWAP = "131072"
# at how many sizes of memory faults are asked, and the run's own
SIZES = 40
# what `stats` counts of a run's faults
FAULTS = r"(?m)^(?:process \d+|start) (zero-fills|file-reads|swap-reads|copies|reclaims) (\d+)$"
POLICIES = ("fifo", "clock", "hands", "lru", "least")
CARD = f"{lessons.HERE}/card.json"


def ask_check(run, asked):
    """Makes the image of one program, and lists its instructions."""
    name = known(asked.get("program"))
    wrong = make(run, name, Program(asked, "source"))
    if wrong:
        return wrong
    answer = run.program("dis", name)
    if answer.status or answer.cut:
        return bad(answer, program=name)
    return {"status": 0, "program": name, "listing": answer.text()}


def ask_schedule(run, asked):
    """Whether the lines of a schedule are good, which the program reads before anything runs."""
    [image, *_] = lessons.IMAGES
    write(run.folder, "schedule", ended(schedule_of(asked)).encode(errors="replace"))
    shutil.copyfile(f"{lessons.EXAMPLES}/{image}", f"{run.folder}/{image}")
    return bad(run.launched("owners", "0", "64", "256", "1", "schedule", image))


def names_of(setup):
    """The names of the images that a process begins with."""
    return [image for image in dict.fromkeys(setup.images) if not image.startswith("=")]


def listings(run, setup):
    """The listing of each image that a process begins with, by its name."""
    answers = {name: run.program("dis", name) for name in names_of(setup)}
    return {name: answer.text() for name, answer in answers.items() if not answer.status and not answer.cut}


def ending(transcript, many):
    """How a run ended, by its transcript: how many instructions ran, of which each call that was answered and each end is one, which
    processes have not ended, and which a signal ended, with its status. At first there are many, and more by fork and vfork."""
    ran = sum(map(int, re.findall(r"(?m)^r \d+ (\d+)$", transcript))) + len(re.findall(r"(?m)^[cx] ", transcript))
    begun = {*range(1, many + 1), *map(int, re.findall(r"(?m)^c \d+ (?:2|66) 0 (\d+) ", transcript))}
    ends = [(int(pid), int(status)) for pid, status in re.findall(r"(?m)^x (\d+) (\d+)$", transcript)]
    signals = [(pid, status) for pid, status in ends if status % 256]
    return {"ran": ran, "left": sorted(begun - {pid for pid, _ in ends}), "signals": signals}


def bad_run(run, setup, answer, **more):
    """What is told of a run that isn't one of status 0. Where its first processes find no room in the swap it is how much they take: the
    first block that is free, before the run, where there is as much swap as there may be."""
    told = bad(answer, **more)
    if answer.status == 11:
        frames, swap, *rest = setup.words()
        found = re.search(r"(?m)^swap (\d+) \d+ free\n\Z", run.program("owners", "0", frames, MOST_SWAP, *rest).text())
        told["said"] += f"vmrun: SWAP is {swap}: the first processes take {found[1]} blocks before they run\n" if found else ""
    return told


def ask_run(run, asked):
    """The transcript of the run, with its paging entries, and the listings of its images."""
    setup = Setup(asked)
    wrong = prepare(run, setup)
    if wrong:
        return wrong
    listed = listings(run, setup)
    answer = run.program("run", "--trace", *setup.words())
    whole = answer.text()
    shown = whole[: whole.rfind("\n", 0, MOST_TRANSCRIPT) + 1] if len(whole) > MOST_TRANSCRIPT else whole
    lines = {name: found for name in names_of(setup) if (found := lines_of(run, name)) is not None}
    told = {"transcript": shown, "short": len(shown) < len(whole), "listings": listed, "lines": lines}
    return bad_run(run, setup, answer, **told, **ending(whole, sum(not image.startswith("=") for image in setup.images)))


def step_number(asked, name):
    """A number of a step."""
    value = asked.get(name)
    if isinstance(value, bool) or not isinstance(value, int) or not 0 <= value <= 1 << 24:
        raise Refused(400, f"{name} is no number of a step")
    return value


def steps_of(frames):
    """How many steps a film with so many frames may have."""
    return next((steps for most, steps in MOST_STEPS if not frames.isdecimal() or int(frames) <= most), 0)


def ask_film(run, asked):
    """A film of some of the run's steps."""
    setup = Setup(asked)
    first, last = step_number(asked, "first"), step_number(asked, "last")
    if not first <= last <= first + steps_of(setup.numbers[0]):
        raise Refused(400, "a film has not so many steps")
    wrong = prepare(run, setup)
    if wrong:
        return wrong
    answer = run.film(str(first), str(last), *setup.words())
    return bad(answer) if answer.status or answer.cut else {"status": 0, "film": answer.text()}


def counted(text):
    """Of each step of a film its number, the frames that are free, and the blocks of swap that are held."""
    rows = []
    for step in re.split(r"(?m)^step ", text)[1:]:
        pieces = re.findall(r"(?m)^swap \d+ (\d+) (free)?", step)
        rows.append((int(step.split(None, 1)[0]), len(re.findall(r"(?m)^frame \d+ free ", step)), sum(int(many) for many, free in pieces if not free)))
    return rows


def ask_course(run, asked):
    """What is free and held along the run, at some of its steps, from the first to the last."""
    setup = Setup(asked)
    last = step_number(asked, "last")
    wrong = prepare(run, setup)
    if wrong:
        return wrong
    every = max(1, -(-last // (steps_of(setup.numbers[0]) // 2 or 1)))
    answer = run.program("film", "0", str(last), str(every), *setup.words())
    return bad(answer) if answer.status or answer.cut else {"status": 0, "counted": counted(answer.text())}


def sizes_of(pages, frames):
    """Sizes of memory to ask about, as ranges of page frames: the run's own, and evenly from few frames to all pages. Those of the first even
    range are far apart, and each further one stands between."""
    step = max(1, -(-pages // SIZES))
    most = max(pages + 2 * step, 70)
    own = [range(int(frames), int(frames) + 1)] if frames.isdecimal() and int(frames) <= most else []
    return own + [range(step * first, most + 1, step * apart) for first, apart in ((1, 8), (5, 8), (3, 4), (2, 2))]


def policies_at(run, sizes):
    """The faults of each policy with each of these numbers of frames, of those that the program could still tell; and its answer."""
    answer = run.program("policies", str(sizes[0]), str(sizes[-1]), str(sizes.step), "references")
    rows = [line.split(" ") for line in answer.text().splitlines() if re.fullmatch(r"\d+( [a-z]+ \d+){5}", line)]
    return [{"frames": int(frames), **dict(zip(told[::2], map(int, told[1::2])))} for frames, *told in rows], answer


def own_at(run, setup, frames):
    """The faults of the run itself with so many frames, without its reclaims, and these; and the program's answer."""
    answer = run.program("stats", *setup.words(frames))
    counts = {"reclaims": 0}
    for name, many in re.findall(FAULTS, answer.text()):
        counts[name] = counts.get(name, 0) + int(many)
    return {"bare": sum(many for name, many in counts.items() if name != "reclaims"), "reclaims": counts["reclaims"]}, answer


def rows_of(run, setup, pages):
    """The faults at each size of memory, and the first answer that is bad, or nothing."""
    rows = []
    for sizes in sizes_of(pages, setup.numbers[0]):
        told, answer = policies_at(run, sizes)
        rows += told
        if answer.status or answer.cut:
            return rows, answer
        for row in told:
            if 64 <= row["frames"] <= 4096:
                own, answer = own_at(run, setup, row["frames"])
                if answer.status or answer.cut:
                    return rows, answer
                row |= own
    return rows, None


def ask_faults(run, asked):
    """The page faults at sizes of memory: of each policy on the pages that the run touches, and of the run itself. Where time is up those
    that there are."""
    setup = Setup(asked)
    wrong = prepare(run, setup)
    found = None if wrong else run.program("refs", *setup.words())
    if wrong or found.status or found.cut:
        return wrong or bad_run(run, setup, found)
    write(run.folder, "references", found.output)
    lines = found.text().splitlines()
    pages = len(set(lines))
    rows, answer = rows_of(run, setup, pages)
    if answer and not (answer.cut == "time" and rows):
        return bad(answer)
    each = {row["frames"]: row for row in reversed(rows)}
    return {"status": 0, "rows": [each[it] for it in sorted(each)], "references": len(lines), "pages": pages, "cut": answer is not None}


def ask_stats(run, asked):
    """The table of counts of the run."""
    setup = Setup(asked)
    wrong = prepare(run, setup)
    answer = None if wrong else run.program("stats", *setup.words())
    if wrong or answer.status or answer.cut:
        return wrong or bad_run(run, setup, answer)
    return {"status": 0, "rows": [line.split(" ") for line in answer.text().splitlines()]}


QUESTIONS = {"check": ask_check, "schedule": ask_schedule, "run": ask_run, "film": ask_film, "course": ask_course, "faults": ask_faults, "stats": ask_stats}


def has_stats(run):
    """Whether the program names the command `stats` where it tells its words."""
    answer = run.launched("--help")
    return re.search(r"\bstats\b", answer.text() + answer.told()) is not None


def card():
    """What can be written in a source, as lab.d/make-card has put it together."""
    with open(CARD, encoding="utf-8") as it:
        return json.load(it)


def beginning(stats, seconds):
    """What a page is told when it begins."""
    made = {"sources": SOURCES, "own": lessons.OWN, "names": list(NAMES), "stats": stats, "seconds": seconds, "policies": POLICIES}
    compiler = {"c": has_compiler(), "noCompiler": NO_COMPILER, "cFirst": lessons.FIRST_C, "cExamples": lessons.c_examples()}
    return {**made, **compiler, "steps": MOST_STEPS, "examples": lessons.examples(), "lessons": lessons.lessons(), "card": card()}
