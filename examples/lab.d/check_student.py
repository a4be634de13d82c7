"""What a student does: writes a program, errs, mends, runs, steps, and reads the tables."""
import json
import os
import re
import subprocess
import time

from checking import EXAMPLES, choose, idle, make, program_said, run, shown, transcript, write

BAD = ".word 0\nmovl $3,r1\nl: incl *$0x400\nsobgtr r1,loop\nmoval *$code,r12\nchmk $1\ncode: .long 1\n.long 7\n.bss 2048\n"
MENDED = BAD.replace(",loop", ",l")
# The numbers of an editor's lines that have a mark.
MARKED = "[...document.querySelectorAll('#lab-%s-editor .%s')].map((it) => it.textContent)"


def by_error(check, browser):
    """A bad line is told and marked as soon as the writer pauses, and when it is run; mended, it is listed."""
    write(browser, "lab-source", BAD)
    browser.wait_for("document.getElementById('lab-source-said').textContent !== ''", 20)
    check.same("what is said of the bad line", shown(browser, "lab-source-said"), "line 4: unknown label loop")
    check.same("the line that is marked", browser.value(MARKED % ("source", "bad")), ["4"])
    check.same("whether the field says so too", browser.value("document.getElementById('lab-source').getAttribute('aria-invalid')"), "true")
    browser.value("document.getElementById('lab-source-go').click()")
    place = "(() => { const it = document.getElementById('lab-source'); return it.value.slice(it.selectionStart, it.selectionEnd); })()"
    check.same("the line that is gone to", browser.value(place), "sobgtr r1,loop")
    run(browser)
    check.same("a run of it", shown(browser, "lab-result"), "mine, line 4: unknown label loop")
    write(browser, "lab-source", MENDED)
    browser.wait_for("document.getElementById('lab-source-said').textContent === ''", 20)
    browser.wait_for("document.getElementById('lab-listing').textContent !== ''", 20)
    check.same("the lines that are marked then", browser.value(MARKED % ("source", "bad")), [])


def by_student(check, browser, lab, folder):
    """Writes, errs, mends, runs, steps to the third fault, and reads the tables."""
    browser.open(lab.address)
    browser.wait_for("document.body.dataset.ready === 'yes'", 20)
    by_error(check, browser)
    make(folder, "mine", MENDED)
    check.same("the listing", shown(browser, "lab-listing"), program_said(folder, "dis", "mine"))
    run(browser)
    words = ("64", "256", "100", "s", "mine")
    lines = program_said(folder, "run", "--trace", *words).splitlines()
    check.same("the transcript", transcript(browser), lines)
    by_steps(check, browser, folder, words, lines)
    by_plot(check, browser, folder, words)


def by_steps(check, browser, folder, words, lines):
    """The key F leads from fault to fault, the arrows to the steps beside; of each the page has what `owners` says."""
    faults = [number for number, line in enumerate(lines, 1) if line[0] in "ZGCR"]
    for _ in range(3):
        browser.key("f")
    idle(browser)
    check.same("the third fault", browser.value("document.body.dataset.step"), str(faults[2]))
    check.same("its line", shown(browser, "line"), lines[faults[2] - 1])
    chosen = browser.value("document.querySelector('#lab-lines [aria-selected=true] b').textContent")
    check.same("the line that is chosen", chosen, lines[faults[2] - 1])
    owners = program_said(folder, "owners", str(faults[2]), *words)
    check.same("all lines of the step", shown(browser, "text").partition("\n")[2], owners)
    browser.key("ArrowLeft")
    check.same("a step back", browser.value("document.body.dataset.step"), str(faults[2] - 1))
    browser.key("ArrowDown")
    check.same("and on, in the transcript", browser.value("document.body.dataset.step"), str(faults[2]))


# Of each process that has registers its number, its next instruction, its registers and its codes.
REGISTERS = """[...document.querySelectorAll("#lab-registers-list section")].map((it) => [
    it.dataset.process,
    it.querySelector(".lab-next")?.textContent ?? null,
    [...it.querySelectorAll("dd")].map((one) => Number(one.textContent)),
    it.querySelector(".lab-codes").textContent,
])"""
# Lends its space to a child, which forks and then enters hi, as its own child does.
ENTERS = """.word 0
chmk i^$66
blbs r1,child
parent: incl r5
brb parent
child: chmk $2
moval *$own,r12
chmk $59
.space 3
own: .long 3
.long name
.long 0
.long 0
name: .long 0x6968
"""
# The next instruction of each process after these lines of the transcript.
NEXT = {
    "D": {"1": "00000002 chmk i^$0x42", "2": "00000002 moval *$0x20,r12"},
    "r 2 1": {"1": "00000006 blbs r1,0xd", "2": "00000009 chmk $0x4", "3": "00000006 blbs r1,0xd"},
    "r 3 1": {"1": "00000006 blbs r1,0xd", "3": "0000000d chmk $0x2"},
    "c 3 2 0 4 0": {"1": "00000006 blbs r1,0xd", "3": "0000000f moval *$0x1b,r12", "4": "0000000f moval *$0x1b,r12"},
    "c 3 59 0 0 0": {"1": "00000006 blbs r1,0xd", "3": None, "4": "0000000f moval *$0x1b,r12"},
    "c 4 59 0 0 0": {"1": "00000006 blbs r1,0xd", "4": None},
}


def by_registers(check, browser, folder, pictures):
    """At each step the page has the registers that `owners` tells, and the line of `dis` at the PC; of a process that has entered
    another image it has no line."""
    choose(browser, "lab-example", "hi: ")
    choose(browser, "lab-add", "mine2")
    for name, text in (("lab-source", ENTERS), ("lab-images", "=hi mine2 hi"), ("lab-swap", "1024"), ("lab-limit", "40")):
        write(browser, name, text)
    with open(f"{EXAMPLES}/hi.s", encoding="ascii") as it:
        make(folder, "hi", it.read())
    make(folder, "mine2", ENTERS)
    run(browser)
    words = ("64", "1024", "40", "s", "=hi", "mine2", "hi")
    lines = program_said(folder, "run", "--trace", *words).splitlines()
    listed = {name: program_said(folder, "dis", name).splitlines() for name in ("mine2", "hi")}
    places = {lines.index(line) + 1: wanted for line, wanted in NEXT.items()}
    browser.key("Home")
    for step in range(len(lines) + 1):
        found = browser.value(REGISTERS)
        told = re.findall(r"(?m)^registers (.*)$", program_said(folder, "owners", str(step), *words))
        wanted = [(it[0], [int(value) for value in it[1:17]], " ".join(it[17:]) or "no codes set") for it in map(str.split, told)]
        check.same(f"the registers of step {step}", [(pid, values, codes) for pid, _, values, codes in found], wanted)
        for pid, line, values, _ in found:
            listing = listed["hi" if pid == "2" else "mine2"]
            if line is not None:
                check.same(f"the instruction of process {pid} in step {step}", [it for it in listing if it[:8] == f"{values[15]:08x}"], [line])
        if step in places:
            check.same(f"the next instructions of step {step}", {pid: line for pid, line, *_ in found}, places[step])
        if pictures and step == lines.index("c 3 2 0 4 0") + 1:
            browser.picture(f"{pictures}/lab-registers.png")
        browser.key("ArrowRight")


# An instruction of one byte at each address from 2 to 0x1fe, and at 0x1ff one of three, that goes to address 0: the mask there is a pair of
# such instructions too, which the listing, from 2 on, doesn't have.
EACH = ".word 0x0101\n" + 509 * "nop\n" + "brw l0\n"


def by_each_address(check, browser, folder):
    """With an instruction at each address from 0 to 0x1ff the one that is shown is at each step the one at the PC."""
    browser.value("document.getElementById('lab-new').click()")
    idle(browser)
    source = "l0: " + EACH
    steps = 520 * "d 1 1\ni\n"
    for name, text in (("lab-source", source), ("lab-limit", "520"), ("lab-schedule", steps)):
        write(browser, name, text)
    run(browser)
    make(folder, "mine", source)
    listed = {int(line[:8], 16): line for line in program_said(folder, "dis", "mine").splitlines() if not line.startswith("end ")}
    check.same("where the listing has instructions", sorted(listed), list(range(2, 0x200)))
    many = int(shown(browser, "lab-transcript-count").split(" ")[0].replace(",", ""))
    browser.key("Home")
    idle(browser)
    seen = {}
    for _ in range(many):
        browser.key("ArrowRight")
        idle(browser)
        for _, line, values, _ in browser.value(REGISTERS):
            seen.setdefault(values[15], set()).add(line)
    check.same("the addresses that were stepped over", sorted(seen), list(range(0x200)))
    check.same("the instruction that is shown at each", {at: told for at, told in seen.items() if told != {listed.get(at)}}, {})


def by_plot(check, browser, folder, words):
    """The plot's table has what the program answers, of each policy and of the run itself; the plot tells of what it is, names both of its
    axes, and is as wide as there is room."""
    browser.value("document.getElementById('lab-faults').click()")
    idle(browser)
    check.same("whether the plot is there", shown(browser, "lab-result"), "The faults are drawn below.")
    name = f"{words[4]}: 64 frames, {int(words[1]):,} blocks of swap, limit {int(words[2]):,}, empty schedule"
    check.same("of what the plot is", shown(browser, "lab-plot-of"), name)
    rows = browser.value("[...document.querySelectorAll('#lab-plot-table tr')].slice(1).map((row) => [...row.children].map((it) => it.textContent))")
    check.same("whether time was up", "Time was up" in shown(browser, "lab-plot-part-said"), False)
    refs = program_said(folder, "refs", *words)
    with open(f"{folder}/refs", "w", encoding="ascii") as it:
        it.write(refs)
    pages = len(set(refs.splitlines()))
    sizes = [int(row[0]) for row in rows]
    check.same("whether the sizes rise from few frames to all pages", (sizes == sorted(sizes), sizes[0] <= 1 + pages // 40, sizes[-1] >= pages), (True, True, True))
    for frames, *policies, own, bare in rows:
        said = re.findall(r"(?m)^\w+ (\d+)$", program_said(folder, "policies", frames, "refs"))
        check.same(f"the policies with {frames} frames", policies, said)
        if own:
            letters = [line[0] for line in program_said(folder, "run", "--trace", frames, *words[1:]).splitlines()]
            many = sum(letter in "ZGC" for letter in letters)
            check.same(f"the run's faults with {frames} frames", [own, bare], [str(many + letters.count("R")), str(many)])
    check.same("whether the run's own size is there", int(words[0]) in sizes or int(words[0]) > sizes[-1], True)
    check.same("the lines of the plot", browser.value("document.querySelectorAll('#lab-plot polyline').length"), 7)
    by_marks(check, browser)
    check.same("the names of its axes", browser.value("[...document.querySelectorAll('#lab-plot .name')].map((it) => it.textContent)"), ["page frames", "page faults"])
    check.same("whether it is as wide as its place", browser.value("Math.abs(document.querySelector('#lab-plot svg').clientWidth - document.getElementById('lab-plot').clientWidth) < 2"), True)


# Of each line of the plot its dashes and the form of its marks; and of each mark its line, its place and whether it is in sight, on top.
FORMS = """[...document.querySelectorAll("#lab-plot polyline")].map((it) => [
    getComputedStyle(it).strokeDasharray, document.querySelector(`#lab-plot .lab-mark.${it.classList[0]}`)?.getAttribute("d") ?? null])"""
MARKS = """(() => {
    document.getElementById("lab-plot").scrollIntoView({ block: "center" });
    return [...document.querySelectorAll("#lab-plot .lab-mark")].map((it) => {
        const box = it.getBoundingClientRect();
        const [x, y] = [box.left + box.width / 2, box.top + box.height / 2];
        return [it.classList[1], Math.round(x), Math.round(y), document.elementsFromPoint(x, y).find((one) => one.classList.contains("lab-mark")) === it];
    });
})()"""


def by_marks(check, browser):
    """Without their colours the lines of the plot tell apart by their marks and dashes, as in the legend, and each has a mark in sight,
    also where it lies on another one."""
    forms = browser.value(FORMS)
    check.same("how many lines tell apart without colour", (len({form for _, form in forms if form}), len({dashes for dashes, _ in forms})), (7, 7))
    check.same("the marks of the legend", browser.value("[...document.querySelectorAll('#lab-plot-legend .lab-mark')].map((it) => it.getAttribute('d'))"), [form for _, form in forms])
    in_sight = {line for line, _, _, is_seen in browser.value(MARKS) if is_seen}
    check.same("the lines with a mark in sight", len(in_sight), 7)


def paste(browser, name, text):
    """Pastes the text that an expression comes to, in place of what a field has."""
    browser.value(
        f"(() => {{ const it = document.getElementById('{name}'), data = new DataTransfer(); it.focus(); it.select(); data.setData('text/plain', {text});"
        "it.dispatchEvent(new ClipboardEvent('paste', { clipboardData: data, bubbles: true, cancelable: true })); })()"
    )


def by_size_of_texts(check, browser):
    """A source of any size is answered in words."""
    for what, text, told in (
        ("with too many lines", "'nop\\n'.repeat(150000)", "line 4097: too many lines"),
        ("that is too long", "`${'x'.repeat(79)}\\n`.repeat(14000)", "is no text of at most 1048576 characters"),
        ("that is much too long", "`${'x'.repeat(79)}\\n`.repeat(56000)", "The page has more than 4 MiB of programs and schedule."),
    ):
        paste(browser, "lab-source", text)
        check.same(f"what is shown of a source {what}", browser.value("document.getElementById('lab-source').value.split('\\n').length < 200"), True)
        asked = browser.value("Number(document.body.dataset.asked || 0)")
        browser.key("Enter", control=True)
        browser.wait_for(f"Number(document.body.dataset.asked) > {asked}")
        idle(browser)
        said = shown(browser, "lab-source-said") + shown(browser, "lab-result")
        check.same(f"a source {what}", (told in said, "call stack" in said), (True, False))
    browser.value("document.getElementById('lab-source').focus()")
    browser.key("Backspace")
    check.same("a source that is emptied", browser.value("document.getElementById('lab-source').value"), "")
    paste(browser, "lab-schedule", "'m\\n'.repeat(65537)")
    write(browser, "lab-source", MENDED)
    run(browser)
    check.same("a schedule with too many lines", shown(browser, "lab-schedule-said").startswith("line 65537: "), True)
    browser.value("document.getElementById('lab-schedule').focus()")
    browser.key("Delete")
    run(browser)


def by_mistake(check, browser):
    """A bad schedule, a bad number and a bad image are told where they stand, a schedule's line as soon as the writer pauses."""
    write(browser, "lab-schedule", "d 1 5\nh 0\n")
    browser.wait_for("document.getElementById('lab-schedule-said').textContent !== ''", 20)
    idle(browser)
    check.same("a bad schedule at a pause", (shown(browser, "lab-schedule-said"), browser.value(MARKED % ("schedule", "bad"))), ("line 2: N of h is 0: 1 to 8192", ["2"]))
    write(browser, "lab-schedule", "d 1 5\nh 1\n")
    check.same("whether it is marked when it is mended", (shown(browser, "lab-schedule-said"), browser.value(MARKED % ("schedule", "bad"))), ("", []))
    write(browser, "lab-schedule", "d 1 5\nh 0\n")
    run(browser)
    check.same("a bad schedule", shown(browser, "lab-schedule-said"), "line 2: N of h is 0: 1 to 8192")
    check.same("its line", browser.value(MARKED % ("schedule", "bad")), ["2"])
    write(browser, "lab-schedule", "")
    write(browser, "lab-frames", "63")
    run(browser)
    check.same("a bad number", shown(browser, "lab-machine-said"), "FRAMES is 63: 64 to 4096")
    check.same("and beside Run", shown(browser, "lab-result"), "Status 1: FRAMES is 63: 64 to 4096")
    invalid = "[...document.querySelectorAll('#lab-machine-words [aria-invalid], .lab-wide [aria-invalid]')].map((it) => it.id)"
    check.same("the field that says so", browser.value(invalid), ["lab-frames"])
    write(browser, "lab-frames", "64")
    for images, names in (("mine nosuch", "name nosuch"), ("mine,mine hi", "name mine,mine"), ("one =two one mine", "names one, two"), ("mine2", "name mine2")):
        for button in ("lab-run", "lab-faults", "lab-stats"):
            write(browser, "lab-images", images)
            browser.value(f"document.getElementById('{button}').click()")
            told = f"no program of this page, and no example, has the {names}"
            check.same(f"the images {images} by {button}", (shown(browser, "lab-result"), shown(browser, "lab-machine-said"), browser.value(invalid)), (told, told, ["lab-images"]))
    write(browser, "lab-images", "=mine")
    run(browser)
    told = shown(browser, "lab-machine-said")
    check.same("images of which none starts", (shown(browser, "lab-result"), "--help" in told, told != ""), (f"Status 1: {told}", False, True))
    write(browser, "lab-images", "mine")


def by_lesson(check, browser, folder):
    """An example and a lesson of the tour are loaded and run; a long run is stepped through from one picture to the next."""
    choose(browser, "lab-example", "ex: ")
    idle(browser)
    check.same("the images of ex", browser.value("document.getElementById('lab-images').value"), "ex =hi")
    check.same("its programs", browser.value("[...document.querySelectorAll('#lab-tabs button')].map((it) => it.textContent)"), ["ex", "hi"])
    run(browser)
    check.same("its run", shown(browser, "lab-result").partition(". ")[2], "Over: each process has ended, after 6 instructions.")
    choose(browser, "lab-example", "auto: ")
    write(browser, "lab-source", MENDED)
    run(browser)
    words = ("64", "256", "100", "s", "mine")
    check.same("an example that was changed", transcript(browser), program_said(folder, "run", "--trace", *words).splitlines())
    for name, swap, limit in (("ring", "516", "10000"), ("waits", "1024", "1000")):
        choose(browser, "lab-example", f"{name}: ")
        idle(browser)
        make(folder, name, browser.value("document.getElementById('lab-source').value"))
        by_plot(check, browser, folder, ("64", swap, limit, "s", name))
    choose(browser, "lab-lesson", "the two hands free frames")
    idle(browser)
    check.same("whether the lesson is told", "Which page must leave its frame" in shown(browser, "lab-lesson-body"), True)
    picture = "[...document.querySelectorAll('#lab-lesson-body img')].map((it) => it.complete && it.naturalWidth > 0 && it.alt.length > 20)"
    browser.wait_for(f"{picture}.every(Boolean)", 10)
    check.same("its pictures", browser.value(picture), [True])
    run(browser)
    many = int(shown(browser, "lab-result").split(" ")[0].replace(",", ""))
    browser.key("h")
    idle(browser)
    check.same("the first move of the hands", shown(browser, "line"), "H 17")
    check.same("the schedule's line", shown(browser, "sched"), "in line 5 of the schedule, h 17")
    check.same("and where it stands", browser.value(MARKED % ("schedule", "now")), ["5"])
    browser.key("End")
    idle(browser)
    check.same("the last step", browser.value("document.body.dataset.step"), str(many))
    browser.key("Home")
    idle(browser)
    check.same("the first step", browser.value("document.body.dataset.step"), "0")
    browser.value("document.getElementById('lab-later').click()")
    idle(browser)
    begins = int(browser.value("document.body.dataset.step"))
    check.same("where that is, though its line began before", shown(browser, "sched"), "after the schedule, in a turn of process 1")
    browser.key("PageUp")
    browser.key("ArrowLeft")
    idle(browser)
    check.same("back over the edge of a picture", browser.value("document.body.dataset.step"), str(begins - 11))


def by_all(check, lab):
    """Every program of the folder and every section of the tour that runs one can be loaded, and all that can be loaded runs."""
    beginning = json.loads(lab.request("beginning")[2])
    rows = {row["name"] for row in beginning["examples"]}
    check.same("the programs that can't be loaded", set(beginning["sources"]) - rows, set())
    with open(f"{EXAMPLES}/../docs/TOUR.md", encoding="utf-8") as it:
        sections = re.split(r"(?m)^## ", it.read())[1:]
    check.same("the lessons with no name", [it["words"] for it in beginning["lessons"] if it["title"] == it["words"]], [])
    check.same("whether each has a name of its own", len({it["title"] for it in beginning["lessons"]}), len(beginning["lessons"]))
    wanted = {it.partition("\n")[0] for it in sections if re.search(r"(?m)^    \$ vmrun run ", it)}
    check.same("the sections that can't be loaded", wanted - {it["section"] for it in beginning["lessons"]}, set())
    page = lab.page()
    for row in beginning["examples"] + beginning["lessons"]:
        words = {name: row[name] for name in ("frames", "swap", "limit", "images", "schedule")}
        status, answer = lab.ask("run", page, **words, programs={})
        check.same(f"a run of {row['title'][:40]}", (status, answer.get("status"), bool(answer.get("transcript"))), (200, 0, True))


# The names of the programs, as their tabs have them.
TABS = "[...document.querySelectorAll('#lab-tabs button')].map((it) => it.textContent)"


def by_image(check, browser, folder):
    """An image that is loaded takes no source's place: it is a program of its own, and runs. What is none is told so."""
    browser.choose_file("#lab-load", f"{folder}/mine")
    browser.wait_for("document.getElementById('lab-result').textContent === 'mine is loaded: an image, the program mine2.'", 10)
    idle(browser)
    check.same("the programs beside an image", browser.value(TABS), ["ring", "mine", "mine2 (image)"])
    check.same("its listing", shown(browser, "lab-listing"), program_said(folder, "dis", "mine"))
    write(browser, "lab-schedule", "")
    run(browser)
    words = [browser.value(f"document.getElementById('lab-{it}').value") for it in ("frames", "swap", "limit")]
    check.same("its run", transcript(browser), program_said(folder, "run", "--trace", *words, "s", "mine").splitlines())
    browser.value("document.getElementById('lab-back').click()")
    check.same("the programs when it is taken back", browser.value(TABS), ["ring", "mine"])
    check.same("and the source", browser.value("document.querySelectorAll('#lab-tabs button')[1].click() || document.getElementById('lab-source').value"), MENDED)
    with open(f"{folder}/noise", "wb") as it:
        it.write(bytes(range(256)))
    browser.choose_file("#lab-load", f"{folder}/noise")
    browser.wait_for("document.getElementById('lab-source-said').textContent.startsWith('mine2 is no image: ')", 20)
    browser.value("document.getElementById('lab-back').click()")
    with open(f"{folder}/large", "wb") as it:
        it.truncate(5 << 20)
    browser.choose_file("#lab-load", f"{folder}/large")
    browser.wait_for("document.getElementById('lab-result').textContent === 'large can\\'t be loaded: it has more than 3,145,728 bytes'", 10)
    idle(browser)


def by_file(check, browser, folder):
    """What is saved is loaded again as it was; what is no such file changes nothing."""
    saved = "[...['frames', 'swap', 'limit', 'images', 'schedule', 'source']].map((name) => document.getElementById(`lab-${name}`).value)"
    before = browser.value(saved)
    browser.call("Browser.setDownloadBehavior", behavior="allow", downloadPath=folder)
    browser.value("document.getElementById('lab-save').click()")
    file = f"{folder}/ring.lab"
    for _ in range(100):
        if os.path.exists(file) and os.path.getsize(file):
            break
        time.sleep(0.05)
    choose(browser, "lab-example", "auto: ")
    check.same("whether another is there", browser.value(saved) != before, True)
    browser.choose_file("#lab-load", file)
    browser.wait_for("document.getElementById('lab-result').textContent.endsWith('is loaded.')", 10)
    check.same("what is loaded", browser.value(saved), before)
    with open(file, encoding="ascii") as it:
        good = json.load(it)
    programs = [[], {}, [{"name": "../x", "source": ""}], [{"name": "mine"}], [{"source": ""}], [None]]
    changes = [{"lab": 2}, {"frames": 64}, {"schedule": None}, *({"programs": it} for it in programs)]
    for number, changed in enumerate(changes):
        with open(f"{folder}/bad{number}.lab", "w", encoding="ascii") as it:
            json.dump(good | {"images": "hi"} | changed, it)
        browser.choose_file("#lab-load", it.name)
        told = f"document.getElementById('lab-result').textContent.startsWith(\"bad{number}.lab can't be loaded\")"
        browser.wait_for(told, 10)
        check.same(f"what a file with {changed} changes", browser.value(saved), before)
    browser.choose_file("#lab-load", f"{folder}/mine.s")
    browser.wait_for("document.getElementById('lab-result').textContent === 'mine.s is loaded: the program mine.'", 10)
    check.same("a source", browser.value("document.getElementById('lab-source').value"), MENDED)
    check.same("the programs then", browser.value(TABS), ["ring", "mine"])
    check.same("and what is run", browser.value("document.getElementById('lab-images').value"), "mine")
    idle(browser)
    by_image(check, browser, folder)
    with open(f"{folder}/film", "wb") as it:
        subprocess.run([f"{EXAMPLES}/film", "2", "5", "64", "256", "100", "s", "mine"], cwd=folder, stdout=it, check=True)
    browser.choose_file("#file", f"{folder}/film")
    browser.wait_for("document.body.dataset.step === '2'", 10)
    check.same("whether a film by itself has a transcript", browser.value("document.getElementById('lab-transcript-part').hidden"), True)
    browser.key("ArrowRight")
    check.same("and its next step", browser.value("document.body.dataset.step"), "3")
