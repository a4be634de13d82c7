"""What the page keeps of its word: results that tell of what they are, work that is kept, texts that are mended, what is told of a run's
end and of what programs write, the card of the language, the chart of the whole run, Play, and C."""
import glob
import json
import os
import re
import subprocess
import tempfile
import time

import setups
from check_student import MARKED, TABS
from checking import EXAMPLES, Lab, choose, idle, make, program_said, run, shown, transcript, write

VALUE = "document.getElementById('%s').value"
STALE = "Object.fromEntries(['transcript', 'plot', 'stats'].map((it) => [it, document.getElementById(`lab-${it}-part`).classList.contains('stale')]))"
EMPTY = ".word 0\n"
# it writes a line of 3 bytes, and one that is no text, and then loops for ever
WRITES = """.word 0
moval *$hello,r12
chmk $4
moval *$noise,r12
chmk $4
l: brb l
hello: .long 3
.long 1
.long text
.long 3
noise: .long 3
.long 1
.long bytes
.long 2
text: .byte 0x48
.byte 0x69
.byte 10
bytes: .byte 0xff
.byte 0x41
"""
# by what it ends, and what is told of it
ENDS = (
    ("nop\n.byte 255\n", "signal 4, an illegal instruction: a reserved opcode or operand."),
    ("divl3 $0,$5,r1\n", "signal 8, a division by 0."),
    ("clrl *$0\n", "signal 10, a write to the text."),
    ("tstl *$0x40000000\n", "signal 11, an address outside its space."),
    ("chmk i^$3\n", "signal 12, a system call that there is not."),
)


def click(browser, name):
    """Clicks an element, and waits for what it asks."""
    browser.value(f"document.getElementById('{name}').click()")
    idle(browser)


def begin(browser, lab):
    """Opens the page, with its first program."""
    browser.open(lab.address)
    browser.wait_for("document.body.dataset.ready === 'yes'", 20)
    click(browser, "lab-new")


def by_results(check, browser, lab):
    """A result tells of what it is. It is grey as soon as the page has something else, and no more where that is undone; so is one of
    before, where the last run has failed."""
    begin(browser, lab)
    run(browser)
    for name in ("lab-faults", "lab-stats"):
        click(browser, name)
    fresh, stale = {"transcript": False, "plot": False, "stats": False}, {"transcript": True, "plot": True, "stats": True}
    check.same("what is grey at first", browser.value(STALE), fresh)
    words = "mine: 64 frames, 256 blocks of swap, limit 100, empty schedule"
    check.same("of what results are", [shown(browser, f"lab-{it}-of") for it in ("transcript", "plot", "stats")], 3 * [words])
    first = browser.value(VALUE % "lab-source")
    for field, other in (("frames", "65"), ("swap", "512"), ("limit", "99"), ("images", "mine hi"), ("schedule", "m\n"), ("source", first.replace("$5", "$6"))):
        old = browser.value(VALUE % f"lab-{field}")
        write(browser, f"lab-{field}", other)
        check.same(f"what is grey at another {field}", browser.value(STALE), stale)
        told = shown(browser, "lab-transcript-stale")
        check.same("whether that is told", told, "Not of what stands above: that has changed since.")
        write(browser, f"lab-{field}", old)
        check.same(f"what is grey at the old {field}", browser.value(STALE), fresh)
    for button, name in (("lab-run", "transcript"), ("lab-faults", "plot"), ("lab-stats", "stats")):
        told = browser.value(f"(() => {{ document.getElementById('{button}').click(); return [{STALE}, document.getElementById('lab-{name}-stale').textContent]; }})()")
        check.same(f"what is grey while a new {name} is made", told, [fresh | {name: True}, "Of a run before: a new one is being made."])
        idle(browser)
        check.same(f"what is grey when the new {name} is there", browser.value(STALE), fresh)
    browser.value("document.getElementById('lab-example').focus()")
    choose(browser, "lab-example", "hi: ")
    check.same("what is grey at an example", browser.value(STALE), stale)
    check.same("of what they are still", shown(browser, "lab-plot-of"), words)
    run(browser)
    check.same("what is grey after a run of it", browser.value(STALE), stale | {"transcript": False})
    check.same("of what that is", shown(browser, "lab-transcript-of"), "hi: 64 frames, 256 blocks of swap, limit 100, empty schedule")
    write(browser, "lab-source", ".word 0\nbad\n")
    run(browser)
    check.same("whether the run of before is grey after a bad one", browser.value(STALE)["transcript"], True)
    check.same("and what is told", shown(browser, "lab-transcript-stale"), "Of a run before: the last one failed.")
    click(browser, "lab-back")


def by_ends(check, browser, lab):
    """A last line with no end gets one, in a source and in a schedule; an empty field is named; how a run ended is told."""
    begin(browser, lab)
    write(browser, "lab-source", ".word 0\nl: brb l")
    write(browser, "lab-schedule", "d 1 2")
    run(browser)
    told = shown(browser, "lab-result").partition(". ")[2]
    check.same("a run of lines with no end", told, "Cut by its limit: 100 instructions ran, and process 1 hasn't ended.")
    write(browser, "lab-source", ".word 0\nl: chmk $20\nbrb l")
    run(browser)
    told = shown(browser, "lab-result").partition(". ")[2]
    check.same("a run half of whose instructions are calls", told, "Cut by its limit: 100 instructions ran, and process 1 hasn't ended.")
    write(browser, "lab-source", ".word 0\nl: brb l")
    run(browser)
    browser.value("document.getElementById('lab-schedule').focus()")
    browser.value("document.activeElement.blur()")
    write(browser, "lab-limit", "1000")
    check.same("the schedule then", browser.value(VALUE % "lab-schedule"), "d 1 2\n")
    check.same("and the source", browser.value(VALUE % "lab-source"), ".word 0\nl: brb l\n")
    for field, told in (("frames", "FRAMES is empty: 64 to 4,096"), ("swap", "SWAP is empty: 256 to 131,072"), ("limit", "LIMIT is empty: 1 to 1,000,000")):
        old = browser.value(VALUE % f"lab-{field}")
        write(browser, f"lab-{field}", "")
        browser.key("Enter", control=True)
        check.same(f"an empty {field}", (shown(browser, "lab-machine-said"), shown(browser, "lab-result")), (told, told))
        write(browser, f"lab-{field}", old)
    write(browser, "lab-schedule", "")
    write(browser, "lab-swap", "256")
    write(browser, "lab-source", ".bss 204800\n.word 0\nl: brb l")
    run(browser)
    told = "SWAP is 256: the first processes take 516 blocks before they run"
    check.same("too little swap", (shown(browser, "lab-result"), shown(browser, "lab-machine-said")), (f"Status 11: {told}", told))
    write(browser, "lab-swap", "1024")
    for source, told in ENDS:
        write(browser, "lab-source", EMPTY + source)
        run(browser)
        browser.key("End")
        idle(browser)
        check.same(f"what is told of {source!r}", told in shown(browser, "told"), True)
        result = f"Over: each process has ended, after 1 instruction. Process 1 was ended by {told}"
        check.same("and of its run", shown(browser, "lab-result").partition(". ")[2].replace("after 2 instructions", "after 1 instruction"), result)
        check.same("and at its last step", "The run is over: each process has ended." in shown(browser, "told"), True)


def by_writes(check, browser, lab):
    """What a program writes stands as text beside its bytes, in the transcript, at its step and below the picture."""
    begin(browser, lab)
    write(browser, "lab-source", WRITES)
    run(browser)
    lines = transcript(browser)
    texts = browser.value("[...document.querySelectorAll('#lab-lines i')].map((it) => it.textContent)")
    check.same("the text beside the bytes", (texts, [it for it in lines if it.startswith("o ")]), (["Hi\\n", "\\xffA"], ["o 1 48690a", "o 1 ff41"]))
    written = "[...document.querySelectorAll('#written li')].map((it) => [it.dataset.pid, it.querySelector('pre').textContent])"
    browser.key("Home")
    seen = []
    for _ in lines:
        browser.key("ArrowRight")
        line = shown(browser, "line")
        if line.startswith("o "):
            seen.append((browser.value(written), "`" in shown(browser, "told")))
    check.same("what is written up to each", seen, [([["1", "Hi\n"]], True), ([["1", "Hi\n\\xffA"]], True)])
    check.same("its last step", "The run was cut by its limit of 100 instructions: process 1 hasn't ended." in shown(browser, "told"), True)


def by_kept(check, browser, lab):
    """A reload keeps the work; the last load can be taken back; an image has a tab of its own, as check_student tries."""
    begin(browser, lab)
    write(browser, "lab-source", WRITES)
    write(browser, "lab-frames", "77")
    choose(browser, "lab-add", "mine2 in C")
    write(browser, "lab-source", "int main(void) { return 3; }")
    write(browser, "lab-schedule", "d 1 3\n")
    browser.open(lab.address)
    browser.wait_for("document.body.dataset.ready === 'yes'", 20)
    kept = browser.value(f"[{VALUE % 'lab-source'}, {VALUE % 'lab-frames'}, {VALUE % 'lab-schedule'}, {TABS}]")
    check.same("what is there after a reload", kept, [WRITES, "77", "d 1 3\n", ["mine", "mine2.c"]])
    check.same("and what is told", shown(browser, "lab-result"), "What this page had before is here again.")
    choose(browser, "lab-lesson", "arguments lie at the top")
    check.same("whether a lesson takes its place", browser.value(TABS), ["args"])
    click(browser, "lab-back")
    back = browser.value(f"[{VALUE % 'lab-source'}, {VALUE % 'lab-frames'}, {VALUE % 'lab-schedule'}, {TABS}]")
    check.same("what is there when that is taken back", back, kept)
    by_another_server(check, browser)
    browser.open(lab.address)
    browser.wait_for("document.body.dataset.ready === 'yes'", 20)
    click(browser, "lab-new")
    check.same("a new page", (browser.value(TABS), browser.value(VALUE % "lab-frames")), (["mine"], "64"))


def by_another_server(check, browser):
    """What the page has is there again when the server ends and another one begins, at another port; what was written last is."""
    source = f"[{VALUE % 'lab-source'}, {VALUE % 'lab-limit'}, {TABS}]"
    with tempfile.TemporaryDirectory() as kept:
        for limit in ("701", "702"):
            with Lab(os.environ.get("VMRUN"), None, kept=kept) as lab:
                begin(browser, lab)
                write(browser, "lab-source", f"{WRITES}# {limit}\n")
                write(browser, "lab-limit", limit)
                wanted = browser.value(source)
                for _ in range(100):
                    if limit in lab.request("kept")[2].decode():
                        break
                    time.sleep(0.05)
            with Lab(os.environ.get("VMRUN"), None, kept=kept) as lab:
                browser.open(lab.address)
                browser.wait_for("document.body.dataset.ready === 'yes'", 20)
                check.same("what is there at another port", (browser.value(source), shown(browser, "lab-result")), (wanted, "What this page had before is here again."))
        check.same("who else may read what is kept", [oct(os.stat(f"{kept}/{it}").st_mode & 0o77) for it in ("vmrun-lab", "vmrun-lab/kept")], ["0o0", "0o0"])


def by_card(check, browser, lab):
    """The card has each mnemonic that the assembler takes, each call and each signal; what isn't one is answered with the nearest."""
    made = subprocess.run([f"{EXAMPLES}/lab.d/make-card", "--check"], stdout=subprocess.PIPE, text=True)
    check.same("whether the card is of the assembler's names", (made.returncode, made.stdout), (0, ""))
    begin(browser, lab)
    rows = browser.value("[...document.querySelectorAll('#lab-card-body table')].map((it) => [...it.querySelectorAll('tr')].map((row) => [...row.children].map((one) => one.textContent)))")
    with open(f"{EXAMPLES}/../crates/asm_grammar/src/mnemonics.rt", encoding="utf-8") as it:
        names = set(re.findall(r'=> b"(\w+)"', it.read()))
    [told] = [table for table in rows if table[0] == ["instruction", "does"]]
    forms = {form.split(" ")[0]: form for row in told[1:] for form in row[0].split("; ")}
    check.same("the mnemonics of the card", set(forms), names)
    check.same("the operands of some", [forms[it] for it in ("ret", "movl", "addl3", "sobgtr")], ["ret", "movl rl, wl", "addl3 rl, rl, wl", "sobgtr index.ml, bb"])
    check.same("whether each is told of", all(len(row[1]) > 1 for row in told[1:]), True)
    check.same("the calls and the signals", [len(table) - 1 for table in rows if table[0][0] in ("call", "signal")], [8, 5])
    meant = (("mov", "movl"), ("beq", "beql"), ("cmp", "cmpl"), ("add", "addl3"), ("jne", "bneq"), ("push", "pushl"), ("mvol", "movl"), ("sobgrt", "sobgtr"))
    for word, wanted in meant:
        write(browser, "lab-source", f"{EMPTY}{word} r1\n")
        run(browser)
        check.same(f"what is told of {word}", shown(browser, "lab-source-said"), f"line 2: unknown mnemonic {word}: is {wanted} meant?")
    write(browser, "lab-source", f"{EMPTY}qqqqqq r1\n")
    run(browser)
    check.same("what is told of a word like none", shown(browser, "lab-source-said"), "line 2: unknown mnemonic qqqqqq")


def by_course(check, browser, lab, folder):
    """The chart goes over the whole run: its faults and events are those of the transcript, what is free and held that of the film; and a
    click, a key and the slider lead to each step, also to one whose picture isn't here."""
    begin(browser, lab)
    choose(browser, "lab-example", "wider: ")
    write(browser, "lab-limit", "3000")
    run(browser)
    idle(browser)
    make(folder, "wider", browser.value(VALUE % "lab-source"))
    words = ("64", browser.value(VALUE % "lab-swap"), "3000", "s", "wider")
    lines = program_said(folder, "run", "--trace", *words).splitlines()
    # where the run took long the chart comes by its button
    browser.value("document.getElementById('lab-course').hidden || document.getElementById('lab-course').click()")
    browser.wait_for(f"chart.course.counted.at(-1)[0] > {0.9 * len(lines)}", 60)
    letters = browser.value("chart.course.letters")
    check.same("the letters of the course", [letters.count(it) for it in "ZGCRHx"], [sum(line[0] == it for line in lines) for it in "ZGCRHx"])
    counted = browser.value("chart.course.counted")
    check.same("where it is counted", (counted[0][0], len(counted) > 100, counted[-1][0] > 0.98 * len(lines)), (0, True, True))
    for step, free, held in counted[:: len(counted) // 5]:
        owners = program_said(folder, "owners", str(step), *words)
        wanted = [len(re.findall(r"(?m)^frame \d+ free ", owners)), sum(int(many) for many, who in re.findall(r"(?m)^swap \d+ (\d+) (\w+)", owners) if who != "free")]
        check.same(f"what is free and held at step {step}", [free, held], wanted)
    rows = browser.value("[...document.querySelectorAll('#course-chart .events')].map((it) => [it.dataset.name, Number(it.dataset.many)])")
    check.same("the rows of events", rows, [["hands", sum(line[0] == "H" for line in lines)]])
    hands = [number for number, line in enumerate(lines, 1) if line[0] == "H"]
    middle = hands[len(hands) // 2]
    place = "(() => { const box = document.getElementById('course-chart').getBoundingClientRect(); return [box.left + courseX(%d), box.top + chart.rows[0].top + 4]; })()" % middle
    browser.value("document.getElementById('course-chart').scrollIntoView({ block: 'center' })")
    x, y = browser.value(place)
    for kind in ("mousePressed", "mouseReleased"):
        browser.call("Input.dispatchMouseEvent", type=kind, x=x, y=y, button="left", clickCount=1)
    idle(browser)
    browser.wait_for("Number(document.body.dataset.step) > 400", 60)
    step = int(browser.value("document.body.dataset.step"))
    check.same("where a click leads", (step in hands, abs(step - middle) < 12), (True, True))
    browser.value("document.activeElement.blur()")
    browser.key("n")
    idle(browser)
    check.same("the next event", browser.value("document.body.dataset.step"), str(next(it for it in hands if it > step)))
    check.same("the slider's end", browser.value("document.getElementById('slider').max"), str(len(lines)))
    slide = "(() => { const it = document.getElementById('slider'); it.value = %d; it.dispatchEvent(new Event('input', { bubbles: true })); })()" % (len(lines) - 3)
    browser.value(slide)
    browser.wait_for(f"document.body.dataset.step === '{len(lines) - 3}'", 60)
    check.same("where it is told to be", shown(browser, "where"), f"step {len(lines) - 3:,} of {len(lines):,}")


def by_play(check, browser, lab):
    """Play has a speed, and goes on over the end of a picture to the end of the run."""
    begin(browser, lab)
    choose(browser, "lab-example", "wider: ")
    write(browser, "lab-limit", "3000")
    run(browser)
    idle(browser)
    edge = browser.value("film.read.steps.length - 1")
    browser.value(f"show({edge - 3})")
    browser.value("document.getElementById('speed').value = '25'")
    browser.value("document.getElementById('play').click()")
    browser.wait_for(f"Number(document.body.dataset.step) > {edge + 3}", 60)
    check.same("whether it plays on", browser.value("document.getElementById('play').getAttribute('aria-pressed')"), "true")
    browser.value("document.getElementById('play').click()")
    many = browser.value("document.getElementById('slider').max")
    browser.key("End")
    idle(browser)
    browser.key("ArrowLeft")
    browser.value("document.getElementById('play').click()")
    browser.wait_for("document.getElementById('play').getAttribute('aria-pressed') === 'false'", 30)
    check.same("where it ends", browser.value("document.body.dataset.step"), many)


# Where elements are in the window: whether each is in it, whole.
IN_WINDOW = """['%s'].map((name) => {
    const box = document.getElementById(name).getBoundingClientRect();
    return box.top >= 0 && box.bottom <= innerHeight + 1 && box.height > 10;
})"""


def by_window(check, browser, lab):
    """In a window of 1366 by 768 the steps, the swap and all frames of a small machine are in sight; on a phone the buttons stay while the
    frames are looked at."""
    begin(browser, lab)
    browser.size(1366, 768)
    run(browser)
    idle(browser)
    check.same("what is in sight at 1366 by 768", browser.value(IN_WINDOW % "', '".join(("next", "slider", "course", "line", "swap", "frames"))), 6 * [True])
    browser.size(390, 844)
    browser.value("new Promise((done) => requestAnimationFrame(() => setTimeout(done, 100)))")
    browser.value("(() => { document.getElementById('frames').scrollIntoView({ block: 'end' }); })()")
    browser.value("new Promise((done) => requestAnimationFrame(() => setTimeout(done, 100)))")
    seen = browser.value(IN_WINDOW % "', '".join(("next", "slider", "frames")))
    apart = browser.value("document.getElementById('steps').getBoundingClientRect().bottom <= document.getElementById('frames').getBoundingClientRect().top + 1")
    check.same("what is in sight on a phone", (seen, apart), (3 * [True], True))
    browser.size(1400, 1000)


GOOD_C = """#include <stdio.h>

static int add(int a, int b)
{
    return a + b;
}

int main(void)
{
    int sum = 0;
    for (int n = 0; n < 4; n++)
        sum = add(sum, n);
    printf("sum %d\\n", sum);
    return 0;
}
"""
# a line of C that is bad, the line that is told of, and what of it
BAD_C = (
    ("int sum = 0;", "int sum = ;", 10, "syntax error"),
    ("#include <stdio.h>", "#include <stdoi.h>", 1, "cannot find"),
    ("return a + b;", "return a + b * 1.5;", 5, "`1.5`: the machine has no floats"),
    ("#include <stdio.h>", "#include <math.h>", 1, "math.h isn't in the library"),
    ("int sum = 0;", "pid_t sum = 0;", 10, "`pid_t` is of sys/types.h, which isn't included"),
    ("sum = add(sum, n);", "sum = open(sum, n);", 12, "main needs open"),
)


def by_c(check, browser, lab, folder):
    """C is written in the page, errors stand at their lines, and at each step the line that runs is marked. Where the compiler isn't there
    that is told, with what to do."""
    begin(browser, lab)
    choose(browser, "lab-add", "mine2 in C")
    if not setups.has_compiler():
        write(browser, "lab-images", "mine2")
        run(browser)
        check.same("what is told without a compiler", shown(browser, "lab-source-said"), setups.NO_COMPILER)
        print("C in the page: not tried, since the compiler isn't there", flush=True)
        return
    for good, bad, line, told in BAD_C:
        write(browser, "lab-source", GOOD_C.replace(good, bad))
        write(browser, "lab-images", "mine2")
        run(browser)
        check.same(f"the line of {bad!r}", browser.value(MARKED % ("source", "bad")), [str(line)])
        check.same(f"what is told of {bad!r}", told in shown(browser, "lab-source-said"), True)
    steps = 70 * "d 1 7\ni\n"
    for name, text in (("lab-source", GOOD_C), ("lab-swap", "1024"), ("lab-limit", "10000"), ("lab-schedule", steps)):
        write(browser, name, text)
    run(browser)
    with open(f"{folder}/mine2.c", "w", encoding="ascii") as it:
        it.write(GOOD_C)
    with open(f"{folder}/steps", "w", encoding="ascii") as it:
        it.write(steps)
    subprocess.run([setups.CC, "mine2.c", "-o", "mine2"], cwd=folder, check=True)
    lines = program_said(folder, "run", "--trace", "64", "1024", "10000", "steps", "mine2").splitlines()
    check.same("its transcript", transcript(browser)[:20], lines[:20])
    check.same("what it writes", "o 1 73756d20360a" in lines, True)
    browser.key("Home")
    seen = set()
    for _ in lines:
        browser.key("ArrowRight")
        marked = browser.value(MARKED % ("source", "now"))
        told = browser.value("[...document.querySelectorAll('.lab-c-line')].map((it) => it.textContent)")
        seen.add((*marked, *told))
    lined = [it for it in seen if len(it) == 2]
    check.same("the lines that are marked", {"5", "11", "12", "13"} - {number for number, _ in lined}, set())
    for number, text in lined:
        check.same(f"the line {number}", text, f"mine2.c:{number} {GOOD_C.splitlines()[int(number) - 1].strip()}")
    choose(browser, "lab-example", "matrix.c")
    idle(browser)
    check.same("an example of C", (browser.value(TABS), "int main" in browser.value(VALUE % "lab-source"), shown(browser, "lab-source-said")), (["mine.c"], True, ""))
    beginning = json.loads(lab.request("beginning")[2])
    known = {os.path.basename(it)[:-2] for it in glob.glob(f"{EXAMPLES}/c/*.c")} - {"say", "shell"}
    check.same("the examples of C", {it["title"][:-2] for it in beginning["cExamples"]}, known)


def by_no_compiler(check):
    """Without the compiler a program in C is answered by what to do."""
    kept, setups.TOOLS = setups.TOOLS, "/nowhere"
    try:
        told = setups.compile_c(None, "mine", GOOD_C)
    finally:
        setups.TOOLS = kept
    check.same("C without its compiler", (told["status"], told["program"], "examples/c/setup" in told["said"]), (1, "mine", True))


def all_pages(check, browser, lab, folder):
    """All of these."""
    by_no_compiler(check)
    by_results(check, browser, lab)
    by_ends(check, browser, lab)
    by_writes(check, browser, lab)
    by_kept(check, browser, lab)
    by_card(check, browser, lab)
    by_course(check, browser, lab, folder)
    by_play(check, browser, lab)
    by_window(check, browser, lab)
    by_c(check, browser, lab, folder)
