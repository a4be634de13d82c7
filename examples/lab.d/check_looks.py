"""How the page looks at each width, in light and dark, and what the keyboard reaches."""
import os
import re
import stat
import subprocess

from checking import Lab, choose, idle, launcher, run, shown, write
from check_student import REGISTERS

# What is cut off at the width that there is: a page that is wider than its window, and words that reach out of their button.
CUT = """(() => {
    const cut = [];
    const seen = (it) => it.getClientRects().length > 0 && !it.classList.contains("aside");
    for (const it of document.querySelectorAll("button, .button, label, h1, h2, h3, dt, dd, .lab-hint, .lab-said, .lab-next"))
        if (seen(it) && it.clientWidth > 0 && it.scrollWidth > it.clientWidth + 1) cut.push(it.textContent.slice(0, 30));
    const scrolls = ".scroll, svg, textarea, #lab-transcript, .lab-editor, pre, .aside";
    for (const it of document.querySelectorAll("body *"))
        if (seen(it) && !it.closest(scrolls) && it.getBoundingClientRect().right > innerWidth + 1) cut.push(it.id || it.tagName);
    if (document.documentElement.scrollWidth > innerWidth) cut.push("the page");
    return [...new Set(cut)];
})()"""


# Whether the chosen line of the transcript is in sight in its box.
IN_SIGHT = """(() => {
    const box = document.getElementById("lab-transcript").getBoundingClientRect();
    const line = document.querySelector("#lab-lines [aria-selected=true]")?.getBoundingClientRect();
    return line !== undefined && line.top >= box.top && line.bottom <= box.bottom;
})()"""


def by_look(check, browser, pictures):
    """At each width, in light and dark, nothing is cut, and words stand out from their ground."""
    choose(browser, "lab-lesson", "the two hands free frames")
    idle(browser)
    run(browser)
    browser.key("h")
    idle(browser)
    browser.value("document.getElementById('lab-faults').click()")
    idle(browser)
    for scheme in ("light", "dark"):
        browser.scheme(scheme)
        for width in (320, 390, 768, 1000, 1250, 1400):
            browser.size(width, 1000)
            browser.value("new Promise((done) => requestAnimationFrame(() => setTimeout(done, 60)))")
            check.same(f"what is cut at {width}, {scheme}", browser.value(CUT), [])
            check.same(f"whether the line is in sight at {width}, {scheme}", browser.value(IN_SIGHT), True)
            if pictures:
                browser.picture(f"{pictures}/lab-{scheme}-{width}.png")
        browser.size(1400, 1000)
        lines = ("fifo", "clock", "hands", "lru", "least", "own", "bare", "filled", "got", "copied", "reclaimed", "free-line", "held-line", "clock-valid")
        for name in ("ink", "muted", "bad", *lines):
            least = 3 if name in lines else 4.5
            check.same(f"whether {name} stands out, {scheme}", contrast(browser, name) >= least, True)
    browser.scheme("light")


# A colour of the page, as it is computed.
COLOUR = """((name) => {
    const it = document.createElement("i");
    it.style.color = `var(--${name})`;
    document.body.append(it);
    const colour = getComputedStyle(it).color;
    it.remove();
    return colour;
})("%s")"""


def luminance(colour):
    """How light a colour is, from 0 to 1."""
    parts = [float(it) / 255 for it in re.findall(r"[\d.]+", colour)[:3]]
    parts = [it / 12.92 if it <= 0.03928 else ((it + 0.055) / 1.055) ** 2.4 for it in parts]
    return 0.2126 * parts[0] + 0.7152 * parts[1] + 0.0722 * parts[2]


def contrast(browser, name):
    """How far a colour of the page stands out from its ground."""
    dark, light = sorted(luminance(browser.value(COLOUR % it)) for it in (name, "paper"))
    return (light + 0.05) / (dark + 0.05)


def by_keys(check, browser, lab):
    """The keyboard alone leads to everything, out of each field too, and everything that it leads to has a name."""
    browser.open(lab.address)
    browser.wait_for("document.body.dataset.ready === 'yes'", 20)
    browser.value("document.getElementById('lab-new').click()")
    idle(browser)
    run(browser)
    browser.value("document.activeElement.blur()")
    reached = set()
    for _ in range(80):
        browser.key("Tab")
        reached.add(browser.value("document.activeElement.id || document.activeElement.textContent"))
    wanted = {f"lab-{name}" for name in "example lesson new back save save-source load add source frames swap limit images schedule run faults transcript registers-list".split()}
    wanted |= {"file", "mine", "next", "play", "speed", "slider", "frame", "process", "event-next", "Card: mnemonics, operands, calls, signals"}
    check.same("what Tab doesn't reach", wanted - reached, set())
    for node in browser.call("Accessibility.getFullAXTree")["nodes"]:
        focusable = any(it["name"] == "focusable" and it["value"].get("value") for it in node.get("properties", []))
        if focusable and not node.get("ignored") and node["role"]["value"] != "RootWebArea":
            check.same(f"whether a {node['role']['value']} has a name", bool(node.get("name", {}).get("value")), True)
    browser.value("document.activeElement.blur()")
    browser.key("e")
    check.same("where the key e leads", browser.value("document.activeElement.id"), "lab-source")
    write(browser, "lab-source", "")
    for key in "fhwpoe ":
        browser.key(key)
    step = browser.value("document.body.dataset.step")
    check.same("whether a key in the source steps", step, "0")
    check.same("whether the run's end is told", shown(browser, "lab-bounds"), "A run is ended after 20 seconds.")
    asked = [it["params"]["request"]["url"] for it in browser.events if it["method"] == "Network.requestWillBeSent"]
    check.same("what is fetched from elsewhere", [it for it in asked if not it.startswith((lab.address, "data:", "blob:"))], [])
    thrown = [it["params"]["exceptionDetails"]["text"] for it in browser.events if it["method"] == "Runtime.exceptionThrown"]
    check.same("what goes wrong in its script", thrown, [])


# A program with a table of counts of its own.
MORE = """#!/bin/sh
case $1 in
--help) echo 'usage: vmrun stats FRAMES SWAP LIMIT SCHED IMAGE..' ;;
stats) printf 'process %s\\n' '1 instructions 7' '1 ended 4' '2 instructions 1205' '2 zero-fills 3'; printf 'hands moves 0\\nspace 1 pages-written 12\\n' ;;
*) unset VMRUN && exec "$PROGRAM" "$@" ;;
esac
"""


def by_more(check, browser, folder):
    """The table of counts is shown where the program has it, and so are the registers of each step."""
    check.same("whether counts are offered without it", browser.value("document.getElementById('lab-stats').hidden"), not has_stats())
    with open(f"{folder}/more", "w", encoding="ascii") as it:
        it.write(MORE.replace("$PROGRAM", os.path.abspath(launcher())))
    os.chmod(f"{folder}/more", stat.S_IRWXU)
    with Lab(f"{folder}/more", None) as lab:
        browser.open(lab.address)
        browser.wait_for("document.body.dataset.ready === 'yes'", 20)
        run(browser)
        check.same("whether registers are shown", browser.value("document.getElementById('lab-registers').hidden"), False)
        check.same("whose registers they are", browser.value(REGISTERS)[0][0], "1")
        browser.value("document.getElementById('lab-stats').click()")
        idle(browser)
        for table, wanted in (
            ("lab-stats-table", [["each process", "1", "2", "all"], ["instructions", "7", "1,205", "1,212"], ["zero fills", "", "3", "3"], ["ended by", "signal 4: an illegal instruction: a reserved opcode or operand", "not ended", ""]]),
            ("lab-stats-whole", [["the whole", "count"], ["hands moves", "0"], ["space 1 pages written", "12"]]),
        ):
            rows = browser.value(f"[...document.querySelectorAll('#{table} tr')].map((row) => [...row.children].map((it) => it.textContent))")
            check.same(f"the table {table}", rows, wanted)
        check.same("of what the table is", shown(browser, "lab-stats-of"), "mine: 64 frames, 256 blocks of swap, limit 100, empty schedule")


def has_stats():
    """Whether the program has a table of counts itself."""
    made = subprocess.run([launcher(), "--help"], stdout=subprocess.PIPE, stderr=subprocess.STDOUT, text=True)
    return re.search(r"\bstats\b", made.stdout) is not None
