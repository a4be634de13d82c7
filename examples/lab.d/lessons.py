"""What can be loaded: the programs of the folder examples, the rows of their table, and the runs of docs/TOUR.md; and what the lines
mean, of docs/LINES.md."""
import glob
import html
import os
import re

HERE = os.path.dirname(os.path.realpath(__file__))
EXAMPLES = os.path.dirname(HERE)
TOUR = f"{EXAMPLES}/../docs/TOUR.md"
TABLE = f"{EXAMPLES}/README.md"
C_TABLE = f"{EXAMPLES}/c/README.md"
LINES = f"{EXAMPLES}/../docs/LINES.md"
# programs that are images in the folder, with no source
IMAGES = ("hi7", "hi8", "self7")
# what a program in C is at first
FIRST_C = """#include <stdio.h>

int main(void)
{
    static char pages[100 * 1024];
    int sum = 0;
    for (int round = 0; round < 2; round++)
        for (int page = 0; page < 100; page++)
            sum += ++pages[page * 1024];
    printf("sum %d\\n", sum);
    return 0;
}
"""
# what one learns of each run of the tour, by its section and its words. Each has its line here: lab-check looks
TITLES = {
    ("The address space", "64 256 100 s args"): "arguments lie at the top of the stack",
    ("The address space", "64 512 100 s deep2"): "a touch far below grows the stack",
    ("The address space", "64 256 100 s brk"): "break grows and shrinks the data",
    ("The states of a page", "64 1024 2000 s ring"): "new pages are filled with zeros at a touch",
    ("No frame is free", "64 1024 1000 forced ring"): "the two hands free frames, move by move",
    ("A page that is used stays", "64 256 148 touched walk"): "touched between the hands, a page stays",
    ("A page that is used stays", "64 256 147 late walk"): "touched too late, it is taken back without a read",
    ("Neighbours", "64 1024 2000 s ring"): "a read from swap brings neighbours along",
    ("Neighbours", "64 256 100 s code"): "a text page brings the next one along",
    ("Before it is too late: the daemon", "64 1024 10000 daemon wider"): "hands that move ahead of need",
    ("A page in flight", "64 256 147 flight walk"): "who touches a page that is being written waits",
    ("Out and in", "64 1024 1000 swapped waits"): "a process goes out to swap, and comes in",
    ("fork copies", "64 256 100 s forky"): "a child's pages are copied at once",
    ("vfork lends", "64 256 100 s lendy"): "a child in its parent's space copies nothing",
    ("vfork lends", "64 1024 100 s lendx =big"): "at an execve the space goes back",
    ("execve", "64 256 100 s lendx =big"): "with too little swap execve is refused",
    ("The end", "128 1024 1000 zombie waits"): "a status is kept until the parent asks",
    ("A text is shared and kept", "64 256 100 s hi hi"): "two processes share one text",
    ("A text is shared and kept", "64 256 100 s hi ex"): "a text that nobody runs is kept a while",
    ("What the program sees", "64 1024 10000 s ring"): "64 frames: what the program sees",
    ("What the program sees", "4096 1024 10000 s ring"): "4,096 frames: the program sees the same",
}
PICTURES = f"{EXAMPLES}/../docs/pictures"
# the names that a program of one's own may have
OWN = ("mine", "mine2", "mine3", "mine4")
ROW = re.compile(r"^\| `(\w+)` \| (.*) \| `(\d+) (\d+) (\d+) s ([=\w ]+)` \| `.*` \|$", re.M)
RUN = re.compile(r"vmrun run (?:--trace )?(\d+) (\d+) (\d+) (\w+) ([=\w]+(?: [=\w]+)*)")
PICTURE = re.compile(r"!\[([^\]]*)\]\(pictures/([\w-]+)\.svg\)")
SCHEDULE = re.compile(r"(?:for \w+ in \$\(seq (\d+)\); do )?printf '([^']*)'(?:; done)? >(\w+)")


def text_of(file):
    """A file's text."""
    with open(file, encoding="utf-8") as it:
        return it.read()


def sources():
    """The source of each example, by its name."""
    files = sorted(glob.glob(f"{EXAMPLES}/*.s"))
    return {os.path.basename(it)[:-2]: text_of(it) for it in files if os.path.basename(it)[:-2] not in OWN}


def c_examples():
    """The programs of examples/c of one image: of each its source, and the words of its run."""
    rows = re.findall(r"(?m)^### (\w+)\n\nRun: `(\d+) (\d+) s \1`$", text_of(C_TABLE))
    words = [(name, {"frames": "64", "swap": swap, "limit": limit, "schedule": ""}) for name, swap, limit in rows]
    return [{"title": f"{name}.c", "text": text_of(f"{EXAMPLES}/c/{name}.c"), **row} for name, row in words]


def pictures():
    """The tour's pictures, by the name that a page fetches."""
    return {f"{os.path.basename(it)[:-4]}.picture": text_of(it) for it in glob.glob(f"{PICTURES}/*.svg")}


def plain(text):
    """A text of a document without its links and its stars, and without what it says of other documents."""
    text = re.sub(r"\[([^\]]*)\]\([^)]*\)", r"\1", text)
    text = re.sub(r"(?<!\w)\*+(\w[^*]*)\*+", r"\1", text)
    return re.sub(r" \((?:MODEL|Definitions|The program): [^)]*\)(?=\.?$|\.? )", "", text)


def examples():
    """The rows of the table of examples: of each what it shows, and the words of its run."""
    rows = []
    for name, shows, frames, swap, limit, images in ROW.findall(text_of(TABLE)):
        words = {"frames": frames, "swap": swap, "limit": limit, "schedule": "", "images": images}
        rows.append({"name": name, "title": f"{name}: {plain(shows)}", **words})
    return rows


def blocks(text):
    """A section's paragraphs, lists, examples and pictures, as lists of a kind and a text; of a picture its name comes after."""
    found = []
    for part in re.split(r"\n\n+", text.strip("\n")):
        picture = PICTURE.fullmatch(part)
        if picture:
            found.append(["img", " ".join(picture[1].split()), f"{picture[2]}.picture"])
        elif part.startswith("    "):
            found.append(["pre", re.sub(r"(?m)^    ", "", part)])
        elif part.startswith("- "):
            found += [["li", plain(" ".join(it.split()))] for it in re.split(r"(?m)^- ", part) if it]
        elif part.startswith("|"):
            found.append(["pre", plain(part)])
        elif part.strip() and not part.startswith("!["):
            found.append(["p", plain(" ".join(part.split()))])
    return found


def marked(text):
    """A line of a document as HTML, with its words in backquotes and its bold ones marked."""
    text = html.escape(plain(text.replace("**", "\0")), quote=False)
    return re.sub(r"\0([^\0]*)\0", r"<b>\1</b>", re.sub(r"`([^`]*)`", r"<code>\1</code>", text))


def lines():
    """What each line of a transcript, of a schedule and of an owners' text means, as HTML: the tables of docs/LINES.md and what stands
    between them."""
    made = []
    for part in re.split(r"\n\n+", text_of(LINES).partition("\n")[2].strip("\n")):
        if part.startswith("|"):
            head, _, *rows = [[marked(it.strip()) for it in row.strip("|").split("|")] for row in part.split("\n")]
            kinds = [("th", head), *(("td", row) for row in rows)]
            made.append(f"<table>{''.join('<tr>' + ''.join(f'<{kind}>{it}</{kind}>' for it in row) + '</tr>' for kind, row in kinds)}</table>")
        elif part.startswith("    "):
            made.append(f"<pre>{html.escape(re.sub(r'(?m)^    ', '', part), quote=False)}</pre>")
        else:
            made.append(f"<p>{marked(' '.join(part.split()))}</p>")
    return "\n".join(made)


def lessons():
    """The runs of the tour, section by section: of each its words and its schedule, and the section's text."""
    found = []
    for section in re.split(r"(?m)^## ", text_of(TOUR))[1:]:
        title, _, text = section.partition("\n")
        schedules, seen = {"s": ""}, set()
        for line in re.findall(r"(?m)^    \$ (.*)$", text):
            for times, schedule, name in SCHEDULE.findall(line):
                schedules[name] = schedule.replace("\\n", "\n") * int(times or 1)
            for frames, swap, limit, name, images in RUN.findall(line):
                words = f"{frames} {swap} {limit} {name} {images}"
                if name in schedules and words not in seen:
                    seen.add(words)
                    asked = {"frames": frames, "swap": swap, "limit": limit, "images": images}
                    found.append({"section": title, "title": TITLES.get((title, words), words), "words": words, "schedule": schedules[name], "text": blocks(text), **asked})
    return found
