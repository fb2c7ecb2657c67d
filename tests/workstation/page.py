"""Holds the brine page to the wells that it was made from: page.py FOLDER [--browser]. FOLDER has the program `plan`.

Each case is a batch of sheets. What the page must say is worked out here from the wells, and `plan brine --csv` must say it too. Then the page
is read as a file, and with --browser in chromium: its figures in the DOM, its layout on a desk, on a phone and on paper, and its pictures, which
stay in FOLDER/page. The first thing that is wrong ends it.
"""

import csv
import html.parser
import io
import pathlib
import re
import signal
import subprocess
import sys
import tempfile
import time

import chromium

HEADER = "number,kind,rate,injector 1,share 1,injector 2,share 2,injector 3,share 3,injector 4,share 4,note".split(",")
POLICY = "default-src 'none'; style-src 'unsafe-inline'"
TAGS = set("html head meta title style body main section h1 h2 p bdi dl div dt dd data ul li span table caption thead tbody tr th td "
           "svg defs pattern rect line".split())
ATTRIBUTES = set("lang charset http-equiv content name class id scope value role aria-hidden data-label width height x y x1 x2 y1 y2 "
                 "patternunits patterntransform".split())
DESK, PHONE, BETWEEN = 1280, 360, 740


def producer(number, rate, *links, note=""):
    return (number, "producer", rate, links, note)


def injector(number, rate, note=""):
    return (number, "injector", rate, (), note)


# The sheets by their names. Notes are as the file of a sheet has them, where a byte that can't be shown is \x and two digits.
NORTH, SOUTH, LONG = "north", 'so<i>&"uth\'', "a_sheet_whose_name_is_long_" * 5
SHEETS = {
    NORTH: [producer(1, 500, (14, 500), (15, 500), note="north"), producer(2, 800, (14, 250), (15, 250), (16, 500)),
            injector(14, 400, "<script>"), injector(15, 600, "\"&'<b>"), injector(16, 400, "full"), injector(17, 120, "&lt;  &amp;")],
    SOUTH: [injector(20, 0, "no capacity"), producer(3, 333, (20, 334), (21, 666)), injector(21, 900, "Ölfeld süd"), None,
            injector(22, 0, "\\x1b[31m\\\\")],
    "west": [injector(14, 400), producer(23, 100, (14, 990))],
    "east": [producer(5, 100, (9, 1000))],
    "idle": [injector(1, 0), injector(2, 0, "nothing")],
    "bare": [producer(1, 0)],
    LONG: [producer(k, 100000, (65535, 1000)) for k in range(1, 1023)] + [injector(65535, 100000, "W" * 16), injector(65534, 100000)],
    "forty": [injector(k, 10 * k) for k in range(1, 41)] + [producer(50, 1000, (40, 250), (30, 250), (20, 250), (1, 250))],
}
FAULTS = {"west": "place 1, well 23: the shares total 990, not 1000", "east": "place 0, well 5: link 1 names well 9, which isn't on this sheet"}
# The batches, and how many pages of A4 each may take; some hang on the machine's type.
CASES = {"mixed": ([NORTH, "west", SOUTH], [1]), "faulted": (["west", "east"], [1]), "idle": (["idle"], [1]), "bare": (["bare"], [1]),
         "great": ([LONG, NORTH], [1, 2]), "forty": (["forty"], [2, 3])}

where = ["the beginning"]


def hold(what, holds):
    if not holds:
        sys.exit(f"page: {', '.join(where)}: not so: {what}")


def expect(what, found, wanted):
    hold(f"{what}: found {found!r}, wanted {wanted!r}", found == wanted)


class Head:
    """What the file of a sheet says of it (sheet.h)."""

    def __init__(self, file):
        head = file.read_bytes()[:104]
        self.figures = [int.from_bytes(head[16:20], "big"), int.from_bytes(head[24:32], "big")]
        self.digest = head[40:72].hex()


class Statement:
    """What the page of a batch must say."""

    def __init__(self, names, heads):
        self.names, self.heads, self.faults = names, heads, [(name, FAULTS[name]) for name in names if name in FAULTS]
        rows = []
        for name in names:
            wells = [well for well in SHEETS[name] if well and name not in FAULTS]
            for number, _, rate, _, note in (well for well in wells if well[1] == "injector"):
                intake = sum(well[2] * share for well in wells for to, share in well[3] if to == number)
                spare = 1000 * rate - intake
                rows.append({"sheet": name, "injector": str(number), "figures": [intake, 1000 * rate, spare],
                             "state": "overloaded" if spare < 0 else "within", "note": note})
        # The sort keeps the sheets' order where it has none of its own.
        self.rows = sorted(rows, key=lambda row: min(row["figures"][2], 0))
        self.scale = max((figure for row in rows for figure in row["figures"][:2]), default=0)
        self.totals = [len(names) - len(self.faults), len(self.faults), sum(row["figures"][0] for row in rows),
                       sum(row["state"] == "overloaded" for row in rows)]

    def csv(self):
        """The statement as `plan brine --csv` has it."""
        return ([["sheet", "injector", "intake", "capacity", "spare", "state", "note"]] +
                [[row["sheet"], row["injector"], *map(str, row["figures"]), row["state"], row["note"]] for row in self.rows] +
                [[name, "", "", "", "", "faulted", fault] for name, fault in self.faults])

    def figures(self):
        """Those of the page, in order."""
        return (self.totals + [figure for row in self.rows for figure in row["figures"]] +
                [figure for name in self.names for figure in self.heads[name].figures])

    def texts(self):
        """Those of the page that come from the sheets, and the words on their states, in order."""
        return ([text for fault in self.faults for text in fault] +
                [text for row in self.rows for text in [row["note"]] * bool(row["note"]) + [row["sheet"], row["state"]]] +
                [text for name in self.names for text in [name, *(["faulted: ", FAULTS[name]] if name in FAULTS else ["sound"])]])


def shown(figure):
    return f"{figure:,}".replace("-", "\N{MINUS SIGN}")


class Source(html.parser.HTMLParser):
    """The page as a file: nothing in it can run or fetch. Its figures and its texts, in order."""

    def __init__(self, text):
        super().__init__()
        self.figures, self.texts, self.style, self.within = [], [], "", ""
        self.feed(text)
        hold("it ends", text.endswith("</html>\n"))
        hold("all texts are escaped", len(re.findall("<bdi class=\"\\w+\">[^<>\"']+</bdi>", text)) == text.count("<bdi"))
        hold("it has its policy", f'<meta http-equiv="Content-Security-Policy" content="{POLICY}">' in text)
        hold("the style names nothing outside", not re.search(r"@import|//|url\((?!#)|\\", self.style))

    def handle_starttag(self, tag, attrs):
        self.within, held = tag, dict(attrs)
        hold(f"<{tag}> has its place", tag in TAGS)
        for name, value in attrs:
            hold(f"{name}=\"{value}\" has its place", name in ATTRIBUTES and not re.search(r"//|url\(|:", value))
        if tag == "data":
            self.figures.append(int(held["value"]))
        if tag == "bdi" or "state" in held.get("class", "").split():
            self.within = "text"

    def handle_endtag(self, tag):
        self.within = ""

    def handle_data(self, data):
        if self.within == "style":
            self.style += data
        if self.within == "text":
            self.texts.append(data)


# JavaScript: what the page says.
READ = """(() => {
    const all = (what, of = document) => [...of.querySelectorAll(what)];
    const text = (what, of) => all(what, of).map(one => one.textContent).join("|");
    const figures = of => all("data", of).map(one => Number(one.value));
    const read = of => all("data", of).map(one => one.innerText);
    return {
        totals: all("#summary div").map(one => [text("dt", one), ...figures(one), ...read(one)]),
        rows: all("#injectors tbody tr").map(row => ({
            sheet: text(".sheet", row), injector: text(".number", row), figures: figures(row), read: read(row),
            state: row.querySelector(".state").innerText, note: text(".note", row), drawing: text("svg title", row),
            image: row.querySelector("svg").getAttribute("role")})),
        faults: all("#faults li").map(one => [text(".name", one), text(".words", one)]),
        sheets: all("#sheets tbody tr").map(row => ({
            name: text(".name", row), state: row.querySelector(".state").innerText, figures: figures(row), digest: text(".digest", row)})),
        elements: all("*").map(one => one.localName),
        scripts: document.scripts.length,
        handlers: all("*").flatMap(one => one.getAttributeNames()).filter(name => name.startsWith("on")),
        policy: all("meta[http-equiv=Content-Security-Policy]").map(one => one.content),
        scopes: all("th:not([scope])").length, captions: all("table:not(:has(> caption))").length,
        language: document.documentElement.lang, charset: document.characterSet, title: document.title,
        when: text(".when"), mode: document.compatMode
    };
})()"""

# JavaScript: what is wrong with how a text or a cell stands, and where the texts stand. `least` is the smallest type.
LAYOUT = """((width, least, paper) => {
    const wrong = [], written = [], root = document.documentElement;
    const say = (one, words) => wrong.push(`${words}: <${one.localName} class="${one.getAttribute("class")}"> ${one.textContent.slice(0, 60)}`);
    const channels = colour => colour.match(/[\\d.]+/g).map(Number);
    const light = colour => channels(colour).slice(0, 3).map(c => c / 255)
        .map(c => c <= 0.04045 ? c / 12.92 : ((c + 0.055) / 1.055) ** 2.4).reduce((sum, c, i) => sum + c * [0.2126, 0.7152, 0.0722][i], 0);
    const ground = one => {
        for (; one && !paper; one = one.parentElement) {
            const colour = getComputedStyle(one).backgroundColor;
            if (channels(colour)[3] !== 0)
                return colour;
        }
        return "rgb(255, 255, 255)";
    };
    const contrast = (one, other) => (Math.max(light(one), light(other)) + 0.05) / (Math.min(light(one), light(other)) + 0.05);
    const headed = document.querySelector("thead") && getComputedStyle(document.querySelector("thead")).display === "table-header-group";

    if (root.scrollWidth > width || root.clientWidth !== width)
        wrong.push(`the page is ${root.scrollWidth} wide, and there is room for ${width}`);
    const walk = document.createTreeWalker(document.body, NodeFilter.SHOW_TEXT);
    while (walk.nextNode()) {
        const one = walk.currentNode.parentElement, range = document.createRange(), style = getComputedStyle(one);
        if (!walk.currentNode.data.trim() || one.closest("svg") || (one.closest("thead") && !headed))
            continue;
        range.selectNodeContents(walk.currentNode);
        const places = [...range.getClientRects()];
        if (!one.checkVisibility({opacityProperty: true, visibilityProperty: true}) || !places.some(at => at.width > 0 && at.height > 0))
            say(one, "not shown");
        if (places.some(at => at.left < -0.5 || at.right > width + 0.5))
            say(one, "cut off");
        if (parseFloat(style.fontSize) < least)
            say(one, `type of ${style.fontSize}`);
        if (contrast(style.color, ground(one)) < 4.5)
            say(one, "too faint");
        written.push(places.map(at => [at.left, at.top + scrollY, at.right, at.bottom + scrollY].map(Math.floor)));
    }
    for (const one of document.querySelectorAll("th, td, dd, li, p, caption")) {
        if (one.closest("thead") && !headed)
            continue;
        if (one.scrollWidth > one.clientWidth + 1 || (getComputedStyle(one).overflow !== "visible"))
            say(one, "clipped");
    }
    for (const [what, paint] of [["rect.intake", "fill"], ["rect.over", "stroke"], ["rect.capacity", "stroke"], ["line.tick", "stroke"]])
        for (const one of document.querySelectorAll(what))
            if (contrast(getComputedStyle(one)[paint], ground(one)) < 3)
                say(one, "too faint");
    // Where there is no head, each figure has the word of its column before it.
    for (const table of headed ? [] : document.querySelectorAll("table")) {
        const heads = [...table.querySelectorAll("thead th")].map(one => one.textContent);
        for (const row of table.querySelectorAll("tbody tr"))
            [...row.cells].forEach((cell, i) => {
                const style = getComputedStyle(cell, "::before");
                if (cell.querySelector("data") && (style.content.trim() !== `"${heads[i]} "` || style.display === "none"))
                    say(cell, `no label ${heads[i]}`);
            });
    }
    return [wrong, written];
})"""

# JavaScript: where the bars of the rows stand, and their colours.
BARS = """[...document.querySelectorAll("#injectors tbody tr")].map(row => {
    const full = row.querySelector("svg").getBoundingClientRect();
    const bar = {left: full.left, width: full.width};
    for (const part of row.querySelectorAll("svg [class]")) {
        const at = part.getBoundingClientRect(), style = getComputedStyle(part);
        bar[part.getAttribute("class")] = {from: at.left - full.left, width: at.width, middle: at.top + scrollY + at.height / 2,
            height: at.height, fill: style.fill, stroke: style.stroke};
    }
    return bar;
})"""
PAPER = """(() => {
    const page = [...document.styleSheets[0].cssRules].find(rule => rule instanceof CSSPageRule).style;
    return [page.size, page.marginLeft, page.marginRight];
})()"""

# JavaScript: whether the heads of tables stand on each page, and no row is parted.
HEADED = """[["thead", "display", "table-header-group"], ["tr", "breakInside", "avoid"]].map(([what, property, wanted]) =>
    [...document.querySelectorAll(what)].every(one => getComputedStyle(one)[property] === wanted))"""


def check_text(browser, statement):
    said = browser.evaluate(READ)
    labels = ["Sheets sound", "Sheets faulted", "Total intake, kg a day", "Injectors overloaded"]
    expect("the summary", said["totals"], [[label, total, shown(total)] for label, total in zip(labels, statement.totals)])
    expect("the rows", len(said["rows"]), len(statement.rows))
    for found, row in zip(said["rows"], statement.rows):
        for part in row:
            expect(f"injector {row['injector']}, {part}", found[part], row[part])
        expect(f"injector {row['injector']}, figures as they are read", found["read"], [shown(figure) for figure in row["figures"]])
        intake, capacity, spare = row["figures"]
        end = f"{shown(-spare)} over: overloaded" if spare < 0 else f"{shown(spare)} to spare"
        expect(f"injector {row['injector']}, its drawing", [found["image"], found["drawing"]],
               ["img", f"Intake {shown(intake)} of {shown(capacity)} kg a day, {end}"])
    expect("the faulted sheets", said["faults"], [list(fault) for fault in statement.faults])
    expect("the sheets", said["sheets"],
           [{"name": name, "state": f"faulted: {FAULTS[name]}" if name in FAULTS else "sound", **vars(statement.heads[name])}
            for name in statement.names])
    expect("elements that aren't the page's", sorted(set(said["elements"]) - TAGS), [])
    for what, wanted in (("scripts", 0), ("handlers", []), ("policy", [POLICY]), ("scopes", 0), ("captions", 0), ("language", "en"),
                         ("charset", "UTF-8"), ("title", "Brine statement"), ("mode", "CSS1Compat")):
        expect(what, said[what], wanted)
    hold("the time of its making", re.fullmatch(r"Made \S.*\d\d.*", said["when"]))


def check_layout(browser, width, least, paper=0):
    wrong, written = browser.evaluate(f"{LAYOUT}({width}, {least}, {paper})")
    expect("layout", wrong[:3], [])
    return written


def check_bars(browser, statement):
    """Each bar is as long as its figures say, within a pixel."""
    bars = browser.evaluate(BARS)
    for bar, row in zip(bars, statement.rows):
        intake, capacity, spare = row["figures"]
        pixels = {figure: figure * bar["width"] / max(statement.scale, 1) for figure in (intake, capacity, -spare, 0)}
        wanted = {"capacity": (0, capacity), "intake": (0, min(intake, capacity)), "tick": (capacity, 0)}
        if spare < 0:
            wanted["over"] = (capacity, -spare)
        expect(f"injector {row['injector']}, parts of its bar", sorted(set(bar) - {"left", "width"}), sorted(wanted))
        expect(f"injector {row['injector']}, its bar begins", bar["left"], bars[0]["left"])
        for part, (start, width) in wanted.items():
            hold(f"injector {row['injector']}, {part} at {bar[part]['from']}, {bar[part]['width']} wide, for {pixels[start]}, {pixels[width]}",
                 abs(bar[part]["from"] - pixels[start]) <= 1 and abs(bar[part]["width"] - pixels[width]) <= 1 and bar[part]["height"] > 8)
    return bars


def colour(words):
    return tuple(int(part) for part in re.findall(r"\d+", words)[:3])


def check_picture(picture, written, bars):
    """There is writing wherever a text stands, and the colours of the bars stand where the bars do."""
    rows, seen = chromium.pixels(picture), set()
    ground = rows[0][0]
    for places in written:
        hold(f"writing at {places}", any(pixel != ground for left, top, right, bottom in places
                                         for row in rows[top:bottom] for pixel in row[left:right]))
    for bar in bars:
        for name, part in bar.items():
            if name not in ("capacity", "intake", "over") or part["width"] < 8:
                continue
            start = bar["intake"]["width"] if name == "capacity" else part["from"]
            across = slice(int(bar["left"] + start + 3), int(bar["left"] + part["from"] + part["width"] - 3))
            colours = {pixel for row in rows[int(part["middle"]) - 4:int(part["middle"]) + 4] for pixel in row[across]}
            if colours and name == "over":
                hold("the hatch has its colour and its ground", {colour(part["stroke"]), ground} <= colours)
            elif colours:
                expect(f"the colours of {name}", colours, {colour(part["fill"])})
            seen |= {name} if colours else set()
    return seen


def check_fetches(browser, url):
    """The page asked for nothing but itself, and the browser had nothing to complain of."""
    expect("requests", [one["params"]["request"]["url"] for one in browser.events if one["method"] == "Network.requestWillBeSent"], [url])
    expect("complaints", [one["params"] for one in browser.events
                          if one["method"] in ("Log.entryAdded", "Runtime.consoleAPICalled", "Runtime.exceptionThrown")], [])


def check_paper(browser, pages):
    size, *margins = browser.evaluate(PAPER)
    expect("the paper", [size.lower(), *(margin[-2:] for margin in margins)], ["a4", "mm", "mm"])
    width = int((210 - sum(float(margin[:-2]) for margin in margins)) / 25.4 * 96)
    browser.show(width, media="print", scheme="dark")
    where[1:] = ["A4"]
    # A browser may be told to print no grounds, so the type must do on white, whatever the screen has.
    check_layout(browser, width, 8.5, paper=1)
    expect("heads and rows", browser.evaluate(HEADED), [True, True])
    pdf = browser.pdf()
    sizes = re.findall(rb"/Type\s*/Page\b.*?/MediaBox\s*\[0 0 ([\d.]+) ([\d.]+)\]", pdf, re.S)
    hold(f"{len(sizes)} pages", len(sizes) in pages)
    hold(f"the pages are A4: {sizes}", all(abs(float(width) - 595.3) < 1 and abs(float(height) - 841.9) < 1 for width, height in sizes))
    return pdf


def check_in_browser(browser, name, page, statement, pages, pictures):
    url = page.as_uri()
    for width, scheme in ((DESK, "light"), (PHONE, "light"), (BETWEEN, "light"), (DESK, "dark"), (PHONE, "dark")):
        where[1:] = [f"{width} wide", scheme]
        browser.show(width, scheme=scheme)
        browser.load(url)
        check_text(browser, statement)
        written = check_layout(browser, width, 12)
        bars = check_bars(browser, statement)
        if name == "mixed":
            picture = browser.picture()
            (pictures / f"{width}-{scheme}.png").write_bytes(picture)
            if scheme == "light" and width != BETWEEN:
                expect("the parts of bars that the picture shows", check_picture(picture, written, bars), {"capacity", "intake", "over"})
        check_fetches(browser, url)
    (pictures / f"{name}.pdf").write_bytes(check_paper(browser, pages))
    check_fetches(browser, url)


def main():
    built, with_browser = pathlib.Path(sys.argv[1]), "--browser" in sys.argv
    started, browser = time.monotonic(), None
    signal.signal(signal.SIGALRM, lambda *_: sys.exit(f"page: {', '.join(where)}: it takes too long"))
    signal.alarm(120)
    with tempfile.TemporaryDirectory(ignore_cleanup_errors=True) as folder:
        here = pathlib.Path(folder)

        def plan(*arguments):
            done = subprocess.run([built / "plan", *arguments], cwd=here, capture_output=True, timeout=30)
            hold(f"plan {arguments} ends well: {done.stderr.decode()}", done.returncode == 0)
            return done.stdout.decode()

        try:
            for name, wells in SHEETS.items():
                text = io.StringIO()
                rows = csv.writer(text, lineterminator="\n")
                rows.writerow(HEADER)
                for number, kind, rate, links, note in (well or ("", "struck", "", (), "") for well in wells):
                    cells = [cell for link in links for cell in link]
                    rows.writerow([number, kind, rate, *cells, *[""] * (8 - len(cells)), note])
                (here / "wells.csv").write_text(text.getvalue(), encoding="utf-8")
                plan("new", name, "--from", "wells.csv")
            heads = {name: Head(here / name) for name in SHEETS}
            if with_browser:
                browser = chromium.Browser(folder, built / "page" / "chromium.log")
                browser.open()
            for name, (names, pages) in CASES.items():
                where[:] = [name]
                page, statement = here / f"{name}.html", Statement(names, heads)
                expect("the CSV", list(csv.reader(io.StringIO(plan("brine", *names, "--csv")))), statement.csv())
                plan("brine", *names, "--html", page.name)
                source = Source(page.read_text(encoding="utf-8"))
                expect("the figures in the file", source.figures, statement.figures())
                expect("the texts in the file, after its time", source.texts[1:], statement.texts())
                if with_browser:
                    check_in_browser(browser, name, page, statement, pages, built / "page")
        except (EOFError, OSError, RuntimeError, subprocess.SubprocessError) as error:
            sys.exit(f"page: {', '.join(where)}: {error}")
        finally:
            if browser:
                browser.close()
    print(f"page: {', '.join(CASES)}{'' if with_browser else ', without a browser'}; {time.monotonic() - started:.1f} s")


if __name__ == "__main__":
    main()
