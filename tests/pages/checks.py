"""Texts that mean harm, large ones, what keys do, and the contrast of colours."""
import os
import re
import random

import page_text
from rules.commands import answer_of

HERE = os.path.dirname(os.path.realpath(__file__))
EXAMPLES = os.path.join(HERE, "..", "..", "examples")
CSS = os.path.join(HERE, "..", "..", "crates", "page", "page", "page.css")


def answer(*words):
    """What the model answers to words about the examples."""
    return "".join(f"{line}\n" for line in answer_of(list(words), EXAMPLES).lines)


def hostile_texts():
    harm = "window.harmed = 1"
    yield "the end of a script", f"</script><script>{harm}</script>\n"
    yield "the end of its element", f"</pre><img src=x onerror='{harm}'><pre>\n"
    yield "a comment", "<!-- <script>\n-->\n<!--\n"
    yield "an element that loads", "<img src='http://127.0.0.1:1/x'><link rel=stylesheet href='http://127.0.0.1:1/y'>\n"
    yield "names of signs", "&amp; &lt;&gt; &#13; &#x0; &amp &ampamp; &notin; <wbr>\n"
    yield "control bytes", "".join(map(chr, range(32))) + "\x7f\x80\x9f\n"
    yield "a NUL at each end", "\0A=1\0"
    yield "carriage returns", "A=1\r\nA=0\r\n\r\r\n\n\r"
    yield "line feeds first", "\n\n\nA=1\n"
    yield "no line feed last", "A=1\nA=0"
    yield "nothing", ""
    yield "one blank", " "
    yield "beyond ASCII", "Ä \u2028\u2029 \ufeff \ufffd \uffff \U0001f600 \U0010ffff e\u0301 \u202e \u0000\n"
    yield "words of the page itself", "{{text}} {{page.js}} </body></html> text plcPage\n"
    yield "harm within an event", f"REFUSED 1 NoSuchTask\nUNSHOWN <script>{harm}</script>:3 Missing <b>R1</b> 1\nREPLAY of what is shown equal\n"
    yield "harm within a claim", f"FAILS <img src=x onerror={harm}> is on after 2 scans\nplc eval <script>{harm}</script> A=1\nA=1\n"
    yield "a name that isn't one's own", "__proto__=1 constructor=0\n__proto__=0 constructor=1\n"
    yield "tasks that aren't one's own", "EVAL 1 constructor.__proto__ 1.1 TAKES toString.valueOf=1.1 GIVES hasOwnProperty.x=1\nDELIVER 99999999999999999999 __proto__ taken\n"
    yield "half of an event", "EVAL 1 R1.A 1.1 TAKES R2.B GIVES \nEVAL 1 R1.A 1.1 TAKES R2.B= GIVES X\nDELIVER 1\nRESTART\n"
    yield "half of a ladder", "A=1\n|\n+--| |--(\n|  +---+\n|  |TON|\nA=0\n|\n+\n"
    yield "rows of other lengths", "A=1\n|  A   Y\n+==| |=( )\nA=0\n|  A   Y  \n+==| |-( ) \n"
    yield "a long line", "x" * 1_000_000 + "\n"


def large_texts():
    """Of each form a text of 100,000 lines."""
    chance = random.Random(7)
    yield "100,000 rows", "".join(f"A={k % 2} B={k // 3 % 2} N={k % 1000} T=T#{k * 10 % 5000}ms\n" for k in range(100_000))
    yield "100,000 events", "".join(f"{line}\n" for line in many_events(chance, 100_000))
    scans = answer("eval", "on_delay.ladder", "--dt", "10", "GO=0111110000", "--show")
    yield "100,000 lines of scans", scans * (100_000 // scans.count("\n"))
    rung = "|  A{0}     B{0}     Y{0}\n+--| |----|/|-----( )\n"
    yield "2,000 lines of one ladder", "".join(rung.format(k % 10) for k in range(1000))
    yield "1,000 variables in 200 scans", "".join(" ".join(f"V{k}={(k + scan) % 2}" for k in range(1000)) + "\n" for scan in range(200))
    yield "100,000 lines that begin with a blank", "".join(f"   {k} - of no form\n" for k in range(100_000))
    yield "100,000 lines of no ladder", "".join(f"| {k} | - + |\n" for k in range(100_000))
    yield "100,000 rows of other names", "".join(f"A{k}=1\n" for k in range(100_000))
    yield "a row and a line of no form, in turn", "A=1 B=0\nno form\n" * 50_000
    yield "100,000 lines of no form", "".join(f"line {k} of no form\n" for k in range(100_000))


def many_events(chance, count):
    tasks, made, message = {"R1.A": None, "R2.B": None, "R3.C": None}, {}, 0
    for _ in range(count):
        choice = chance.random()
        if choice < 0.6 or not message:
            task = chance.choice(list(tasks))
            message += 1
            made[task] = made.get(task, 0) + 1
            takes = " ".join(f"{it}={pair or '-'}" for it, pair in tasks.items() if it != task)
            tasks[task] = f"1.{made[task]}"
            yield f"EVAL {message} {task} {tasks[task]} TAKES {takes} GIVES P.X={chance.randint(0, 1)} P.N={chance.randint(-9, 99)}"
        else:
            yield f"DELIVER {max(1, message - chance.randint(0, 5))} {chance.choice(['R1', 'R2', 'R3'])} {chance.choice(['taken'] * 9 + ['old', 'unused', 'stray'])}"


def key_checks(folder):
    """By name what doesn't follow the keys."""
    yield "keys of scans", list(scan_keys(folder))
    yield "play and stop", list(play_keys(folder))
    yield "keys of events", list(event_keys(folder))
    yield "a contact lights up its name", list(light_keys(folder))
    yield "a variable's line in its lane", list(watch_keys(folder))
    yield "printing", list(print_faults(folder))
    yield "a phone's screen", list(phone_faults(folder))
    yield "without scripts the text stands there", list(scriptless_faults(folder))
    yield "a script that fails leaves the text there", list(failing_script_faults(folder))


def wants(browser, told, code, wanted):
    found = browser.value(code)
    if found != wanted:
        yield f"{told}: {found!r}, not {wanted!r}"


def scan_keys(folder):
    browser = folder.browser
    folder.open(answer("eval", "on_delay.ladder", "--dt", "10", "GO=0111110000", "--show"))
    scan = "document.querySelector('.scan-number').textContent"
    for key, wanted in (("ArrowRight", 2), ("ArrowRight", 3), ("ArrowLeft", 2), ("End", 10), ("ArrowRight", 10), ("Home", 1), ("ArrowLeft", 1), ("PageDown", 10)):
        browser.press(key)
        yield from wants(browser, key, scan, f"scan {wanted} of 10")
    browser.press("t", "t")
    yield from wants(browser, "t", "document.getElementById('whole').textContent === plcPage.text && document.querySelector('main').hidden", True)
    browser.press("t", "t")
    yield from wants(browser, "t again", "document.getElementById('whole') === null && !document.querySelector('main').hidden", True)
    browser.press("?", "?")
    yield from wants(browser, "?", "document.querySelector('dialog').open", True)
    yield from wants(browser, "the keys", "['scan before', 'next mark', 'as text'].every((it) => document.querySelector('dialog').innerText.includes(it))", True)
    yield from wants(browser, "no object is told", "document.body.innerText.includes('[object')", False)
    browser.press("Escape")
    browser.value("plcPage.help.close()")
    yield from wants(browser, "Escape", "plcPage.help.close() ?? document.querySelector('dialog').open", False)


def play_keys(folder):
    browser = folder.browser
    folder.open(answer("eval", "on_delay.ladder", "--dt", "10", "GO=" + "01" * 60, "--show"))
    scan = "document.querySelector('.scan-number').textContent"
    first = browser.value(scan)
    browser.press(" ", " ")
    yield from wants(browser, "blank plays", f"new Promise((done) => setInterval(() => {scan} !== '{first}' && done(true), 50))", True)
    browser.press(" ", " ")
    still = browser.value(scan)
    browser.value("new Promise((done) => setTimeout(done, 1200))")
    yield from wants(browser, "blank stops", scan, still)


def event_keys(folder):
    browser = folder.browser
    folder.open(answer("sim", "packing.plant", "packing_restart.schedule"))
    selected = "plcPage.active.selected + 1"
    for key, wanted in (("ArrowDown", 1), ("ArrowDown", 2), ("ArrowUp", 1), ("End", 16), ("Home", 1), ("n", 4), ("n", 8), ("n", 4), ("p", 8)):
        browser.press(key, key if len(key) == 1 else "")
        yield from wants(browser, key, selected, wanted)
    yield from wants(browser, "the mark is told", "document.querySelector('.detail .whole').textContent", "DELIVER 2 DOOR old")
    yield from wants(browser, "its message is told", "document.querySelector('.detail').textContent.includes('made in line 2: EVAL 2 BELT.DRIVE 1.2')", True)
    browser.value("document.querySelector('button.chip.is-old').click()")
    yield from wants(browser, "a chip", selected, 8)


def light_keys(folder):
    browser = folder.browser
    folder.open(answer("eval", "start_stop.ladder", "START=100", "--show"))
    browser.value("document.querySelector('.contact[data-name=RUN]').focus()")
    browser.press("Enter", "\r")
    lit = "[...document.querySelectorAll('.ladder .lit')].map((it) => it.dataset.name).join()"
    yield from wants(browser, "Enter", lit, "RUN,RUN,RUN,RUN")
    yield from wants(browser, "its line", "document.querySelector('.track.lit .name').textContent", "RUN")
    browser.press("Escape")
    yield from wants(browser, "Escape", lit, "")


def watch_keys(folder):
    browser = folder.browser
    folder.open(answer("sim", "packing.plant", "packing_day.schedule"))
    browser.value("(() => { const list = document.querySelector('.tools select'); list.value = 'DOOR.G.OPEN'; list.dispatchEvent(new Event('change')); })()")
    told = "[...document.querySelectorAll('.lane-track[data-name=\"DOOR.G.OPEN\"] .value')].map((it) => it.textContent).join('')"
    values = re.findall(r"G\.OPEN=(\d)", answer("sim", "packing.plant", "packing_day.schedule"))
    changes = [it for k, it in enumerate(values) if k == 0 or it != values[k - 1]]
    yield from wants(browser, "its values", told, "".join(changes))


# How many events stand on paper, or scans of the first variable.
PRINTED = """(() => {
  const strips = [...document.querySelectorAll('.strip')].map((it) => it.querySelector('.variable .wave').getAttribute('d'));
  const widths = strips.map((d) => Number(d.match(/H([0-9.]+)/g).pop().slice(1)) / plcPage.views[0].timing.unit);
  return document.querySelectorAll('.event').length + Math.round(widths.reduce((sum, it) => sum + it, 0));
})()"""


def print_faults(folder):
    """On paper stands each scan and each event, of many the first 3,000; the page is afterwards as it was."""
    browser = folder.browser
    for told, text, wanted in (
        ("scans", answer("eval", "on_delay.ladder", "--dt", "10", "GO=" + "01" * 60, "--show"), 120),
        ("events", answer("sim", "packing.plant", "packing_day.schedule"), 15),
        ("many events", "".join(f"{line}\n" for line in many_events(random.Random(3), 5000)), 3000),
        ("many scans", "".join(f"A={k % 2}\n" for k in range(5000)), 3000),
    ):
        folder.open(text)
        before = browser.value("document.querySelectorAll('main *').length")
        browser.value("plcPage.views.forEach((it) => it.print())")
        found = browser.value(PRINTED)
        if not wanted <= found < wanted + 40:
            yield f"{told}: {found} stand on paper, {wanted} were wanted"
        browser.value("plcPage.views.forEach((it) => it.printed())")
        yield from wants(browser, f"{told} afterwards", "document.querySelectorAll('main *').length", before)
        if len(browser.printed()) < 8000:
            yield f"{told}: there is nothing on paper"
        yield from browser.faults()


def phone_faults(folder):
    browser = folder.browser
    browser.resize(390, 800, True)
    for text in (answer("eval", "on_delay.ladder", "--dt", "10", "GO=0111110000", "--show"), answer("sim", "packing.plant", "packing_day.schedule"),
                 answer("verify", "hoist_bug.ladder", "--never", "CLASH")):
        folder.open(text)
        yield from wants(browser, "the page is as wide as the phone", "document.documentElement.scrollWidth <= 390", True)
        yield from wants(browser, "buttons can be touched", "[...document.querySelectorAll('header button, .player button')].every((it) => it.offsetHeight >= 32)", True)
    browser.resize(1400, 7000)


def scriptless_faults(folder):
    browser = folder.browser
    text = answer("eval", "start_stop.ladder", "START=100", "--show")
    browser.ask("Emulation.setScriptExecutionDisabled", value=True)
    try:
        with open(folder.path, "w", encoding="utf-8", newline="") as file:
            file.write(page_text.page_of(text))
        browser.ask("Page.navigate", url="file://" + folder.path)
        browser.answer(lambda it: it.get("method") == "Page.loadEventFired")
        tree = browser.ask("DOMSnapshot.captureSnapshot", computedStyles=["display"])
        if not any(text in it or text.strip() in it for it in tree["strings"]):
            yield "the text isn't shown"
    finally:
        browser.ask("Emulation.setScriptExecutionDisabled", value=False)


def failing_script_faults(folder):
    """A script that can't be read, and one that fails before all is drawn."""
    text = answer("eval", "start_stop.ladder", "START=100", "--show")
    for old, new in (('"use strict";', '"use strict" "";'), ("    this.views = [];", "    this.views = undefined.x;")):

        def read(name, folder=page_text.FOLDER):
            return page_text.read(name, folder).replace(old, new)

        folder.open(text, read)
        if not folder.browser.faults():
            yield "the script doesn't fail"
        yield from wants(folder.browser, new, "document.getElementById('text').innerText.trim()", text.strip())


# Contrast.

PAPERS = ("--paper", "--sheet")
# Inks of words need 4.5 to 1, those of lines and signs 3 to 1.
WORDS = ("--ink", "--faint", "--live", "--lit-edge", "--old", "--stray", "--unused", "--restart", "--bad", "--good")
SIGNS = ("--off", "--wave", "--focus")
ON = (("--ink", "--lit"), ("--live", "--lit"), ("--ink", "--cursor"), ("--ink", "--band"), ("--ink", "--pick"), ("--bad", "--bad-fill"), ("--ink", "--high"), ("--ink", "--live-fill"), ("--faint", "--pick"))


def contrast_faults(folder, scheme):
    """Colours as the browser has them in this scheme."""
    browser = folder.browser
    browser.media(scheme=scheme)
    folder.open(answer("sim", "packing.plant", "packing_day.schedule"))
    names = sorted({*PAPERS, *WORDS, *SIGNS, *(it for pair in ON for it in pair)})
    colours = {name: browser.value(f"getComputedStyle(document.documentElement).getPropertyValue('{name}').trim()") for name in names}
    tasks = [browser.value(f"(() => {{ const it = document.createElement('i'); it.className = 'task-{k}'; document.body.append(it); const c = getComputedStyle(it).getPropertyValue('--task').trim(); it.remove(); return c; }})()") for k in range(12)]
    browser.media()
    pairs = [(name, colours[name], paper, 4.5) for name in WORDS for paper in PAPERS] + [(name, colours[name], paper, 3) for name in SIGNS for paper in PAPERS]
    pairs += [(ink, colours[ink], paper, 4.5) for ink, paper in ON] + [(f"task {k}", it, paper, 3) for k, it in enumerate(tasks) for paper in PAPERS]
    found = [f"{name} on {paper} has {contrast(ink, colours[paper]):.2f}" for name, ink, paper, least in pairs if contrast(ink, colours[paper]) < least]
    if len(set(tasks)) < 12:
        found.append("two tasks have one colour")
    return found


def contrast(one, two):
    lights = sorted((light(one), light(two)))
    return (lights[1] + 0.05) / (lights[0] + 0.05)


def light(colour):
    parts = [int(colour[k : k + 2], 16) / 255 for k in (1, 3, 5)]
    red, green, blue = (it / 12.92 if it <= 0.04045 else ((it + 0.055) / 1.055) ** 2.4 for it in parts)
    return 0.2126 * red + 0.7152 * green + 0.0722 * blue
