"""The chart: its lanes and bands, what is told of them, and zoom."""
import json
import re

from browsing.browser import LAPTOP, PHONE, wait
from browsing.opened import STRIPED
from browsing.pages import DRAWN, Trial, filled, go_to, open_text, page_of, save, says, table, texts

# Two jobs of different names in turn, one that sleeps, an event with a name, and an alarm at the end.
LANED = "seconds = 20\nsteal = 20\n" + "".join((
    table("job", name="ALPHA", at="04000", cost=300), table("job", name="BETA", at="05000", cost=100),
    table("event", name="begin", at=0, do=["novac 15 06000 00011", "sleep 06000", "novac 20 04000 00005"]),
    table("event", name="press", at=100, do="novac 30 05000 00005", every=200),
    table("event", name="flood", at=1500, do=[*8 * ["novac 10 05100 00005"]])))

# ALPHA has an area until 3.75 s, of which a fifth is stolen; its task waits until 5 s; then nothing is left but an alarm at 15 s.
ROWS = "seconds = 20\nsteal = 20\n" + "".join((
    table("job", name="ALPHA", at="04000", cost=300), table("event", name="begin", at=0, do=["findvac 20 04000 00005", "list 500 02000 00005"]),
    table("event", name="flood", at=1500, do=[*8 * ["novac 10 05100 00005"]])))

# Where time runs on the chart, in points of the window: the line of the row that is shown is at its left and right end.
PLOT = """(() => {
  const box = document.getElementById('lanes-chart').getBoundingClientRect();
  const [cursor, slider] = ['cursor', 'slider'].map((it) => document.getElementById(it));
  const [at, max] = [slider.value, slider.max];
  const ends = [0, max].map((row) => { slider.value = row; slider.dispatchEvent(new Event('input')); return box.left + parseFloat(cursor.style.translate); });
  slider.value = at; slider.dispatchEvent(new Event('input'));
  return [...ends, box.top, box.height];
})()"""

# Of the points down the chart at a place across the ones at which this is told: their middle, and what is told there first.
FOUND = """((x, wanted) => {
  const canvas = document.getElementById('lanes-chart');
  const { top, height } = canvas.getBoundingClientRect();
  const found = [];
  for (let y = 1; y < height; y += 2) {
    canvas.dispatchEvent(new PointerEvent('pointermove', { clientX: x, clientY: top + y, pointerType: 'mouse', bubbles: true }));
    const block = document.getElementById('block');
    if (!block.hidden && block.textContent.includes(wanted)) found.push([top + y, block.textContent]);
  }
  return found[found.length >> 1] ?? null;
})"""

# The colour of a point of the window, on the chart.
POINT = """((x, y) => {
  const canvas = document.getElementById('lanes-chart');
  const box = canvas.getBoundingClientRect();
  const scale = canvas.width / box.width;
  const { data } = canvas.getContext('2d').getImageData(Math.floor((x - box.left) * scale), Math.floor((y - box.top) * scale), 1, 1);
  return data[3] > 0 ? Array.from(data.slice(0, 3)) : getComputedStyle(document.getElementById('chart-box')).backgroundColor.match(/[0-9]+/g).map(Number);
})"""
SEEN = """(() => { const [from, to] = document.getElementById('chart-box').dataset.seen.split('-').map(Number); return [from, to - from]; })()"""
BRIGHT = [(59, 99, 173), (221, 154, 51)]
PALE = [(184, 199, 225)]


class Chart:
    """The chart of a run that is all seen: points of it by parts of its time."""

    def __init__(self, browser):
        self.browser = browser
        browser.value("window.scrollTo(0, 0)")
        self.left, self.right, self.top, self.high = browser.value(PLOT)

    def x(self, part):
        return self.left + part * (self.right - self.left)

    def told(self, part, wanted):
        """What is told there, of what has this in it; nothing where nothing has."""
        found = self.browser.value(f"{FOUND}({self.x(part)}, {json.dumps(wanted)})")
        return found and found[1]

    def y(self, part, wanted):
        return self.browser.value(f"{FOUND}({self.x(part)}, {json.dumps(wanted)})")[0]

    def colour(self, part, wanted):
        """The colour of what has this told of it, above its name."""
        return tuple(self.browser.value(f"{POINT}({self.x(part)}, {self.y(part, wanted) - 6})"))

    def pointer(self, kind, part, wanted, **more):
        self.browser.call("Input.dispatchMouseEvent", type=kind, x=self.x(part), y=self.y(part, wanted), **more)


def near(one, other):
    return all(abs(a - b) < 9 for a, b in zip(one, other))


def lanes(browser, folder):
    """A lane for each core set with its jobs over time: bright while they run, pale while they wait, hatched while they sleep, coloured
    by name. Above them the work that waits, below them areas and tasks, which open, and stolen and idle time. What is pointed at is told
    beside the pointer, a click goes there. Ctrl and the wheel, pinch, keys, a drawn range and buttons zoom; the wheel alone scrolls."""
    trial = Trial("lanes")
    browser.width(*LAPTOP)
    browser.show(save(folder, "lanes", page_of(LANED)))
    chart = Chart(browser)
    for at, lane, wanted in (0.9, 0, BRIGHT[0]), (2.1, 0, BRIGHT[1]), (2.1, 2, PALE[0]):
        found = chart.colour(at / 20, f"core set {lane}")
        trial.expect(f"core set {lane} at {at} s: {found}", near(found, wanted))
    row = {chart.colour(k / 1000, "core set 1") for k in range(500, 520)}
    trial.expect(f"a sleeper is hatched: {row}", len(row) > 2)
    go_to(browser, "0.5 s")
    boxes = browser.value("document.querySelector('#sets li').className")
    trial.expect(f"the box of ALPHA is {boxes}", boxes.startswith("j1 "))
    browser.value("window.scrollTo(0, 0)")
    told = chart.told(0.5 / 20, "core set 0")
    trial.expect(f"pointed at: {told}", re.match(r"0[.][45]\d s, core set 0\n", told) and "ALPHA" in told and "priority" in told)
    for part, wanted in (1 / 20, "jobs still need"), (0.5, "of the time is stolen"), (1 / 20, "VAC areas"), (1 / 20, "Waitlist"), (0.75, "alarm 1202"):
        trial.expect(f"nothing tells {wanted}", chart.told(part, wanted))
    for kind in "mousePressed", "mouseReleased":
        chart.pointer(kind, 1.2 / 20, "core set 0", button="left", clickCount=1)
    row = browser.text("sentence").split(" s: ")[0]
    trial.expect(f"a click: {row}", re.search("at 1[.](1[5-9]|2[0-4])$", row))
    try_zoom(browser, trial, row)
    try_strips(browser, trial)
    try_arrow(browser, trial)
    try_cards(browser, trial)
    try_summary(browser, trial)
    for scheme in "light", "dark":
        browser.scheme(scheme)
        open_text(browser, f'script = {json.dumps(2 * ["novac 20 04000 00005"] + 8 * ["phase 1 1"])}\n')
        light = lambda it: 0.3 * it[0] + 0.6 * it[1] + 0.1 * it[2]
        chart = Chart(browser)
        runs, waits, ground = (light(chart.colour(0.93, f"core set {k}")) for k in range(3))
        trial.expect(f"{scheme}: runs {runs}, waits {waits}, ground {ground}", abs(runs - ground) > 1.2 * abs(waits - ground) > 15)
    browser.scheme("light")
    trial.expect(f"{browser.shown()['broken']}", not browser.shown()["broken"])
    return trial.faults


def try_strips(browser, trial):
    """Areas and tasks are a strip each until they are opened; then each area and each task has a line of its own."""
    open_text(browser, ROWS)
    chart = Chart(browser)
    trial.expect("areas are open", chart.told(1 / 20, " s, VAC area 1\n") is None)
    high = chart.high
    for strip in "VAC areas", "Waitlist":
        for kind in "mousePressed", "mouseReleased":
            Chart(browser).pointer(kind, 1 / 20, strip, button="left", clickCount=1)
    chart = Chart(browser)
    trial.expect(f"opened, the chart is {chart.high} high, and was {high}", chart.high > high + 20)
    for at, wanted, other in (1, " s, VAC area 1\n", "free"), (10, "VAC area 1: free", "ALPHA"), (1, "task 02000", "nothing"), (10, "nothing waits here", "task"):
        told = chart.told(at / 20, wanted)
        trial.expect(f"{wanted!r} at {at} s: {told}", told and other not in told)


def open_landing(browser):
    """Opens the landing of the tour, by way of an empty bench, since the address may have it already, and sees its first 35 seconds."""
    browser.click("new")
    browser.address("#new")
    browser.value("location.hash = '#landing-1202'")
    browser.wait("document.getElementById('title').textContent === 'A landing with alarm 1202'")
    filled(browser)
    return Chart(browser)


# What the button for a picture hands out.
SAVED = """new Promise((done) => {
  const before = URL.createObjectURL;
  URL.createObjectURL = (blob) => { URL.createObjectURL = before; if (blob.type.startsWith('image')) done(blob.type); else blob.text().then(done); return before.call(URL, blob); };
  document.getElementById('WHICH').click();
})"""


def saved_picture(browser, which):
    browser.click("save")
    browser.wait(f"document.getElementById('{which}') !== null")
    found = browser.value(SAVED.replace("WHICH", which), True)
    browser.press("Escape")
    return found


def try_arrow(browser, trial):
    """A click on a job draws an arrow from the task that asked for it, a second one takes it away; the picture that is saved has it."""
    open_landing(browser)
    counts = []
    for _ in range(2):
        left, right, top, _ = browser.value(PLOT)
        x = left + 16 / 35.07 * (right - left)
        y = browser.value(f"{FOUND}({x}, 'core set 3')")[0]
        for kind in "mousePressed", "mouseReleased":
            browser.call("Input.dispatchMouseEvent", type=kind, x=x, y=y, button="left", clickCount=1)
        counts.append(saved_picture(browser, "save-svg").count("READACCS → SERVICER"))
    trial.expect(f"arrows: {counts}", counts == [1, 0])
    trial.same("a picture of points", saved_picture(browser, "save-png"), "image/png")


def try_cards(browser, trial):
    """Each example's card has the picture of its run, in which there is a job's colour where one begins, or if nothing follows its code; an exercise's
    would answer it."""
    browser.click("examples")
    drawn = "Array.from(document.querySelectorAll('.choices canvas')).filter((it) => it.style.height !== '')"
    cards = browser.value("Array.from(document.querySelectorAll('.choices'), (it) => it.children.length)")
    examples = sum(cards[:-1])
    browser.wait(f"{drawn}.length === {examples - 1}")
    coloured = browser.value(f"""{drawn}.filter((it) => {{ const {{ data }} = it.getContext('2d').getImageData(0, 0, it.width, it.height);
      for (let k = 0; k < data.length; k += 4) if (data[k + 3] > 0 && Math.abs(data[k] - data[k + 2]) > 60) return true; return false; }}).length""")
    count = browser.value("document.querySelectorAll('.choices canvas').length")
    trial.expect(f"{coloured} of {count} pictures on {cards} cards", count == examples - 1 and coloured >= count - 1)
    trial.expect("power comes back without its code", texts(browser, ".choices .dsky") == "PROG01107")
    browser.press("Escape")


def try_summary(browser, trial):
    """A click leads to a row, also by requests, of which an alarm has two columns. What lanes hold is a list."""
    open_text(browser, STRIPED)
    chart = Chart(browser)
    for part, row in (0.251, 23), (0.75, 67):
        for kind in "mousePressed", "mouseReleased":
            chart.pointer(kind, part, "core set 6", button="left", clickCount=1)
        says(browser, trial, f"a click at {part}", f"Request {row} of 91")
    told = browser.value("Array.from(document.querySelectorAll('#lane-list li'), (it) => it.textContent)")
    trial.expect(f"lanes in words: {told}", len(told) == 7 and told[0].startswith("Core set 0: job 1 from request 21") and told[6].startswith("Core set 6: free"))


def wheel(browser, part, more):
    """Turns the wheel over the chart, by a modifier: 2 is Ctrl."""
    browser.call("Input.dispatchMouseEvent", type="mouseWheel", x=Chart(browser).x(part), y=browser.value(PLOT)[2] + 150, deltaX=0, deltaY=-400, **more)


def try_zoom(browser, trial, row):
    end = browser.value(SEEN)[1]
    wheel(browser, 0.5, {})
    trial.expect(f"by the wheel alone: {browser.value(f'{DRAWN}.then(() => {SEEN})', True)}", browser.value(SEEN) == [0, end])
    wheel(browser, 0.5, {"modifiers": 2})
    wait(lambda: browser.value(SEEN)[1] < 0.9 * end)
    left, wide = browser.value(SEEN)
    trial.expect(f"by Ctrl and the wheel: {left} {wide} of {end}", 0.1 * end < wide < 0.9 * end and abs(left + wide / 2 - end / 2) < 0.03 * end)
    browser.press("f")
    trial.expect(f"all of it: {browser.value(SEEN)}", browser.value(SEEN) == [0, end])
    for key, wanted in ("+", 0.667), ("+", 0.444), ("-", 0.667), ("]", 0.667):
        browser.press(key)
        trial.expect(f"by {key}: {browser.value(SEEN)}", abs(browser.value(SEEN)[1] - wanted * end) < 0.005 * end)
    browser.press("f")
    chart = Chart(browser)
    chart.pointer("mousePressed", 0.25, "core set 3", button="left", clickCount=1)
    for part in 0.3, 0.4, 0.5:
        chart.browser.call("Input.dispatchMouseEvent", type="mouseMoved", x=chart.x(part), y=chart.top + 150, button="left", buttons=1)
    chart.browser.call("Input.dispatchMouseEvent", type="mouseReleased", x=chart.x(0.5), y=chart.top + 150, button="left", clickCount=1)
    left, wide = browser.value(SEEN)
    trial.expect(f"a drawn range: {left} {wide}", abs(left - end / 4) < 0.01 * end and abs(wide - end / 4) < 0.01 * end)
    trial.expect(f"a range is no click: {browser.text('sentence')}", row in browser.text("sentence"))
    browser.press("f")
    browser.press("x")
    says(browser, trial, "to the alarm", "alarm 1202")
    left, wide = browser.value(SEEN)
    trial.expect(f"around the alarm: {left} {wide}", wide < 0.8 * end and left + wide > 0.7 * end)
    open_text(browser, LANED)
    trial.expect(f"all of another document is seen: {browser.value(SEEN)}", browser.value(SEEN) == [0, end])
    browser.width(*PHONE)
    pinch(browser)
    wait(lambda: browser.value(SEEN)[1] < 0.8 * end)
    trial.expect(f"by two fingers: {browser.value(SEEN)}", browser.value(SEEN)[1] < 0.8 * end)
    browser.width(*LAPTOP)
    browser.press("f")
    filled(browser)


def pinch(browser):
    browser.value("document.getElementById('chart-box').scrollIntoView({ block: 'end' })")
    left, right, top, high = browser.value(PLOT)
    points = lambda apart: [{"x": (left + right) / 2 + side * apart, "y": top + high / 2, "id": k} for k, side in enumerate((-1, 1))]
    browser.call("Input.dispatchTouchEvent", type="touchStart", touchPoints=points(30))
    for apart in 40, 55, 70, 90:
        browser.call("Input.dispatchTouchEvent", type="touchMove", touchPoints=points(apart))
    browser.call("Input.dispatchTouchEvent", type="touchEnd", touchPoints=[])
