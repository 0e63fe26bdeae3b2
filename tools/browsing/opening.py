"""The first minute: the page opens on a landing, and a card tells what happens, up to a guess and what comes of it."""
import os
import re

from browsing.browser import LAPTOP, PHONE, wait
from browsing.opened import THREE_ALARMS
from browsing.pages import DRAWN, PROGRAM, Trial, filled, page_of, save, says, set_slider, set_speed, steady, texts, type_line, written

GUIDE = "document.getElementById('guide').hidden ? '' : `${document.getElementById('guide-step').textContent}. ${document.getElementById('guide-text').textContent}`"

# Whether the card and its first button are in the window, below the bar.
CARD = """(() => {
  const box = document.getElementById('guide').getBoundingClientRect();
  const [bar, first] = [document.querySelector('.bar'), document.querySelector('#guide-steps button')].map((it) => it.getBoundingClientRect());
  const isIn = Array.from(document.querySelectorAll('#guide-steps button')).every((it) => it.getBoundingClientRect().right <= box.right + 1);
  return isIn && box.top >= bar.bottom - 2 && first.bottom <= innerHeight && first.height > 0;
})()"""

# Whether the card covers the chart.
COVERS = """(() => {
  const [card, chart] = ['story', 'chart-box'].map((id) => document.getElementById(id).getBoundingClientRect());
  return card.left < chart.right && chart.left < card.right && card.top < chart.bottom && chart.top < card.bottom;
})()"""

# The buttons that are seen, without those of boxes.
PRESSED = """Array.from(document.querySelectorAll('button:not(.cover)')).filter((it) => it.getClientRects().length > 0)
  .map((it) => it.textContent).join('|')"""


def until(browser, text):
    """Waits until the card says this. What it says."""
    wait(lambda: text in browser.value(GUIDE))
    return browser.value(GUIDE)


def press(browser, name):
    """Presses a button of the card."""
    browser.wait(f"Array.from(document.querySelectorAll('#guide-steps button')).some((it) => it.textContent === '{name}')")
    browser.value(f"(() => {{ const it = Array.from(document.querySelectorAll('#guide-steps button')).find((it) => it.textContent === '{name}');"
                  " it.focus(); it.click(); })()")


def begin(browser, path):
    """Opens the page as somebody does who was never there."""
    browser.show(path)
    browser.value("localStorage.clear(); sessionStorage.clear()")
    browser.show(path)


def opening(browser, folder):
    """The page opens on a landing that lives, seen up to its alarm: a card says what a core set is, the clock runs to the alarm and
    stays there, a guess is asked for and run, and shown beside the truth; then the others. It never goes back
    a step, stays in view, keeps the focus, can be skipped, is remembered, and comes again from the help. `New` is an empty machine."""
    trial = Trial("opening")
    path = save(folder, "opening", page_of(""))
    browser.show(path)
    trial.expect("it has more than 480,000 bytes", os.path.getsize(path) <= 480_000)
    for size in PHONE, LAPTOP:
        browser.width(*size)
        begin(browser, path)
        trial.expect(f"it opens with {browser.text('title')}", browser.text("title") == "A landing with alarm 1202")
        trial.same("the seconds in view", browser.value("document.getElementById('chart-box').dataset.seen"), "0-3507")
        told = browser.value(GUIDE)
        trial.expect(told, told.startswith("1 of 5. ") and "a block of twelve words" in told and "there are seven" in told)
        trial.same("at first one sees", browser.value(PRESSED), "Examples|New|Share|Help|Run|Deadlines: one job too late|Skip")
        try_minute(browser, trial, size)
    try_remembered(browser, trial, path)
    for mark, wanted in ("#apollo-11", "50"), ("#landing-1202", "5"), ("#landing", "5"), ("#no-vac-area", "1"), ("#new", "1"):
        browser.show(path, mark)
        trial.same(f"the speed of {mark}", browser.value("document.getElementById('speed').value"), wanted)
    begin(browser, path)
    browser.value("location.hash = '#landing'")
    trial.expect(f"a card of another landing: {browser.value(GUIDE)}", wait(lambda: browser.value(GUIDE) == ""))
    try_new(browser, trial)
    try_built(browser, trial)
    try_written(browser, trial, folder)
    trial.expect(f"{browser.shown()['broken']}", not browser.shown()["broken"])
    return trial.faults


def try_written(browser, trial, folder):
    """A page that agc_watch writes has its document, and loads nothing."""
    path = save(folder, "written", written(PROGRAM, "page", THREE_ALARMS))
    browser.show(path)
    trial.expect(f"it loads {browser.loaded()}", browser.loaded()[1:] in ([], [f"file://{path}"]))
    browser.press("a")
    says(browser, trial, "an alarm of its document", "Request 7 of 24")


def try_minute(browser, trial, size):
    """From Run to the last guess."""
    press(browser, "Run")
    told = until(browser, "2 of 5")
    trial.expect(f"as it runs: {told}", "SERVICER" in told and "radar" in told)
    trial.expect("what is to come is seen", not browser.value("document.getElementById('future').hidden"))
    set_speed(browser, "100")
    browser.wait("document.getElementById('run').textContent === 'Run'")
    # (who reads on isn't overtaken by the clock)
    told = browser.value(GUIDE), texts(browser, "#guide-steps button")
    trial.expect(f"at the alarm the card is {told}", told[0].startswith("2 of 5. ") and told[1] == "What happened?|Back|Skip")
    press(browser, "Back")
    trial.expect("no step back", browser.value(GUIDE).startswith("1 of 5. "))
    browser.press("Home")
    set_speed(browser, "1")
    press(browser, "Run")
    press(browser, "To the alarm")
    told = until(browser, "3 of 5")
    said = "document.getElementById('sentence').textContent + document.getElementById('run').textContent + document.getElementById('guide-text').textContent"
    before = browser.value(said)
    trial.expect(f"it goes on behind the alarm: {before}", steady(browser, said, 10) == before and "alarm 1202" in before and "Run" in before)
    trial.expect(f"the state: {browser.text('state')}", browser.text("state") == "30.50 s: ALARM 1202, no free core set")
    trial.same("a guess", texts(browser, "#guide-steps button"), "No stolen time|An eighth set|No display|A shorter guidance|Back|Skip")
    trial.expect(f"what: {told}", "Alarm 1202: one more job, display, asks for a core set, and all seven are taken." in told)
    trial.expect(f"why: {told}", "Each SERVICER needs 1.7 s, but gets only 1.5 s of every two. So old ones are still alive when new ones come: five at once." in told)
    trial.expect("what came is veiled", browser.value("document.getElementById('future').hidden"))
    trial.expect("the focus is lost", browser.value("document.activeElement !== document.body"))
    browser.value("window.scrollTo(0, 500)")
    trial.same(f"card and chart at {size}", browser.value(f"{DRAWN}.then(() => [{CARD}, {COVERS}])", True), [size != PHONE, False])
    browser.value("window.scrollTo(0, 0)")
    trial.expect(f"the card is out of view at {size}", browser.value(f"{DRAWN}.then(() => {CARD})", True))
    if size == PHONE:
        high = browser.value("document.getElementById('chart-box').getBoundingClientRect().height / innerHeight")
        trial.expect(f"the chart takes {high:.2f} of a phone", high <= 0.41)
    for name in ("An eighth set", "No stolen time", "No display", "A shorter guidance"):
        # (one isn't waited for)
        press(browser, name)
        trial.expect("the card goes back", browser.value(GUIDE).startswith("4 of 5. "))
        trial.expect("what was isn't beside", not browser.value("document.getElementById('dismiss').hidden"))
        trial.expect(f"{name}: the focus is lost", browser.value("document.activeElement !== document.body"))
    told = lambda: texts(browser, "#tried li")
    trial.expect(f"what came of them: {told()}", wait(lambda: "…" not in told() and told().count("|With") == 3))
    browser.press("Home")
    set_slider(browser, 15)
    trial.expect(f"the card goes back: {browser.value(GUIDE)}", browser.value(GUIDE).startswith("4 of 5. "))
    press(browser, "What helps")
    told = browser.value(GUIDE), texts(browser, "#guide-steps button")
    trial.expect(f"at the end: {told}", told[0].startswith("5 of 5. Less work prevents the alarm") and "dropped all jobs, the sleepers too" in told[0]
                 and told[1] == "Apollo 11: five alarms|90 %, and still too late|Build your own|Back|Done")
    press(browser, "Done")
    trial.expect("it isn't done", browser.value(GUIDE) == "")


def try_remembered(browser, trial, path):
    """A tour that was done or skipped is remembered, and the help shows it again."""
    browser.show(path)
    trial.expect("it isn't remembered", browser.value(GUIDE) == "" and browser.text("title") == "A landing with alarm 1202")
    browser.value("localStorage.clear()")
    browser.show(path)
    browser.press("Escape")
    browser.show(path)
    trial.expect("a tour that was skipped comes again", browser.value(GUIDE) == "")
    browser.click("help")
    browser.click("tour-again")
    trial.expect(f"the tour again: {browser.value(GUIDE)}", browser.value(GUIDE).startswith("1 of 5. ") and not browser.value("document.getElementById('dialog').open"))
    browser.press("End")
    browser.press("A")
    trial.expect(f"an alarm from behind: {browser.value(GUIDE)}", browser.value(GUIDE).startswith("3 of 5. "))
    browser.press("Home")
    trial.expect(f"from the alarm to the beginning: {browser.value(GUIDE)}", browser.value(GUIDE).startswith("3 of 5. "))


def try_new(browser, trial):
    """An empty machine: the form of jobs, and no octal; its tables unfold with a first request, and its clock runs beyond ten seconds."""
    browser.click("new")
    seen = browser.value("['story', 'build', 'tables'].map((it) => document.getElementById(it).innerText).join(' ')")
    trial.expect(seen, "Nothing has been asked" in seen and "deadline" in seen and not re.search(r"\b0[0-7]{4}\b|place 1", seen))
    type_line(browser, "novac 20 04000 00005")
    says(browser, trial, "asked", "novac 20 04000 00005. Reply: job 1. Job 1 runs.")
    trial.expect("the tables are folded", browser.value("document.getElementById('more').open"))
    set_speed(browser, "100")
    browser.click("run")
    wait(lambda: int(browser.text("sentence").split()[1]) >= 1300)
    browser.click("run")
    said = browser.text("sentence")
    trial.expect(f"it runs on: {said}", "refused" not in said and int(said.split()[1]) > 1200)


# Fills in the form of New.
BUILD = """((name, every, needs, priority, deadline) => {
  const fields = document.querySelectorAll('#build-fields input[type=text]');
  [name, every, needs, deadline].forEach((it, k) => { fields[k].value = it; });
  document.querySelector('#build-fields select').value = priority;
  document.getElementById('build-add').click();
})"""


def try_built(browser, trial):
    """Jobs are added by the form, whose list is that of the run: it says what a slider has made of them."""
    browser.click("new")
    for job in ("guidance", "2", "1.5", "20", "2"), ("steering", "1", "0.15", "10", "1"):
        browser.value(f"{BUILD}(...{list(job)})")
        filled(browser)
    trial.same("the jobs", texts(browser, "#built li"), "guidance: every 2 s it needs 1.5 s, priority 20, deadline 2 s. Remove|"
               "steering: every 1 s it needs 0.15 s, priority 10, deadline 1 s. Remove")
    for name, value in ("guidance needs", 80), ("steering priority", 24), ("steering deadline", 90):
        browser.value(f"(() => {{ const it = document.querySelector('#sliders input[aria-label=\"{name}\"]'); it.value = '{value}'; it.dispatchEvent(new Event('change')); }})()")
        filled(browser)
    trial.same("as sliders have made them", texts(browser, "#built li"), "guidance: every 2 s it needs 0.8 s, priority 20, deadline 2 s. Remove|"
               "steering: every 1 s it needs 0.15 s, priority 30, deadline 0.9 s. Remove")
    browser.value("document.querySelectorAll('#built button')[1].click()")
    filled(browser)
    trial.same("without the other", texts(browser, "#built li"), "guidance: every 2 s it needs 0.8 s, priority 20, deadline 2 s. Remove")
