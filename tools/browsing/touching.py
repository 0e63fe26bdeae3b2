"""What is touched is told, what can be asked of it is offered, and what was seen wrong before."""
import json

from browsing.browser import LAPTOP, PHONE
from browsing.pages import DRAWN, Trial, exercise, open_text, page_of, save, says, texts, type_line

ASKED = 'script = ["novac 20 04000 00005", "findvac 30 04100 00005", "sleep 06000", "list 100 02000 00005", "phase 3 2"]\n'


def touch(browser, what, k):
    browser.value(f"document.querySelectorAll('#{what} .cover')[{k}].click()")
    return browser.text("touch-name"), texts(browser, "#touch-body p"), texts(browser, "#touch-body button")


def touching(browser, folder):
    """A click or the keyboard on a core set, an area, a place, a phase or a code says what it is, since when, by which request, and
    offers what can be asked. Exercises take a prediction. Refused requests are counted; comparisons can be stopped; times are one
    kind; phases and words explain themselves; on a phone nothing is cut; without WebAssembly the page says so."""
    trial = Trial("touching")
    browser.width(*LAPTOP)
    path = save(folder, "touching", page_of(""))
    browser.show(path, "#new")
    open_text(browser, ASKED)
    browser.press("End")
    for what, k, name, told, asks in (
            ("sets", 0, "Core set 0", "Job 2 began at 04100, since request 2. It runs, with priority 30, and owns VAC area 1.", "End it|Put it to sleep"),
            ("sets", 4, "Core set 4", "It is free", "Establish a job"), ("areas", 0, "VAC area 1", "Job 2 began at 04100", "End it|Put it to sleep"),
            ("tasks", 0, "Place 1 of the Waitlist", "Task 02000 waits, since request 4, and is due in 1.00 s, at 1.00 s.", ""),
            ("phases", 2, "Group 3", "It is in phase 2, since request 5. After a restart nothing of it begins again.", "Phase 0"),
            ("codes", 0, "FAILREG, first", "No code is here.", ""), ("newjob", 0, "NEWJOB", "It names no other job", "")):
        found = touch(browser, what, k)
        trial.expect(f"{what} {k}: {found}", found[0] == name and told in found[1] and found[2] == asks and "|" in found[1])
    tops = "JSON.stringify(Array.from(document.querySelectorAll('.boxes'), (it) => it.getBoundingClientRect().top))"
    browser.click("touch-close")
    browser.value("document.querySelector('#sets').scrollIntoView({ block: 'center' })")
    before = browser.value(tops)
    found = touch(browser, "sets", 1)
    trial.same("the boxes after a click", browser.value(f"{DRAWN}.then(() => {tops})", True), before)
    box = browser.value("document.getElementById('touch').getBoundingClientRect().bottom - innerHeight")
    trial.expect(f"what is told is {box} points below the window", box <= 0)
    trial.expect(f"a sleeper: {found}", "Job 1 began at 04000, since request 1. It sleeps, with priority 20." in found[1] and found[2] == "Wake it")
    browser.value("document.querySelector('#sets .cover').focus()")
    browser.press("ArrowRight")
    at = browser.value("document.activeElement.getAttribute('aria-label')")
    trial.expect(f"along the sets: {at}", at.startswith("set 1: "))
    browser.press("Enter")
    trial.expect(f"by Enter: {browser.text('touch-name')}", browser.text("touch-name") == "Core set 1")
    browser.press("Escape")
    trial.expect("Escape doesn't close it", browser.value("document.getElementById('touch').hidden"))
    touch(browser, "phases", 2)
    browser.value("document.querySelector('#touch-body button').click()")
    says(browser, trial, "asked by touch", "Request 6 of 6, at 0.00 s: phase 3 0.")
    try_asked(browser, trial, path)
    try_motion(browser, trial, path)
    try_predictions(browser, trial)
    try_phone(browser, trial, path)
    try_flown(browser, trial, path)
    trial.expect(f"{browser.shown()['broken']}", not browser.shown()["broken"])
    try_no_module(browser, trial, folder)
    return trial.faults


def try_asked(browser, trial, path):
    """What is offered of what is touched is asked: another priority, and waking."""
    browser.show(path, "#new")
    open_text(browser, ASKED)
    browser.press("End")
    touch(browser, "sets", 0)
    browser.value("(() => { const it = document.querySelector('#touch-body select'); it.value = '15'; it.dispatchEvent(new Event('change')); })()")
    says(browser, trial, "another priority", "Request 6 of 6, at 0.00 s: prio 15.")
    touch(browser, "sets", 1)
    browser.value("Array.from(document.querySelectorAll('#touch-body button')).find((it) => it.textContent === 'Wake it').click()")
    says(browser, trial, "Wake it", "Request 7 of 7, at 0.00 s: rouse 06000. Reply: roused 1.")


# What begins to move is noted, by the names of the animations, once each: however slow a machine is, it is heard.
NOTED = "window.moves = new Set(); document.addEventListener('animationstart', (event) => { window.moves.add(event.animationName); })"
MOVES = "Array.from(window.moves).sort().join()"


def moves(browser, wanted):
    """What has begun to move since this was asked last, once that has come which is wanted, or two frames were drawn."""
    browser.value(DRAWN, True)
    browser.wait(f"{MOVES} === {json.dumps(wanted)}")
    return browser.value(f"(() => {{ const found = {MOVES}; window.moves.clear(); return found; }})()")


def try_motion(browser, trial, path):
    """A job comes, sleeps and wakes with motion, and a restart sweeps all; not where less motion is wished."""
    for is_calm in False, True:
        browser.scheme("light", is_calm=is_calm)
        browser.show(path, "#new")
        browser.value(NOTED)
        for line, wanted in ("novac 20 04000 00005", "come"), ("novac 10 04100 00005", "come"), ("sleep 06000", "nod"), ("rouse 06000", "nod"), ("restart", ""):
            type_line(browser, line)
            trial.same(f"{line}, calm {is_calm}", moves(browser, "" if is_calm else wanted), "" if is_calm else wanted)
            browser.press("Escape")
        browser.value("Array.from(document.querySelectorAll('#try button')).find((it) => it.textContent === 'After the restart').click()")
        trial.same(f"a restart, calm {is_calm}", moves(browser, "" if is_calm else "swept"), "" if is_calm else "swept")
    browser.scheme("light")


# Fills the fields of an exercise, and checks them.
SAY = """(() => { const fields = [...document.querySelectorAll('#prediction input, #prediction select')];
  GIVEN.forEach((it, k) => { fields[k].value = it; }); document.getElementById('check-prediction').click(); })()"""


def try_predictions(browser, trial):
    """A wrong try gets a hint, and none gives an answer away; who asks for the answers is led to the row; Next leads on."""
    say = lambda *given: browser.value(SAY.replace("GIVEN", json.dumps(given)))
    exercise(browser, 1)
    trial.expect(browser.text("which"), browser.text("which") == "Exercise 1 of 15")
    say("12", "1202")
    told = browser.text("hint-given"), texts(browser, "#verdict li"), browser.value("document.getElementById('show-answer') !== null")
    trial.expect(f"a first try: {told}", told[0].startswith("Not yet: Which alarm? 1202 would mean that all core sets are taken") and told[0].count("here at most 6.Each findvac takes") == 1
                 and "1201" not in told[0] and told[1:] == ("", True))
    marks = browser.value("Array.from(document.querySelectorAll('#prediction label'), (it) => it.querySelector('span')?.textContent)")
    trial.expect(f"the marks of a first try: {marks}", marks == ["\u2713 right", "not yet"])
    say("12", "1203")
    told = browser.text("hint-given"), texts(browser, "#verdict li"), browser.value("document.getElementById('show-answer') !== null")
    trial.expect(f"a second try gives the answer away: {told}", told[0].startswith("Not yet: Which alarm?") and "1201" not in told[0] and told[1:] == ("", True))
    browser.click("show-answer")
    told = texts(browser, "#verdict li")
    trial.expect(told, told == "Which request is one too many? Right: 12.|Which alarm? You expected “1203”, and it is: 1201. See request 12.")
    browser.value("document.querySelector('#verdict a').click()")
    says(browser, trial, "where it went wrong", "Request 12 of 12")
    browser.click("exercise-next")
    browser.wait("document.getElementById('which').textContent === 'Exercise 2 of 15'")
    exercise(browser, 15)
    trial.expect("there is an exercise after the last", browser.value("document.getElementById('exercise-next') === null"))


def try_phone(browser, trial, path):
    browser.width(*PHONE)
    browser.show(path, "#landing-1202&at=3128")
    browser.press("Home")
    live = "Array.from(document.querySelectorAll('[aria-live]'), (it) => it.ariaLive).filter((it) => it !== 'off').length"
    loud = browser.value(live)
    browser.value("document.querySelector('#sets .cover').click()")
    browser.click("run")
    trial.expect(f"{browser.value(live)} of {loud} are read aloud while it runs", loud > 5 and browser.value(live) == 0)
    browser.value("document.getElementById('sets-name').scrollIntoView()")
    browser.value(DRAWN, True)
    seen = browser.value("(() => { const bar = document.querySelector('.bar').getBoundingClientRect();"
                         " return innerHeight - bar.bottom; })()")
    trial.expect(f"{seen} points of tables while it runs", seen > 300)
    browser.click("run")
    trial.expect("nothing is read aloud any more", browser.value(live) == loud)
    browser.width(*LAPTOP)


DSKY = "document.getElementById('dsky').getAttribute('aria-label')"


def try_flown(browser, trial, path):
    """An alarm of Apollo 11 has its mission time, and lights the PROG light; another document puts what is touched away."""
    browser.show(path, "#apollo-11")
    trial.expect(f"at the beginning: {browser.value(DSKY)}", browser.value(DSKY) == "DSKY: program alarm light off, VERB 05 NOUN 09 shows 00000 00000 00000")
    browser.press("a")
    says(browser, trial, "an alarm of the flight", "(102:38:21): ")
    trial.expect(f"at the alarm: {browser.value(DSKY)}", browser.value(DSKY) == "DSKY: program alarm light on, VERB 05 NOUN 09 shows 01202 00000 01202")
    browser.press("Home")
    touch(browser, "sets", 7)
    browser.value("location.hash = '#landing'")
    browser.wait("document.getElementById('title').textContent.startsWith('A landing') && document.body.ariaBusy !== 'true'")
    trial.same("a core set that isn't there any more", (browser.value("document.getElementById('touch').hidden"), browser.text("note")), (True, ""))


def try_no_module(browser, trial, folder):
    page = page_of("").replace("'wasm-unsafe-eval'", "")
    browser.open(save(folder, "no-module", page))
    browser.wait("!document.getElementById('broken').hidden")
    told = browser.text("broken"), browser.value("document.getElementById('run').disabled")
    trial.expect(f"without WebAssembly: {told}", "WebAssembly" in told[0] and told[1])
    browser.width(*PHONE)
    left = browser.value("['.menu', '.bar', 'main'].filter((it) => document.querySelector(it).getClientRects().length > 0).join()")
    wide = browser.value("document.getElementById('broken').scrollWidth - document.getElementById('broken').clientWidth")
    trial.expect(f"without WebAssembly there are {left}, and {wide} points are cut", left == "" and wide <= 0)
    browser.width(*LAPTOP)
