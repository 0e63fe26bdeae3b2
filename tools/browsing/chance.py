"""Random keys, clicks and documents; and long runs."""
import json
import time

import repository
from browsing.browser import LAPTOP, SIZES, wait
from browsing.opened import NAMED, THREE_ALARMS, TIGHT
from browsing.pages import (
    TOP, Trial, go_to, open_text, page_of, run_serial, save, saved, says, steady, table, type_line, words_in)
from plain import make

# For how many seconds keys and clicks are random, from which seed.
SECONDS, SEED = 10, 1202

# Something by lot that can be clicked, as far as it is there: no chooser of files, and nothing that is saved as one.
CLICKED = """(() => {
  const dialog = document.querySelector('dialog[open]');
  const found = Array.from((dialog ?? document).querySelectorAll('button, summary, #lines tr, a[href^="#"], input[type=checkbox]'))
    .filter((it) => it.getClientRects().length > 0 && !it.disabled && !it.textContent.startsWith('Save the'));
  const it = found[Math.floor(LOT * found.length)];
  it?.click();
  return it?.textContent.slice(0, 30);
})()"""

# A slider by lot is moved.
SLID = """(() => {
  const found = Array.from(document.querySelectorAll('input[type=range]'));
  const it = found[Math.floor(LOT * found.length)];
  it.value = Math.floor(OTHER * (Number(it.max) + 1));
  it.dispatchEvent(new Event('input'));
  it.dispatchEvent(new Event('change'));
})()"""


def act(browser, dice):
    """Does something by lot, and says what."""
    kind = dice.choice(["key", "key", "key", "click", "click", "line", "line", "slide", "document", "mark", "size", "go"])
    if kind == "key":
        key = dice.choice(["ArrowLeft", "ArrowRight", "Home", "End", "Enter", "Escape", "Tab", *"aAcCurnzops?e.ig/ "])
        browser.press(key)
        return f"the key {key}"
    if kind == "click":
        return f"a click on {browser.value(CLICKED.replace('LOT', str(dice.random())))}"
    if kind == "slide":
        browser.value(SLID.replace("LOT", str(dice.random())).replace("OTHER", str(dice.random())))
    elif kind == "size":
        browser.width(*dice.choice(SIZES))
    elif kind == "mark":
        mark = dice.choice(["#3", "#9999", "#landing", "#exercise-4", "#landing-1202", "#bench=AAAA", "#race", "#"])
        browser.value(f"location.hash = {json.dumps(mark)}")
        return mark
    else:
        browser.press("Escape")
        browser.press("Escape")
        if kind == "line":
            type_line(browser, dice.lines(1)[0])
        elif kind == "go":
            go_to(browser, dice.choice(["5", "0.03 s", "1 s", "x", "999999"]))
        else:
            texts = [make.serial(dice), make.toml(make.scenario(dice)), "", "x", TIGHT, THREE_ALARMS, NAMED, make.damaged(dice, dice.choice([TIGHT, THREE_ALARMS, NAMED]).encode()).decode("utf-8", "replace")]
            open_text(browser, dice.choice(texts))
    return kind


def compare_words(browser, trial, asked, what):
    """Whether the words after the last row are those of agc serial: a request that changes nothing shows them where an era
    began with that row."""
    browser.value("document.getElementById('words-box').open = true; document.getElementById('line').value = ''")
    browser.click("last")
    type_line(browser, "rouse 37777")
    found = browser.value("Array.from(document.querySelectorAll('#words-rows tr'), (it) => it.children[1].textContent)")
    ran = run_serial(asked)
    wanted = words_in(ran.stdout.decode())
    wrong = [f"{at}: {found[at]}, not {it}" for at, it in wanted.items() if found[at] != it]
    trial.expect(f"{what}: words {wrong[:3]}, {ran.stderr}", ran.returncode == 0 and not wrong)


def hold_still(browser):
    """Closes what is open, has a clock that runs pause, and waits until a long scenario's time has passed."""
    browser.press("Escape")
    browser.press("Escape")
    browser.value("document.activeElement.blur()")
    browser.value("document.querySelector('#run[aria-pressed=true]')?.click()")
    steady(browser, "document.getElementById('summary').textContent", 2)


def play(browser, trial):
    """Random keys, clicks, sliders, sizes, links and documents: nothing breaks, from time to time the words are those of
    agc serial, and the memory is bounded."""
    dice, begun, done, most, compared, count = make.Dice(SEED), time.monotonic(), [], 0, 0, 0
    browser.call("HeapProfiler.enable")
    while time.monotonic() - begun < SECONDS and not trial.faults:
        done, count = [*done[-20:], act(browser, dice)], count + 1
        broken = browser.value("window.broken")
        trial.expect(f"after {done}: {broken}", not broken)
        if len(done) < 20 or dice.random() > 0.04:
            continue
        hold_still(browser)
        asked, _ = saved(browser)
        if len(asked) < 60_000:
            compare_words(browser, trial, asked, f"after {done}")
            compared += 1
        browser.call("HeapProfiler.collectGarbage")
        most = max(most, browser.call("Runtime.getHeapUsage")["usedSize"])
    browser.width(*LAPTOP)
    trial.expect(f"{most / 1e6:.0f} MB are held", most < 400e6)
    print(f"browse: {compared} times among {count} random keys, clicks and documents from seed {SEED} words "
          f"were compared; at most {most / 1e6:.0f} MB were held")


def long(browser, folder):
    """100,000 requests open, one steps through them, and an hour of clock, 360,000 centiseconds, passes."""
    trial = Trial("long")
    tables = "".join(table("task", at=f"{0o2000 + k:05o}", bank="00005", action=f"list {k + 2} {0o2000 + k:05o} 00005") for k in range(9))
    script = [f"list {k + 1} {0o2000 + k:05o} 00005" for k in range(9)]
    bench = f"limit = 200000\nscript = {json.dumps(script)}\n{tables}" + table("device", line="timer", pulses=100_000)
    browser.show(save(folder, "long", page_of(bench)), "#50000")
    for _ in range(20):
        browser.press("ArrowRight")
    says(browser, trial, "20 steps", "Request 50020 of 100009")
    open_text(browser, repository.text_of(f"{TOP}/examples/landing.toml").replace("seconds = 600", "seconds = 3600"))
    is_over = any(wait(lambda: "Over 3600.00 s" in browser.text("summary")) for _ in range(10))
    trial.expect(f"an hour passes: {browser.text('summary')}", is_over)
    return trial.faults
