"""The clock runs."""
import re
import time

from browsing.browser import PATIENCE
from browsing.pages import Trial, open_text, page_of, save, says, set_speed, table


def clock(browser, folder):
    """Time is let run and pause."""
    trial = Trial("clock")
    browser.show(save(folder, "clock", page_of("")), "#new")
    try_time(browser, trial)
    trial.expect(f"{browser.shown()['broken']}", not browser.shown()["broken"])
    return trial.faults


def try_time(browser, trial):
    open_text(browser, "seconds = 60\nsteal = 0\n" + table("job", at="04000", cost=10)
              + table("event", at=0, do="novac 20 04000 00005", every=9, name="again"))
    trial.expect(f"no alarm: {browser.text('summary')}", "1202" in browser.text("summary"))
    set_speed(browser, "0.1")
    browser.value("document.activeElement.blur()")
    begun = time.monotonic()
    browser.press(" ")
    at = 0.0
    while at < 0.05 and time.monotonic() - begun < PATIENCE:
        said = browser.text("sentence")
        at = float(re.search(r"at ([0-9.]+) s", said)[1])
    live = "document.getElementById('sentence').getAttribute('aria-live')"
    while_running = browser.value(live)
    browser.press(" ")
    trial.expect("a running clock is read out", (while_running, browser.value(live)) == ("off", "polite"))
    said = browser.text("sentence")
    at = float(re.search(r"at ([0-9.]+) s", said)[1])
    took = time.monotonic() - begun
    trial.expect(f"{took} seconds: {said}", 0.05 <= at <= 0.1 * took + 0.01 and browser.text("run") == "Run")
    browser.press(".")
    says(browser, trial, "a centisecond", f"at {at + 0.01:.2f} s")
