"""What if: sliders that act at once, and what came of it beside what was."""
import re

from browsing.browser import LAPTOP, PHONE
from browsing.pages import DRAWN, Trial, exercise, open_text, page_of, save, says, set_slider, table, texts

IN_VIEW = """['run', 'speed', 'state', ...(innerWidth > 900 ? ['sliders', 'told-name'] : [])].filter((id) => {
  const box = document.getElementById(id).getBoundingClientRect();
  return box.top < 0 || box.bottom > innerHeight || box.height === 0;
}).join()"""


def whatif(browser, folder):
    """A bar with Run, speed and state stays in view, and beside it the story and the sliders. A slider runs the document anew, and one line
    says in full how the run differs from its document."""
    trial = Trial("whatif")
    path = save(folder, "whatif", page_of(""))
    for size in (1400, 900), (1920, 1080), (390, 844):
        browser.width(*size)
        browser.show(path, "#landing-1202")
        browser.value("window.scrollTo(0, 400)")
        browser.value(DRAWN, True)
        trial.expect(f"out of view at {size}: {browser.value(IN_VIEW)}", browser.value(IN_VIEW) == "")
        seen = browser.value("innerHeight - document.querySelector('.bar').getBoundingClientRect().bottom")
        trial.expect(f"{seen} points are left below the bar at {size}", seen > 0.6 * size[1])
    browser.width(*LAPTOP)
    browser.show(path, "#landing-1202")
    browser.press("a")
    try_strips(browser, trial)
    try_jobs(browser, trial)
    try_changes(browser, trial)
    trial.expect(f"{browser.shown()['broken']}", not browser.shown()["broken"])
    return trial.faults


# Presses at this part of the width of a strip, as wide as its slider's way.
PRESS = """(() => { const it = document.querySelectorAll('.strip')[K], box = it.getBoundingClientRect();
  it.dispatchEvent(new MouseEvent('click', { bubbles: true, clientX: box.left + 8 + PART * (box.width - 16), clientY: box.top + 9 })); })()"""


def try_strips(browser, trial):
    """Under stolen time is when the first alarm comes, as docs/LANDING.md has it, and under another slider if it is asked
    for; a click sets the slider. An exercise's strip doesn't answer it."""
    said = "document.querySelectorAll('.swept .said:not(.zones)')"
    done = "document.querySelectorAll('.strip')[{0}]?.dataset.done === 'yes' && !" + said + "[{0}].textContent.includes('not computed')"
    trial.expect("the strip isn't computed", browser.wait(done.format(0)))
    # (the times of docs/LANDING.md)
    for part, wanted in (2, "At 2 %: no alarm"), (15, "At 15 %: 1202 at 30.50 s; with 8 sets 1201 at 38.01 s"):
        browser.value(PRESS.replace("K", "0").replace("PART", str(part / 100)))
        browser.wait(done.format(0))
        trial.same(f"a click at {part}", (browser.value(f"{said}[0].textContent"), browser.value("document.querySelector('#sliders input').value")), (wanted, str(part)))
    named = browser.value("document.querySelector('.strip').ariaLabel")
    trial.expect(f"the strip's name: {named}", named.startswith("When the first alarm comes, over Stolen time: no alarm up to 3 % (shaded). At 15 %: 1202 at"))
    browser.value("document.querySelectorAll('.over')[1].click()")
    browser.wait(said + "[1].textContent.includes('with 8 sets')")
    trial.same("the cost", browser.value(f"{said}[1].textContent"), "At 1.70 s: 1202 at 30.50 s; with 8 sets 1201 at 38.01 s")
    browser.value("document.querySelectorAll('.over')[1].click()")
    trial.expect("a strip that was closed", browser.value("document.querySelectorAll('.strip').length") == 1)
    exercise(browser, 10)
    trial.expect("an exercise's strip answers it", browser.value("document.querySelectorAll('.strip').length") == 0)
    browser.click("show-answer")
    trial.expect("no strip with the answer", browser.value("document.querySelectorAll('.strip').length") == 1)
    browser.show(browser.value("location.pathname"), "#landing-1202")
    browser.press("a")


# Two jobs with deadlines: the slow one asks for more than is left.
LATE = "seconds = 20\nsteal = 10\n" + "".join((
    table("job", name="fast", at="04000", cost=40, deadline=100), table("job", name="slow", at="05000", cost=95, deadline=150),
    table("task", at="02000", bank="00005", action=["novac 30 04000 00005", "list 100 02000 00005"]),
    table("task", at="02100", bank="00005", action=["novac 10 05000 00005", "list 150 02100 00005"]),
    table("event", at=0, do=["list 1 02000 00005", "list 1 02100 00005"])))


def try_jobs(browser, trial):
    """The table of jobs has a row for each; it is open where a job has a deadline, and a click goes to the first that is missed."""
    open_text(browser, LATE)
    browser.wait("!document.getElementById('jobs-box').hidden")
    trial.same("the jobs", browser.value("Array.from(document.querySelectorAll('#jobs tr'), (it) => it.children[0].innerText.trim())"), ["fast", "slow", "and stolen 10 %"])
    said = browser.text("jobs-sum"), browser.value("document.getElementById('jobs-box').open")
    trial.expect(f"{said}", re.fullmatch(r"Jobs, over all 20 s: fast 40 % \+ slow 63 % \+ stolen 10 % = 113 %; \d+ deadlines missed", said[0]) and said[1])
    browser.value("document.querySelector('#jobs button').click()")
    # (the first slow job begins at 0.01 s, and has 1.50 s)
    says(browser, trial, "the first that is missed", "at 1.52 s: tick.")
    trial.expect("the table changes with the row", browser.text("jobs-sum") == said[0])
    browser.click("late-next")
    says(browser, trial, "the second that is missed", "at 3.02 s: tick.")
    browser.width(*PHONE)
    seen = browser.value("Array.from(document.querySelectorAll('#jobs td'), (it) => { const box = it.getBoundingClientRect(); return box.width > 0 && box.right > innerWidth; }).includes(true)")
    named = browser.value("getComputedStyle(document.querySelector('#jobs td:nth-child(12)'), '::before').content")
    trial.same("on a phone numbers beyond its edge, and the name of the last", (seen, named), (False, '"at most "'))
    browser.width(*LAPTOP)
    trial.expect("priorities are folded where jobs have deadlines", browser.value("document.querySelector('#sliders details').open"))
    trial.same("what would help", browser.text("jobs-order"), "No order of priorities helps: if all jobs are asked for at once, with each order one is late.")
    browser.value("Array.from(document.querySelectorAll('#sliders details')[0].querySelectorAll('.over')).at(-1).click()")
    browser.wait("Array.from(document.querySelectorAll('.strip')).at(-1).dataset.done === 'yes'")
    # (from the fast job's priority on, 24, the fast ones are those that pile up)
    named = browser.value("Array.from(document.querySelectorAll('.strip')).at(-1).ariaLabel")
    trial.same("the slow job's priority", named, "When the first alarm comes, over slow priority: no alarm up to 27 (shaded); a deadline is missed with each value (red below). "
               "At 10: first missed deadline 1.51 s (slow); no alarm")
    exercise(browser, 10)
    trial.expect("an exercise's jobs are told", browser.value("document.getElementById('jobs-box').hidden"))
    browser.show(browser.value("location.pathname"), "#landing-1202")
    trial.expect("jobs without deadlines are unfolded", not browser.value("document.getElementById('jobs-box').open"))
    browser.press("a")


def try_changes(browser, trial):
    trial.same("the sliders", texts(browser, "#sliders label span"),
               "Stolen time|SERVICER needs|display needs|SERVICER every|display every|Core sets|SERVICER priority|display priority")
    folded = browser.value("document.querySelector('#sliders details').open")
    trial.expect("priorities are unfolded where no job has a deadline", not folded)
    told = browser.value("Array.from(document.querySelectorAll('#sliders label'), (it) => it.title.split(' ').slice(0, 4).join(' ')).join('|')")
    trial.expect(f"what the sliders are about: {told}", told == "What part of the|How much computing time|How much computing time|"
                 "After how long it|After how long it|How many jobs can|How urgent it is,|How urgent it is,")
    set_slider(browser, 0)
    told = browser.text("outcome"), browser.text("differs")
    trial.expect(f"at the alarm, none stolen: {told}", "Now: no alarm" in told[0] and told[1] == "This run differs from its document: steal 0 % (document: 15 %).")
    both = browser.value("document.getElementById('dismiss').hidden")
    trial.expect("before isn't on the chart", not both)
    browser.click("dismiss")
    trial.same("dismissed", (browser.value("document.getElementById('dismiss').hidden"), browser.text("outcome")), (True, "Move a slider to see what changes."))
