"""The page around what is told of a row: keys to alarms, links, marks, the list, orders, restarts, and what is offered to try."""
import json

from browsing.opened import NAMED
from browsing.pages import exercise, go_to, open_text, open_words, press_try, says, texts


# Of rows of that run: the boxes that are marked as changed.
CHANGED = {1: "group 2", 2: "set 0, area 1", 3: "set 1, names", 4: "", 5: "set 0, set 1, names", 6: "set 1", 7: "place 1", 10: "",
           11: "set 2, set 3, area 2", 20: "set 4, area 3", 24: "", 26: "", 33: "set 1",
           25: "set 0, set 1, set 2, set 3, set 4, set 5, set 6, area 1, area 2, area 3, area 4, area 5, place 1, first, latest"}

# The boxes that are marked, in the order of the page.
MARKED = """Array.from(document.querySelectorAll('main li.new')).filter((it) => it.getClientRects().length > 0).map((it) =>
  it.lastChild.textContent === 'changed' || it.innerText.includes('changed') ? it.firstChild.textContent : 'unsaid').join(', ')"""


def try_accounts(browser, trial):
    """Who asked, and what is marked as changed, worked out by hand; links lead where they say."""
    open_text(browser, NAMED)
    for row, by in (1, "Asked by event begin."), (10, ""), (20, "Asked by event 2."):
        go_to(browser, str(row))
        told = browser.text("account")
        trial.expect(f"row {row}: {told}", by in told and "clock" not in told and "centisecond" not in told)
    for row, marked in CHANGED.items():
        go_to(browser, str(row))
        trial.same(f"the marks of row {row}", browser.value(MARKED), marked)
        trial.same(f"row {row} is marked as a change", browser.value("document.querySelector('#lines tr[aria-current]').className") == "change", bool(marked or row in (24, 33)) and row != 25)
    go_to(browser, "9")
    bars = browser.value("Array.from(document.querySelectorAll('#tasks progress'), (it) => (it.hidden ? '0' : it.value.toFixed(2))).join(' ')")
    trial.expect(f"the bars of tasks: {bars}", bars.startswith("0.67 0.67 1.00 0"))
    go_to(browser, "24")
    trial.same("the alarm in the list", browser.value("Array.from(document.querySelectorAll('#lines td.alarm'), (it) => it.textContent).join()"), "tick 02000/00005 alarm 1201")
    trial.expect("the full table", browser.value("Array.from(document.querySelectorAll('.full'), (it) => it.id).join()") == "areas")
    trial.expect("what is full is no link", browser.value("document.querySelector('#account a').getAttribute('href')") == "#areas-name")
    browser.value("document.querySelector('#account a[href=\"#11\"]').click()")
    says(browser, trial, "the link to a request", "Request 11 of 113, at 0.02 s")
    go_to(browser, "25")
    seen = browser.value("document.getElementById('codes').innerText.replaceAll('\\n', ' ')")
    trial.expect(f"FAILREG {seen}", seen.replace("changed", "").split() == ["first", "1201", "second", "none", "latest", "1201"])
    go_to(browser, "3")
    trial.same("NEWJOB", browser.value("document.getElementById('newjob').textContent"), "namesjob 2changed")
    sets = browser.shown()["sets"][:3]
    trial.expect(f"{sets}", sets[0].split("\n") == ["set 0", "job 1", "runs, area 1", "at 04000", "priority 20"]
                 and sets[1].split("\n")[:5] == ["set 1", "job 2", "next to run", "at 04100", "priority 30"] and sets[2] == "set 2\nfree")
    open_words(browser)
    words = browser.value("Array.from(document.querySelectorAll('#words-rows tr'), (it) => it.textContent)")
    for place, text in (11, "20300core set 0, PRIORITY"), (89, "00014NEWJOB"), (131, "00000FAILREG, latest"):
        trial.expect(f"{words[place]}, not {place}{text}", words[place] == f"{place}{text}")
    browser.press("ArrowRight")
    browser.press("ArrowRight")
    told = browser.value("Array.from(document.querySelectorAll('#sets li'), (it) => `${it.className}: ${it.innerText}`).slice(0, 2)")
    trial.expect(f"{told}", told[0].split("\n") == ["j4 runs new: set 0", "job 2", "runs", "at 04100", "priority 30", "changed"]
                 and told[1].split("\n") == ["asleep h3 turns-over new: set 1", "job 1", "asleep, area 1", "at 06000", "priority 20", "changed"])
    trial.same("the words stay", browser.value("document.querySelector('#words-rows tr').textContent"), "000002core set 0, number")
    browser.value("document.getElementById('words-box').open = false")


def try_rows(browser, trial):
    """The list shows the rows around the one that is shown, marks it and the changes, and leads to others."""
    open_text(browser, "script = " + json.dumps([*49 * ["tick"], "novac 20 04000 00005", *50 * ["tick"]]) + "\n")
    for row, first in (0, 0), (5, 0), (50, 43), (90, 83), (95, 86), (100, 86):
        go_to(browser, str(row))
        trial.same(f"around row {row}", browser.value("Array.from(document.querySelectorAll('#lines tr'), (it) => it.children[0].textContent).join(' ')"), " ".join(map(str, range(first, first + 15))))
        trial.same("the marked row", browser.value("document.querySelector('#lines tr[aria-current]').children[0].textContent"), str(row))
    go_to(browser, "50")
    changed = browser.value("Array.from(document.querySelectorAll('#lines tr.change'), (it) => it.textContent).join(' ')")
    trial.expect(f"the change: {changed}", changed == "500.49novac 20 04000 00005job 111/20 . . . . . .. . . . .-the script")
    browser.value("document.querySelectorAll('#lines tr')[3].click()")
    says(browser, trial, "a row that is clicked", "Request 46 of 100")


def try_orders(browser, trial):
    """Workers take turns in an order of one's own."""
    exercise(browser, 9)
    for k in 0, 1, 0, 1, 0:
        browser.value(f"document.querySelectorAll('#turns button')[{k}].click()")
    told = texts(browser, "#turns button"), texts(browser, "#lines tr:not([aria-hidden]) td:nth-child(9)")
    trial.expect(f"five turns: {told}", told == ("worker 1: end|worker 2: findvac 20 03000 00006", "|worker 1|worker 2|worker 1|worker 2|worker 1"))
    browser.value("document.querySelectorAll('#turns button')[1].focus()")
    browser.press("Enter")
    says(browser, trial, "the sixth turn", "Request 6 of 6, at 0.00 s: findvac 20 03000 00006. Reply: alarm 1201. Job 1 ran.")
    trial.expect("the button loses the focus", browser.value("document.activeElement.textContent") == "worker 2: end")
    for _ in range(3):
        browser.value("document.querySelectorAll('#turns button')[1].click()")
    trial.same("a worker that is done", (texts(browser, "#turns button"), browser.value("document.querySelectorAll('#turns button')[1].disabled")), ("worker 1: end|worker 2 has asked for all", True))
    open_text(browser, "")
    trial.expect("turns of nobody", browser.value("document.getElementById('turns').hidden"))


# What is shown of the tables: headings, jobs, and tasks.
TABLED = """['#sets-name', '#areas-name', '#tasks-name', '#sets b', '#areas b', '#tasks b'].map((what) =>
  Array.from(document.querySelectorAll(what), (it) => it.textContent).filter((it) => it !== 'free').join(' ')).join('|')"""


def try_restarts(browser, trial):
    """The tables after a restart are shown by a button, and after the last row by the next step, with headings that say so. The
    jobs and tasks are those of the solution of exercise 6."""
    exercise(browser, 6)
    browser.click("show-answer")
    browser.press("End")
    before = "Core sets: 7 of 7 in use|VAC areas: 0 of 5 in use|Waitlist: 1 of 9 in use|job 2 job 1 job 3 job 4 job 5 job 6 job 7||04000"
    after = "Core sets, after the restart: 2 of 7 in use|VAC areas, after the restart: 1 of 5 in use|Waitlist, after the restart: 2 of 9 in use|job 1 job 2|job 1|04100 04000"
    open_words(browser)
    for key, wanted in ("ArrowRight", after), ("ArrowRight", after), ("ArrowLeft", before), ("ArrowRight", after), ("ArrowLeft", before):
        browser.press(key)
        told = browser.value(TABLED), browser.value("document.querySelectorAll('.full').length"), texts(browser, "#words-rows tr:first-child")
        trial.expect(f"the tables by {key}: {told}", told == (wanted, int(wanted == before), f"0{'00002' if wanted == before else '00001'}core set 0, number"))
    browser.press("ArrowRight")
    trial.expect("a rule parts its tasks", browser.value("getComputedStyle(document.querySelector('#account li:last-child')).borderTopStyle") == "none")
    press_try(browser, "Before the restart")
    trial.expect("no way back", browser.value(TABLED) == before)
    browser.value("document.getElementById('words-box').open = false")
