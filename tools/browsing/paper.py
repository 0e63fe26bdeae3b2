"""What is printed."""
import base64
import json
import re

from browsing.access import CONTRAST
from browsing.opened import TIGHT
from browsing.pages import Trial, open_text, page_of, save, texts


# A bench in which time goes by, with an alarm at its end.
TICKS = f"# Eight jobs, and time.\nscript = {json.dumps(['novac 20 02000 00005', *['tick'] * 4] * 8)}\n"


def paper(browser, folder):
    """On paper a scenario has its chart, its jobs and why each alarm came, on two pages; a bench each row but those in which
    only time goes by, the account of each alarm, and its plan; an exercise its question, what it is about in words, a line for
    each answer and what the requests do, on one page; and nothing has a control."""
    trial = Trial("paper")
    path = save(folder, "paper", page_of(""))
    try_run(browser, trial, save(folder, "timed", page_of(TIGHT)))
    try_rows(browser, trial, save(folder, "rows", page_of(TICKS)))
    print_long(browser, trial)
    try_question(browser, trial, path)
    try_seen(browser, trial, path)
    try_chart_alone(browser, trial, save(folder, "chart-alone", page_of(TIGHT, "chart")))
    for name in "landing-1202", "landing", "apollo-11":
        browser.show(path, f"#{name}")
        pages, parts = printed(browser)
        trial.expect(f"{name} is printed on {pages} pages, with {parts}", pages <= 2 and parts == "h1 p canvas h2 table p h2 div")
        jobs, text = texts(browser, "#printed .jobs td:first-child"), browser.text("printed")
        trial.expect(f"{name} is printed with the jobs {jobs}", "SERVICER" in jobs and "`" not in text)
        browser.scheme("light", media="print")
        wide, high = browser.value(SHAPES)
        trial.expect(f"the chart of {name} is {wide} as wide and {high} as high as it is drawn", abs(wide - high) < 0.01)
        browser.scheme("light")
    return trial.faults


# How large the chart is on paper, of what it was drawn.
SHAPES = """(() => { const it = document.getElementById('printed-chart'), box = it.getBoundingClientRect();
  return [box.width / it.width, box.height / it.height]; })()"""


def on_paper(browser, trial, what):
    """The page as it is printed, with nothing else on it, and all of it can be read."""
    browser.scheme("dark", media="print")
    browser.value("window.dispatchEvent(new Event('beforeprint'))")
    trial.same(f"other elements printed of {what}", browser.value("Array.from(document.querySelectorAll('body *')).filter((it) =>"
                          " it.getClientRects().length > 0 && !it.closest('#printed')).length"), 0)
    for fault in browser.value(CONTRAST):
        trial.expect(f"contrast on paper, {what}: {fault}", False)


def try_run(browser, trial, path):
    """The jobs are those of the page's table, and of each alarm it is said who held what."""
    browser.show(path)
    on_paper(browser, trial, "a scenario")
    left, below = browser.value(INKED)
    trial.expect(f"names on the left of the chart: {left}, what is asked for below it: {below}", 0.02 < left < 0.2 and 0.02 < below < 0.7)
    trial.expect(f"its head: {browser.text('printed')[:300]}", "Over 60.00 s: at most 7 of 7" in browser.text("printed"))
    jobs = texts(browser, "#printed .jobs td"), texts(browser, "#jobs td")
    trial.expect(f"its jobs: {jobs}", jobs[0] == jobs[1] != "")
    reasons = browser.value("Array.from(document.querySelectorAll('#printed section'), (it) => Array.from(it.children, (one) => one.textContent))")
    alarms = browser.value("Number(/; ([0-9]+) alarms?/.exec(document.querySelector('#printed p').textContent)[1])")
    trial.expect(f"{len(reasons)} reasons for {alarms} alarms", len(reasons) == min(6, alarms) > 0)
    for heading, _, account in reasons:
        trial.expect(f"why an alarm came: {heading}: {account}", re.fullmatch(r"alarm 1202, at [0-9.]+ s", heading)
                     and account.startswith("A job is in each core set") and account.count("\nset ") == 7)
    browser.scheme("light")


def try_rows(browser, trial, path):
    """Rows in which only time goes by aren't printed, and an alarm has its account."""
    browser.show(path)
    on_paper(browser, trial, "a bench")
    rows = browser.value("Array.from(document.querySelectorAll('#printed tbody tr'), (it) => Array.from(it.children, (one) => one.textContent))")
    trial.same("an account, and rows without ticks", ([len(cells) for cells in rows].count(1), [cells[0] for cells in rows if len(cells) > 1]),
               (1, ["0", *map(str, range(1, 37, 5))]))
    trial.expect("the plan of a bench", "novac 20 02000 00005" in texts(browser, "#printed .plan"))
    browser.scheme("light")


def try_question(browser, trial, path):
    """An exercise whose answer is hidden is printed as it is asked, on one page, and afterwards with what came of it."""
    for number in range(1, 16):
        browser.show(path, f"#exercise-{number}")
        wanted = texts(browser, "#prediction label")
        pages, parts = printed(browser)
        told = browser.text("printed")
        trial.expect(f"exercise {number} is printed on {pages} pages, with {parts}", pages == 1 and parts == "h1 p div dl h2 table p")
        trial.expect(f"exercise {number} has lines of a document: {told}", not re.search(r"\[\[(task|job|event)\]\]\n| = [\"\[{]", told))
        trial.expect(f"exercise {number} on paper: {told}", browser.text("title") in told and not re.search("alarm [0-9]|1201 at|1202 at", told)
                     and "findvac P A Westablish a job with a VAC area" in told)
        asked = browser.value("Array.from(document.querySelectorAll('#printed dt'), (it) => it.textContent)")
        trial.expect(f"exercise {number} asks {asked}, and not {wanted}", len(asked) > 0 and all(it in wanted for it in asked))
    browser.show(path, "#exercise-1")
    browser.click("show-answer")
    browser.value("window.dispatchEvent(new Event('beforeprint'))")
    trial.expect("the answer isn't printed", "alarm 1201" in browser.text("printed"))


# How many points of the alarm's red are left of the middle of the printed chart, and right of it.
RED = """(() => {
  const it = document.getElementById('printed-chart');
  const { data } = it.getContext('2d').getImageData(0, 30, it.width, 1);
  const red = Array.from({ length: it.width }, (_, k) => k).filter((k) => data[4 * k] > 120 && data[4 * k + 1] < 60 && data[4 * k + 2] < 60);
  return [red.filter((k) => k < it.width / 2).length, red.filter((k) => k >= it.width / 2).length];
})()"""


def try_seen(browser, trial, path):
    """What is seen of the chart is printed: all of it, or the part around an alarm."""
    for key, wanted in ("f", (True, False)), ("x", (False, True)):
        browser.show(path, "#landing-1202")
        browser.press(key)
        browser.value("window.dispatchEvent(new Event('beforeprint'))")
        red = browser.value(RED)
        trial.expect(f"the printed alarm after {key}: {red}", (red[0] > 0, red[1] > 0) == wanted)


def try_chart_alone(browser, trial, path):
    """A page made for printing shows its title and its chart, and prints these with the summary, on one page."""
    browser.show(path)
    trial.same("beside the chart alone", browser.value("Array.from(document.querySelectorAll('h1, h2, button, canvas, table'), (it) =>"
                         " (it.checkVisibility() ? it.id : '')).filter((it) => it !== '').join(' ')"), "title lanes-chart closer wider fit to-alarm")
    wide = browser.value("document.getElementById('lanes-chart').clientWidth / innerWidth")
    trial.expect(f"the chart alone takes {wide} of the width", 0.9 < wide <= 1)
    pages, _ = printed(browser)
    on_paper(browser, trial, "a chart alone")
    parts = browser.value("Array.from(document.querySelectorAll('#printed *')).filter((it) => it.checkVisibility())"
                          ".map((it) => it.localName).join(' ')")
    trial.expect(f"a chart alone is printed on {pages} pages, with {parts}", pages == 1 and parts == "h1 p canvas")
    browser.scheme("light")


def printed(browser):
    """On how many pages it is printed, and in which order its parts."""
    browser.value("window.dispatchEvent(new Event('beforeprint'))")
    data = base64.b64decode(browser.call("Page.printToPDF", preferCSSPageSize=True)["data"])
    return (len(re.findall(rb"/Type */Page\b", data)),
            browser.value("Array.from(document.getElementById('printed').children, (it) => it.localName).join(' ')"))


# How much of the printed chart's left edge, and of its lower one, has ink: names, and the bar of what is asked for.
INKED = """(() => {
  const it = document.getElementById('printed-chart');
  const inked = (...box) => { const { data } = it.getContext('2d').getImageData(...box);
    return data.filter((one, k) => k % 4 === 3 && one > 60).length * 4 / data.length; };
  return [inked(0, 0, 46, it.height - 16), inked(60, it.height - 14, it.width - 60, 14)];
})()"""


def print_long(browser, trial):
    """A title is printed; refused ticks are a line each; of very many rows the first 5,000 are printed, which is said."""
    many = json.dumps(3000 * ["phase 1 1", "phase 1 2"])
    refused = json.dumps(["tick"] * 6)
    ticks = json.dumps(["tick", "tick", "change", "tick", "tick", "tick"])
    for text, count, wanted in ((f"# Two ticks, and three.\nscript = {ticks}\n", 2, "30.02change"), (f"# Phases, many times.\nscript = {many}\nlimit = 6000\n", 5000, "Those up to request 4999 of 6000."),
                                (f"# Six ticks.\nscript = {refused}\nlimit = 2\n", 5, "Over 6 requests")):
        open_text(browser, text)
        browser.value("window.dispatchEvent(new Event('beforeprint'))")
        told = browser.value("document.getElementById('printed').textContent.slice(0, 600)")
        found = browser.value("document.querySelectorAll('#printed tbody tr').length")
        trial.expect(f"{found} lines of {told}", found == count and wanted in told)
        trial.same("the title", browser.value("document.querySelector('#printed h1').textContent"), text[2:text.index("\n")])
        trial.expect("no rows are refused", ("refused log full" in browser.text("printed")) == (count == 5))
