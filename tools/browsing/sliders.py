"""The panel of the clock and its sliders."""
from browsing.pages import go_to, open_text, says, set_slider, set_speed, table, texts, type_line, wait_for

# A scenario of two seconds: half of the time is stolen, a job takes 0.2 seconds, and another the rest.
PANEL = "seconds = 2\nsteal = 50\n" + "".join((
    table("job", at="04000", cost=10, name="WORK"), table("job", at="05000", cost=300),
    table("event", at=0, do="novac 20 04000 00005", name="begin"), table("event", at=150, do=["novac 20 05000 00005", "list 20 02000 00005"])))

# What each slider has: its name, bounds and value, and how that is told.
SLIDERS = """Array.from(document.querySelectorAll('#sliders label'), (it) => {
  const field = it.querySelector('input');
  return [field.ariaLabel, field.min, field.max, field.value, field.getAttribute('aria-valuetext'),
    it.querySelector('output').textContent].join(' ');
}).join(', ')"""


def try_panel(browser, trial):
    """Sliders with their bounds, how a slider looks as it moves, the buttons of events, and a clock that stops at an alarm."""
    open_text(browser, PANEL)
    told = browser.value(SLIDERS)
    trial.expect(told, told == "Stolen time 0 100 50 50 % 50 %, WORK needs 1 400 10 0.10 s 0.10 s, 05000 needs 1 600 300 3.00 s 3.00 s, Core sets 7 8 7 7 7, WORK priority 1 31 16 20 20, 05000 priority 1 31 16 20 20")
    for value in 37, 10:
        browser.value("(() => { const it = document.querySelectorAll('#sliders input')[1];"
                      f" it.value = '{value}'; it.dispatchEvent(new Event('input')); }})()")
        told = browser.value(SLIDERS)
        trial.expect(f"as a slider moves: {told}", f"WORK needs 1 400 {value} {value / 100:.2f} s {value / 100:.2f} s" in told)
    browser.value("document.querySelector('#events button').click()")
    trial.expect(browser.text("account"), "Asked by you: begin." in browser.text("account"))
    open_text(browser, "script = [\"list 1 02000 00005\"]\n" + table(
        "task", at="02000", bank="00005", action=["novac 20 04000 00005", "list 1 02000 00005"]))
    trial.expect("a bench has sliders", browser.value("document.getElementById('clock').hidden"))
    browser.press("End")
    set_speed(browser, "100")
    browser.value("document.activeElement.blur()")
    browser.press(" ")
    wait_for(browser, "alarm 1202")
    says(browser, trial, "time stops", "at 0.08 s: tick. Reply: tick 02000/00005 alarm 1202.")
    trial.expect(browser.text("run"), browser.text("run") == "Run")


def try_asides(browser, trial):
    """Nothing is undone of what a page opens with. A request in the middle of an exercise says what it sets aside, and that the
    exercise is changed; undo takes both back."""
    path = browser.value("location.pathname")
    for mark in "", "#landing-1202", "#exercise-5":
        browser.show(path, mark)
        trial.expect(f"undo as {mark or 'the page'} opens", browser.value("document.getElementById('undo').disabled"))
    go_to(browser, "9")
    type_line(browser, "tick")
    browser.press("Escape")
    trial.same("set aside", (texts(browser, "#note"), "You have changed this exercise." in browser.text("question")), ("The 1 request that followed is set aside; Undo brings it back.", True))
    browser.press("ArrowLeft")
    trial.expect(f"beside another request: {texts(browser, '#note')}", texts(browser, "#note") == "")
    browser.press("u")
    says(browser, trial, "undone", "Request 9 of 10")


def try_percent(browser, trial):
    """A number of the clock that is changed in an exercise shows what happens, and what the document has; and what came of it
    moves no slider."""
    browser.show(browser.value("location.pathname"), "#exercise-10")
    tops = "['#sliders input', '#slider'].map((it) => Math.round(document.querySelector(it).getBoundingClientRect().top + document.getElementById('side').scrollTop))"
    set_slider(browser, 23)
    told = browser.text("outcome"), texts(browser, "#differs")
    trial.expect(f"23 percent: {told}", told[0].startswith("Before: no alarm; ") and "Now: 1 alarm: 1201 at " in told[0]
                 and told[1] == "This run differs from its document: steal 23 % (document: 15 %).")
    trial.expect("what is changed is hidden", browser.value("document.getElementById('show-answer') === null"))
    browser.show(browser.value("location.pathname"), "#landing-1202")
    before = browser.value(tops)
    for value in 3, 30:
        set_slider(browser, value)
        moved = [abs(one - other) for one, other in zip(before, browser.value(tops))]
        trial.expect(f"with {value} % sliders move by {moved}", max(moved) <= 6)
