"""Exercises: their questions, their answers, and what a change makes of them."""
import re

from browsing.browser import LAPTOP, PHONE
from browsing.pages import edit_text, exercise, open_text, saved, texts


def try_exercise(browser, trial):
    browser.value("window.scrollTo(0, 400)")
    browser.press("e")
    trial.same("the list of exercises", texts(browser, "#dialog-body [aria-label=Exercises] .name"), "|".join(f"{k} of 15" for k in range(1, 16)))
    browser.value("document.querySelector('#dialog-body [aria-label=Exercises] button').click()")
    trial.expect("an exercise isn't seen from its top", browser.value("window.scrollY") == 0)
    trial.same("rows of an exercise", browser.value("document.querySelectorAll('#lines tr:not([aria-hidden])').length"), 1)
    power = ", ".join(6 * ['"77776", "00001"'])
    open_text(browser, f"power = [{power}]\n")
    trial.expect("the power isn't saved", "power = [" in saved(browser)[0])


# What of the question's box and the document's can't be seen: a part that scrolls, or one that is outside its box or the window.
CUT = """Array.from(document.querySelectorAll('#question p, #asked pre')).filter((it) => {
  const [box, around] = [it, it.parentElement].map((one) => one.getBoundingClientRect());
  return it.scrollHeight > it.clientHeight + 1 || it.scrollWidth > it.clientWidth + 1 || box.bottom > around.bottom
    || box.right > Math.min(around.right, innerWidth);
}).map((it) => it.textContent.slice(0, 40)).join()"""


def try_questions(browser, trial):
    """An exercise shows its whole question and document, and nothing of its answer before that is asked for."""
    for size in PHONE, LAPTOP:
        browser.width(*size)
        for number in range(1, 16):
            exercise(browser, number)
            trial.same(f"cut of exercise {number} at {size[0]} points", browser.value(CUT), "")
            seen = browser.value("['question', 'asked'].reduce((all, it) => all.replace(document.getElementById(it).innerText, ''), document.body.innerText)")
            trial.expect(f"exercise {number} answers itself: {seen}", not re.search("alarm [0-9]|Alarm [0-9]|110[0-9]|120[0-9]", seen))
            trial.expect(f"exercise {number} has raw marks", not re.search("[`*]", browser.text("question")))
    try_chart(browser, trial)
    exercise(browser, 6)
    told = browser.value("document.getElementById('question').innerText + document.getElementById('asked').innerText")
    trial.expect(f"the question of 6: {told}", told.count("[[phase]]") == 4)
    trial.expect("an exercise's alarms are gone to", browser.value("['alarm-next', 'to-alarm'].every((it) => document.getElementById(it).disabled)"))
    open_text(browser, "# It takes `sets = 8`, *not* 7.\nscript = [\"tick\"]\n")
    told = texts(browser, "#account li"), texts(browser, "#account code"), texts(browser, "#account em")
    trial.expect(f"what a document says: {told}", told == ("It takes sets = 8, not 7.|1 request follows, with no alarm.", "sets = 8", "not"))


# How many points of the chart aren't of the ground, from one part of its width to another: in the lanes alone.
DRAWN_IN = """((from, to) => {
  const canvas = document.getElementById('lanes-chart'), pen = canvas.getContext('2d');
  const { data } = pen.getImageData(from * canvas.width, 0.1 * canvas.height, (to - from) * canvas.width, 0.5 * canvas.height);
  let count = 0;
  for (let k = 0; k < data.length; k += 4) count += data[k + 3] > 0 && Math.max(data[k], data[k + 1], data[k + 2]) - Math.min(data[k], data[k + 1], data[k + 2]) > 40;
  return count;
})"""


def try_chart(browser, trial):
    """An exercise stands beside its chart, which has what was served so far, and nothing of what comes."""
    exercise(browser, 1)
    beside = browser.value("(() => { const [chart, question] = ['chart-box', 'question'].map((it) => document.getElementById(it).getBoundingClientRect());"
                           " return chart.width > 0 && chart.right <= question.left && question.top < chart.bottom; })()")
    trial.expect("the question isn't beside the chart", beside)
    for row in range(7):
        trial.expect(f"request {row}: nothing is drawn of it", row == 0 or browser.value(f"{DRAWN_IN}(0.1, 0.55) > 100"))
        trial.same(f"request {row}: what comes after it", browser.value(f"{DRAWN_IN}({0.2 + 0.066 * row}, 1)"), 0)
        browser.press("ArrowRight")
    told = browser.text("summary")
    trial.expect(f"what is told of the chart: {told}", told.startswith("Over 7 requests: at most 4 of 7 core sets"))
    browser.click("show-answer")
    trial.expect("the whole run isn't drawn", browser.wait(f"{DRAWN_IN}(0.8, 1) > 100"))


def try_editing(browser, trial):
    """The editor has an exercise without its question, which stays above it, until another document is opened."""
    open_text(browser, "script = []\n")
    exercise(browser, 4)
    question = texts(browser, "#question p")
    browser.click("change-exercise")
    text = browser.value("document.getElementById('edit-text').value")
    trial.expect(f"the editor has {text[:60]}", text.startswith("script = [\n") and "#" not in text)
    trial.same("the focus in the editor", browser.value("[document.activeElement.id, document.activeElement.selectionStart].join()"), "edit-text,0")
    edit_text(browser, text.replace('"end",\n', '"end", "end", "end",\n', 3))
    browser.press("Escape")
    told = texts(browser, "#question p"), browser.text("title"), "You have changed this exercise." in browser.text("question")
    trial.expect(f"the exercise, changed: {told}", told == (question, "How many ends are missing?", True))
    browser.click("exercise-again")
    told = texts(browser, "#asked pre"), saved(browser)[1]
    script = re.sub(r'[",]', "", re.sub(r"(?m)^script = \[\n|^\]", "", text)).split()
    trial.expect(f"the exercise again: {told}", told[0].replace(",", "").split() == script and told[1].endswith("#exercise-4"))
    browser.click("open")
    trial.expect("the question isn't kept", browser.value("document.getElementById('keep-question').checked"))
    browser.click("keep-question")
    browser.click("open-pasted")
    trial.expect("a question that isn't kept", browser.value("document.getElementById('question').hidden"))
