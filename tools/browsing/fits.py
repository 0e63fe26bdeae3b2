"""Whether all that is shown can be read: nothing is cut or shines through, at four sizes."""
from browsing.access import CONTRAST
from browsing.browser import LAPTOP, PHONE
from browsing.pages import DRAWN, Trial, edit_text, page_of, save, set_slider, texts, type_line

TABLET = 768, 1024
FOUR = (1400, 900), (1920, 1080), TABLET, PHONE

# What scrolls sideways, and texts that are cut: a name of a slider, a button, a heading, a paragraph.
CUT = """(() => {
  const faults = [];
  if (document.documentElement.scrollWidth > innerWidth) faults.push(`${document.documentElement.scrollWidth} points wide`);
  for (const it of document.querySelectorAll('button, p, h1, h2, #sliders span, #sliders output, .boxes b, .boxes span, #axis, .dsky span')) {
    if (it.getClientRects().length === 0 || it.closest('.hidden')) continue;
    const style = getComputedStyle(it);
    const isCut = style.overflowX !== 'visible' && it.scrollWidth > it.clientWidth + 1 && it.id !== 'sentence';
    const isLow = style.overflowY === 'hidden' && it.clientHeight > 0 && it.scrollHeight > it.clientHeight + 2;
    if (isCut || isLow) faults.push(`cut: ${it.id} ${it.textContent.slice(0, 40)}`);
    const isFolded = innerWidth > 640 && it.matches('.sets span:not(.hidden)') && it.clientHeight > 1.9 * parseFloat(style.fontSize);
    if (isFolded) faults.push(`in two lines: ${it.textContent}`);
    const box = it.getBoundingClientRect();
    if (box.right > innerWidth + 1 && !it.closest('.wide, .try')) faults.push(`beyond the edge: ${it.id} ${it.textContent.slice(0, 40)}`);
  }
  const over = (one, other) => one && other && one.getClientRects().length > 0 && other.getClientRects().length > 0
    && (([a, b]) => a.left < b.right - 1 && b.left < a.right - 1 && a.top < b.bottom - 1 && b.top < a.bottom - 1)([one, other].map((it) => it.getBoundingClientRect()));
  for (const it of document.querySelectorAll('#sliders label')) if (over(it.children[1], it.children[2])) faults.push(`over its slider: ${it.textContent}`);
  const sentence = document.getElementById('sentence');
  if (sentence.scrollWidth > sentence.clientWidth) faults.push(`cut: ${sentence.textContent}`);
  return faults;
})()"""

# The bar's ground; and what of the bar is in view once the page is scrolled.
GROUND = "getComputedStyle(document.querySelector('.bar')).backgroundColor"


def at_alarm(browser, path):
    browser.show(path, "#landing-1202")
    browser.press("a")


def compared(browser, path):
    at_alarm(browser, path)
    set_slider(browser, 0)


def fault_in_document(browser, path):
    browser.show(path, "#landing-1202")
    browser.click("edit")
    text = browser.value("document.getElementById('edit-text').value")
    edit_text(browser, text.replace("\nseconds =", "\nsecnds =", 1))


def touched(browser, path):
    at_alarm(browser, path)
    browser.value("document.querySelector('#sets .cover').click()")


def asked(browser, path):
    browser.show(path, "#new")
    for line in ("findvac 30 02100 00005", "novac 20 02000 00005", "list 10 02000 00005", "change", "sleep 02100"):
        type_line(browser, line)
    browser.press("Escape")


def asked_later(browser, path):
    at_alarm(browser, path)
    type_line(browser, "restart")
    browser.press("Escape")


VIEWS = {
    "opening": lambda browser, path: browser.show(path),
    "alarm": at_alarm,
    "compared": compared,
    "document": fault_in_document,
    "touched": touched,
    "flown": lambda browser, path: (browser.show(path, "#apollo-11"), browser.press("a")),
    "titled": lambda browser, path: browser.show(path, "#race"),
    "periods": lambda browser, path: browser.show(path, "#exercise-12"),
    "exercise": lambda browser, path: browser.show(path, "#exercise-1"),
    "embedded": lambda browser, path: browser.show(path, "#landing-1202&at=3128&embed"),
    "asked": asked,
    "asked later": asked_later,
    "damaged": lambda browser, path: browser.show(path, "#landing-1202&what=5"),
    "save": lambda browser, path: (browser.show(path, "#landing-1202"), browser.click("save")),
    "examples": lambda browser, path: (browser.show(path, "#new"), browser.click("examples")),
    "help": lambda browser, path: (browser.show(path, "#new"), browser.click("help")),
}


def fits(browser, folder):
    """In each view, at four sizes, no text is cut, nothing scrolls sideways, and the bar that stays in view hides what scrolls
    below it; in light and dark all has its contrast. At an alarm it is seen at once why, and the PROG light is lit."""
    trial = Trial("fits")
    path = save(folder, "fits", page_of(""))
    browser.show(path)
    browser.value("localStorage.clear(); sessionStorage.clear()")
    for name, come in VIEWS.items():
        browser.width(*LAPTOP)
        come(browser, path)
        for size in FOUR:
            browser.width(*size)
            for fault in browser.value(f"{DRAWN}.then(() => {CUT})", True):
                trial.expect(f"{name} at {size}: {fault}", False)
            ground = browser.value(GROUND)
            trial.expect(f"{name} at {size}: the bar has {ground}", "rgba" not in ground)
        for scheme in "dark", "light":
            browser.scheme(scheme)
            for fault in browser.value(f"{DRAWN}.then(() => {CONTRAST})", True):
                trial.expect(f"{name}, {scheme}: contrast {fault}", False)
    try_why(browser, trial, path)
    try_typing(browser, trial, path)
    try_projector(browser, trial, path)
    browser.width(1920, 1080)
    browser.show(path, "#landing-1202&at=3128")
    left = browser.value("innerWidth - Math.max(...Array.from(document.querySelectorAll('#rows th, #lines td'), (it) => it.getBoundingClientRect().right))")
    trial.expect(f"the list of a landing at 1920 points: {left} are left", left >= 0)
    browser.width(*LAPTOP)
    trial.expect(f"{browser.shown()['broken']}", not browser.shown()["broken"])
    return trial.faults


# Whether the account's heading is between the bar and the window's end.
SEEN = """(() => { const box = document.getElementById('told-name').getBoundingClientRect();
  const bar = document.querySelector('.bar').getBoundingClientRect();
  return box.top >= bar.bottom - 1 && box.bottom <= innerHeight; })()"""


def try_why(browser, trial, path):
    """At an alarm it is seen at once why: the sentence, and below it who holds what."""
    for size in (1400, 900), TABLET, PHONE:
        browser.width(*size)
        browser.show(path, "#landing-1202")
        browser.press("a")
        trial.expect(f"the account isn't seen at {size}", browser.value(SEEN))
        told = texts(browser, "#because, #account li:nth-child(-n+9)").split("|")
        trial.expect(f"first is told: {told}", told[:2] == ["One more job, display, asks for a core set, and all seven are taken. Each SERVICER needs 1.7 s, but gets only 1.5 s of every two. So old ones "
                     "are still alive when new ones come: five at once.",
                     "A job is in each core set. These hold them:"] and told[2].startswith("set 0: job 3, ") and told[8].startswith("set 6: job 4, ")
                     and told[9] == "Since the beginning 48 jobs began and 41 ended, and the computer was idle 0 % of the time. "
                     "There was hardly any time to end more. Job 3 ran.")
        trial.same("at the alarm", browser.value("document.getElementById('dsky').getAttribute('aria-label')"), "DSKY: program alarm light on, VERB 05 NOUN 09 shows 01202 00000 01202")


# How large the texts are that the chart paints from now on, and those that are seen beside it; and what is seen of the page.
HEAR = """window.painted = []; (() => { const { fillText } = CanvasRenderingContext2D.prototype;
  CanvasRenderingContext2D.prototype.fillText = function (...words) {
    window.painted.push(parseFloat(/([0-9.]+)px/.exec(this.font)[1])); fillText.apply(this, words); }; })()"""
LARGE = """(() => {
  const seen = Array.from(document.querySelectorAll('#told *, #state, #title, #run')).filter((it) => it.getClientRects().length > 0 && it.textContent !== '');
  return [Math.min(...window.painted), Math.min(...seen.map((it) => parseFloat(getComputedStyle(it).fontSize))),
    Array.from(document.querySelectorAll('.card, .state, .list, .menu, #sliders input, .strip')).filter((it) => it.getClientRects().length > 0).map((it) => it.id || it.ariaLabel.split(',')[0]).join(),
    document.getElementById('try').getBoundingClientRect().bottom <= document.getElementById('story').getBoundingClientRect().bottom,
    document.documentElement.scrollHeight <= innerHeight];
})()"""


# Whether an element is seen.
SHOWN = "((id) => document.getElementById(id).getClientRects().length > 0)"


def try_projector(browser, trial, path):
    """P leaves chart, card and the table of jobs, to be read from the last row: texts of 18 points at least at 1920 x 1080, and all on one screen."""
    browser.width(1920, 1080)
    for mark in "#landing-1202", "#apollo-11", "#still-too-late":
        browser.show(path, mark)
        browser.value(HEAR)
        browser.press("a")
        browser.value("window.painted.length = 0")
        browser.press("P")
        painted, seen, cards, is_whole, is_one = browser.value(f"{DRAWN}.then(() => {LARGE})", True)
        trial.expect(f"{mark} for a projector: texts of {painted} and {seen} points; {cards}; {is_whole}, {is_one}",
                     min(painted, seen) >= 18 and cards.startswith("story,clock,Stolen time,When the first alarm comes,")
                     and cards.endswith(" priority,chart-box,player,jobs-box") and is_whole and is_one)
        trial.expect("no way out is seen", browser.value(f"{SHOWN}('projector')") and browser.text("projector") == "P or Esc: back")
        if mark == "#still-too-late":
            trial.same("the table's heads", texts(browser, "#jobs-box th:not(:nth-child(8))"), "job|missed|priority|every|needs|deadline|utilization|least|mean|greatest|at most")
            trial.expect("the table isn't seen", browser.value(f'{SHOWN}("jobs") && document.querySelector("#jobs td:nth-child(9)").checkVisibility()'))
        browser.press("Escape" if mark == "#apollo-11" else "P")
        trial.expect("the projector stays", browser.value(f"{SHOWN}('examples') && !{SHOWN}('projector')"))
    browser.show(path, "#exercise-3")
    browser.press("P")
    trial.expect("an exercise without its question and chart", browser.value(f"{SHOWN}('question') && {SHOWN}('chart-box') && !{SHOWN}('line')"))


# How far the request line is below the bar, and above the window's end.
LINE = """(() => { const box = document.getElementById('line').getBoundingClientRect();
  return [box.top - document.querySelector('.bar').getBoundingClientRect().bottom, innerHeight - box.bottom]; })()"""


def try_typing(browser, trial, path):
    """Who types one request after the other sees what is typed, also where the chart comes in, and the bar grows."""
    for size in FOUR:
        browser.width(*size)
        browser.show(path, "#new")
        for line in "novac 20 04000 00005", "findvac 30 04100 00005", "change":
            type_line(browser, line)
            above, below = browser.value(f"{DRAWN}.then(() => {LINE})", True)
            trial.expect(f"the request line at {size}, after {line}: {above}, {below}", above >= 0 and below > 20)
