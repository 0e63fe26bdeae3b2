"""How it looks: styles, and what is seen first at each size."""
import json
import os

from browsing.kept import settled
from browsing.pages import TOP, open_text, says, texts

# How some things look, and what they are called, beside what is said elsewhere.
LOOKS = """(() => {
  const style = (what, name, pseudo) => getComputedStyle(document.querySelector(what), pseudo)[name];
  const by = (id) => document.getElementById(id);
  return [style('.full', 'boxShadow').includes('6px'), style('tr.change td', 'content', '::after'), style('tr.refused td', 'textDecorationLine'),
    style('li.asleep', 'borderTopStyle'),
    ...['sentence', 'outcome', 'hint'].map((it) => `${by(it).role} ${by(it).ariaLive}`),
    ...Array.from(document.querySelectorAll('main ol, #account'), (it) => by(it.getAttribute('aria-labelledby')).textContent),
    ...Array.from(document.querySelectorAll('.bar button, .transport .steps:not(.zoom) button'), (it) => it.ariaLabel ?? it.innerText.replace(/[^A-Za-z]/g, '')),
    ...Array.from(document.querySelectorAll('#rows th'), (it) => it.textContent)].join(', ');
})()"""
LOOK = ('true, " Δ", line-through, dashed, status polite, status polite, status polite, Alarm 1202: why, Core sets: 7 of 7 in use, VAC areas: 0 of 5 in use, Waitlist: 0 of 9 in use, Phases, '
        "Alarm codes (FAILREG), Next job (NEWJOB), PorEscback, First, Back, Run, Next, Last, Nextalarm, Nextdeadlinemissed, "
        "no, time, request, reply, running, sets, areas, tasks, asked by")


def try_looks(browser, trial):
    """How an alarm, a change, a refusal, a sleeper and what is new look; names of lists, buttons and columns; what is said where there
    is no alarm."""
    trial.expect(browser.text("title"), browser.text("title") == "An empty bench")
    asked = ["novac 20 04000 00005", "sleep 04100", *7 * ["novac 20 04000 00005"], "tick"]
    open_text(browser, f"allowance = 9\nscript = {json.dumps(asked)}\n")
    browser.click("alarm-next")
    trial.same("it looks", browser.value(LOOKS), LOOK)
    browser.press("ArrowLeft")
    found = browser.value("(() => { const it = getComputedStyle(document.querySelector('#sets li.new'), '::after');"
                          " return `${it.content} ${it.borderTopWidth}`; })()")
    trial.expect(f"what is new has {found}", found.startswith('"" '))
    trial.same("the slider tells", browser.value("document.getElementById('slider').getAttribute('aria-valuetext')"), "request 8 of 10")
    browser.value("document.getElementById('slider').focus()")
    browser.press("a")
    says(browser, trial, "a key on the slider", "Request 9 of 10")
    browser.value("document.activeElement.blur()")


def try_tops(browser, trial):
    """An account leads to the table that was full, and begins at its top, as a dialog does; areas have the colours of their owners."""
    for text, part in ((8 * ["novac 20 04000 00005"], "sets"), (10 * ["list 5 02000 00005"], "tasks"), ([f"findvac 20 0400{k} 00005" for k in range(6)], "areas")):
        open_text(browser, f"script = {json.dumps(text)}\n")
        browser.click("alarm-next")
        trial.same("what is full", (browser.value("document.querySelector('.full').id"), browser.value("document.querySelector('#account a').getAttribute('href')")), (part, f"#{part}-name"))
        mark = settled(browser)
        browser.value("document.querySelector('#account a').click()")
        trial.expect("a link changes the address", browser.value("location.hash") == mark)
        browser.value("document.getElementById('account').scrollTop = 999; document.getElementById('next').click()")
        trial.expect("an account begins lower", browser.value("document.getElementById('account').scrollTop") == 0)
        browser.press("ArrowLeft")
    trial.same("areas", browser.value("Array.from(document.querySelectorAll('#areas li'), (it) => it.classList[0]).join(' ')"), "j1 s2 s3 s4 s5")
    browser.click("help")
    told = texts(browser, "#dialog-body p")
    trial.expect(f"the help of alarms: {told}", "the table is full: 1201 areas, 1202 core sets, 1203 the Waitlist." in told)
    told = browser.text("read-on")
    trial.expect(f"the help names {told}", all(it in told and os.path.isfile(f"{TOP}/{it}") for it in ("docs/LANDING.md", "docs/teaching/README.md")))
    trial.expect("a page that isn't in share/ has links", browser.value("document.querySelectorAll('#read-on a').length") == 0)
    browser.value("document.getElementById('dialog').scrollTop = 500")
    browser.press("Escape")
    browser.click("help")
    trial.expect("a dialog begins lower", browser.value("document.getElementById('dialog').scrollTop") == 0)
    browser.press("Escape")
