"""Documents are opened and saved."""
import base64
import random
import time
import tomllib

from browsing.browser import wait
from browsing.opened import NAMED
from browsing.pages import follow_link, open_text, run_serial, saved, saved_here, says, table, texts


def try_saving(browser, trial):
    browser.press("s")
    text, link = saved_here(browser)
    ran = run_serial(text)
    trial.expect(f"the bench that is saved: {text} {ran.stderr}", ran.returncode == 0)
    follow_link(browser, link)
    says(browser, trial, "by a link", "The beginning")
    browser.press("End")
    says(browser, trial, "by a link", "list 7 04000 00005. Reply: listed.")


def try_files(browser, trial):
    """What is opened and saved: titles, the document that is open, an empty bench, links, names that a bench doesn't take, what is
    handed out as a file."""
    document = '# It takes 1.5 seconds. More.\nkey = "rouse 02000"\nradar = ["rouse 02000", "rouse 02100"]\n' + table(
        "worker", script=["tick"]) + table("device", line="radar", pulses=2)
    open_text(browser, document)
    trial.expect(browser.text("title"), browser.text("title") == "It takes 1.5 seconds.")
    trial.expect(f"who asks: {texts(browser, '#lines tr:not([aria-hidden]) td:nth-child(9)')}", texts(browser, "#lines tr:not([aria-hidden]) td:nth-child(9)").startswith("|worker 1|device 1, radar|device 1, radar"))
    trial.same("it saves", tomllib.loads(saved(browser)[0]), {"key": "rouse 02000", "radar": ["rouse 02000", "rouse 02100"],
                                                 "script": ["tick", *2 * ["rouse 02000", "rouse 02100"]]})
    follow_link(browser)
    browser.click("open")
    trial.same("by its link", browser.value("document.getElementById('pasted').value"), document)
    browser.click("open-empty")
    trial.expect(browser.text("title"), browser.text("title") == "an empty bench" and saved(browser)[0] == "")
    at_once = browser.value("(() => { const [save, dialog, close] = ['save', 'dialog', 'close'].map((it) => document.getElementById(it));"
                            " save.click(); const { open } = dialog; close.click(); return open; })()")
    time.sleep(0.3)
    trial.expect("Save waits for its link, and its dialog comes up though it was closed",
                 at_once and not browser.value("document.getElementById('dialog').open"))
    open_text(browser, NAMED)
    ran = run_serial(saved(browser)[0])
    trial.expect(f"what is saved of names: {ran.stderr}", ran.returncode == 0)
    browser.value("HTMLAnchorElement.prototype.click = function () { window.handed.push(this.download); };"
                  " URL.createObjectURL = (blob) => { window.handed = [blob]; return '#'; }")
    for text, name, wanted in ("Save the bench", "bench.toml", '",\n    "tick", "tick"'), ("Save the scenario", "scenario.toml", "seconds = 1\n"):
        browser.click("save")
        browser.value(f"Array.from(document.querySelectorAll('#dialog-body button')).find((it) => it.textContent === '{text}').click()")
        handed = browser.value("window.handed[0].text().then((it) => [window.handed[1], it])", is_awaited=True)
        trial.expect(f"{text}: {handed}", handed[0] == name and wanted in handed[1])
        browser.press("Escape")


def try_examples(browser, trial):
    """Examples are told by topic in words of their own, and exercises by their question; what a link carries that can't be opened is said,
    and so is that a document is too long for one."""
    browser.click("examples")
    told = texts(browser, "[aria-label='Other tables that fill up'] li")
    trial.expect(f"an example is told: {told}", told.startswith("A key pressed too often: alarm 1201Each press begins a job with a VAC area, a larger work area, "
                 "and there are only five.|"))
    told = texts(browser, ".choices .about")
    trial.expect("an example is told by a file or a command", not any(it in told for it in ("`", ".toml", "agc_watch")))
    browser.click("to-exercises")
    top = browser.value("document.querySelector('[aria-label=Exercises]').getBoundingClientRect().top")
    trial.expect(f"the exercises are at {top}", 0 < top < 500)
    browser.value("document.querySelector('.choices button').click()")
    wait(lambda: saved(browser)[1].endswith("#landing-1202"))
    trial.expect(saved(browser)[1], saved(browser)[1].endswith("#landing-1202"))
    browser.click("examples")
    browser.value("document.querySelector('[aria-label=Exercises] button').click()")
    found = texts(browser, "#question p"), texts(browser, "#asked pre"), texts(browser, "#try button")
    trial.expect(f"an exercise: {found}", found[0] == "Count core sets and VAC areas in use while you read down the script. Which request is one too many, "
                 "and which alarm does it raise?" and found[1].startswith("findvac 20 02000 00005\n") and not found[2])
    browser.click("show-answer")
    trial.expect("the button for the answer stays", browser.value("document.getElementById('show-answer') === null"))
    noise = base64.b64encode(random.Random(3).randbytes(9000)).decode()
    open_text(browser, f"# {noise}\n")
    trial.expect("a link that is too long", saved(browser)[1] == "")
