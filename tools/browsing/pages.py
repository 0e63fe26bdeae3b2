"""What the parts share: pages are written and opened, documents and lines typed, and what is shown is read."""
import base64
import json
import subprocess
import zlib

import repository
from browsing.browser import wait

TOP = repository.TOP
PROGRAM = f"{TOP}/crates/agc_watch/out/agc_watch"
SERIAL = f"{TOP}/crates/agc/out/agc"

class Trial:
    """What is wrong with a part."""

    def __init__(self, name):
        self.name, self.faults = name, []

    def expect(self, what, holds):
        if not holds:
            self.faults.append(f"{self.name}: {what}")
        return holds

    def same(self, what, found, wanted):
        return self.expect(f"{what}: {found}, not {wanted}", found == wanted)


def written(program, word, bench):
    """What a program writes of a bench."""
    return subprocess.run([program, word], input=bench, capture_output=True, text=True, timeout=120,
                          check=True).stdout


page_of = repository.page_of


def save(folder, name, page):
    path = f"{folder}/{name}.html"
    with open(path, "w", encoding="utf-8") as file:
        file.write(page)
    return path


def words_in(report):
    """The words of a report by their places, as far as it has them."""
    words = {}
    for line in report.splitlines():
        name, *rest = line.split()
        at = {"VAC": 84, "NEWJOB": 89, "TIME3": 90, "LST1": 91, "LST2": 99, "PHASE": 117,
              "FAILREG": 129}.get(name)
        if name == "SET":
            at, rest = 12 * int(rest[0]) if rest[0] != "7" else 132, rest[1:]
            if rest == ["FREE"]:
                words[at + 11] = "77777"
                continue
        if at is not None:
            words |= {at + k: it for k, it in enumerate(rest)}
    return words


# Two frames were drawn, or a second went by: until then keys may be lost, since all behind a dialog that has just
# been closed still takes none.
DRAWN = """Promise.race([
  new Promise((done) => { requestAnimationFrame(() => { requestAnimationFrame(done); }); }),
  new Promise((done) => { setTimeout(done, 1000); }),
])"""


# Whether something stays the same for a while, by the page's own timers, which come after what it has begun to do.
STEADY = """(async () => {
  const before = WHAT;
  for (let k = 0; k < TIMES; k++) {
    await new Promise((done) => { setTimeout(done, 50); });
    if (WHAT !== before) return false;
  }
  return true;
})()"""


def steady(browser, what, times):
    """Waits until this has been the same for so many twentieths of a second, and says what it is."""
    wait(lambda: browser.value(STEADY.replace("WHAT", what).replace("TIMES", str(times)), True))
    return browser.value(what)


def open_text(browser, text):
    """Opens a document by pasting it. What is said where it isn't one."""
    def is_open():
        browser.click("open")
        return browser.value("document.getElementById('pasted') !== null")

    wait(is_open)
    browser.value("document.getElementById('keep-question').checked = false")
    browser.value(f"document.getElementById('pasted').value = {json.dumps(text)}")
    browser.click("open-pasted")
    filled(browser)
    fault = browser.value("document.getElementById('dialog').open && "
                          "document.getElementById('open-fault').textContent")
    if fault:
        browser.click("close")
    browser.value(DRAWN, True)
    return fault


def drop_text(browser, text, more, times):
    """Opens a document, this text and more so many times, by dropping it on the page. What is said where it isn't
    opened."""
    browser.value("(() => { const data = new DataTransfer(); data.setData('text/plain', DROPPED);"
                  " document.body.dispatchEvent(new DragEvent('drop', { dataTransfer: data })); })()"
                  .replace("DROPPED", f"{json.dumps(text)} + {json.dumps(more)}.repeat({times})"))
    fault = browser.value("document.getElementById('dialog').open && document.getElementById('fault').textContent")
    if fault:
        browser.click("close")
    return fault


def table(kind, **values):
    """A table of a bench."""
    return f"[[{kind}]]\n" + "".join(f"{key} = {json.dumps(it)}\n" for key, it in values.items())


def type_line(browser, line):
    """Types a request, and asks it."""
    browser.value("document.getElementById('line').focus()")
    browser.write(line)
    browser.press("Escape")
    browser.value("document.getElementById('line').focus()")
    browser.press("Enter")


def wait_for(browser, text):
    """Waits until the sentence has this text."""
    wait(lambda: text in browser.text("sentence"))


def says(browser, trial, what, text):
    said = browser.text("sentence")
    trial.expect(f"{what}: {said}", text in said)


# Texts of some elements, one after the other.
TEXTS = "Array.from(document.querySelectorAll(WHAT), (it) => it.textContent.trim()).join('|')"


def texts(browser, what):
    return browser.value(TEXTS.replace("WHAT", json.dumps(what)))


def exercise(browser, number):
    """Opens an exercise by its link, by way of an empty bench, and waits until it is there, with its answer hidden."""
    asked = dict(repository.tool("teaching").workbench_texts())[f"exercise-{number}"].splitlines()[1].strip("# ").split("`")[0]
    shown = "document.getElementById('show-answer') !== null && document.querySelector('#question p').textContent" \
            f".replaceAll('*', '').startsWith({json.dumps(asked.replace('*', ''))})"
    browser.click("new")
    browser.address("#new")
    browser.value(f"location.hash = '#exercise-{number}'")
    if not browser.wait(shown):
        raise OSError(f"exercise {number} isn't there")


def set_slider(browser, value):
    """Moves the slider of stolen time, and waits until all of the run is there."""
    browser.value("(() => { const it = document.querySelector('#sliders input');"
                  f" it.value = '{value}'; it.dispatchEvent(new Event('change')); }})()")
    filled(browser)


def set_speed(browser, value):
    """Chooses how many times real time the clock runs."""
    browser.value(f"(() => {{ const it = document.getElementById('speed'); it.value = '{value}'; it.dispatchEvent(new Event('change')); }})()")


def filled(browser):
    """Waits until all of the run is there, which comes behind its first picture."""
    browser.wait("document.body.ariaBusy !== 'true' && document.getElementById('chart-box').dataset.filling !== 'yes'")


def edit_text(browser, text):
    """Types a document beside its run, and waits until it runs."""
    browser.value("(() => { const it = document.getElementById('edit-text');"
                  f" it.dataset.ran = 'no'; it.value = {json.dumps(text)}; it.dispatchEvent(new Event('input')); }})()")
    browser.wait("document.getElementById('edit-text').dataset.ran === 'yes'")


def go_to(browser, text):
    """Types where to go."""
    browser.value(f"for (const it of ['more', 'expert']) document.getElementById(it).open = true; document.getElementById('go').value = {json.dumps(text)}")
    browser.value("document.getElementById('go').focus()")
    browser.press("Enter")
    browser.value("document.activeElement.blur()")


def saved(browser):
    """The bench that can be saved, and its link."""
    browser.click("save")
    return saved_here(browser)


def saved_here(browser):
    """The bench in the dialog in which one is saved, and its link, which comes a moment later."""
    if not browser.wait("!!document.querySelector('#dialog[open] textarea[readonly]') && "
                        "document.querySelector('#dialog-body input[type=text]')?.value !== ''"):
        raise OSError("nothing is saved")
    found = browser.value("['textarea', 'input[type=text]'].map((it) => "
                          "document.querySelector(`#dialog-body ${it}`)?.value ?? '')")
    browser.press("Escape")
    return found


def open_words(browser):
    """Opens the words of the memory, and waits until they are there."""
    browser.value("(() => { if (document.getElementById('words-box').open) return;"
                  " document.getElementById('words-rows').replaceChildren(); document.getElementById('words-box').open = true; })()")
    browser.wait("document.getElementById('words-rows').children.length > 0")


def follow_link(browser, link=None):
    """Opens what this link carries, or the one that is saved: by way of an empty bench, where the address has it already."""
    link = link or saved(browser)[1]
    mark = link[link.index("#"):]
    for it in ["#new"] * (browser.value("location.hash") == mark) + [mark]:
        browser.value("document.getElementById('sentence').textContent = ''")
        browser.value(f"location.hash = {json.dumps(it)}")
        wait_for(browser, "The beginning")


def press_try(browser, text):
    """Presses a button below the account. Whether it is there."""
    return browser.value("(() => { const found = Array.from(document.querySelectorAll('#try button'))"
                         f".find((it) => it.textContent === {json.dumps(text)}); found?.click();"
                         " return !!found; })()")


def mark_of(text):
    """What stands behind `#` for a document."""
    packer = zlib.compressobj(9, zlib.DEFLATED, -15)
    return "#bench=" + base64.urlsafe_b64encode(packer.compress(text) + packer.flush()).decode().rstrip("=")


def run_serial(text):
    """What agc makes of a document."""
    return subprocess.run([SERIAL, "serial"], input=text.encode("utf-8", "surrogatepass"),
                          capture_output=True, check=False)
