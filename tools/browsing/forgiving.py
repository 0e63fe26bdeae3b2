"""What is typed nearly right, scripts, and the document beside its run."""
import json
import subprocess

from browsing.browser import LAPTOP
from browsing.pages import PROGRAM, Trial, edit_text, exercise, filled, open_text, page_of, save, says, texts, type_line


def paste(browser, text):
    browser.value("(() => { const data = new DataTransfer(); data.setData('text/plain', TEXT); document.getElementById('line')"
                  ".dispatchEvent(new ClipboardEvent('paste', { clipboardData: data, cancelable: true })); })()".replace("TEXT", repr(text)))


# Fills the fields of a new job, and adds it.
ADD = """(() => { const fields = [...document.querySelectorAll('#build-fields :is(input, select)')];
  GIVEN.forEach((it, k) => { if (typeof it === 'boolean') fields[k].checked = it; else fields[k].value = it; });
  document.getElementById('build-add').click(); })()"""


def try_building(browser, trial):
    """New has a form for jobs without an octal number; it writes a scenario, which agc_watch takes, beside its run. A wrong number is told."""
    browser.click("new")
    browser.value(ADD.replace("GIVEN", json.dumps(["guidance", "0", "1.7", "20", "2", True])))
    trial.expect(f"a wrong period: {browser.text('build-fault')}", browser.text("build-fault") == "every: a number, 0.01 to 162.5 (seconds)")
    browser.value(ADD.replace("GIVEN", json.dumps(["novac 20 02000 00005", "2"])))
    found = browser.value("['#build-fields input', '#line'].map((it) => document.querySelector(it).value)")
    trial.same("a request for a name", (found, "is a request" in browser.text("build-fault")), (["", "novac 20 02000 00005"], True))
    browser.value("document.getElementById('line').value = ''")
    trial.expect("no choice of an area is seen", "takes a VAC area" in browser.value("document.getElementById('build').innerText"))
    places = []
    for given in ["guidance", "2", "1.7", "20", "2", True], ['a "quoted" one', "1", "0.4", "30", "", False]:
        browser.value(ADD.replace("GIVEN", json.dumps(given)))
        filled(browser)
        places.append(browser.value("['build', 'sliders', 'edit-box'].map((it) => document.getElementById(it).getBoundingClientRect().top)"))
    trial.expect(f"what is in use moves, or the document isn't below it: {places}", places[0][:2] == places[1][:2] and places[1][2] > places[1][1])
    browser.wait("!document.getElementById('jobs-box').hidden")
    trial.expect(browser.text("jobs-sum"), browser.text("jobs-sum").startswith('Jobs, over all 60 s: guidance 85 % + a "quoted" one 40 % = 125 %; '))
    document = browser.value("document.getElementById('edit-text').value")
    ran = subprocess.run([PROGRAM, "check"], input=document, capture_output=True, text=True, check=False)
    trial.expect(f"check: {ran.stdout} {document}", ran.returncode == 0 and "findvac 20 04000" in document and "deadline = 200" in document)
    browser.value("document.querySelector('#built button').click()")
    filled(browser)
    trial.expect("a job that is removed", "guidance" not in browser.value("document.getElementById('edit-text').value"))
    browser.value("document.querySelector('#built button').click()")
    trial.expect("no job is left", browser.text("title") == "An empty bench" and not browser.value("document.getElementById('build').hidden"))
    browser.click("edit-close")


def forgiving(browser, folder):
    """Capitals, spaces and numbers without their zeros are taken, and told; pasted lines and scripts are asked; a fault of a document
    is marked in its line beside the run."""
    trial = Trial("forgiving")
    browser.width(*LAPTOP)
    browser.show(save(folder, "forgiving", page_of("")), "#new")
    type_line(browser, "NOVAC 20 2000 5")
    browser.press("Escape")
    says(browser, trial, "capitals, and no zeros", ": novac 20 02000 00005. Reply: ")
    trial.expect(f"forgiven: {browser.text('hint')}", "02000 and 00005 are meant" in browser.text("hint"))
    type_line(browser, "novca 20 02000 00005")
    trial.expect(browser.text("hint"), 'did you mean "novac"?' in browser.text("hint"))
    browser.value("document.getElementById('line').value = ''")
    paste(browser, "tick\nend\n\nTICK\n")
    says(browser, trial, "pasted lines", "Request 4 of 4")
    paste(browser, "tick\nendd\n")
    trial.expect(f"a wrong line: {browser.text('hint')}", "line 2" in browser.text("hint") and 'did you mean "end"?' in browser.text("hint"))
    says(browser, trial, "a wrong line", "Request 4 of 4")
    type_line(browser, "tick; novac 20 4000 5")
    says(browser, trial, "two in one line", "Request 6 of 6, at 0.03 s: novac 20 04000 00005.")
    trial.expect(f"in one line: {browser.text('hint')}", browser.text("hint") == "2 lines were asked." and browser.value("document.getElementById('line').value") == "")
    open_text(browser, "novac 20 04000 00005\nend # a comment\nchange\n")
    browser.click("last")
    says(browser, trial, "a script", "Request 3 of 3, at 0.00 s: change.")
    fault = open_text(browser, "tick\ntick\nnovac 20\n")
    trial.expect(f"a script with a fault: {fault}", "line 3" in (fault or ""))
    exercise(browser, 1)
    text = browser.value("document.querySelector('#asked pre').textContent")
    browser.click("change-exercise")
    lines = text.split("\n")
    lines[2] = lines[2].replace("findvac", "finvac", 1) if "findvac" in lines[2] else lines[2].replace('"', '"x', 1)
    edit_text(browser, "\n".join(lines))
    told = browser.text("edit-fault"), texts(browser, "#edit-lines .wrong")
    trial.expect(f"a typo in line 3: {told}", told[0].startswith("line 3: ") and "3" in told[1])
    trial.expect("the run is gone", browser.text("question") != "")
    edit_text(browser, text.replace('"', '"', 1) + "\n# more\n")
    trial.expect(f"mended: {browser.text('edit-fault')}", browser.text("edit-fault") == "" and texts(browser, "#edit-lines .wrong") == "")
    edit_text(browser, "tick\nchange\n")
    found = browser.value("document.getElementById('edit-text').value"), browser.text("edit-fault"), browser.value("document.getElementById('slider').max")
    trial.expect(f"a script beside its run: {found}", found == ("tick\nchange\n", "", "2"))
    browser.click("edit-close")
    try_building(browser, trial)
    browser.value("Array.from(document.querySelectorAll('#common button')).find((it) => it.textContent.startsWith('findvac')).click()")
    browser.press("Enter")
    trial.expect("Enter in a form's first field does nothing", not browser.value("document.getElementById('dialog').open"))
    trial.expect(f"{browser.shown()['broken']}", not browser.shown()["broken"])
    return trial.faults
