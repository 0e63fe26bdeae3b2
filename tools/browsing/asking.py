"""Requests are asked: typed, completed, and by forms."""
from browsing.opened import NAMED
from browsing.pages import go_to, open_text, says, type_line


def try_typing(browser, trial):
    type_line(browser, "tock")
    trial.expect(f"a wrong line: {browser.text('hint')}", 'did you mean "tick"?' in browser.text("hint"))
    browser.value("document.getElementById('line').value = ''")
    browser.value("document.getElementById('line').focus()")
    browser.press("f")
    trial.expect("nothing is offered", browser.value("document.getElementById('offers').children.length") == 2)
    browser.press("ArrowDown")
    browser.press("Enter")
    trial.expect("it isn't completed", browser.value("document.getElementById('line').value") == "findvac ")
    browser.write("30 02100 00005")
    browser.press("Escape")
    browser.value("document.getElementById('line').focus()")
    browser.press("Enter")
    says(browser, trial, "typed", "Request 1 of 1, at 0.00 s: findvac 30 02100 00005. Reply: job 1.")
    browser.press("ArrowUp")
    trial.expect("no history", browser.value("document.getElementById('line').value")
                 == "findvac 30 02100 00005")
    browser.press("Enter")
    says(browser, trial, "asked again", "Request 2 of 2")
    browser.press("Escape")


def try_undo(browser, trial):
    """A request in the middle takes the place of what followed, which undo brings back."""
    browser.press("ArrowLeft")
    browser.press("i")
    browser.write("end")
    browser.press("Escape")
    browser.value("document.getElementById('line').focus()")
    browser.press("Enter")
    browser.press("Escape")
    says(browser, trial, "gone on", "Request 2 of 2, at 0.00 s: end. Reply: left idle.")
    browser.press("u")
    browser.press("r")
    says(browser, trial, "done again", "Reply: left idle.")
    browser.press("u")
    says(browser, trial, "undone", "Request 1 of 2, at 0.00 s: findvac 30 02100 00005")


def try_form(browser, trial):
    browser.value("Array.from(document.querySelectorAll('#common button'))"
                  ".find((it) => it.textContent.startsWith('list')).focus()")
    browser.press("Enter")
    trial.expect("no form is open", browser.value("document.getElementById('dialog').open"))
    browser.value("document.querySelector('#dialog [name=D]').value = '0'")
    browser.press("Enter")
    trial.expect("a wrong delay", "a delay is decimal" in browser.text("dialog-body"))
    browser.value("document.querySelector('#dialog [name=D]').value = '7'")
    browser.press("Enter")
    says(browser, trial, "by a form", "list 7 04000 00005. Reply: listed.")


def type_in(browser, text):
    """Types a line anew, and asks nothing."""
    browser.value("document.getElementById('line').value = ''; document.getElementById('line').focus()")
    browser.write(text)


def try_offers(browser, trial):
    """What is offered is chosen by keys and clicks; the lines that were asked come again."""
    open_text(browser, NAMED)
    go_to(browser, "5")
    type_in(browser, "re")
    for key, wanted in ("ArrowDown", "restart"), ("ArrowUp", "restart"), ("ArrowUp", "restart"):
        browser.press(key)
        trial.same(f"the choice by {key}", browser.value("document.querySelector('#offers [aria-selected=true]').textContent"), wanted)
    type_in(browser, "tock")
    for key, wanted in ("", "hint, false"), ("Enter", "hint wrong, false"), ("Tab", "hint wrong, false"):
        if key:
            browser.press(key)
        trial.same(f"after {key}", browser.value("`${document.getElementById('hint').className}, ${document.getElementById('line').ariaExpanded}`"), wanted)
    browser.value("document.activeElement.blur()")
    trial.expect("what is offered stays", browser.value("document.getElementById('offers').hidden"))
    type_in(browser, "s")
    for key, wanted in ("ArrowUp", "store"), ("ArrowDown", "sleep"), ("ArrowDown", "store"), ("ArrowDown", "sleep"), ("ArrowUp", "store"):
        browser.press(key)
        trial.same(f"the choice by {key}", browser.value("document.getElementById(document.getElementById('line').getAttribute('aria-activedescendant')).textContent"), wanted)
    browser.value("document.querySelector('#offers li').dispatchEvent(new Event('mousedown'))")
    trial.expect("an offer that is clicked", browser.value("document.getElementById('line').value") == "sleep ")
    type_in(browser, "")
    browser.press("Escape")
    open_text(browser, "")
    for line in "tick", "change", "end", "tick":
        type_line(browser, line)
    for key, wanted in (("ArrowUp", "tick"), ("ArrowUp", "end"), ("ArrowUp", "change"), ("ArrowUp", "change"), ("ArrowDown", "end"), ("ArrowDown", "tick"), ("ArrowDown", "")):
        browser.press(key)
        found = browser.value("document.getElementById('line').value")
        trial.expect(f"{found!r} by {key}, not {wanted!r}", found == wanted)
    browser.press("Escape")
    trial.expect("the line has the focus", browser.value("document.activeElement === document.body"))


def try_forms(browser, trial):
    """The buttons of the common requests: each form's fields, the line that comes of them, and the addresses that are offered."""
    open_text(browser, NAMED)
    go_to(browser, "5")
    for word, labels, line in (("findvac", "Priority Address Bank", "findvac 20 04000 00005"), ("list", "Centiseconds Address Bank", "list 100 04000 00005"),
                               ("prio", "Priority", "prio 20"), ("phase", "Group Phase", "phase 1 1")):
        browser.value(f"Array.from(document.querySelectorAll('#common button')).find((it) => it.textContent === '{word} …').click()")
        trial.same(f"the form of {word}", browser.value("Array.from(document.querySelectorAll('.fields:not(#build-fields) label'), (it) => it.firstChild.textContent).join(' ')"), labels)
        trial.same("lists of addresses", browser.value("Array.from(document.querySelectorAll('.fields [name=A]'), (it) => it.getAttribute('list')).join()"), "addresses" if "Address" in labels else "")
        offered = browser.value("Array.from(document.querySelectorAll('#addresses option'), (it) => `${it.value} ${it.label}`).join(', ')")
        trial.expect(f"addresses: {offered}", word != "findvac" or offered ==
                     "04100 job 2, 06000 job 1, asleep, 02000 ALPHA, 02100 BETA, 05000 WORK")
        browser.value("Array.from(document.querySelectorAll('.fields button')).at(-1).click()")
        trial.expect(f"{word}: {browser.text('sentence')}", f": {line}. Reply: " in browser.text("sentence"))
    for word in "tick", "change", "end", "restart", "fresh":
        browser.value(f"Array.from(document.querySelectorAll('#common button')).find((it) => it.textContent === '{word}').click()")
        says(browser, trial, f"the button {word}", f": {word}. Reply: ")
