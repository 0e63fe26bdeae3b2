"""Keys, and what the help says."""
from browsing.opened import THREE_ALARMS
from browsing.pages import DRAWN, go_to, open_text

# Which control each key stands for, and how the help and the control itself say it.
KEYED = (("ArrowLeft", "back", "Row before (left arrow)"), ("ArrowRight", "next", "Next row (right arrow)"), ("Home", "first", "First row (Home)"),
         ("End", "last", "Last row (End)"), ("a", "alarm-next", "Next alarm (a)"), ("A", "alarm-back", "Alarm before (A)"),
         ("c", "change-next", "Next change (c)"), ("C", "change-back", "Change before (C)"), ("u", "undo", "Undo (u)"), ("r", "redo", "Redo (r)"),
         (" ", "run", "Run or pause (space)"), (".", "tick", "One centisecond (.)"), ("n", "event", "To the next event or change (n)"),
         ("o", "open", ""), ("e", "examples", ""), ("s", "save", ""), ("?", "help", ""),
         ("+", "closer", "Closer (+)"), ("f", "fit", "All of the run (f)"), ("-", "wider", "Wider (-)"),
         ("x", "to-alarm", "To the next alarm, closer (x)"), ("d", "edit", "The document, beside its run (d)"), ("b", "new", "An empty bench (b)"))
HELPED = ("← → the row before, the next row", "Home End the first row, the last", "a A the next alarm, the alarm before",
          "c C the next change, the change before", "g go to a request or a time", "i / type a request", "space run the clock, or pause",
          ". n a centisecond; to the next event", "u r undo, redo", "b o e new, open, examples", "d s edit, save", "+ - closer, wider",
          "[ ] move along the chart", "f x all of the chart; to an alarm",
          "P larger, for a projector: chart, story and table of jobs", "? this help")

def try_keys(browser, trial):
    """Each key presses the control that the help and the control name; none does in a field or a dialog."""
    open_text(browser, THREE_ALARMS)
    browser.value("""window.pressed = ''; document.querySelectorAll('button[id]').forEach((it) =>
      it.addEventListener('click', () => { window.pressed += ` ${it.id}`; }))""")
    go_to(browser, "10")
    for key, control, title in KEYED:
        browser.value("window.pressed = ''; document.getElementById('undo').disabled = document.getElementById('redo').disabled = false")
        browser.press(key)
        trial.expect(f"{key!r} presses{browser.value('window.pressed')}", browser.value("window.pressed") == f" {control}")
        trial.expect(f"the title of {control}", browser.value(f"document.getElementById('{control}').title") == title)
        if key == " ":
            browser.press(" ")
        browser.press("a")
        is_open = browser.value("document.getElementById('dialog').open")
        trial.expect(f"after {key}: {browser.value('window.pressed')}", is_open == (key in "oeps?") and (not is_open or
                     browser.value("window.pressed") == f" {control}"))
        helped = browser.value("Array.from(document.querySelectorAll('#dialog-body kbd'), (it) => it.closest('dt').textContent +"
                               " it.closest('dt').nextSibling.textContent).join('|')")
        trial.expect(f"the help says {helped}", key != "?" or list(dict.fromkeys(helped.split("|"))) == list(HELPED))
        browser.press("Escape")
        browser.value(DRAWN, True)
    browser.value("document.getElementById('line').value = ''")
    for key, field in ("g", "go"), ("i", "line"), ("/", "line"):
        browser.press(key)
        trial.same(f"{key} leads to", (browser.value("document.activeElement.id"), browser.value("document.activeElement.value")), (field, "10" if key == "g" else ""))
        browser.value("window.pressed = ''")
        browser.press("u")
        trial.expect(f"a key that is typed presses{browser.value('window.pressed')}", browser.value("window.pressed") == "")
        browser.value("document.activeElement.value = ''; document.activeElement.blur()")
