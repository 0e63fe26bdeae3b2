"""Nothing is lost: the address says what is shown."""
from browsing.browser import LAPTOP
from browsing.opened import TIGHT
from browsing.pages import Trial, go_to, open_text, page_of, save, set_slider, steady, texts, type_line, wait_for

ROW = "document.getElementById('sentence').textContent"
STATE = """[document.getElementById('sentence').textContent, document.getElementById('summary').textContent,
  document.getElementById('differs').textContent, document.getElementById('chart-box').dataset.seen].join('; ')"""


def settled(browser):
    """The address, when it has been the same for a while."""
    return steady(browser, "location.hash", 16)


def again(browser):
    """As F5 does."""
    browser.value("window.before = true")
    browser.call("Page.reload")
    browser.wait("window.before !== true && document.documentElement?.dataset.ready === 'yes'")


def kept(browser, folder):
    """F5, Back, Forward and a copied address bring back document, changes, row and zoom, and an exercise with its question. A link that is damaged, cut, or names no exercise says so. Embedded, chart, tables and why stand alone."""
    trial = Trial("kept")
    browser.width(*LAPTOP)
    path = save(folder, "kept", page_of(""))
    browser.show(path, "#landing-1202")
    browser.press("x")
    set_slider(browser, 5)
    go_to(browser, "20 s")
    type_line(browser, "rouse 06000")
    browser.press("Escape")
    mark, before = settled(browser), browser.value(STATE)
    trial.expect(f"the address: {mark}", mark.startswith("#landing-1202&do=") and "&at=" in mark and "&see=" in mark)
    again(browser)
    trial.expect(f"F5: {browser.value(STATE)}, not {before}", browser.value(STATE) == before)
    browser.show(path, mark)
    trial.expect(f"a copied address: {browser.value(STATE)}", browser.value(STATE) == before)
    settled(browser)
    trial.expect("undo of another visit", browser.value("document.getElementById('undo').disabled"))
    browser.show(path, "#exercise-3")
    settled(browser)
    browser.click("show-answer")
    go_to(browser, "3")
    mark, question = settled(browser), browser.text("question")
    trial.expect(f"an exercise: {mark}", mark == "#exercise-3&shown&at=3")
    go_to(browser, "1")
    trial.expect(f"its first request: {settled(browser)}", settled(browser) == "#exercise-3&shown&at=1")
    go_to(browser, "3")
    settled(browser)
    browser.click("examples")
    browser.value("Array.from(document.querySelectorAll('.choices button')).find((it) => it.textContent.startsWith('When does the first')).click()")
    trial.expect("another document", settled(browser) == "#landing")
    browser.value("history.back()")
    wait_for(browser, "Request 3 of")
    trial.expect(f"Back: {browser.value(ROW)}", browser.text("question") == question and "Request 3 of" in browser.value(ROW))
    browser.value("history.forward()")
    wait_for(browser, "The beginning")
    trial.expect(f"Forward: {browser.text('title')}", browser.text("title").startswith("A landing: a radar"))
    try_sharing(browser, trial, path)
    try_links(browser, trial, path)
    browser.show(path, "#landing-1202&at=3128&embed")
    trial.same("embedded", browser.value("['lanes-chart', 'sets', 'told', 'open', 'line', 'slider', 'rows'].filter((it) =>"
                         " document.getElementById(it).getClientRects().length > 0).join()"), "lanes-chart,sets,told")
    trial.expect(f"embedded: {browser.value(ROW)}", "alarm 1202" in browser.value(ROW))
    trial.expect(f"{browser.shown()['broken']}", not browser.shown()["broken"])
    return trial.faults


def shared(browser):
    """The link and the frame that Share has."""
    browser.click("share")
    browser.wait("!!document.getElementById('share-link')?.value")
    found = browser.value("['share-link', 'share-frame'].map((it) => document.getElementById(it).value)")
    browser.press("Escape")
    return found


def try_sharing(browser, trial, path):
    """A shared link brings back row, part, what was done, and the run before; a link to a row of a long run shows what is around it; a
    frame has chart and story alone."""
    browser.show(path, "#landing-1202&at=3128")
    trial.same("around a step", browser.value("document.getElementById('chart-box').dataset.seen"), "1950-3400")
    open_text(browser, TIGHT)
    set_slider(browser, 0)
    looks = "[document.getElementById('outcome').textContent, document.getElementById('sentence').textContent," \
            " document.getElementById('chart-box').dataset.seen].join('|')"
    before = browser.value(looks)
    trial.expect(before, "Before: " in before and "alarm" in before and "Now: no alarm" in before)
    link, frame = shared(browser)
    trial.expect(f"{link} {frame}", link.endswith("&was=0") and frame.startswith('<iframe src="file:') and "&amp;embed" in frame)
    browser.show(path, link[link.index("#"):])
    trial.expect(f"{browser.value(looks)}, and not {before}", browser.value(looks) == before)


def try_links(browser, trial, path):
    for mark, wanted in (("#exercise-99", "There is no example or exercise named “exercise-99”."),
                         ("#bench=abc", "can't be read (its document is damaged or cut)"),
                         ("#landing&do=xyz", "can't be read (what was done can't be read: it may be cut)"),
                         ("#landing&at=99999999", "The link names request 99999999, and this run has 6"),
                         ("#landing&at=q", "can't be read (\"at=q\" has no meaning here)")):
        browser.show(path, mark)
        trial.expect(f"{mark}: {texts(browser, '#note')}", wanted in texts(browser, "#note"))
        trial.expect(f"{mark} is blank", browser.value("document.getElementById('sets').children.length") == 7)
