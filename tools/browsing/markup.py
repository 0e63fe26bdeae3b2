"""Documents and links that try to break out of the page."""
import re

from browsing.chance import play
from browsing.pages import Trial, drop_text, go_to, mark_of, open_text, page_of, save, says, table, type_line


def try_links(browser, trial, folder, text):
    """Links carry documents and nothing else."""
    path = save(folder, "links", page_of(""))
    browser.show(path, mark_of(f"# {text}\nscript = [\"tick\"]\n".encode()))
    trial.expect(f"by a link: {browser.text('title')}", text in browser.text("title"))
    browser.press("End")
    says(browser, trial, "by a link", "Request 1 of 1")
    for mark in ("#bench=AAAA", "#bench=%3Cb%3E", mark_of(b"#" * 50_000_000), "#bench=javascript:alert(1)", "#<img src=x onerror=alert(1)>",
                 "#99999999999", "#constructor", mark_of(b"\xff\xfe"), mark_of(text.encode()), "#__proto__", "#module",
                 mark_of(f"title = \"\u202e</script>{text}\"\nseconds = 1\n".encode()), "#data:text/html,<script>document.title='broken'</script>"):
        browser.show(path, mark)
        shown = browser.shown()
        trial.expect(f"{mark[:40]}: {shown['broken']} {shown['sentence']}", not shown["broken"]
                     and shown["images"] == 0 and re.match("The beginning|The part of the link after #", shown["sentence"]))
        trial.expect(f"{mark[:40]}: a script ran", browser.value("!document.title.startsWith('broken')"))


def try_fields(browser, trial, text):
    """What is typed into fields is text: requests, where to go, bytes of a file."""
    open_text(browser, "seconds = 1\n" + table("job", at="04000", cost=1) + table("event", at=0, do="novac 20 04000 00005"))
    for typed in text, "\u202enovac 20 04000 00005", "tick\u0000", "9" * 190:
        type_line(browser, typed)
        trial.expect(f"typed: {browser.text('hint')}", "unknown" in browser.text("hint"))
        browser.value("document.getElementById('line').value = ''; document.activeElement.blur()")
        go_to(browser, typed)
        trial.expect(f"gone to: {browser.text('sentence')}", browser.text("sentence").startswith(
            "Request 102 of 102" if typed.startswith("9") else "Type the number of a request"))
    trial.same("as a file is dragged", browser.value("""(() => { const data = new DataTransfer(); const { body } = document; const found = [];
      data.items.add(new File([new Uint8Array([0xff, 0, 0x3c])], '<b>\u202e.toml'));
      for (const it of ['dragover', 'dragleave', 'dragover', 'drop']) {
        body.dispatchEvent(new DragEvent(it, { dataTransfer: data }));
        found.push(body.className);
      }
      return found.join(); })()"""), "drop,,drop,")
    browser.wait("document.getElementById('fault') !== null")
    trial.same("a file of bytes", browser.value("document.getElementById('fault')?.textContent"), "This can't be opened. line 1: the document isn't text")
    browser.press("Escape")


def markup(browser, folder):
    """Documents that say markup are text, also where a link carries them, and a page with another script
    doesn't run it. What is no document behind `#` is said, and does nothing."""
    trial = Trial("markup")
    text = "<img src=x onerror=document.title='broken'><b>"
    bench = f"# </script>{text}\\n\nscript = [\"tick\"] # <!-- <script>\n"
    page = page_of(bench)
    trial.expect("a bench's text is in its page", text not in page)
    browser.show(save(folder, "markup", page))
    shown = browser.shown()
    trial.expect(f"it shows {browser.text('title')}", text in browser.text("title"))
    trial.expect("there is an image", shown["images"] == 0)
    trial.expect(f"it breaks: {shown['broken']}", not shown["broken"])
    trial.expect("the script ran", browser.value("document.title.startsWith('broken')") is False)
    for wrong in (text, f"script = [\"{text}\"]", "seconds = 1\n[[job]]\nat = \"02000\"\ncost = 1\n"
                  f"name = \"{text}\"\n"):
        open_text(browser, wrong)
        trial.expect(f"{wrong}: an image", browser.shown()["images"] == 0)
    try_fields(browser, trial, text)
    try_links(browser, trial, folder, text)
    broken = page.replace("</script>\n</body>",
                          "</script><script>document.title='broken'</script>\n</body>")
    browser.show(save(folder, "script", broken))
    trial.expect("another script ran", browser.value("document.title") != "broken")
    trial.expect("the policy says nothing", "policy" in str(browser.shown()["broken"]))
    return trial.faults


# Documents that aim at the page: how each begins, what is repeated after that, how often, and what is said of it; nothing
# where it is opened.
HOSTILE = (
    ("", "#", 10_000_000, "the document has more than 1048576 bytes"),
    ("limit = ", "{ a = ", 100_000, "arrays nested so deep aren't known here"),
    ("limit = ", "9", 1_000_000, "a number has more than 64 bits"),
    ("\0", "", 0, "a key is expected"),
    ("script = [\"tick\u202e\"]", "", 0, "its first word is unknown"),
    ("</script><script>document.title = 'broken'</script>", "", 0, "a key is expected"),
    ("# </script><script>document.title = 'broken'</script>\n", "", 0, ""),
    ("seconds = 1\ntitle = \"\u202e</script>\"\n[[job]]\nat = \"04000\"\ncost = 1\nname = \"\u2067x\"\n"
     "[[event]]\nat = 0\nname = \"\u202ey\"\ndo = \"novac 20 04000 00005\"\n", "", 0, ""),
    ("__proto__ = 1", "", 0, 'unknown key "__proto__"'),
    ("", "\n[[device]]\nline = \"timer\"\npulses = 1_000_000", 32, "It asks for 32,000,000 requests; this page takes at most"),
)


def hostile(browser, folder):
    """Documents that aim at the page (10 MB, 100,000 deep, zero bytes, marks that turn a text's direction, markup,
    names of what the language has, requests without end) are opened, or are told in a sentence what they
    lack; a page goes on afterwards. Then random keys, clicks, sliders and documents."""
    trial = Trial("hostile")
    browser.show(save(folder, "hostile", page_of("")), "#new")
    for text, more, times, wanted in HOSTILE:
        said = drop_text(browser, text, more, times)
        told = f"{text[:40]!r} and {more!r}, {times} times"
        trial.expect(f"{told}: {said}", said.endswith("." if wanted.startswith("It") else "") and wanted in said
                     if wanted else not said)
        trial.expect(f"{told}: a script ran", browser.value("document.title") != "broken")
        trial.expect(f"{told}: {browser.shown()['broken']}", not browser.shown()["broken"])
        turned = browser.value(r"/[\u061c\u200e\u200f\u202a-\u202e\u2066-\u2069]/.test(document.body.innerText)")
        trial.expect(f"{told}: a text's direction is turned", not turned)
    play(browser, trial)
    return trial.faults
