"""A browser without a window, by its protocol."""
import base64
import json
import os
import subprocess
import time

BROWSERS = "chromium", "chromium-browser", "google-chrome"
KEYS = {"ArrowRight": 39, "ArrowLeft": 37, "ArrowUp": 38, "ArrowDown": 40, "Home": 36, "End": 35,
        "Enter": 13, "Escape": 27, "Tab": 9}
PHONE, LAPTOP, PROJECTOR, WIDE = (390, 844), (1280, 900), (1920, 1080), (2560, 1440)
SIZES = PHONE, LAPTOP, PROJECTOR, WIDE

# How many seconds one waits at most for what comes at once on a quiet machine: a loaded one may be far slower.
PATIENCE = 60


def wait(holds):
    """Waits until this holds, and says whether it came to."""
    begun = time.monotonic()
    while not holds():
        if time.monotonic() - begun > PATIENCE:
            return False
        time.sleep(0.02)
    return True


# What the page shows.
SHOWN = """({
  sentence: document.getElementById('sentence').textContent,
  sets: Array.from(document.getElementById('sets').children, (it) => it.innerText),
  wide: document.documentElement.scrollWidth, broken: window.broken || [], images: document.images.length
})"""

# Heard from the beginning: what the policy refuses, and what goes wrong.
HEARD = """window.broken = [];
document.addEventListener('securitypolicyviolation', function (e) {
  window.broken.push('policy: ' + e.violatedDirective + ' ' + e.blockedURI); });
window.addEventListener('unhandledrejection', function (e) {
  window.broken.push('rejection: ' + e.reason); });
window.addEventListener('error', function (e) { window.broken.push('error: ' + (e.error?.stack ?? e.message)); });"""


class Browser:
    """A browser, by its protocol over two pipes: each message is JSON, and ends with a zero byte."""

    def __init__(self, command, folder):
        down, self.into = os.pipe()
        self.out, up = os.pipe()
        words = [command, "--headless", "--disable-gpu", "--disable-dev-shm-usage",
                 "--no-first-run", "--hide-scrollbars", "--remote-debugging-pipe",
                 f"--user-data-dir={folder}", "about:blank"]
        if os.geteuid() == 0:
            words.insert(1, "--no-sandbox")

        def join_pipes():
            # aside first, since one may already be 3 or 4
            down_too, up_too = os.dup(down), os.dup(up)
            os.dup2(down_too, 3)
            os.dup2(up_too, 4)
        self.process = subprocess.Popen(words, stdin=subprocess.DEVNULL, stdout=subprocess.DEVNULL,
                                        stderr=subprocess.DEVNULL, close_fds=False,
                                        preexec_fn=join_pipes)
        os.close(down)
        os.close(up)
        self.rest, self.number, self.session, self.events = b"", 0, None, []
        self.session = self.tab()

    def tab(self):
        """A new tab, by its session: the calls go to the session that is set."""
        before, self.session = self.session, None
        target = self.call("Target.createTarget", url="about:blank")["targetId"]
        made = self.session = self.call("Target.attachToTarget", targetId=target, flatten=True)["sessionId"]
        for domain in "Page", "Runtime", "Network":
            self.call(f"{domain}.enable")
        self.call("Page.addScriptToEvaluateOnNewDocument", source=HEARD)
        self.session = before
        return made

    def read(self):
        while b"\0" not in self.rest:
            piece = os.read(self.out, 1 << 20)
            if not piece:
                raise EOFError("the browser ended")
            self.rest += piece
        message, self.rest = self.rest.split(b"\0", 1)
        return json.loads(message)

    def call(self, method, **words):
        self.number += 1
        message = {"id": self.number, "method": method, "params": words}
        if self.session:
            message["sessionId"] = self.session
        data = json.dumps(message).encode() + b"\0"
        while data:
            data = data[os.write(self.into, data):]
        while True:
            got = self.read()
            if got.get("id") == self.number:
                if "error" in got:
                    raise OSError(f"{method}: {got['error']}")
                return got["result"]
            self.events.append(got)

    def open(self, path, mark=""):
        self.events.clear()
        self.call("Page.navigate", url="about:blank")
        self.call("Page.navigate", url=f"file://{path}{mark}")
        while self.value("document.readyState") != "complete":
            time.sleep(0.01)

    def show(self, path, mark=""):
        """Opens a page of the workbench, and waits until its script has run."""
        self.open(path, mark)
        if not self.wait("document.documentElement.dataset.ready === 'yes' && document.getElementById('chart-box').dataset.filling !== 'yes'"):
            raise OSError(f"the page isn't ready: {self.value('window.broken')}")

    def value(self, text, is_awaited=False):
        got = self.call("Runtime.evaluate", expression=text, returnByValue=True, awaitPromise=is_awaited)
        if "exceptionDetails" in got:
            raise OSError(f"{text[:200]}: {got['exceptionDetails'].get('exception', {}).get('description')}")
        return got["result"].get("value")

    def wait(self, text):
        """Waits until this holds on the page, and says whether it came to."""
        return wait(lambda: self.value(text))

    def shown(self):
        return self.value(SHOWN)

    def click(self, name):
        """Clicks on an element, which may not be there yet where a page has just been opened."""
        self.wait(f"document.getElementById({json.dumps(name)}) !== null")
        self.value(f"document.getElementById({json.dumps(name)}).click()")

    def text(self, name):
        return self.value(f"document.getElementById({json.dumps(name)}).textContent")

    def write(self, text):
        """Types a text where the focus is."""
        self.call("Input.insertText", text=text)

    def scheme(self, name, is_calm=False, media=""):
        """Light or dark, with or without motion, on a screen or on paper ("print")."""
        wanted = [{"name": "prefers-color-scheme", "value": name},
                  {"name": "prefers-reduced-motion", "value": "reduce" if is_calm else "no-preference"}]
        self.call("Emulation.setEmulatedMedia", media=media, features=wanted)

    def address(self, mark):
        """Whether the address comes to end so."""
        return wait(lambda: self.value("location.hash") == mark)

    def press(self, key, shift=False):
        words = {"key": key, "modifiers": 8 if shift else 0}
        if key in KEYS:
            words.update(code=key, windowsVirtualKeyCode=KEYS[key])
            if key == "Enter":
                words.update(text="\r")
        else:
            words.update(text=key)
        self.call("Input.dispatchKeyEvent", type="keyDown", **words)
        self.call("Input.dispatchKeyEvent", type="keyUp", key=key)

    def width(self, width, height):
        self.call("Emulation.setDeviceMetricsOverride", width=width, height=height,
                  deviceScaleFactor=1, mobile=width < 600)

    def picture(self, path):
        got = self.call("Page.captureScreenshot", format="png")
        with open(path, "wb") as file:
            file.write(base64.b64decode(got["data"]))

    def loaded(self):
        """The addresses that were asked for."""
        return [got["params"]["request"]["url"] for got in self.events
                if got["method"] == "Network.requestWillBeSent"]

    def end(self):
        self.session = None
        try:
            self.call("Browser.close")
        except (OSError, EOFError):
            self.process.kill()
        self.process.wait()
