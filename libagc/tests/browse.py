"""Runs libagc/js in Chromium, without a window: a tenth of the random requests and benches, what is worked out by hand, and
the speed.

    browse.py LINES WANTED ..

Each file of lines is as caller.py describes them, and has to write what the file behind it has; a file of benches is cut
to its first tenth. The modules come from a server of this process, at an
address of this machine. Where no browser is found, it says that nothing was tried. Fails where something differs.
"""

import functools
import http.server
import importlib.machinery
import importlib.util
import json
import os
import shutil
import subprocess
import sys
import tempfile
import threading

sys.dont_write_bytecode = True
HERE = os.path.dirname(os.path.realpath(__file__))
TOP = os.path.realpath(f"{HERE}/../..")
PART = 10
MOST_NANOSECONDS = 1000


def tools_browse():
    """tools/browse as a module, which knows a browser's protocol."""
    sys.path.insert(0, f"{TOP}/tools")
    loader = importlib.machinery.SourceFileLoader("browse", f"{TOP}/tools/browse")
    module = importlib.util.module_from_spec(importlib.util.spec_from_loader("browse", loader))
    loader.exec_module(module)
    return module


class Files(http.server.SimpleHTTPRequestHandler):
    """Files of libagc/, and an empty page. In the folder /absent/ are those of js/ without the module agc.wasm."""

    extensions_map = {".js": "text/javascript", ".mjs": "text/javascript", ".wasm": "application/wasm", "": "text/html"}

    def do_GET(self):
        if self.path.startswith("/absent/") and not self.path.endswith(".wasm"):
            self.path = self.path.replace("absent", "js")
        if self.path != "/":
            super().do_GET()
            return
        self.send_response(200)
        self.send_header("Content-Type", "text/html")
        self.end_headers()
        self.wfile.write(b"<!doctype html><title>libagc</title>")

    def log_message(self, *_):
        pass


# What is written of these lines, and how long a call takes.
RUN = """(async () => {
  const agc = await import('/js/agc.js');
  const { written } = await import('/tests/caller.mjs');
  let said = '';
  await import('/absent/agc.js').catch((fault) => { said = String(fault); });
  if (!said.includes("agc.wasm can't be fetched: status 404")) throw new Error(`no module, and it says ${said}`);
  const given = %s;
  const machine = new agc.Machine({ sets: 8 });
  let best = Infinity;
  for (let turn = 0; turn < 10; turn++) {
    const began = performance.now();
    for (let k = 0; k < 50000; k++) machine.ask('findvac', 0o30, 0o2100, 5);
    best = Math.min(best, performance.now() - began);
  }
  return { texts: given.map((it) => written(agc, it)), nanoseconds: (best * 1e6) / 50000 };
})()"""


def lines_of(path):
    with open(path, encoding="ascii") as file:
        return file.read().splitlines()


def front_of(lines, wanted):
    """The first tenth of benches, and what is wanted of them: each ends with the three counts of its report."""
    begins = [k for k, it in enumerate(lines) if it.startswith("bench ")]
    if len(begins) < PART:
        return lines, wanted
    ends = [k for k, it in enumerate(wanted) if it.startswith("RESTARTS ")]
    count = len(begins) // PART
    return lines[: begins[count]], wanted[: ends[count - 1] + 1]


def ask(command, given):
    """Runs all that in a browser. Returns the texts, and how long a call takes."""
    browse = tools_browse()
    files = functools.partial(Files, directory=f"{HERE}/..")
    with http.server.ThreadingHTTPServer(("127.0.0.1", 0), files) as server, tempfile.TemporaryDirectory() as folder:
        threading.Thread(target=server.serve_forever, daemon=True).start()
        browser = browse.Browser(command, folder)
        try:
            browser.call("Page.navigate", url=f"http://127.0.0.1:{server.server_port}/")
            while browser.value("document.title") != "libagc":
                pass
            got = browser.call("Runtime.evaluate", expression=RUN % json.dumps(given), awaitPromise=True, returnByValue=True)
        finally:
            browser.process.terminate()
            browser.process.wait()
            server.shutdown()
    if "exceptionDetails" in got:
        raise OSError(json.dumps(got["exceptionDetails"])[:1000])
    return got["result"]["value"]


def main():
    files = [*map(lines_of, sys.argv[1:])]
    command = next(filter(None, map(shutil.which, tools_browse().BROWSERS)), None)
    if command is None:
        print("libagc: no browser, so JavaScript is tried in node alone")
        return 0
    pairs = [front_of(*it) for it in zip(files[::2], files[1::2])]
    found = ask(command, [lines for lines, _ in pairs])
    failed = [k for k, ((_, wanted), text) in enumerate(zip(pairs, found["texts"])) if text.splitlines() != wanted]
    if failed:
        print(f"browse.py: Chromium writes something else: {failed}")
        return 1
    if found["nanoseconds"] > MOST_NANOSECONDS:
        print(f"libagc: in Chromium a call takes {found['nanoseconds']:.0f} ns, and should take {MOST_NANOSECONDS}")
    return 0


sys.exit(main())
