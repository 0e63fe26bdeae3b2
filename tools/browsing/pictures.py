"""Pictures of the page."""
import struct
import tempfile
import zlib

import repository
from browsing.browser import BROWSERS, Browser, LAPTOP, PHONE
from browsing.pages import TOP, save

# The example that docs/ shows, at this request, and the pictures.
SHOWN_EXAMPLE, SHOWN_REQUEST = "jobs-faster-than-they-end", "#20"
DOCS = {"docs/page.png": LAPTOP, "docs/page-phone.png": PHONE}


def with_text(png, key, text):
    """The picture with a text in it, behind its first chunk, of 25 bytes after the 8 that begin it."""
    chunk = b"tEXt" + key + b"\0" + text
    chunk = struct.pack(">I", len(chunk) - 4) + chunk + struct.pack(">I", zlib.crc32(chunk))
    return png[:33] + chunk + png[33:]


def docs(command):
    """Takes the pictures in docs/ anew."""
    if command is None:
        print("browse: no browser is found: " + ", ".join(BROWSERS))
        return 1
    example = f"examples/{SHOWN_EXAMPLE}.toml"
    shown = f"{example} {repository.checksum_of_workbench(example)}".encode()
    with tempfile.TemporaryDirectory(prefix="browse-") as folder:
        browser = Browser(command, f"{folder}/user")
        try:
            path = save(folder, "shown", repository.page_of(repository.text_of(f"{TOP}/{example}")))
            for name, size in DOCS.items():
                browser.width(*size)
                browser.show(path, SHOWN_REQUEST)
                browser.picture(f"{TOP}/{name}")
                with open(f"{TOP}/{name}", "rb+") as file:
                    png = file.read()
                    file.seek(0)
                    file.write(with_text(png, b"Page", shown))
                    file.truncate()
                print(f"browse: {name} shows {example}{SHOWN_REQUEST}")
        finally:
            browser.end()
    return 0
