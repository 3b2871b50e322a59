"""Looks at each page of a site in a browser: browse.py FOLDER [PAGE=WIDTH=PICTURE..]. The last line is 'N passed, M failed'.

A page passes if all that it links to on the site is there, it loads with no error, and it is no wider than a window of 400 pixels.
"""

import functools
import http.server
import os
import re
import sys
import threading
import time
import urllib.parse
from html.parser import HTMLParser

from selenium import webdriver

# What the search has to find, and the page that is among the first results.
SOUGHT = {
    "insert": "BPlusTreeMap.html",
    "range_argument": "BPlusTreeMap.html",
    "bptree_rank": "c.bptree.html",
    "rank_many": "BPlusTreeMap.html",
}
# The parts of a page that scroll, with how many pixels of each are out of sight. A block of code may scroll by itself.
OVERFLOW = """return [...document.querySelectorAll('html, body, .page, .main, .content')]
    .map(it => [it.tagName + '.' + it.className, it.scrollWidth - it.clientWidth]).filter(it => it[1] > 0)"""


class Page(HTMLParser):
    """The links of a page, and the names that links can lead to."""

    def __init__(self, path):
        super().__init__()
        self.links, self.names = [], set()
        with open(path, encoding="utf-8") as file:
            self.feed(file.read())

    def handle_starttag(self, tag, attributes):
        for name, value in attributes:
            if name == "id" or name == "name" and tag == "a":
                self.names.add(value)
            elif name in ("href", "src") and value and tag != "link":
                self.links.append(value)


def read_site(folder):
    for at, _, files in os.walk(folder):
        for file in files:
            if file.endswith(".html"):
                path = os.path.join(at, file)
                yield os.path.relpath(path, folder), Page(path)


def broken_links(folder, pages, name):
    for link in pages[name].links:
        address = urllib.parse.urlsplit(link)
        if address.scheme or address.netloc:
            continue
        target = os.path.normpath(os.path.join(os.path.dirname(name), urllib.parse.unquote(address.path))) if address.path else name
        fragment = urllib.parse.unquote(address.fragment)
        if not os.path.isfile(os.path.join(folder, target)):
            yield link
        elif fragment and target in pages and not target.startswith("rust" + os.sep) and fragment not in pages[target].names:
            yield link


class Handler(http.server.SimpleHTTPRequestHandler):
    protocol_version = "HTTP/1.1"
    missing = []

    def log_message(self, *_):
        pass

    def do_GET(self):
        if self.path == "/favicon.ico":
            # (each browser asks for it)
            self.send_response(204)
            self.end_headers()
        else:
            super().do_GET()

    def send_error(self, code, *rest):
        self.missing.append(f"{self.path} ({code})")
        super().send_error(code, *rest)


def browser():
    options = webdriver.ChromeOptions()
    for word in ("--headless=new", "--no-sandbox", "--disable-dev-shm-usage", "--disable-gpu"):
        options.add_argument(word)
    options.set_capability("goog:loggingPrefs", {"browser": "ALL"})
    return webdriver.Chrome(options=options)


def size(driver, width, height):
    driver.execute_cdp_cmd(
        "Emulation.setDeviceMetricsOverride", {"width": width, "height": height, "deviceScaleFactor": 1, "mobile": False}
    )


def look_at(driver, address):
    """Yields what is wrong with a page in the browser."""
    Handler.missing.clear()
    driver.get(address)
    for it, over in driver.execute_script(OVERFLOW):
        yield f"scrolls sideways in a window of 400 pixels: {it} is {over} pixels too wide"
    for it in driver.get_log("browser"):
        if it["level"] == "SEVERE":
            yield it["message"]
    for it in Handler.missing:
        yield f"asks for {it}"


def found_by(driver, base, word):
    """The pages that the search finds, the best ones first."""
    driver.get(f"{base}search.html?q={word}")
    for _ in range(100):
        # (the line that says how many pages were found comes last)
        text = driver.execute_script("return document.querySelector('#search-results').textContent")
        if re.search(r"finished, found|did not match", text):
            break
        time.sleep(0.1)
    links = driver.execute_script("return [...document.querySelectorAll('#search-results li a')].map(it => it.getAttribute('href'))")
    return [urllib.parse.urlsplit(it).path for it in links]


def look(folder, pictures=None):
    pages = dict(read_site(folder))
    passed, wrong = 0, []
    handler = functools.partial(Handler, directory=folder)
    server = http.server.ThreadingHTTPServer(("127.0.0.1", 0), handler)
    threading.Thread(target=server.serve_forever, daemon=True).start()
    base = f"http://127.0.0.1:{server.server_port}/"
    driver = browser()
    try:
        size(driver, 400, 800)
        for name in sorted(pages):
            if name.startswith("rust" + os.sep) and not name.startswith(os.path.join("rust", "sweep_bptree_proved")):
                # (what rustdoc makes beside the pages of the crate)
                continue
            here = [f"has a broken link to {link}" for link in sorted(set(broken_links(folder, pages, name)))]
            if not name.startswith("rust" + os.sep) or name.endswith("index.html"):
                here += look_at(driver, base + urllib.parse.quote(name))
            wrong += [f"{name} {it}" for it in here]
            passed += not here
        for word, page in SOUGHT.items():
            found = found_by(driver, base, word)
            if page in found[:10]:
                passed += 1
            else:
                wrong.append(f"the search for {word} finds {found[:10]} and not {page}")
        for name, width, file in pictures or ():
            size(driver, width, 1000)
            driver.get(base + name)
            driver.save_screenshot(file)
    finally:
        driver.quit()
        server.shutdown()
    for it in wrong:
        print(f"reference: {it}", file=sys.stderr)
    return passed, len(wrong)


if __name__ == "__main__":
    good, bad = look(sys.argv[1], [tuple([name, int(width), file]) for name, width, file in (it.split("=") for it in sys.argv[2:])])
    print(f"{good} passed, {bad} failed")
    sys.exit(1 if bad else 0)
