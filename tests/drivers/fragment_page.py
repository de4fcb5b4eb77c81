#!/usr/bin/env python3
"""Shows fragments of a node in a page of another site, in a browser, and prints what a reader sees there.

fragment_page.py ADDR SCRIPT OPENURL..

Serves a catalogue's page with an element for each OpenURL, and the script of samples/discovery beside it. The page has
a style and a form of its own, which have to stay as they are."""
import html
import http.server
import pathlib
import sys
import threading
import time

from browser import Browser

PAGE = """<!DOCTYPE html>
<html lang="en"><head><meta charset="utf-8"><title>Catalogue</title>
<style>a {{ color: rgb(1, 2, 3) }}</style></head>
<body><form id="own"></form>{elements}
<script src="fulltext.js" data-resolver="http://{addr}/resolve"></script></body></html>
"""
SHOWN = """
const parts = [...document.querySelectorAll("[data-openurl]")];
return parts.map((it) => [...it.querySelectorAll("p, .more, a")].map((part) =>
  part.href ? `${part.innerText} -> ${part.href}` : part.querySelector("a") ? "" : part.innerText).filter((it) => it));
"""
STATE = """
const inside = document.querySelectorAll("[data-openurl] *");
const color = getComputedStyle(document.querySelector("[data-openurl] a")).color;
return `scripts ${document.scripts.length}, forms ${document.forms.length}, styles ${document.styleSheets.length}, ` +
  `ids ${[...inside].filter((it) => it.id).length}, links ${color}, ` +
  `language ${document.querySelector(".kbfeed").lang}, title ${document.title}`;
"""


def serve(page, script):
    """Serves the page and the script of a catalogue, and returns the port."""
    class Handler(http.server.BaseHTTPRequestHandler):
        def do_GET(self):
            is_script = self.path == "/fulltext.js"
            self.send_response(200)
            self.send_header("Content-Type", "text/javascript" if is_script else "text/html; charset=utf-8")
            self.end_headers()
            self.wfile.write(script if is_script else page)

        def log_message(self, *words):
            pass

    server = http.server.ThreadingHTTPServer(("127.0.0.1", 0), Handler)
    threading.Thread(target=server.serve_forever, daemon=True).start()
    return server.server_address[1]


def main():
    addr, script, *openurls = sys.argv[1:]
    elements = "".join(f'<div data-openurl="{html.escape(it)}"></div>' for it in openurls)
    port = serve(PAGE.format(elements=elements, addr=addr).encode(), pathlib.Path(script).read_bytes())
    browser = Browser(1_000)
    try:
        browser.asked("POST", "/url", {"url": f"http://127.0.0.1:{port}/"})
        until = time.monotonic() + 20
        while len(browser.found(".kbfeed")) < len(openurls) and time.monotonic() < until:
            time.sleep(0.05)
        for openurl, lines in zip(openurls, browser.script(SHOWN)):
            print(openurl)
            for line in lines:
                print("  " + " ".join(line.split()))
        print(browser.script(STATE))
    finally:
        browser.end()


if __name__ == "__main__":
    main()
