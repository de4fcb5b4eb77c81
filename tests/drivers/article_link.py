#!/usr/bin/env python3
"""Follows the link to an article in a browser.

article_link.py ADDR PORT QUERY

Opens the answer of a node to an OpenURL, clicks the button of its first card, and prints the requests that a server at
PORT gets. For /redirect the server redirects to the parameter `to`, decoded, as the redirectors of proxies do."""
import http.server
import sys
import threading
import time
import urllib.parse

from browser import Browser


class Handler(http.server.BaseHTTPRequestHandler):
    def do_GET(self):
        parts = urllib.parse.urlsplit(self.path)
        target = urllib.parse.parse_qs(parts.query).get("to")
        if parts.path == "/favicon.ico":
            self.send_error(404)
            return
        self.server.lines.append(f"GET {self.path}")
        if parts.path == "/redirect" and target:
            self.send_response(302)
            self.send_header("Location", target[0])
            self.end_headers()
            return
        self.send_response(200)
        self.send_header("Content-Type", "text/plain")
        self.end_headers()
        self.wfile.write(b"the article\n")
        self.server.is_there.set()

    def log_message(self, *words):
        pass


def main():
    addr, port, query = sys.argv[1:4]
    server = http.server.ThreadingHTTPServer(("127.0.0.1", int(port)), Handler)
    server.lines, server.is_there = [], threading.Event()
    threading.Thread(target=server.serve_forever, daemon=True).start()
    browser = Browser(1200)
    try:
        browser.asked("POST", "/url", {"url": f"http://{addr}/resolve?{query}"})
        button = browser.found(".go")[0]
        print("button:", browser.text(button).split("\n")[0])
        browser.click(button)
        server.is_there.wait(60)
        time.sleep(0.2)
    finally:
        browser.end()
    print(*server.lines, sep="\n")


if __name__ == "__main__":
    main()
