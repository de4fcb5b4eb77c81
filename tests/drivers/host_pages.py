#!/usr/bin/env python3
"""Prints what a browser shows of a node under different names.

host_pages.py ADDR HOST..

Opens the home page of the node at ADDR, 127.0.0.1 and a port, under the name of each host, which has to lead to
127.0.0.1, such as one below `localhost`. Prints the name, the language and the title of the page."""
import sys

from browser import Browser


def main():
    port = sys.argv[1].rpartition(":")[2]
    browser = Browser(800)
    try:
        for host in sys.argv[2:]:
            browser.asked("POST", "/url", {"url": f"http://{host}:{port}/"})
            language, title = browser.script("return [document.documentElement.lang, document.title]")
            print(f"{host}: {language}: {title}")
    finally:
        browser.asked("DELETE", "")
        browser.driver.kill()
        browser.driver.wait()


if __name__ == "__main__":
    main()
