#!/usr/bin/env python3
"""Fills in the form of a node that redirects to a sole hit, in a browser, and prints where the reader arrives.

redirected_form.py ADDR SITE DATE..

Prints a line for each DATE: whether the browser is at the node or at SITE, the path there, and the page's title."""
import sys
import time

from browser import Browser


def arrive(browser, addr, site, date):
    browser.asked("POST", "/url", {"url": f"http://{addr}/"})
    for name, text in (("rft.issn", "2434-561X"), ("rft.date", date)):
        browser.write(browser.found(f"input[name='{name}']")[0], text)
    browser.script("window.isLeft = false")
    browser.click(browser.found("form [type=submit]")[0])
    for _ in range(100):
        if browser.is_at("return window.isLeft === undefined && document.readyState === 'complete'"):
            break
        time.sleep(0.05)
    at = browser.asked("GET", "/url").replace(f"http://{addr}", "node ").replace(f"http://{site}", "site ")
    print(at.split("?")[0], "-", browser.asked("GET", "/title"))


def main():
    addr, site, *dates = sys.argv[1:]
    browser = Browser(1_000)
    try:
        for date in dates:
            arrive(browser, addr, site, date)
    finally:
        browser.end()


if __name__ == "__main__":
    main()
