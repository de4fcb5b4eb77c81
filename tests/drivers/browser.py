#!/usr/bin/env python3
"""Acts as a reader in a browser, through chromedriver (WebDriver, W3C).

browser.py ADDR LINKED [--picture FILE WIDTH [SCHEME]]

Opens the page of a node, fills in the form, and follows the first link of the answer. Before that it sends the form
once more, as a POST, with a date that is none, and asks for a year that the list does not cover. Prints what the reader
sees, and what is wrong with the page in light and dark colours and in windows of four widths. LINKED is the address of
the linked page. FILE gets a picture of the answer in a window WIDTH pixels wide, in the colours of SCHEME."""
import base64
import json
import socket
import subprocess
import sys
import time
import urllib.error
import urllib.request

ELEMENT = "element-6066-11e4-a52e-4f735466cecf"


class Browser:
    def __init__(self, width):
        with socket.create_server(("127.0.0.1", 0)) as held:
            self.port = held.getsockname()[1]
        self.driver = subprocess.Popen(["chromedriver", f"--port={self.port}", "--silent"], stdout=subprocess.DEVNULL,
                                       stderr=subprocess.DEVNULL)
        words = ["--headless=new", "--no-sandbox", "--disable-gpu", "--no-proxy-server", f"--window-size={width},900"]
        wanted = {"capabilities": {"alwaysMatch": {"goog:chromeOptions": {"args": words}}}}
        self.session = ""
        for _ in range(100):
            try:
                self.session = "/" + self.asked("POST", "", wanted)["sessionId"]
                break
            except urllib.error.URLError:
                time.sleep(0.1)

    def asked(self, method, path, body=None):
        text = None if body is None else json.dumps(body).encode()
        request = urllib.request.Request(f"http://127.0.0.1:{self.port}/session{self.session}{path}", text,
                                         {"Content-Type": "application/json"}, method=method)
        with urllib.request.urlopen(request, timeout=120) as reply:
            return json.load(reply)["value"]

    def found(self, selector):
        value = {"using": "css selector", "value": selector}
        return [it[ELEMENT] for it in self.asked("POST", "/elements", value)]

    def text(self, element):
        return self.asked("GET", f"/element/{element}/text")

    def click(self, element):
        self.asked("POST", f"/element/{element}/click", {})

    def write(self, element, text):
        self.asked("POST", f"/element/{element}/value", {"text": text})

    def script(self, text):
        return self.asked("POST", "/execute/sync", {"script": text, "args": []})

    def is_at(self, text):
        """Returns what a script returns, or False while the browser changes from a page to the next one."""
        try:
            return self.script(text)
        except urllib.error.HTTPError:
            return False

    def command(self, name, **values):
        """Runs a command of the DevTools protocol."""
        return self.asked("POST", "/goog/cdp/execute", {"cmd": name, "params": values})

    def end(self):
        if self.session:
            self.asked("DELETE", "")
        self.driver.terminate()
        self.driver.wait()


# The least contrast of a text with what is behind it (WCAG 2.2, "contrast ratio").
CONTRAST = """
const channel = (v) => { v /= 255; return v <= 0.04045 ? v / 12.92 : ((v + 0.055) / 1.055) ** 2.4; };
const light = (c) => 0.2126 * channel(c[0]) + 0.7152 * channel(c[1]) + 0.0722 * channel(c[2]);
const parts = (text) => text.match(/[0-9.]+/g).map(Number);
const behind = (node) => {
  for (; node; node = node.parentElement) {
    const c = parts(getComputedStyle(node).backgroundColor);
    if (c.length < 4 || c[3] > 0) return c;
  }
  return matchMedia("(prefers-color-scheme: dark)").matches ? [18, 18, 18] : [255, 255, 255];
};
let least = 21;
for (const node of document.querySelectorAll("body *")) {
  if (![...node.childNodes].some((it) => it.nodeType === 3 && it.data.trim())) continue;
  const one = light(parts(getComputedStyle(node).color)), other = light(behind(node));
  least = Math.min(least, (Math.max(one, other) + 0.05) / (Math.min(one, other) + 0.05));
}
return least;
"""

# Whether each control shows that it has the focus.
FOCUS = """
return [...document.querySelectorAll("a, button, input:not([type=hidden])")].every((it) => {
  it.focus({focusVisible: true});
  return getComputedStyle(it).outlineStyle !== "none";
});
"""

SCROLLS = "return document.documentElement.scrollWidth > document.documentElement.clientWidth"
# The lines of each card, without what only a screen reader gets.
CARDS = """
const shown = (part) => [...part.childNodes].filter((it) => it.className !== "hidden").map((it) => it.textContent);
return [...document.querySelectorAll(".hits li")].map((card) =>
  [...card.children].map((part) => shown(part).join("").trim()).join(" | "));
"""


def resize(browser, width):
    browser.command("Emulation.setDeviceMetricsOverride",
                    width=width, height=900, deviceScaleFactor=1, mobile=False)


def names(browser, role):
    """Returns the names that a screen reader announces for the elements of a role."""
    nodes = browser.command("Accessibility.getFullAXTree")["nodes"]
    return [it.get("name", {}).get("value", "") for it in nodes
            if it.get("role", {}).get("value") == role and not it.get("ignored")]


def look(browser):
    """Prints what is wrong with the page for some readers: in light or dark colours, and in windows of some widths."""
    for scheme in ("light", "dark"):
        colours = {"name": "prefers-color-scheme", "value": scheme}
        browser.command("Emulation.setEmulatedMedia", features=[colours])
        print(f"{scheme}: contrast of 4.5:", browser.script(CONTRAST) >= 4.5, "focus:", browser.script(FOCUS))
    for width in (320, 390, 640, 1200):
        resize(browser, width)
        if browser.script(SCROLLS):
            print("scrolls sideways at", width)
    browser.command("Emulation.clearDeviceMetricsOverride")
    links, fields = names(browser, "link"), names(browser, "textbox")
    print("links with names of their own:", len(links) == len(set(links)) and all(links))
    print("fields:", ", ".join(fields))


def fill(browser, values):
    for field, text in values:
        element = browser.found(f"input[name='{field}']")[0]
        browser.asked("POST", f"/element/{element}/clear", {})
        browser.write(element, text)
    # The page of a form may have a citation too, so the wait ends once that page is left.
    browser.script("window.isLeft = false")
    browser.click(browser.found("form [type=submit]")[0])
    while not browser.is_at("return window.isLeft === undefined && document.readyState === 'complete'"):
        time.sleep(0.05)
    print("page:", browser.asked("GET", "/title"))
    print("cited:", "; ".join(browser.text(it) for it in browser.found("dd")))
    for note in browser.found(".note"):
        print("note:", browser.text(note))
    for card in browser.script(CARDS):
        print("card:", card)


def save(browser, path, width, scheme="light"):
    browser.command("Emulation.setEmulatedMedia", features=[{"name": "prefers-color-scheme", "value": scheme}])
    resize(browser, width)
    with open(path, "wb") as file:
        file.write(base64.b64decode(browser.asked("GET", "/screenshot")))


def main():
    address, linked, *picture = sys.argv[1:]
    browser = Browser(1_000)
    try:
        browser.asked("POST", "/url", {"url": f"http://{address}/"})
        print("page:", browser.asked("GET", "/title"))
        browser.script("document.forms[0].method = 'post'")
        fill(browser, (("rft.issn", "ISSN 2434 561X"), ("rft.date", "Winter")))
        print("address:", browser.asked("GET", "/url").removeprefix(f"http://{address}"))
        browser.asked("POST", "/url", {"url": f"http://{address}/"})
        fill(browser, (("rft.issn", "2434-561X"), ("rft.date", "1994")))
        look(browser)
        fill(browser, (("rft.date", "1996"),))
        look(browser)
        print("kept:", ", ".join(browser.asked("GET", f"/element/{it}/property/value") or "-"
                                 for it in browser.found("input:not([type=hidden])")))
        print("scripts:", len(browser.found("script")))
        if picture:
            save(browser, picture[1], int(picture[2]), *picture[3:])
        browser.click(browser.found(".go")[0])
        print("at the link:", browser.asked("GET", "/url") == linked)
    finally:
        browser.end()


if __name__ == "__main__":
    main()
