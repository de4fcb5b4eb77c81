#!/usr/bin/env python3
"""Compares the addresses that a node links to with what a browser makes of them.

odd_addresses.py list COUNT FILE     writes a holdings list with that many odd addresses, 500 for each ISSN
odd_addresses.py compare COUNT ADDR  asks a node with this list, and Chromium for its `URL` of each address
odd_addresses.py some FILE ADDRESS.. writes a list with these addresses, one for each ISSN
odd_addresses.py show ADDR ADDRESS.. asks a node with that list, and Chromium, and prints a line for each address
odd_addresses.py texts FILE..        counts the addresses of lists that are none by the rule

Each address that a page links to has to be one by the rule of docs/using/LIBRARIES.md, which this program has once more
in its own words, and no other address may be. The host that the page shows has to be the host name of Chromium, and so
has the one in JSON; and Chromium has to find no user in it."""
import html
import ipaddress
import json
import os
import random
import re
import subprocess
import sys
import tempfile
import urllib.error
import urllib.request

LABELS = ("publication_title print_identifier online_identifier date_first_issue_online num_first_vol_online "
          "date_last_issue_online num_last_vol_online title_url coverage_depth").split()
SCHEMES = ["http://"] * 40 + ["https://"] * 20 + [
    "HTTP://", "hTTps://", "http:/", "http:", "http:\\\\", "http:///", "http:\\/", "https:////", "ftp://",
    "javascript://", "//", ""]
USERS = [""] * 60 + ["a@", "a:b@", "good.example@", "good.example:80@", "a@b@", "@", ":@", "%40@", "good.example%23@"]
HOSTS = ["a.example", "www.a.example"] * 8 + ["127.0.0.1", "[::1]", "[2001:DB8:0:0::1]", "A.b-1.Example"] * 6 + [
    "A.Example", "WWW.LIBRARY.EXAMPLE", "localhost", "a", "1.example", "a1.example", "8.8.8.8", "255.255.255.255",
    "256.1.1.1", "1.2.3", "1.2.3.4.5", "01.2.3.4", "0x7f.1", "0x7f000001", "2130706433", "1.2.3.0x4", "a.1", "a.0x1",
    "a.0x", "a.09", "a.b1", "0xa.example", "[2001:db8::1]", "[::ffff:1.2.3.4]", "[::1", "::1", "[::g]",
    "[1:2:3:4:5:6:7:8]", "[1:0:0:4:0:0:7:8]", "[::1%25eth0]", "[v1.a]", "[]", "", "a..example", ".a.example",
    "a.example.", "-a.example", "a-.example", "a_b.example", "a%2eexample", "%61.example", "a b.example", "a+b.example",
    "a,b.example", "a!.example", "xn--bcher-kva.example", "b\u00fccher.example", "\u212a.example", "a\u3002example",
    "a\u00ad.example", "\uff41.example", "a" * 63 + ".example", "a" * 64 + ".example", "a*.example", "a~.example",
    "(a).example", "a<b.example", "a^b.example", "a|b.example", "good.example%5c", "good.example%00", "\"a.example",
    "a.example'"]
PORTS = [""] * 40 + [":", ":80", ":443", ":8080", ":0", ":65535", ":65536", ":99999", ":080", ":00000443", ":a", ":-1",
                     ":80a", ": 80", ":80@evil.example", "::80", ":80:80", ":%38"]
PATHS = ["", "/", "/x", "/x?y=z#f"] * 4 + [
    "?q", "#f", "/..//x", "/@evil.example/", "?@evil.example", "#@evil.example", "\\x", "\\@evil.example/", "/x\\y",
    "/a b", "/%2e%2e/", "/\u00e9", ";x", "/:80", "?q=http://b.example/", "/[::1]", "&x"]


def issn(number):
    digits = f"{number:07}"
    check = -sum((8 - place) * int(digit) for place, digit in enumerate(digits)) % 11
    return f"{digits[:4]}-{digits[4:]}{'X' if check == 10 else check}"


def addresses(count):
    rng = random.Random(20261128)
    made = []
    while len(made) < count:
        text = "".join(rng.choice(parts) for parts in (SCHEMES, USERS, HOSTS, PORTS, PATHS))
        if rng.random() < 0.15:
            place = rng.randrange(len(text) + 1)
            text = text[:place] + rng.choice("@:/\\?#[]%.-_0x1aZ~ \u00e9") + text[place:]
        if text.strip(" ") == text and text:
            made.append(text)
    return made


def is_label(text):
    return re.fullmatch(r"[0-9A-Za-z](?:[0-9A-Za-z-]{0,61}[0-9A-Za-z])?", text) is not None


def is_host(text):
    if text.startswith("["):
        return re.fullmatch(r"\[[0-9A-Fa-f:.]+\]", text) is not None and is_ip(text[1:-1], ipaddress.IPv6Address)
    labels = text.split(".")
    if len(text) > 253 or not all(is_label(it) for it in labels):
        return False
    return labels[-1][0].isalpha() or is_ip(text, ipaddress.IPv4Address)


def is_ip(text, kind):
    try:
        kind(text)
        return True
    except ValueError:
        return False


def is_address(text):
    """The rule of docs/using/LIBRARIES.md."""
    parts = re.fullmatch(r"(?i:https?)://(\[[^\[\]/?#@]*\]|[^\[\]/?#@:]*)(?::([0-9]*))?(?:[/?#].*)?", text)
    if parts is None or not re.fullmatch(r"[!-~]{1,8000}", text) or "\\" in text:
        return False
    return is_host(parts[1]) and int(parts[2] or 0) <= 65_535


def parsed(texts):
    """The host name of Chromium's `URL` of each text, and whether it has a user; None where it is no URL."""
    script = ("var o=[];for(var x of u){try{var p=new URL(x);o.push([p.hostname,p.username!==''||p.password!==''])}"
              "catch(e){o.push(null)}}document.getElementById('o').textContent=JSON.stringify(o)")
    with tempfile.TemporaryDirectory() as folder:
        page = os.path.join(folder, "u.html")
        with open(page, "w", encoding="utf-8") as file:
            data = json.dumps(texts).replace("<", "\\u003c")
            file.write(f"<!doctype html><meta charset=utf-8><pre id=o></pre><script>var u={data};{script}</script>")
        words = ["chromium", "--headless=new", "--no-sandbox", "--disable-gpu", f"--user-data-dir={folder}/profile",
                 "--dump-dom", f"file://{page}"]
        done = subprocess.run(words, stdout=subprocess.PIPE, stderr=subprocess.DEVNULL, timeout=120, check=True)
    return json.loads(html.unescape(re.search(r'<pre id="o">(.*?)</pre>', done.stdout.decode(), re.S)[1]))


def write_list(texts, path, each):
    with open(path, "w", encoding="utf-8") as file:
        file.write("\t".join(LABELS) + "\n")
        for place, text in enumerate(texts):
            file.write(f"T\t{issn(place // each)}\t\t1995\t\t\t\t{text}\tfulltext\n")


def urls(path):
    with open(path, encoding="utf-8-sig") as file:
        labels, *rows = [line.rstrip("\r\n").split("\t") for line in file]
    column = labels.index("title_url") if "title_url" in labels else len(labels)
    return [row[column] for row in rows if len(row) > column and row[column]]


def got(addr, number, form):
    target = f"http://{addr}/resolve?format={form}&rft.issn={issn(number)}"
    with urllib.request.urlopen(target, timeout=60) as reply:
        return reply.read().decode("utf-8")


def shown(addr, texts, each):
    """For each text whether a page links to it, the host that the page shows, and the one in JSON."""
    result = [None] * len(texts)
    for number in range((len(texts) + each - 1) // each):
        hits = json.loads(got(addr, number, "json"))["hits"]
        cards = got(addr, number, "html").split("<li>\n")[1:]
        assert len(hits) == len(cards) == len(texts[number * each:(number + 1) * each])
        for hit, card in zip(hits, cards):
            place = hit["record"] - 2
            assert hit["target"] == texts[place]
            button = re.search(r'class="go" href="([^"]*)">Read at ([^<]*)<', card)
            if button:
                assert html.unescape(button[1]) == texts[place]
            result[place] = (html.unescape(button[2]) if button else None, hit["host"])
    return result


def is_right(text, button, host, browser):
    if (button is not None) != is_address(text):
        return False
    if button is not None and (browser is None or browser != [button, False] or host != button):
        return False
    return not host or browser == [host, False]


def go(addr, number):
    class Stays(urllib.request.HTTPRedirectHandler):
        def redirect_request(self, *args):
            return None
    try:
        target = f"http://{addr}/go?rft.issn={issn(number)}"
        return urllib.request.build_opener(Stays).open(target, timeout=60).status
    except urllib.error.HTTPError as error:
        return error.code


def main():
    task, *words = sys.argv[1:]
    if task == "list":
        write_list(addresses(int(words[0])), words[1], 500)
    elif task == "some":
        write_list(words[1:], words[0], 1)
    elif task == "texts":
        found = [it for path in words for it in urls(path)]
        print(f"{sum(not is_address(it) for it in found)} of {len(found)} addresses are texts")
    elif task == "compare":
        texts = addresses(int(words[0]))
        found, real = shown(words[1], texts, 500), parsed(texts)
        wrong = [(*it, browser) for it, browser in zip(zip(texts, found), real) if not is_right(it[0], *it[1], browser)]
        for it in wrong[:20]:
            print("wrong:", it)
        links = sum(button is not None for button, _ in found)
        print(f"{len(texts)} addresses: {links} links, {len(texts) - links} texts, {len(wrong)} wrong")
    else:
        texts = words[1:]
        for number, (text, (button, host), real) in enumerate(zip(texts, shown(words[0], texts, 1), parsed(texts))):
            browser = real[0] if real else "-"
            print(f"{text}: {button or 'text'}, JSON {host or '-'}, browser {browser}, /go {go(words[0], number)}")


if __name__ == "__main__":
    main()
