#!/usr/bin/env python3
"""Compares what nodes of two programs reply, log and count for the same random requests.

compare_replies.py OLD NEW [--cases N] [--seed N] [--world N]

OLD and NEW are files of kbfeed. Requests come in worlds of 500. A world is a setting of a node (SETTINGS), random lists
and a site file. In each world both programs get a node over the same database, which OLD has filled.

A connection has one to five requests. Some are those of resolver_random.py, some repeat one with its entity tag, and
most are composed of methods, targets, versions, fields and bodies, right and wrong. A few have changed bytes, or are no
requests at all. They are cut anywhere, and each part is written once the node has read the one before it, so that both
nodes read the same parts. Then the client ends its side, at once or once nothing more arrives. A fetch finds that
nothing listens at the address of the knowledge base.

These are compared for each connection: all bytes received, but for the values of /metrics, the length of that page, and
the times in /feed. At the end of a world: the log without its times and milliseconds, standard error without seconds,
and all counters of /metrics, but those of times and that of the bytes of requests: of bytes that are no request it has
those that had arrived, which the moment decides. The count of bytes sent is compared less the bytes received.

At last nodes get a long list, and many connections at once while they check it. They are compared as far as both nodes
still start. Clients that reset a connection, read slowly or exceed a time limit are left out: there the moment decides.
At midnight (UTC) a reply may differ by chance.

Prints a line for each world, with the number of replies of each status. Prints the first difference in full, and exits
with 1 then. --world N runs one world alone, to repeat a difference."""
import argparse
import collections
import concurrent.futures
import datetime
import difflib
import os
import pathlib
import random
import re
import select
import shutil
import socket
import struct
import subprocess
import sys
import tempfile
import time

sys.dont_write_bytecode = True
from holdings import issn_of_digits  # noqa: E402
from resolver_random import Request as PlainRequest, World, name_of  # noqa: E402

TOKEN = "0123456789abcdef"
# The greatest part of a request that is written at once: a node reads as much in one turn.
WRITE = 16_384
# The limits of a head and of a form, in bytes.
HEAD, FORM = 8_192, 8_192
# The protocol of netlink that reports sockets, the type of its messages, the attribute with tcp_info and its bit, and
# the states of a socket that is not accepted (sock_diag(7), linux/inet_diag.h, net/tcp_states.h).
SOCK_DIAG, BY_FAMILY, INFO, WITH_INFO, SYN_RECV, LISTEN, NEW_SYN_RECV = 4, 20, 2, 2, 3, 10, 12
# The seconds that a connection may take, those without a byte after which the client ends its side, and those between
# two looks at a node.
PATIENCE, QUIET, LOOK = 60, 0.004, 0.000_2

# The query of the requests that wait until a node is ready.
POLL = "?until=ready"
# The requests of each world: one setting, lists and a site file.
WORLD = 500
# The folders of the two nodes. The rows of the list that a node checks as it starts, how many connections it gets at
# once then, and how often that is tried.
NODES, ROWS, AT_ONCE, TRIES = ["old", "new"], 80_000, 100, 3
# The settings, each with the options of its nodes. Those of OURS are for this program alone.
OURS = ["--redirects", "--german", "--empty"]
SETTINGS = {
    "plain": [],
    "token": ["--token", "--metrics", "any", "--log-queries", "no"],
    "site": ["--site", "--redirects", "--max-age", "60", "--forwarded"],
    "site-token": ["--site", "--token", "--forwarded", "--log-queries", "no", "--max-shrink", "20"],
    "wanted": ["--token", "--wanted", "Lacking"],
    "empty": ["--token", "--empty", "--metrics", "any", "--site"],
    "german": ["--site", "--redirects", "--german", "--wanted", "", "--log-queries", "no"],
}

METHODS = ["GET"] * 50 + ["HEAD"] * 10 + ["POST"] * 14 + ["OPTIONS"] * 4 + ["PUT", "DELETE", "CONNECT", "TRACE"]
BAD_METHODS = ["PATCH", "BREW", "get", "Post", "", "G@T", "GET\t", "M" * 300]
VERSIONS = ["HTTP/1.1"] * 19 + ["HTTP/1.0"]
BAD_VERSIONS = ["HTTP/1.2", "HTTP/2.0", "HTTP/0.9", "http/1.1", "HTTP/1.1 ", "HTTP/1.", "HTTP/11", "", "HTTP/1.1\tx"]
PATHS = ["/", "/status", "/resolve", "/go", "/titles", "/feed", "/metrics", "/health", "/health/ready",
         "/health/live"] * 3 + ["/resolve", "/go", "/titles"] * 6 + ["/feed/NAME", "/resolve/PACKAGE"] * 6
BAD_PATHS = ["/resolve/", "/resolve/None", "/resolve/A%63me", "/resolve/Acme/", "/resolve/a/b", "/resolve%2FAcme",
             "/Resolve/Acme", "/RESOLVE", "/resolve?", "/resolve&issn=2434-561X", "/go/", "/go;a", "/feed/", "/feed/x",
             "/FEED/NAME", "/Feed/NAME", "/FEED", "/feedback", "/feeds/NAME", "/feed%2FNAME", "/feed//NAME",
             "/feed/NAME/", "/feed/New_2024-02-30.txt", "/metrics/", "/metricsx", "/health/", "/healthy",
             "/health/readyx", "/health/live/", "/HEALTH", "/nothing", "*", "//status", "/Status", "/status/",
             "/status#a", "/./status", "", "status", "/a\x00b", "/\xe4", "/favicon.ico", "/" + "x" * 3_000, "/?", "?",
             "#"]
FRONTS = ["http://node.example", "HTTP://x@node.example:80", "https://[::1]", "http:/", "http://", "node.example:80",
          "ftp://node.example"]
# 65 ISSNs, one more than a query may have.
MANY = [issn_of_digits(f"{it:07}") for it in range(1, 66)]
PAIRS = ["issn=2434-561X", "rft.issn=0317-8471", "issn=2434561x", "rft.eissn=1050-124X", "isbn=9780306406157",
         "rft.isbn=9781849302043", "isbn=0-306-40615-2", "date=1996", "rft.date=2001-03", "date=1996&date=1997",
         "volume=3", "rft.volume=007", "genre=article", "rft.genre=book", "rft_id=info:doi/10.1000/1", "title=A%20b",
         "rft.jtitle=Acta+b", "rft.btitle=%C3%A4", "rft.atitle=%e4", "rft_val_fmt=info:ofi/fmt:kev:mtx:journal",
         "url_ver=Z39.88-2004", "url_ver=x", "issn=%", "issn=%zz", "=", "&&", "a", "issn", "q=a", "q=ACTA", "q=%20",
         "q=%ff", "q=" + "a" * 769, "start=0", "start=5", "start=4294967296", "start=x", "format=json", "format=html",
         "format=text", "format=xml", "FORMAT=json", "format=jso%6e", "size=3", "size=x", "accept", "accept&accept",
         "sha256=" + "a" * 64, "sha256=1", "?", "/", "x=" + "y" * 900, "issn=" + ",".join(MANY)]
BAD_PAIRS = ["#a", "\x7f", "\xfc=\xdf", "\x01", "{}", "a=<b>\"'", "\\", "[]", "^`|"]
TYPES = ["*/*", "text/html", "application/json", "text/plain", "text/*", "application/*;q=0.5, text/html;q=0.4", "",
         "text/html;q=0, */*", "text/html;q=1.001", "text/html;level=1, application/json;q=0.1", "image/png", ",",
         "text/html, application/xhtml+xml, application/xml;q=0.9, */*;q=0.8", "TEXT/HTML", " text/html ; q = 0.2 "]
TAGS = ["*", '"other"', 'W/"other"', "other", "", '"a", "b"']
FORMS = ["application/x-www-form-urlencoded", "application/x-www-form-urlencoded; charset=utf-8", "text/plain", "",
         "APPLICATION/X-WWW-FORM-URLENCODED", "multipart/form-data; boundary=a"]
FIELDS = ["Connection: close", "Connection: keep-alive", "Expect: 100-continue", "Via: 1.1 proxy", "Forwarded: a",
          "X-Forwarded-For: 192.0.2.7", "X-Forwarded-For: 192.0.2.1, 2001:db8::7", "X-Forwarded-For: a b", "A:",
          "Range: bytes=0-3", "Origin: null", "Referer: http://a.example/?q=\"x\"#b", "Referer: /a", "Upgrade: h2c",
          "User-Agent: One \"agent\"\\", "User-Agent: \xe4\tb", "User-Agent: a", "Accept-Language: de", "A:\tb\t",
          "Access-Control-Request-Method: POST", "If-Match: *", "If-Modified-Since: Sat, 29 Oct 1994 19:43:31 GMT",
          "Cookie: a=b", "Content-Length: 0", "content-type: application/x-www-form-urlencoded"]
BAD_FIELDS = ["Connection: te, Close", "connection:CLOSE", "Connection: closed", "Expect: 100-Continue", "Expect: x",
              "Transfer-Encoding: chunked", "Transfer-Encoding: identity", "Content-Length: 5", "Content-Length: 8193",
              "Content-Length: +1", "Content-Length: 5, 5", "Content-Length: 18446744073709551616", "Host: other",
              "Content-Type: text/plain", "Via;", "no colon", " folded", "Name : value", "N\xe4me: value", ": value",
              "A: \x00", "A: b\rc", "A: b\x7f"]


class Dice(random.Random):
    """The random choices of a run, which depend on its seed alone."""

    def happens(self, chance):
        return self.random() < chance


class Requests:
    """Random requests to the nodes of a setting. It learns entity tags from the replies."""

    def __init__(self, dice, world):
        self.dice, self.world, self.tagged = dice, world, []
        self.names = [name_of(it) for it in world.lists] + ["New_2024-01-01.txt", "Other_2023-12-31.txt"]

    def learn(self, text, reply):
        """Notes the entity tag in the reply to the only request of a connection."""
        found = re.match(rb"HTTP/1\.1 200 [^\0]*?\r\nETag: ([^\r\n]+)\r\n", reply)
        if found and len(self.tagged) < 100:
            self.tagged.append((text, found[1]))

    def connection(self):
        """Returns the requests of a connection."""
        return [self.request() for _ in range(self.dice.choice([1, 1, 1, 2, 3, 4, 5]))]

    def request(self):
        kind = self.dice.random()
        if kind < 0.3:
            text = self.plain()
        elif kind < 0.38 and self.tagged:
            text = self.repeated()
        elif kind < 0.97:
            text = self.composed()
        else:
            return self.garbage()
        if self.dice.happens(0.05):
            text = self.dice.choice([b"\r\n", b"\n", b"\r\n\r\n\n", b"\r", b" \r\n"]) + text
        if self.dice.happens(0.03):
            text = text.replace(b"\r\n", b"\n", self.dice.choice([1, 2, -1]))
        return self.changed(text) if self.dice.happens(0.05) else text

    def some(self, good, bad, chance):
        """Returns a part of a request, with a chance that it is a bad one."""
        return self.dice.choice(bad if self.dice.happens(chance) else good)

    def plain(self):
        """Returns a valid request, mostly with the parts of an OpenURL."""
        head, form = PlainRequest(self.world).text()
        fields = "".join(f"{it}\r\n" for it in self.fields(self.dice.choice([0, 0, 1]), 0))
        return (head.replace("\r\n\r\n", f"\r\n{fields}\r\n") + (form or "")).encode("latin-1")

    def repeated(self):
        """Returns a request that had a reply with an entity tag, with this tag."""
        text, tag = self.dice.choice(self.tagged)
        tag = self.dice.choice([b"%b"] * 4 + [b"W/%b", b'"a", %b', b"%b, *", b"%bx"]) % tag
        return text.replace(b"\r\nHost:", b"\r\nIf-None-Match: " + tag + b"\r\nHost:", 1)

    def composed(self):
        """Returns a request of parts that need not fit together."""
        dice, method, target = self.dice, self.some(METHODS, BAD_METHODS, 0.03), self.target()
        hosts = dice.choices([1, 0, 2], [96, 3, 1])[0]
        fields = [f"Host: {dice.choice(['node.example', 'a:80', ''])}"] * hosts + self.fields(dice.randint(0, 5), 0.06)
        if "/feed" in target.lower() and dice.happens(0.7):
            method = dice.choice(["GET", "POST", "POST", "DELETE", "HEAD"])
            fields = [*[it for it in fields if not it.lower().startswith("auth")], self.authorization()]
        if dice.happens(0.01):
            fields += [f"X-{at}: {at}" for at in range(dice.choice([55, 61, 62, 63, 64, 65, 70]))]
        body = ""
        if method == "POST" and dice.happens(0.8) or dice.happens(0.03):
            added, body = self.body()
            fields += added
        dice.shuffle(fields)
        line = f"{method} {target} {self.some(VERSIONS, BAD_VERSIONS, 0.03)}"
        head = "".join(f"{it}\r\n" for it in [line, *fields])
        if dice.happens(0.02):
            head += self.long_field(HEAD + dice.choice([-1, 0, 0, 0, 1, 2, 900]) - len(head))
        return f"{head}\r\n{body}".encode("latin-1")

    def target(self):
        dice = self.dice
        path = self.some(PATHS, BAD_PATHS, 0.15).replace("NAME", dice.choice(self.names))
        path = path.replace("PACKAGE", dice.choice(list(self.world.lists)))
        if dice.happens(0.05):
            path = dice.choice(FRONTS) + path
        if dice.happens(0.6):
            pairs = [self.some(PAIRS, BAD_PAIRS, 0.01) for _ in range(dice.choice([1, 1, 2, 2, 3, 5, 8]))]
            if dice.happens(0.02):
                pairs *= dice.choice([20, 65])
            path += "?" + "&".join(pairs)
        return path

    def fields(self, count, chance):
        """Returns some fields, each with a chance that it is a bad one."""
        dice, found = self.dice, []
        for _ in range(count):
            kind = dice.random()
            if kind < 0.3:
                found.append(f"Accept: {dice.choice(TYPES)}")
            elif kind < 0.35:
                found.append(f"If-None-Match: {dice.choice(TAGS)}")
            elif kind < 0.55:
                found.append(self.authorization())
            else:
                found.append(self.some(FIELDS, BAD_FIELDS, chance))
        return found

    def authorization(self):
        dice = self.dice
        scheme = self.some(["Bearer "], ["bearer ", "BEARER  ", "Basic ", "Bearer", "Bearer\t"], 0.2)
        token = self.some([TOKEN], [TOKEN.upper(), TOKEN[:-1], f"{TOKEN}0", "", f"{TOKEN} "], 0.2)
        return f"{dice.choice(['Authorization', 'authorization'])}: {scheme}{token}"

    def body(self):
        """Returns the fields of a body, and the body."""
        dice = self.dice
        text = "&".join(self.some(PAIRS, BAD_PAIRS, 0.02) for _ in range(dice.choice([0, 1, 2, 3, 5])))
        if dice.happens(0.15):
            size = dice.choice([FORM - 1, FORM, FORM, FORM + 1, 9_000, 20_000])
            text = (text + "&x=" + "y" * size)[:size]
        stated = dice.choices([len(text), len(text) + 1, max(len(text) - 1, 0), 0, FORM], [88, 3, 3, 3, 3])[0]
        fields = [f"Content-Type: {self.some(FORMS[:1], FORMS[1:], 0.15)}"] * dice.choices([1, 0, 2], [95, 3, 2])[0]
        name = dice.choice(["Content-Length", "content-length"])
        fields += [f"{name}: {stated}"] * dice.choices([1, 0, 2], [94, 3, 3])[0]
        if dice.happens(0.25):
            fields.append("Expect: 100-continue")
        if dice.happens(0.03):
            fields, text = [*fields, "Transfer-Encoding: chunked"], f"{len(text):x}\r\n{text}\r\n0\r\n\r\n"
        return fields, text

    def long_field(self, size):
        """Returns a field after which a head with its last line has so many bytes."""
        return f"X-Long: {'z' * max(size - len('X-Long: ') - 4, 0)}\r\n"

    def changed(self, text):
        """Returns a text with some bytes changed, dropped or added, or its front."""
        dice, text = self.dice, bytearray(text)
        for _ in range(dice.choice([1, 1, 2, 5])):
            at = dice.randrange(len(text) + 1)
            if dice.happens(0.6):
                at = min(at, dice.randrange(40))
            span, byte = dice.choice([0, 1, 1, 3]), dice.choice([dice.randrange(256), *b"\r\n :/?&%\t\0"])
            text[at:at + span] = bytes([byte] * dice.choice([0, 1, 1, 2]))
        return bytes(text[:dice.randrange(len(text))] if text and dice.happens(0.2) else text)

    def garbage(self):
        """Returns bytes that are hardly ever a request."""
        size = self.dice.choice([1, 3, 20, 200, 9_000, 20_000])
        kinds = [range(256), range(32, 127), b"\r\n", b"GET /\r\n: "]
        return bytes(self.dice.choices(self.dice.choice(kinds), k=size))


def cut(dice, text):
    """Returns a text in some parts, none of them too long for a write. Some are cut around the end of a head."""
    places = [dice.randrange(len(text) + 1) for _ in range(dice.choice([0, 0, 1, 2, 5]))]
    places += [it.start() + dice.randrange(6) for it in re.finditer(rb"\r\n\r\n", text) if dice.happens(0.25)]
    places = sorted({it for it in places if 0 < it < len(text)})
    whole = [text[first:last] for first, last in zip([0, *places], [*places, len(text)])]
    return [part[at:at + WRITE] for part in whole for at in range(0, len(part), WRITE)]


class Arrivals:
    """What the system says of the other end of a connection on this machine (sock_diag(7), inet_diag_req_v2)."""

    def __init__(self):
        self.link = socket.socket(socket.AF_NETLINK, socket.SOCK_RAW, SOCK_DIAG)
        self.link.settimeout(PATIENCE)

    def has_read(self, peer, size):
        """Returns whether the other end has read so many bytes, or has closed the connection."""
        (near, near_port), (far, far_port) = peer.getsockname(), peer.getpeername()
        names = [socket.inet_aton(it).ljust(16, b"\0") for it in (far, near)]
        ask = struct.pack("=BBBBI", socket.AF_INET, socket.IPPROTO_TCP, WITH_INFO, 0, 0xFFFF_FFFF)
        ask += struct.pack("!HH16s16s", far_port, near_port, *names) + struct.pack("=I8s", 0, b"\xff" * 8)
        self.link.send(struct.pack("=IHHII", 16 + len(ask), BY_FAMILY, 1, 0, 0) + ask)
        reply = self.link.recv(8_192)
        if struct.unpack_from("=H", reply, 4)[0] != BY_FAMILY:
            return True
        # Behind the header of netlink: the family, the state, and at byte 56 how many bytes wait to be read.
        state, waiting = reply[17], struct.unpack_from("=I", reply, 16 + 56)[0]
        at = 16 + 72
        while at < len(reply) and state not in (SYN_RECV, LISTEN, NEW_SYN_RECV):
            length, kind = struct.unpack_from("=HH", reply, at)
            if kind == INFO:
                # The bytes that arrived are at byte 128 of tcp_info (tcp(7)).
                return waiting == 0 and size <= struct.unpack_from("=Q", reply, at + 4 + 128)[0]
            at += (length + 3) // 4 * 4
        return False


class Node:
    """A node of a program, and the client of its connections."""

    def __init__(self, program, folder, words):
        self.program, self.folder, self.arrivals, self.received = program, folder, Arrivals(), 0
        self.before, self.received_before = {}, 0
        self.start(words)
        self.descriptors = self.count_descriptors()

    def start(self, words):
        """Starts the node at a port that is free."""
        for _ in range(20):
            with socket.create_server(("127.0.0.1", 0)) as free:
                self.address = free.getsockname()
            listen = f"127.0.0.1:{self.address[1]}"
            with open(self.folder / "log", "wb") as log, open(self.folder / "faults", "wb") as faults:
                self.run = subprocess.Popen([self.program, "node", "node.db", listen, *words], cwd=self.folder,
                                            stdin=subprocess.DEVNULL, stdout=log, stderr=faults)
            while self.run.poll() is None and not (self.folder / "log").stat().st_size:
                time.sleep(0.01)
            if self.run.poll() is None:
                return
        sys.exit(f"compare_replies: {self.program} does not listen: {(self.folder / 'faults').read_text()}")

    def wait_until_ready(self):
        """Waits until the lists are checked. A node that waits for a package replies 503 to readers then, too."""
        for _ in range(1_000):
            if b" 200 OK" in self.get("/status" + POLL) or b"\nkbfeed_active_release" in self.get("/metrics" + POLL):
                self.received_before = self.received
                self.before = self.counters()
                return
            time.sleep(0.05)
        sys.exit(f"compare_replies: a node of {self.program} does not get ready")

    def get(self, target):
        return self.exchange([f"GET {target} HTTP/1.0\r\n\r\n".encode()], True)

    def counters(self):
        """Returns the counters of the node, but those of times and of turns."""
        found = re.findall(r"^(kbfeed_\S+) (\d+)$", self.get("/metrics").decode("latin-1"), re.M)
        others = "_bucket|_sum|since|turn_duration|request_bytes"
        return {name: int(value) for name, value in found if not re.search(others, name)}

    def counted(self):
        """Returns by how much each counter grew. Of the bytes sent, those that the client received are taken off."""
        received = self.received
        grown = {name: value - self.before.get(name, 0) for name, value in self.counters().items()}
        grown["kbfeed_reply_bytes_total"] -= received - self.received_before
        return [f"{name} {value}" for name, value in grown.items()]

    def printed(self, name):
        """Returns the lines of the log, or of standard error, without times. A dash for no site is left out, and so
        are the requests of `wait_until_ready`, whose number depends on the machine's speed."""
        lines = [it for it in (self.folder / name).read_text(encoding="latin-1").split("\n") if POLL + " " not in it]
        line = re.compile(r"^(\S+ - - \[)\d\d/[A-Z][a-z]+/[\d:]{13}( .*) \d+(?: -|( \S+))?$")
        lines = [line.sub(r"\1TIME\2 N\3", it) for it in lines]
        return [re.sub(r"\d+\.\d{3} seconds$", "N seconds", it) for it in lines]

    def exchange(self, parts, ends_at_once):
        """Sends the parts over a connection, and returns the bytes received, once the node has closed its end."""
        got = bytearray()
        try:
            with socket.create_connection(self.address, timeout=PATIENCE) as peer:
                peer.setsockopt(socket.IPPROTO_TCP, socket.TCP_NODELAY, 1)
                self.talk(peer, parts, ends_at_once, got)
        except OSError as fault:
            got += b"<lost>" if isinstance(fault, ConnectionError) else f"<{type(fault).__name__}>".encode()
        self.received += len(got)
        self.settle()
        return bytes(got)

    def exchange_all(self, texts):
        """Sends each text over a connection of its own, and returns what is received over each."""
        peers, replies = [], []
        for text in texts:
            peers.append(socket.create_connection(self.address, timeout=PATIENCE))
            peers[-1].sendall(text)
            peers[-1].shutdown(socket.SHUT_WR)
        for peer in peers:
            with peer:
                got = bytearray()
                while receive(peer, got, PATIENCE):
                    pass
            self.received += len(got)
            replies.append(bytes(got))
        self.settle()
        return replies

    def talk(self, peer, parts, ends_at_once, got):
        end, is_open, size = time.monotonic() + PATIENCE, True, 0
        for part in parts:
            peer.sendall(part)
            size += len(part)
            while not self.arrivals.has_read(peer, size):
                if is_open:
                    is_open = receive(peer, got, LOOK)
                else:
                    time.sleep(LOOK)
                if time.monotonic() > end:
                    raise TimeoutError
        while not ends_at_once and is_open and select.select([peer], [], [], QUIET)[0]:
            is_open = receive(peer, got, 0)
        peer.shutdown(socket.SHUT_WR)
        while is_open:
            is_open = receive(peer, got, PATIENCE)

    def settle(self):
        """Waits until the node has closed its end of the connection: it has counted and logged the requests then."""
        end = time.monotonic() + 1
        while self.run.poll() is None and self.count_descriptors() > self.descriptors:
            if time.monotonic() > end:
                # It has opened something else, such as a file of its database.
                self.descriptors = self.count_descriptors()
            time.sleep(LOOK)

    def count_descriptors(self):
        try:
            return len(os.listdir(f"/proc/{self.run.pid}/fd"))
        except OSError:
            return 0

    def ended(self):
        """Returns how the node ended, or nothing if it runs."""
        faults = (self.folder / "faults").read_text(encoding="latin-1")
        return [f"(the node ended with {self.run.returncode}: {faults[-2000:]})"] if self.run.poll() is not None else []

    def end(self):
        self.run.kill()
        self.run.wait()
        self.arrivals.link.close()


def receive(peer, got, seconds):
    """Adds what arrives within some seconds. Returns whether more may follow."""
    if not select.select([peer], [], [], seconds)[0]:
        return True
    part = peer.recv(1 << 20)
    got += part
    return bool(part)


def masked(reply):
    """Returns a reply without the values of /metrics and the times of /feed."""
    if b"version=0.0.4" in reply:
        reply = re.sub(rb"^(kbfeed_\S+) [0-9.]+$", rb"\1 N", reply, flags=re.M)
        reply = re.sub(rb"(version=0\.0\.4; [^\0]*?\r\nContent-Length: )\d+", rb"\1N", reply)
    reply = re.sub(rb'("(?:active_since|time)":)\d{10}', rb"\1N", reply)
    return re.sub(rb"^(\S+\tfetch\t\w+\t)\d{10}$", rb"\1N", reply, flags=re.M)


def shown(text):
    """Returns the lines of a text with all bytes visible."""
    return [repr(it)[2:-1] for it in text.splitlines(keepends=True)]


def report(title, sent, old, new):
    """Prints what was sent, what both nodes gave, and how that differs."""
    print(title)
    for name, lines in (("sent", sent), ("old", old), ("new", new)):
        print(f"--- {name}", *lines, sep="\n")
    report_lines("--- difference", old, new)


def report_lines(title, old, new):
    """Prints how lines differ."""
    print(title, *list(difflib.unified_diff(old, new, "old", "new", n=2, lineterm=""))[2:], sep="\n", flush=True)


def make_world(dice, options):
    """Returns lists with a site file. Some requests have days at which embargoes end on the day of the node."""
    world = World(dice, False)
    while not world.has_site:
        world = World(dice, False)
    world.today = datetime.datetime.now(datetime.timezone.utc).date()
    world.redirects = "--redirects" in options
    return world


def make_database(program, folder):
    """Makes a database with all lists of the folder, and a copy of it for each node."""
    with socket.create_server(("127.0.0.1", 0)) as free:
        address = "{}:{}".format(*free.getsockname())
    with subprocess.Popen([program, "serve", "lists", address], cwd=folder, stdout=subprocess.PIPE) as server:
        try:
            server.stdout.readline()
            for it in sorted((folder / "lists").iterdir()):
                subprocess.run([program, "fetch", "node.db", address, it.name], cwd=folder, check=True,
                               stdout=subprocess.DEVNULL)
        finally:
            server.kill()
    for name in NODES:
        (folder / name).mkdir()
        for it in folder.glob("node.db*"):
            shutil.copy(it, folder / name)


def node_words(options, world, folder, source):
    """Writes the files that a node reads, and returns its options."""
    words, left = [], list(options)
    while left:
        word = left.pop(0)
        if word == "--token":
            (folder / "token").write_text(f"{TOKEN}\n", encoding="ascii")
            words += [word, folder / "token", "--from", source]
        elif word == "--site":
            text = world.site_text()
            text = text.replace("[library]\n", '[library]\nlanguage = "de"\n') if "--german" in options else text
            (folder / "site").write_text(text, encoding="utf-8")
            words += [word, folder / "site"]
        elif word == "--wanted":
            (folder / "wanted").write_text(f"{left.pop(0) or next(iter(world.lists))}\n", encoding="ascii")
            words += [word, folder / "wanted"]
        elif word not in OURS:
            words.append(word)
    return words


def compare(title, setting, programs, dice, cases, folder):
    """Compares nodes of both programs in a world. Returns a line about it, or None after a difference."""
    options, began, statuses = SETTINGS[setting], time.monotonic(), collections.Counter()
    world, nodes, count, tried = make_world(dice, options), [], 0, 0
    (folder / "lists").mkdir()
    for it in [] if "--empty" in options else world.lists:
        (folder / "lists" / name_of(it)).write_text(world.list_text(it), encoding="utf-8")
    make_database(programs[0], folder)
    # Nothing listens here while the socket is bound.
    with socket.socket() as source, concurrent.futures.ThreadPoolExecutor(2) as pool:
        source.bind(("127.0.0.1", 0))
        words = node_words(options, world, folder, "{}:{}".format(*source.getsockname()))
        try:
            for name, program in zip(NODES, programs):
                nodes.append(Node(program, folder / name, words))
                nodes[-1].wait_until_ready()
            requests = Requests(dice, world)
            while tried < cases:
                texts, ends_at_once = requests.connection(), dice.happens(0.6)
                parts, count, tried = cut(dice, b"".join(texts)), count + 1, tried + len(texts)
                old, new = pool.map(lambda node: node.exchange(parts, ends_at_once), nodes)
                if masked(old) != masked(new):
                    sent = [line for part in parts for line in ["(a write)", *shown(part)]]
                    sent.append(f"(the end of the client's side, {'at once' if ends_at_once else 'after a while'})")
                    given = [[*shown(reply), *it.ended()] for reply, it in zip((old, new), nodes)]
                    report(f"{title}: connection {count} differs", sent, *given)
                    return None
                statuses.update(re.findall(rb"HTTP/1\.1 (\d\d\d) ", old))
                if len(texts) == 1:
                    requests.learn(texts[0], old)
            given = [[*it.counted(), *it.printed("log"), *it.printed("faults")] for it in nodes]
        finally:
            for it in nodes:
                it.end()
    if given[0] != given[1]:
        report_lines(f"{title}: counters, log or standard error differ", *given)
        return None
    codes = " ".join(f"{it.decode()}:{statuses[it]}" for it in sorted(statuses))
    return f"{title}: {tried} requests, {count} connections, {time.monotonic() - began:.0f} s, equal; {codes}"


def observe_start(program, folder, batches):
    """Returns for each batch of connections what a node gave while it checked its lists: replies, counters, log."""
    node, seen, first = Node(program, folder, []), [], 0
    try:
        for number, batch in enumerate(batches):
            replies, counted = node.exchange_all(batch), node.counted()
            if not node.get(f"/status?batch={number}").startswith(b"HTTP/1.1 503 "):
                break
            # The connections of a batch end in any order. The line of that request may be a moment late.
            lines = node.printed("log")
            while not any(f"?batch={number} " in it for it in lines):
                lines = node.printed("log")
            seen.append((replies, [*counted, *sorted(lines[first:-1])]))
            first = len(lines) - 1
    finally:
        node.end()
    return seen


def compare_start(programs, dice, folder):
    """Compares nodes that check a long list, of which each program has one after the other."""
    requests = Requests(dice, make_world(dice, []))
    (folder / "lists").mkdir()
    with open(folder / "lists" / "Many_2024-01-01.txt", "wb") as file:
        rows = [sys.executable, pathlib.Path(__file__).parent / "many_rows.py", str(ROWS), "1"]
        subprocess.run(rows, stdout=file, check=True)
    make_database(programs[0], folder)
    batches = [[b"".join(requests.connection())[:WRITE] for _ in range(AT_ONCE)] for _ in range(20)]
    for _ in range(TRIES):
        seen = [observe_start(program, folder / name, batches) for name, program in zip(NODES, programs)]
        if all(seen):
            break
    else:
        return "starting: not compared, since a node has checked the list before it replied"
    count = 0
    for batch, (old, old_lines), (new, new_lines) in zip(batches, *seen):
        for text, one, other in zip(batch, old, new):
            count += 1
            if masked(one) != masked(other):
                report("a connection to a node that starts differs", shown(text), shown(one), shown(other))
                return None
        if old_lines != new_lines:
            report_lines("the counters or the log of a node that starts differ", old_lines, new_lines)
            return None
    return f"starting: {count} connections, equal"


def main():
    asked = argparse.ArgumentParser(description=__doc__, formatter_class=argparse.RawDescriptionHelpFormatter)
    asked.add_argument("old", type=pathlib.Path)
    asked.add_argument("new", type=pathlib.Path)
    asked.add_argument("--cases", type=int, default=10_000)
    asked.add_argument("--seed", type=int, default=1)
    asked.add_argument("--world", type=int, help="only this one")
    given = asked.parse_args()
    programs = [given.old.resolve(), given.new.resolve()]
    for number, tried in enumerate(range(0, given.cases, WORLD), 1):
        if given.world not in (None, number):
            continue
        setting = list(SETTINGS)[(number - 1) % len(SETTINGS)]
        dice, title = Dice(f"{given.seed} {number}"), f"world {number} ({setting})"
        with tempfile.TemporaryDirectory() as place:
            cases = min(WORLD, given.cases - tried)
            line = compare(title, setting, programs, dice, cases, pathlib.Path(place))
        if line is None:
            print(f"repeat it by --seed {given.seed} --world {number}")
            return 1
        print(line, flush=True)
    if given.world is None:
        with tempfile.TemporaryDirectory() as place:
            line = compare_start(programs, Dice(f"{given.seed} start"), pathlib.Path(place))
        if line is None:
            return 1
        print(line)
    print(f"{given.cases} requests: none differ")
    return 0


if __name__ == "__main__":
    sys.exit(main())
