#!/usr/bin/env python3
"""Gives hostile files, request heads and replies, made from a seed, to the program `kbfeed` on the path.

hostile.py files COUNT SEED [--ends]
hostile.py heads COUNT SEED [--ends]
hostile.py replies COUNT SEED [--ends]
hostile.py fed COUNT SEED [--ends]

Most inputs are made of good ones: cut, spliced, repeated, with bytes changed, dropped or inserted, in other encodings,
with very many columns, fields or chunks, or of one very long line. The others are random bytes. Files are given to
`check` and to `answer`, heads are sent to `serve`, and replies to `fetch` and (`fed`) to a node that fetches. Each run
has to end with an answer or a named fault, within a second of processor time and 300 MiB: no signal, and never without
a message. Only a file above 16 MiB may run out of memory, since a line of so many tabs has as many fields. Also,
`check` and `answer` have to agree on a file, the body of a reply has to match its head, and a node has to answer from
its release until another one is whole.
The first input that ends in another way is saved and reported with status 1. With --ends, prints how often each kind of
end occurred."""
import argparse
import collections
import functools
import http.client
import os
import pathlib
import random
import re
import shutil
import socket
import subprocess
import sys
import tempfile
import threading
import zlib

ROOM = 300 * 1_048_576
WAIT = 60
LIMITED = ["sh", "-c", f'ulimit -t 1; ulimit -v {ROOM // 1_024}; ulimit -c 0; exec kbfeed "$@"', "kbfeed"]

NAME, LATER = "Acme_Global_All_2024-01-01.txt", "Acme_Global_All_2024-02-01.txt"
TOKEN = "a-token-of-this-test"
QUERY = "rft.issn=2434561x&rft.isbn=0306406152&rft.date=1996"
LABELS = ["publication_title", "print_identifier", "online_identifier", "date_first_issue_online",
          "num_first_vol_online", "date_last_issue_online", "num_last_vol_online", "title_url", "publication_type"]
ROWS = ["Acta\t2434-561X\t\t1995\t1\t2001-06-30\t7\thttp://a.example/",
        "Beta\t\t0317-8471\t\t\t\t\thttp://b.example/",
        "Gamma \u00e9\u20ac\U0001f4d6\t1050-124X\t\t1990\t\t\t\thttp://g.example/",
        "\"Delta\t0000-0345\t2434-561X\t2001-02-30\t\t1999\t\thttp://d.example/",
        "Omega\t0-306-40615-2\t978-0-306-40615-7\t\t\t\t\thttp://o.example/\tmonograph"]
GOOD = "\t".join(LABELS) + "\n" + "".join(row + "\n" for row in ROWS)
BROKEN = re.compile("NotUtf8|TwoMarks|NoHeader|MissingLabel [a-z_]+|LabelTwice [a-z_]+")


class Unexpected(Exception):
    """An input did not end as it has to."""


# Changes to good bytes.

def changed(draw, text):
    """Changes, drops or inserts some bytes."""
    text = bytearray(text)
    for _ in range(draw.choice([1, 1, 2, 5, 40])):
        at = draw.randrange(len(text) + 1)
        kind = draw.randrange(3)
        byte = draw.choice([0, 9, 10, 13, 32, 34, 44, 58, 127, 0x80, 0xbf, 0xc0, 0xed, 0xef, 0xf4, 0xff,
                            draw.randrange(256)])
        if kind == 0:
            text[at:at] = bytes([byte])
        elif kind == 1:
            del text[at:at + draw.choice([1, 1, 2, 30])]
        else:
            text[at:at + 1] = bytes([byte])
    return bytes(text)


def cut(draw, text):
    return text[:draw.randrange(len(text) + 1)]


def spliced(draw, text):
    """Reorders parts of it, and repeats some."""
    places = sorted(draw.randrange(len(text) + 1) for _ in range(draw.randrange(2, 6)))
    parts = [text[first:end] for first, end in zip([0, *places], [*places, len(text)])]
    return b"".join(draw.choices(parts, k=len(parts) + draw.randrange(3)))


def at_random(draw, text):
    return draw.randbytes(draw.choice([0, 1, 2, 3, len(text), 4_096]))


def repeated(draw, text):
    """Repeats a part of it very often."""
    first = draw.randrange(len(text))
    end = first + draw.randrange(1, 40)
    return text[:first] + text[first:end] * draw.choice([2, 10, 1_000]) + text[end:]


COMMON = [changed, changed, changed, cut, spliced, at_random, repeated]


# Files.

def encoded(draw, text):
    kind = draw.choice(["utf-16", "utf-16-be", "utf-32", "utf-7", "utf-8-sig", "latin-1", "cp1252", "zlib", "marks"])
    if kind == "zlib":
        return zlib.compress(text)
    if kind == "marks":
        return b"\xef\xbb\xbf" * draw.randrange(1, 4) + text
    return text.decode(errors="replace").encode(kind, errors="replace")


def ended_otherwise(draw, text):
    return text.replace(b"\n", draw.choice([b"\r\n", b"\r", b"\n\r", b"\n\n", b"\x0b", b"\xe2\x80\xa8", b"\0"]))


def of_many_columns(draw, text):
    header, _, rows = text.partition(b"\n")
    more = draw.choice([1, 17, 1_000, 100_000])
    names = b"".join(b"\tc%d" % (at if draw.randrange(2) else 0) for at in range(more))
    return header + names + b"\n" + rows * draw.choice([1, 3]) + b"\t" * more


def of_other_labels(draw, text):
    labels = [*LABELS]
    draw.shuffle(labels)
    labels = draw.choices(labels, k=9) if draw.randrange(2) else labels[:draw.randrange(10)]
    return "\t".join(labels).encode() + b"\n" + text.partition(b"\n")[2]


def of_odd_fields(draw, text):
    """Rows whose fields have other texts."""
    texts = ["", " ", "9999-9999", "2434-561x", "2434561X", "10-01-01", "0000", "9999-12-31", "1995-1", "1995-13",
             "2000-02-30", "P1Y", "-5", "18446744073709551616", "9" * 400, "\u200b", "\ufeff", "\u00a01995", "\"\"\"",
             "Monograph", "serial ", "0-306-40615-2", "--9780306406157-", "-" * 400]
    rows = ["\t".join(draw.choices(texts, k=draw.choice([8, 9, 9, 9, 10]))) for _ in range(draw.choice([1, 9, 300]))]
    return text + "\n".join(rows).encode()


def of_a_long_line(draw, text, size=None):
    size = size or draw.choice([70_000, 1_100_000])
    return text[:draw.choice([0, 30, len(text)])] + draw.choice([b"a", b"\t", b"\"", "\u20ac".encode()]) * (size // 3)


FILES = [*COMMON, encoded, ended_otherwise, of_many_columns, of_other_labels, of_odd_fields, of_odd_fields,
         of_a_long_line]


def ran(words, given=None):
    """The status and the output of a run that ended within the limits."""
    done = subprocess.run([*LIMITED, *words], input=given, capture_output=True, timeout=WAIT, check=False)
    return done.returncode, done.stdout.decode(), done.stderr.decode()


def file_ended(path):
    """How a file ended, which has to be the same for both commands."""
    status, out, err = ran(["check", "--explain", str(path)])
    if (status, err) == (3, "kbfeed: Memory\n") and path.stat().st_size > 16 * 1_048_576:
        return "Memory"
    first, second, *_ = out.split("\n", 2) + [""]
    rows = re.fullmatch(r"rows (\d+) aside (\d+)", second)
    broken = re.fullmatch(f"broken ({BROKEN.pattern})", second)
    if first != f"release {path.name}" or err or status != (0 if rows else 1) or not (rows or broken):
        raise Unexpected(f"check: {status} {out[:200]!r} {err[:200]!r}")
    status, out, err = ran(["answer", str(path), QUERY])
    if broken and (status, out, err) != (1, "", f"kbfeed: {broken[1]}\n"):
        raise Unexpected(f"answer, where check says {second}: {status} {out[:200]!r} {err[:200]!r}")
    if rows and ((status, err) != (0, "") or not re.match(rf"release {re.escape(path.name)} hits \d+\n", out)):
        raise Unexpected(f"answer, where check says {second}: {status} {out[:200]!r} {err[:200]!r}")
    return broken[1].split()[0] if broken else "some rows" if int(rows[1]) else "no rows"


def files(draw, count, folder):
    path = folder / NAME
    for at in range(count):
        made = of_a_long_line(draw, GOOD.encode(), 60 * 1_048_576 * 3) if at == 0 else GOOD.encode()
        for _ in range(draw.choice([1, 1, 2, 3]) if at else 0):
            made = draw.choice(FILES)(draw, made or b"\n")[:268_435_456]
        path.write_bytes(made)
        yield path, file_ended(path)


# Heads.

FIELDS = [b"Host: h", b"Range: bytes=0-99", b"Range: bytes=-5", b"Range: bytes=100-", b"Range: bytes=0-0,2-3",
          b"Range: bytes=18446744073709551616-", b"Connection: keep-alive", b"Transfer-Encoding: chunked",
          b"Content-Length: 5", b"If-Range: x", b"Expect: 100-continue", b"X: " + b"x" * 9_000, b" folded", b"Host : h",
          b"X:\x00", b"X: \xff", b": empty"]
TARGETS = [b"/" + NAME.encode(), b"/", b"*", b"/../" + NAME.encode(), b"//" + NAME.encode(), b"/%41cme", b"/x" * 5_000,
           b"http://h/" + NAME.encode(), b"/" + NAME.encode() + b"?q", b"/T_2024-02-30.txt", b"/\xff"]


def head(draw):
    method = draw.choice([b"GET"] * 9 + [b"HEAD", b"POST", b"get", b"G" * 9_000, b""])
    version = draw.choice([b"HTTP/1.1"] * 9 + [b"HTTP/1.0", b"HTTP/2.0", b"HTTP/1.10", b""])
    fields = [FIELDS[0], *draw.choices(FIELDS, k=draw.choice([0, 1, 1, 1, 2, 3, 70]))]
    lines = [b" ".join([method, draw.choice(TARGETS[:1] * 9 + TARGETS), version]), *fields]
    made = draw.choice([b"\r\n"] * 9 + [b"\n", b"\r"]).join([*lines, b"", b""])
    return draw.choice(COMMON)(draw, made) if draw.randrange(2) else made


def served(address, made):
    """The reply of a server to bytes."""
    reply = b""
    with socket.create_connection(address, timeout=WAIT) as peer:
        try:
            peer.sendall(made)
            peer.shutdown(socket.SHUT_WR)
            while block := peer.recv(65_536):
                reply += block
        except TimeoutError:
            raise
        except OSError:
            pass
    return reply


def head_ended(reply, file):
    """The status of a reply whose body matches its head, or that there was no reply."""
    if not reply:
        return "nothing"
    top, _, body = reply.partition(b"\r\n\r\n")
    said = re.match(rb"HTTP/1\.1 (200|206|400|404|416|501) ", top)
    places = re.search(rb"\r\nContent-Range: bytes (\d+)-(\d+)/(\d+)(\r\n|$)", top)
    length = re.search(rb"\r\nContent-Length: (\d+)(\r\n|$)", top)
    if not said or not length:
        raise Unexpected(f"reply: {reply[:200]!r}")
    whole = file[int(places[1]):int(places[2]) + 1] if places else file
    good = said[1] in (b"200", b"206")
    if bool(places) != (said[1] == b"206") or (good and (int(length[1]) != len(whole) or body not in (b"", whole))):
        raise Unexpected(f"reply: {reply[:200]!r}")
    if not good and body:
        raise Unexpected(f"a body of a refusal: {reply[:200]!r}")
    return said[1].decode()


def listening(folder):
    """A server over a folder, on a free port, and its address."""
    for port in range(20_000 + os.getpid() % 20_000, 60_000):
        server = subprocess.Popen(["kbfeed", "serve", str(folder), f"127.0.0.1:{port}", "--timeout", "5"],
                                  stdout=subprocess.PIPE, stderr=subprocess.DEVNULL)
        if server.stdout.readline() == b"listening\n":
            threading.Thread(target=server.stdout.read, daemon=True).start()
            return server, ("127.0.0.1", port)
        server.wait()
    raise Unexpected("no port is free")


def heads(draw, count, folder):
    file = GOOD.encode() * 20
    (folder / NAME).write_bytes(file)
    server, address = listening(folder)
    kept = folder / "head"
    try:
        for at in range(count):
            made = head(draw)
            kept.write_bytes(made)
            yield kept, head_ended(served(address, made), file)
            if at % 100 == 99 or at + 1 == count:
                good = served(address, b"GET /%s HTTP/1.1\r\nHost: h\r\n\r\n" % NAME.encode())
                if not good.endswith(b"\r\n\r\n" + file):
                    raise Unexpected(f"the next client is not served: {good[:200]!r}")
        status = pathlib.Path(f"/proc/{server.pid}/status").read_text(encoding="ascii")
        if int(re.search(r"VmHWM:\s+(\d+)", status)[1]) * 1_024 > ROOM:
            raise Unexpected(status)
    finally:
        server.terminate()
        server.wait()


# Replies.

REPLY_FIELDS = [b"Content-Length: 0", b"Content-Length: 5", b"Content-Length: 268435457", b"Content-Length: +5",
                b"Content-Length: 5, 5", b"Content-Range: bytes 0-9/10", b"Content-Range: bytes */0",
                b"Content-Range: bytes 9-0/10", b"Content-Range: bytes 0-18446744073709551615/*",
                b"Transfer-Encoding: chunked", b"Transfer-Encoding: gzip", b"Content-Encoding: gzip", b"Connection: x",
                b"Trailer: x", b"X: " + b"x" * 9_000, b" folded", b"X:\x00", b"Location: http://h/"]
STATUSES = [b"200 OK", b"206 Partial Content", b"100 Continue", b"103 Early Hints", b"204 No Content", b"302 Found",
            b"404 Not Found", b"416 Range Not Satisfiable", b"500 x", b"999 x", b"099 x", b"2000 x", b""]


def in_chunks(draw, body):
    """A body in chunks, some of them odd."""
    made = b""
    while body:
        size = draw.choice([1, 2, 7, 300])
        line = draw.choice([b"%x", b"%x", b"%X", b"0%x", b"%x;a=b", b"%x;" + b"y" * draw.choice([9, 2_000])])
        made += line % len(body[:size]) + b"\r\n" + body[:size] + b"\r\n"
        body = body[size:]
    return made + draw.choice([b"0\r\n\r\n", b"0\r\n\r\n", b"0\r\nA: b\r\n\r\n", b"0\r\n", b"zz\r\n", b"",
                               b"0\r\n" + b"A: b\r\n" * 2_000, b"f" * 17 + b"\r\n"])


def good_reply(request, file):
    """The head of a good reply to a request, and its body."""
    places = re.search(rb"\r\nRange: bytes=(\d+)-(\d+)\r\n", request)
    if not places:
        return b"HTTP/1.1 200 OK\r\nContent-Length: %d\r\n" % len(file), b""
    first, end = int(places[1]), min(int(places[2]) + 1, len(file))
    return (b"HTTP/1.1 206 Partial Content\r\nContent-Range: bytes %d-%d/%d\r\n" % (first, end - 1, len(file)),
            file[first:end])


def reply(draw, request, file):
    top, body = good_reply(request, file)
    kind = draw.randrange(8)
    if kind == 0:
        top = b"HTTP/1.1 " + draw.choice(STATUSES) + b"\r\n" + top.split(b"\r\n", 1)[1]
    if kind == 1:
        top += b"".join(field + b"\r\n" for field in draw.choices(REPLY_FIELDS, k=draw.choice([1, 2, 70])))
    if kind == 2:
        body = draw.choice(COMMON)(draw, body or b"x")
    if kind == 3:
        top = b"HTTP/1.1 103 Early Hints\r\nX: y\r\n\r\n" * draw.choice([1, 9, 400]) + top
    if body and draw.randrange(2):
        made = top + b"Transfer-Encoding: chunked\r\n\r\n" + in_chunks(draw, body)
    elif body:
        made = top + b"Content-Length: %d\r\n\r\n" % len(body) + body
    else:
        made = top + b"\r\n"
    if kind == 4:
        made = draw.choice(COMMON)(draw, made)
    if kind == 5:
        made = draw.choice([b"", b"\r\n", b"\0", b"HTTP/1.1 200 OK\r\n" * 9]) + made
    return made


class Replies(threading.Thread):
    """A peer that replies to each request, and counts the replies."""

    def __init__(self, draw, file):
        super().__init__(daemon=True)
        self.draw, self.file, self.count, self.last = draw, file, 0, []
        self.is_honest = True
        self.listener = socket.create_server(("127.0.0.1", 0), backlog=128)
        self.address = "127.0.0.1:%d" % self.listener.getsockname()[1]

    def run(self):
        while True:
            with self.listener.accept()[0] as peer:
                try:
                    request = b""
                    while not request.endswith(b"\r\n\r\n"):
                        block = peer.recv(65_536)
                        if not block:
                            break
                        request += block
                    if self.is_honest:
                        top, body = good_reply(request, self.file)
                        made = top + (b"Content-Length: %d\r\n\r\n" % len(body) + body if body else b"\r\n")
                    else:
                        made = reply(self.draw, request, self.file)
                        self.count += 1
                    self.last.append(made)
                    peer.sendall(made)
                except ConnectionError:
                    pass


LAST_LINES = re.compile(rf"activated|known|older|missing|unsatisfied|nothing|broken ({BROKEN.pattern})|"
                        r"(noted|size \d+|repeated|stored missing \d+)|refused (WrongSize|Outside|Conflict|TooBig|"
                        r"BadPiece|Full)")
FETCH_FAULTS = re.compile(r"kbfeed: (Short|HeadTooLong|BadHead|Coding|Length|Range|BodyTooLong|NoProgress|Read|Write|"
                          r"NoRanges|Status \d+)\n")


def fetch_ended(before, node, address):
    """How a fetch ended. The node then has to answer as before, or from the later release if that is active."""
    status, out, err = ran(["fetch", str(node), address, LATER, "--piece", "200"])
    last = out.splitlines()[-1] if out else ""
    if status not in (0, 1, 3) or (out and not LAST_LINES.fullmatch(last)):
        raise Unexpected(f"fetch: {status} {out[-200:]!r} {err[:200]!r}")
    if bool(err) == (status == 0) and not last.startswith(("broken", "refused", "missing", "unsatisfied")):
        raise Unexpected(f"fetch: {status} {out[-200:]!r} {err[:200]!r}")
    if err and not FETCH_FAULTS.fullmatch(err):
        raise Unexpected(f"fetch: {status} {out[-200:]!r} {err[:200]!r}")
    after = ran(["ask", str(node), "Acme_Global_All", QUERY])
    later = status == 0 and last == "activated"
    if after != before and not (later and after[0] == 0 and after[1].startswith(f"release {LATER} hits ")):
        raise Unexpected(f"ask after {last!r}, {err!r}: {after}")
    return err.removeprefix("kbfeed: ").strip() or " ".join(last.split()[:2 if status else 1])


class Node:
    """A node over a database, which fetches from an address. `ran` has the lines of a fetch, and an answer after it."""

    def __init__(self, database, address):
        token = database.parent / "token"
        token.write_text(TOKEN + "\n", encoding="ascii")
        with socket.create_server(("127.0.0.1", 0)) as held:
            self.address = "127.0.0.1:%d" % held.getsockname()[1]
        self.process = subprocess.Popen([*LIMITED, "node", str(database), self.address, "--from", address, "--token",
                                         str(token), "--piece", "200"], stdin=subprocess.DEVNULL,
                                        stdout=subprocess.PIPE, stderr=(database.parent / "faults").open("ab"))
        if self.process.stdout.readline() != b"listening\n":
            raise Unexpected("a node does not start")

    def ran(self, method, target, fields=()):
        conn = http.client.HTTPConnection(self.address, timeout=WAIT)
        conn.request(method, target, headers=dict(fields))
        text = conn.getresponse().read().decode("utf-8", "replace")
        conn.close()
        return text

    def end(self):
        self.process.kill()
        self.process.wait()
        self.process.stdout.close()


def fed_ended(before, database, address):
    """How a fetch of a node ended. The node has to answer as before, or from the later release if that is active."""
    node = Node(database, address)
    try:
        *lines, last = node.ran("POST", f"/feed/{LATER}", [("Authorization", f"Bearer {TOKEN}")]).splitlines()
        after = node.ran("GET", f"/resolve/Acme_Global_All?{QUERY}")
    except (OSError, http.client.HTTPException) as fault:
        raise Unexpected(f"a node ends: {fault!r}") from fault
    finally:
        node.end()
    end = lines[-1] if lines else ""
    if not re.fullmatch("status [013]", last) or not (FETCH_FAULTS.fullmatch(end + "\n") or LAST_LINES.fullmatch(end)):
        raise Unexpected(f"fed: {last!r} after {lines}")
    if (last == "status 0") != (end in ("activated", "known", "older")):
        raise Unexpected(f"fed: {last!r} after {end!r}")
    later = last == "status 0" and after.startswith(f"release {LATER} hits ")
    if after != before[1] and not later:
        raise Unexpected(f"answer after {end!r}: {after!r}")
    return " ".join(end.removeprefix("kbfeed: ").split()[:2])


def replies(draw, count, folder, ended=fetch_ended):
    peer = Replies(draw, GOOD.encode() * 2)
    peer.start()
    first, node = folder / "first.db", folder / "node.db"
    if ran(["fetch", str(first), peer.address, NAME])[0]:
        raise Unexpected("an honest fetch fails")
    before = ran(["ask", str(first), "Acme_Global_All", QUERY])
    peer.is_honest = False
    kept = folder / "replies"
    while peer.count < count:
        for old in folder.glob("node.db*"):
            old.unlink()
        shutil.copy(first, node)
        peer.last.clear()
        was = peer.count
        try:
            end = ended(before, node, peer.address)
        finally:
            kept.write_bytes(b"\n== a reply\n".join(peer.last))
        for _ in range(min(peer.count, count) - was):
            yield kept, end


def main():
    asked = argparse.ArgumentParser(description=__doc__, formatter_class=argparse.RawDescriptionHelpFormatter)
    asked.add_argument("kind", choices=["files", "heads", "replies", "fed"])
    asked.add_argument("count", type=int)
    asked.add_argument("seed", type=int)
    asked.add_argument("--ends", action="store_true")
    given = asked.parse_args()
    ends = collections.Counter()
    # In memory if the system has such a folder: each fetch syncs its database.
    place = "/dev/shm" if os.access("/dev/shm", os.W_OK) else None
    with tempfile.TemporaryDirectory(prefix="kbfeed-hostile-", dir=place) as name:
        folder = pathlib.Path(name)
        fed = functools.partial(replies, ended=fed_ended)
        kind = {"files": files, "heads": heads, "replies": replies, "fed": fed}[given.kind]
        at = None
        try:
            for at, end in kind(random.Random(given.seed), given.count, folder):
                ends[end] += 1
        except (Unexpected, subprocess.TimeoutExpired, TimeoutError) as why:
            print(why)
            for path in folder.iterdir():
                shutil.copy(path, f"hostile_{path.name}")
            print(f"after {ends.total()} {given.kind}; what was given is beside this, as hostile_*")
            return 1
    inputs = given.kind.replace("fed", "replies to a node")
    print(f"{ends.total()} {inputs}: each ended with an answer or a named fault")
    if given.ends:
        for end, count in ends.most_common():
            print(f"{count} {end}")
    return 0


if __name__ == "__main__":
    sys.exit(main())
