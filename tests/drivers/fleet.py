#!/usr/bin/env python3
"""Has three nodes behind nginx fetch a new release, one after another, while four clients query through nginx.

fleet.py FOLDER

The nodes and nginx use the files of samples/fleet/; `kbfeed` and `nginx` are on the path. One node is killed in the
middle of its fetch, and restarts. Every reply has to be the answer of a replay of the old or of the new release. No
client may get an answer of the old release from a node after one of the new, and no request may fail. Each request has
a tag, by which the logs of the nodes say which of them answered it. FOLDER is for the files of the test. Prints what is
wrong, and what was done."""
import collections
import http.client
import os
import pathlib
import re
import signal
import socket
import subprocess
import sys
import threading
import time

HERE = pathlib.Path(__file__).resolve().parent
SAMPLES = HERE.parent.parent / "samples" / "fleet"
NAMES = ["Fleet_2024-01-01.txt", "Fleet_2024-02-01.txt"]
ROWS = 3_000
PIECE = 4_096
TOKEN = "a token of this test alone".replace(" ", "-")


def ports(count):
    """Free ports."""
    held = [socket.create_server(("127.0.0.1", 0)) for _ in range(count)]
    found = [it.getsockname()[1] for it in held]
    for it in held:
        it.close()
    return found


def has_ipv6():
    """Returns whether a server can listen on the loopback address of IPv6."""
    try:
        socket.create_server(("::1", 0), family=socket.AF_INET6).close()
        return True
    except OSError:
        return False


def waited(port):
    for _ in range(800):
        try:
            socket.create_connection(("127.0.0.1", port), timeout=5).close()
            return
        except OSError:
            time.sleep(0.05)
    sys.exit(f"nothing listens on {port}")


def make_lists(folder):
    """Writes two releases, the second with other titles, and returns their ISSNs."""
    folder.mkdir()
    text = subprocess.run([sys.executable, HERE / "many_rows.py", str(ROWS), "100"], stdout=subprocess.PIPE, text=True,
                          check=True).stdout
    (folder / NAMES[0]).write_text(text, encoding="ascii")
    (folder / NAMES[1]).write_text(text.replace("Title", "Renamed"), encoding="ascii")
    return sorted(set(re.findall(r"\t(\d{4}-\d{3}[\dX])\t", text)))


def replayed(folder, name, queries):
    """The answers of a replay of a release."""
    size = (folder / name).stat().st_size
    lines = ["nodes 1", f"publish-file {name} {folder / name}", f"offer 1 {name}", f"deliver 1 {name} 0 {size}"]
    lines += [f"ask 1 Fleet {query}" for query in queries]
    printed = subprocess.run(["kbfeed", "replay"], input="\n".join(lines) + "\n", stdout=subprocess.PIPE, text=True,
                             check=True).stdout
    answers = re.split(r"^(?=release )", printed, flags=re.M)[1:]
    return dict(zip(queries, answers))


class Client(threading.Thread):
    """Sends one query after another, and records the tag of each and the release that answered it."""

    def __init__(self, number, front, answers):
        super().__init__(daemon=True)
        self.number, self.front, self.answers = number, front, answers
        self.queries = list(answers[0])
        self.is_asked_to_end = False
        self.count, self.wrong, self.replies = 0, [], []

    def run(self):
        while not self.is_asked_to_end and len(self.wrong) < 5:
            self.ask(self.queries[self.count % len(self.queries)])
            self.count += 1

    def ask(self, query):
        tag = f"{self.number}.{self.count}"
        try:
            conn = http.client.HTTPConnection("127.0.0.1", self.front, timeout=30)
            conn.request("GET", f"/resolve/Fleet?{query}&tag={tag}")
            reply = conn.getresponse()
            text = reply.read().decode("ascii")
            conn.close()
        except (OSError, http.client.HTTPException) as fault:
            self.wrong.append(f"{query}: {fault!r}")
            return
        release = [at for at in (0, 1) if text == self.answers[at][query]]
        if reply.status != 200 or not release:
            self.wrong.append(f"{query}: {reply.status} {text[:200]!r}")
        else:
            self.replies.append((tag, release[0]))


class Fleet:
    def __init__(self, folder):
        self.folder = folder
        self.front, self.way, self.shelf, self.origin, *self.ports = ports(7)
        self.begun = {}
        (folder / "token").write_text(TOKEN + "\n", encoding="ascii")
        (folder / "nodes").write_text("".join(f"127.0.0.1:{port}\n" for port in self.ports), encoding="ascii")

    def begin(self, name, *words):
        log = open(self.folder / f"{name}.log", "ab")
        self.begun[name] = subprocess.Popen(words, stdout=log, stderr=log, stdin=subprocess.DEVNULL)

    def begin_node(self, at):
        port = self.ports[at]
        self.begin(f"node{at}", "kbfeed", "node", self.folder / f"node{at}.db", f"127.0.0.1:{port}", "--from",
                   f"127.0.0.1:{self.way}", "--token", self.folder / "token", "--piece", str(PIECE))
        waited(port)

    def begin_nginx(self):
        """Starts nginx with the sample configuration, with the ports and the knowledge base of the test."""
        text = (SAMPLES / "nginx.conf").read_text(encoding="ascii")
        for at, port in enumerate(self.ports):
            text = text.replace(f"127.0.0.1:{8081 + at}", f"127.0.0.1:{port}")
        for old, new in [("127.0.0.1:8080", f"127.0.0.1:{self.front}"), ("[::1]:8080", f"[::1]:{self.front}"),
                         ("127.0.0.1:8090", f"127.0.0.1:{self.way}"), ("[::1]:8090", f"[::1]:{self.way}"),
                         ("127.0.0.1:8091", f"127.0.0.1:{self.shelf}"), ("[::1]:8091", f"[::1]:{self.shelf}"),
                         ("https://lists.example/kbart/", f"http://127.0.0.1:{self.origin}/"),
                         ("/var/cache/nginx", str(self.folder)), ("/var/log/nginx", str(self.folder)),
                         ("rate=20", "rate=90000")]:
            text = text.replace(old, new)
        unwanted = ["proxy_ssl_"] if has_ipv6() else ["proxy_ssl_", "listen [::1]"]
        text = "".join(line for line in text.splitlines(True) if not any(it in line for it in unwanted))
        (self.folder / "kbfeed.conf").write_text(text, encoding="ascii")
        (self.folder / "nginx.conf").write_text(
            f"daemon off; pid {self.folder}/nginx.pid; error_log {self.folder}/error.log; master_process off;\n"
            "events { worker_connections 256; }\n"
            f"http {{ access_log off; {self.paths()} include {self.folder}/kbfeed.conf; }}\n", encoding="ascii")
        self.begin("nginx", "nginx", "-e", self.folder / "error.log", "-p", self.folder, "-c",
                   self.folder / "nginx.conf")
        waited(self.front)

    def paths(self):
        kinds = ["client_body", "proxy", "fastcgi", "uwsgi", "scgi"]
        return " ".join(f"{kind}_temp_path {self.folder}/{kind};" for kind in kinds)

    def feed(self, name, nodes="nodes"):
        return subprocess.run([SAMPLES / "feed", self.folder / "token", self.folder / nodes, name],
                              stdout=subprocess.PIPE, text=True)

    def kill(self, name):
        self.begun[name].send_signal(signal.SIGKILL)
        self.begun[name].wait()

    def end(self):
        for process in self.begun.values():
            process.terminate()
        for process in self.begun.values():
            process.wait()


def answerers(folder):
    """The nodes that logged a reply to the request of each tag."""
    found = collections.defaultdict(set)
    for at in range(3):
        text = (folder / f"node{at}.log").read_text(encoding="ascii")
        for tag in re.findall(r'"GET [^ "]*&tag=([\d.]+) HTTP/1\.[01]" 200 ', text):
            found[tag].add(at)
    return found


def compared(clients, nodes):
    """The faults of the replies by the nodes that gave them, and which node answered from which release. The reply of a
    node that was killed is in no log, if it was not printed yet: that is one request of each client."""
    wrong, seen, unknown = [], set(), 0
    for client in clients:
        latest = collections.defaultdict(int)
        for tag, release in client.replies:
            if len(nodes[tag]) != 1:
                unknown += 1
                continue
            node, = nodes[tag]
            if release < latest[node]:
                wrong.append(f"node {node} went back at {tag}")
            latest[node] = release
            seen.add((node, release))
    if unknown > len(clients):
        wrong.append(f"{unknown} requests are in no log, or in two")
    return wrong, seen


def fed_and_killed(fleet, at):
    """Has a node fetch the new release, and kills it in the middle. Returns whether that was so."""
    node = f"127.0.0.1:{fleet.ports[at]}"
    (fleet.folder / "one").write_text(node + "\n", encoding="ascii")
    peer = socket.create_connection(("127.0.0.1", fleet.ports[at]), timeout=30)
    peer.sendall(f"POST /feed/{NAMES[1]} HTTP/1.1\r\nHost: {node}\r\nAuthorization: Bearer {TOKEN}\r\n\r\n".encode())
    told = b""
    while b"stored missing" not in told:
        part = peer.recv(4_096)
        if not part:
            break
        told += part
    fleet.kill(f"node{at}")
    peer.close()
    return b"stored missing" in told and b"activated" not in told


def main():
    folder = pathlib.Path(sys.argv[1]).resolve()
    folder.mkdir()
    fleet = Fleet(folder)
    issns = make_lists(folder / "lists")
    queries = [f"rft.issn={issn.replace('-', '')}&rft.date={1900 + at}" for at, issn in enumerate(issns[:40])]
    answers = [replayed(folder / "lists", name, queries) for name in NAMES]
    if any(answers[0][query] == answers[1][query] for query in queries):
        print("the releases have equal answers")
    try:
        fleet.begin("serve", "kbfeed", "serve", folder / "lists", f"127.0.0.1:{fleet.origin}")
        waited(fleet.origin)
        for at in range(3):
            fleet.begin_node(at)
        fleet.begin_nginx()
        if fleet.feed(NAMES[0]).returncode:
            print("the first release does not arrive")
        clients = [Client(number, fleet.front, answers) for number in range(4)]
        for client in clients:
            client.start()
        time.sleep(0.5)
        if not fed_and_killed(fleet, 1):
            print("the node was not ended in the middle of its fetch")
        time.sleep(0.5)
        fleet.begin_node(1)
        fed = fleet.feed(NAMES[1])
        if fed.returncode or fed.stdout.count(" activated (rows 3000 ") != 3:
            print(f"the second release does not arrive: {fed.stdout}")
        # nginx asks a node that was stopped again after fail_timeout.
        time.sleep(6)
        for client in clients:
            client.is_asked_to_end = True
        for client in clients:
            client.join(60)
        # A node prints a line once the connection is closed.
        time.sleep(1)
    finally:
        fleet.end()
    wrong, seen = compared(clients, answerers(folder))
    wrong += [it for client in clients for it in client.wrong]
    for line in wrong:
        print(line)
    if len(seen) != 6:
        print(f"not each node gave the answers of both releases: {sorted(seen)}")
    asked = sum(client.count for client in clients)
    if asked < 200:
        print(f"{asked} requests are few")
    print(f"3 nodes, {len(clients)} clients, {len(wrong)} requests that failed or had a wrong answer")
    if os.environ.get("VERBOSE"):
        print(asked, "requests")


if __name__ == "__main__":
    main()
