#!/usr/bin/env python3
"""Has a node fetch from knowledge bases that misbehave, and says how each fetch ends.

knowledge_bases.py FOLDER

`kbfeed` is on the path. For each kind of knowledge base a node with an empty database fetches a release, while a client
asks for its status again and again. Prints the last lines of each fetch, and complains if the node's memory, its
readers' waits or the duration of the fetch are not bounded. FOLDER is for the files of the test. The large list has
500,000 rows, or a million with THOROUGH set. With VERBOSE set, prints the figures on standard error."""
import os
import pathlib
import signal
import socket
import struct
import subprocess
import sys
import threading
import time
import urllib.request

HERE = pathlib.Path(__file__).resolve().parent
TOKEN = "a-token-of-this-test"
NAME = "Odd_2024-01-01.txt"
MIB = 1_048_576
# The most seconds of a fetch and of a reader's wait, and the most bytes that a fetch that stops may take.
LONGEST, WAIT, MEMORY = 20, 0.5, 32 * MIB
# The rows of the large list, which has 31 or 61 MB. A bound of 16 MiB finds a whole one in memory.
ROWS = 1_000_000 if os.environ.get("THOROUGH") else 500_000


def message(status, *fields):
    return "".join(f"{line}\r\n" for line in (f"HTTP/1.1 {status}", *fields, "")).encode()


def asked(peer):
    """The method and the places that a request asks for, or None without them."""
    text = b""
    while not text.endswith(b"\r\n\r\n"):
        block = peer.recv(65_536)
        if not block:
            return None
        text += block
    line, *fields = text.decode().split("\r\n")
    places = [field.removeprefix("Range: bytes=") for field in fields if field.startswith("Range: ")]
    return line.split(" ")[0], [int(place) for place in places[0].split("-")] if places else None


def without_end(peer, block):
    """Sends a block again and again until the peer disconnects, at most 600 MB."""
    for _ in range(600_000_000 // len(block)):
        peer.sendall(block)


def part(file, first, last, *fields):
    places = f"Content-Range: bytes {first}-{last}/{len(file)}"
    return message("206 Partial Content", places, *fields)


class KnowledgeBase(threading.Thread):
    """Serves one file, with replies of a kind."""

    def __init__(self, file, kind):
        super().__init__(daemon=True)
        self.file, self.kind = file, kind
        self.listener = socket.create_server(("127.0.0.1", 0))
        self.port = self.listener.getsockname()[1]
        self.kept = []
        self.all_sent = None

    def run(self):
        while True:
            peer = self.listener.accept()[0]
            threading.Thread(target=self.serve, args=(peer,), daemon=True).start()

    def serve(self, peer):
        try:
            request = asked(peer)
            if request:
                method, places = request
                self.head(peer) if method == "HEAD" else self.get(peer, *places)
        except OSError:
            pass
        if self.kind in ("open", "open chunks"):
            self.kept.append(peer)
        else:
            peer.close()

    def head(self, peer):
        good = message("200 OK", f"Content-Length: {len(self.file)}")
        if self.kind == "endless head":
            peer.sendall(b"HTTP/1.1 200 OK\r\nX: ")
            without_end(peer, b"x" * 65_536)
        peer.sendall(good)
        if self.kind == "body after a head":
            without_end(peer, b"x" * 65_536)

    def get(self, peer, first, last):
        file, kind = self.file, self.kind
        chunked = "Transfer-Encoding: chunked"
        if kind == "endless chunks":
            peer.sendall(part(file, first, last, chunked))
            without_end(peer, b"1000\r\n" + b"x" * 4_096 + b"\r\n")
        elif kind == "endless body":
            peer.sendall(part(file, first, last))
            without_end(peer, b"x" * 65_536)
        elif kind == "endless whole":
            peer.sendall(message("200 OK"))
            without_end(peer, b"x" * 65_536)
        elif kind == "endless whole chunks":
            peer.sendall(message("200 OK", chunked))
            without_end(peer, b"1000\r\n" + b"x" * 4_096 + b"\r\n")
        elif kind == "long lines of chunks":
            peer.sendall(part(file, first, last, chunked))
            line = b"1;x=" + b"y" * 990 + b"\r\n"
            peer.sendall(b"".join(line + file[at:at + 1] + b"\r\n" for at in range(first, last + 1)) + b"0\r\n\r\n")
        elif kind == "open chunks":
            peer.sendall(part(file, first, last, chunked) + b"%x\r\n" % (last - first + 1) + file[first:last + 1]
                         + b"\r\n0\r\n\r\n")
        elif kind in ("whole", "half a whole"):
            peer.sendall(message("200 OK", f"Content-Length: {len(file)}"))
            peer.sendall(file[:len(file) // 2 if kind == "half a whole" else None])
            self.all_sent = time.monotonic()
        elif kind == "repeats":
            peer.sendall(part(file, 0, 99, "Content-Length: 100") + file[:100])
        elif kind == "another place":
            peer.sendall(part(file, len(file) + 5, len(file) + 9, "Content-Length: 5") + b"xxxxx")
        elif kind == "resets":
            peer.setsockopt(socket.SOL_SOCKET, socket.SO_LINGER, struct.pack("ii", 1, 0))
        elif kind == "drips":
            for byte in part(file, first, last, f"Content-Length: {last - first + 1}") + file[first:last + 1]:
                peer.sendall(bytes([byte]))
                time.sleep(0.02)
        else:
            peer.sendall(part(file, first, last, f"Content-Length: {last - first + 1}") + file[first:last + 1])
            self.all_sent = time.monotonic()


class Reader(threading.Thread):
    """Asks a node for its status, and records how long each reply takes and when."""

    def __init__(self, addr):
        super().__init__(daemon=True)
        self.addr, self.waits, self.is_asked_to_end = addr, [], False

    def run(self):
        while not self.is_asked_to_end:
            began = time.monotonic()
            try:
                urllib.request.urlopen(f"http://{self.addr}/status", timeout=30).read()
            except OSError:
                pass
            self.waits.append((began, time.monotonic() - began))
            time.sleep(0.005)

    def longest(self, until):
        """The longest wait of those that began before a time."""
        return max((wait for began, wait in self.waits if until is None or began < until - 0.1), default=0)


class Node:
    """A node over an empty database."""

    def __init__(self, folder, port, *words):
        with socket.create_server(("127.0.0.1", 0)) as held:
            self.addr = f"127.0.0.1:{held.getsockname()[1]}"
        (folder / "token").write_text(TOKEN + "\n", encoding="ascii")
        for old in folder.glob("node.db*"):
            old.unlink()
        command = ["kbfeed", "node", folder / "node.db", self.addr, "--from", f"127.0.0.1:{port}", "--token",
                   folder / "token", *words]
        self.process = subprocess.Popen(command, stdout=subprocess.PIPE, stderr=(folder / "faults").open("ab"),
                                        stdin=subprocess.DEVNULL)
        self.process.stdout.readline()
        threading.Thread(target=self.process.stdout.read, daemon=True).start()

    def memory(self, field):
        """The resident bytes, now (VmRSS) or at most (VmHWM)."""
        text = pathlib.Path(f"/proc/{self.process.pid}/status").read_text(encoding="ascii")
        return int(text.split(field + ":")[1].split()[0]) * 1024

    def fed(self):
        """The lines of a fetch."""
        request = urllib.request.Request(f"http://{self.addr}/feed/{NAME}", method="POST",
                                         headers={"Authorization": f"Bearer {TOKEN}"})
        return urllib.request.urlopen(request, timeout=600).read().decode().splitlines()

    def end(self):
        self.process.send_signal(signal.SIGKILL)
        self.process.wait()


def fetched(folder, file, kind, *words):
    """Has a node fetch a file from a knowledge base of a kind. Returns the lines, the seconds, the longest wait of its
    readers before all was sent, and the bytes that the node took."""
    base = KnowledgeBase(file, kind)
    base.start()
    node = Node(folder, base.port, *words)
    reader = Reader(node.addr)
    try:
        before = node.memory("VmRSS")
        reader.start()
        began = time.monotonic()
        lines = node.fed()
        seconds = time.monotonic() - began
        reader.is_asked_to_end = True
        reader.join(60)
        return lines, seconds, reader.longest(base.all_sent), node.memory("VmHWM") - before
    finally:
        node.end()
        base.listener.close()


def shown(kind, lines, seconds, wait, memory):
    if os.environ.get("VERBOSE"):
        print(f"{kind}: {seconds:.2f} s, wait {wait * 1000:.0f} ms, {memory / MIB:.1f} MiB", file=sys.stderr)
    print(f"{kind}: {', '.join(lines[-2:])}")
    if wait > WAIT:
        print(f"  a reader waited {wait:.2f} s")


STOPPING = ["endless head", "endless chunks", "endless body", "endless whole", "endless whole chunks",
            "long lines of chunks", "half a whole", "repeats", "another place", "resets", "drips"]


def main():
    folder = pathlib.Path(sys.argv[1]).resolve()
    folder.mkdir()
    small = subprocess.run([sys.executable, HERE / "many_rows.py", "2000", "100"], stdout=subprocess.PIPE,
                           check=True).stdout
    for kind in ["good", "open", "open chunks", "body after a head", *STOPPING]:
        words = ["--piece", "32768", "--timeout", "3"] if kind != "long lines of chunks" else ["--timeout", "3"]
        lines, seconds, wait, memory = fetched(folder, small, kind, *words)
        shown(kind, lines, seconds, wait, memory)
        if seconds > (3 if kind.startswith("open") else LONGEST):
            print(f"  it took {seconds:.1f} s")
        if memory > MEMORY:
            print(f"  it took {memory / MIB:.0f} MiB")
    large = subprocess.run([sys.executable, HERE / "many_rows.py", str(ROWS), "1000"], stdout=subprocess.PIPE,
                           check=True).stdout
    most = {}
    for kind in ["good", "whole"]:
        lines, seconds, wait, most[kind] = fetched(folder, large, kind)
        shown(f"{kind}, large", lines, seconds, wait, most[kind])
    if most["whole"] - most["good"] > 16 * MIB:
        print(f"  a whole file took {(most['whole'] - most['good']) / MIB:.0f} MiB more than its ranges")


if __name__ == "__main__":
    main()
