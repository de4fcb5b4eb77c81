#!/usr/bin/env python3
"""Serves the files of a folder, with replies that are wrong in the way that a file says.

odd_server.py FOLDER MODE ASKED

Prints a free port of 127.0.0.1 and listens there. Each connection has one request. The file ASKED gets a line for each
request, and one that says whether a peer that had to wait disconnected in about a second. The file MODE has a method
and the kind of its replies, of those below. All other requests get good replies."""
import pathlib
import socket
import struct
import sys
import time


def message(status, *fields, body=b""):
    return "".join(f"{line}\r\n" for line in (f"HTTP/1.1 {status}", *fields, "")).encode() + body


def part(first, last, total, body):
    places = f"Content-Range: bytes {first}-{last}/{total}"
    return message("206 Partial Content", places, f"Content-Length: {len(body)}", body=body)


def chunked(first, last, file):
    body = b"".join(b"%x\r\n%b\r\n" % (1, file[at:at + 1]) for at in range(first, last + 1)) + b"0\r\n\r\n"
    places = f"Content-Range: bytes {first}-{last}/{len(file)}"
    return message("206 Partial Content", places, "Transfer-Encoding: chunked", body=body)


def right(first, last, file):
    """The good reply to a GET of places that the file has; a HEAD asks for none."""
    if first is None:
        return message("200 OK", f"Content-Length: {len(file)}")
    return part(first, last, len(file), file[first:last + 1])


# The bytes of a reply of each kind, from the requested places and the file.
REPLIES = {
    "whole": lambda first, last, file: message("200 OK", f"Content-Length: {len(file)}", body=file),
    "endless": lambda first, last, file: message("200 OK", body=file),
    "chunked": chunked,
    "interim": lambda first, last, file: message("103 Early Hints") * 9 + right(first, last, file),
    "first": lambda first, last, file: part(0, 99, len(file), file[:100]),
    "cut": lambda first, last, file: right(first, last, file)[:-50 if first else None],
    "nothing": lambda first, last, file: b"",
    "nonsense": lambda first, last, file: b"nonsense\r\n\r\n",
    "gone": lambda first, last, file: message("404 Not Found"),
    "moved": lambda first, last, file: message("302 Found", "Location: /"),
    "failing": lambda first, last, file: message("500 Internal Server Error"),
    "gzip": lambda first, last, file: message("200 OK", "Content-Encoding: gzip", "Content-Length: 1", body=b"x"),
    "long-head": lambda first, last, file: message("200 OK", "X: " + "x" * 9_000),
    "no-length": lambda first, last, file: message("200 OK"),
    "no-range": lambda first, last, file: message("206 Partial Content", "Content-Length: 1", body=b"x"),
    "longer": lambda first, last, file: message("200 OK", f"Content-Length: {len(file) + 1}"),
    "past-limit": lambda first, last, file: message("200 OK", "Content-Length: 268435457"),
    "other-total": lambda first, last, file: part(first, last, len(file) + 1, file[first:last + 1]),
    "outside": lambda first, last, file: part(len(file) - 5, len(file) + 4, "*", b"x" * 10),
    "long-part": lambda first, last, file: part(0, 1_048_576, "*", b"x" * 1_048_577),
    "other-bytes": lambda first, last, file: part(0, 199, len(file), b"x" * 200),
    "shrunk": lambda first, last, file: message("416 Range Not Satisfiable", "Content-Range: bytes */100"),
}


def asked(peer):
    """The method, the name, and the first and the last place that a request asks for, or None."""
    text = b""
    while not text.endswith(b"\r\n\r\n"):
        block = peer.recv(65_536)
        if not block:
            return None
        text += block
    line, *fields = text.decode().split("\r\n")
    method, target, _ = line.split(" ")
    places = [field.removeprefix("Range: bytes=") for field in fields if field.startswith("Range: ")]
    first, last = map(int, places[0].split("-")) if places else (None, None)
    return method, target.removeprefix("/"), first, last


def kind_of(mode, method):
    """The kind of the replies to a method."""
    said = mode.read_text(encoding="ascii").split()
    return said[1] if said[0] == method else "right"


def dripped(peer, text, pause):
    """Sends a byte of a text now and then until the peer disconnects, and returns how long that took."""
    start = time.monotonic()
    try:
        for at in range(len(text)):
            peer.sendall(text[at:at + 1])
            time.sleep(pause)
    except ConnectionError:
        pass
    return time.monotonic() - start


def held(peer):
    """Sends nothing until the peer disconnects, and returns how long that took."""
    start = time.monotonic()
    while peer.recv(1):
        pass
    return time.monotonic() - start


def answer(peer, mode, method, first, last, file):
    """Answers a request, and returns after how many seconds the peer disconnected, if it had to wait."""
    while kind_of(mode, method) == "waits":
        time.sleep(0.02)
    kind = kind_of(mode, method)
    if kind == "silent":
        return held(peer)
    if kind == "drips":
        return dripped(peer, b"HTTP/1.1 200 OK\r\nX: " + b"x" * 8_000, 0.02)
    if kind == "drips-body":
        good = right(first, last, file)
        peer.sendall(good[:first - last])
        return dripped(peer, good[first - last:], 0.1)
    if kind == "resets":
        peer.setsockopt(socket.SOL_SOCKET, socket.SO_LINGER, struct.pack("ii", 1, 0))
        return None
    if kind == "slow":
        time.sleep(1.2)
    peer.sendall(REPLIES.get(kind, right)(first, last, file))
    return None


def main():
    folder, mode, lines = map(pathlib.Path, sys.argv[1:])
    listener = socket.create_server(("127.0.0.1", 0))
    print(f"127.0.0.1:{listener.getsockname()[1]}", flush=True)
    while True:
        with listener.accept()[0] as peer:
            try:
                request = asked(peer)
                if not request:
                    continue
                method, name, first, last = request
                with lines.open("a", encoding="ascii") as out:
                    print(method if first is None else f"{method} {first}-{last}", file=out)
                seconds = answer(peer, mode, method, first, last, (folder / name).read_bytes())
                if seconds is not None:
                    with lines.open("a", encoding="ascii") as out:
                        print("gone in time" if 0.9 <= seconds < 3 else f"gone after {seconds} s", file=out)
            except ConnectionError:
                pass


if __name__ == "__main__":
    main()
