#!/usr/bin/env python3
"""Sends requests whose bodies look like requests.

smuggling.py ADDR

Each case sends one request on a connection of its own. Its body is a request for /smuggled by its bytes. Prints a line
for each case: the statuses of all replies, but for interim ones, and the name. A reply to a body would be a second one.
Only the last case has two: there a request follows the body."""
import re
import socket
import sys

INNER = b"GET /smuggled HTTP/1.1\r\nHost: h\r\n\r\n"
SIZE = len(INNER)
LENGTH = f"Content-Length: {SIZE}"
CHUNKS = b"%x\r\n%b\r\n0\r\n\r\n" % (SIZE, INNER)


def request(line, *fields, body=INNER, end="\r\n"):
    lines = [f"{line} HTTP/1.1", "Host: h", *fields]
    return "".join(each + end for each in [*lines, ""]).encode("latin-1") + body


def form(*fields, body=INNER, end="\r\n"):
    return request("POST /resolve", "Content-Type: application/x-www-form-urlencoded", *fields, body=body, end=end)


CASES = {
    "a form of its length": form(LENGTH),
    "a GET with a body": request("GET /status", LENGTH),
    "a HEAD with a body": request("HEAD /status", LENGTH),
    "two lengths": form("Content-Length: 0", LENGTH),
    "the same length twice": form(LENGTH, LENGTH),
    "a list of lengths": form(f"Content-Length: {SIZE}, {SIZE}"),
    "a length with a sign": form(f"Content-Length: +{SIZE}"),
    "a length in hexadecimal": form(f"Content-Length: 0x{SIZE:x}"),
    "a length past 64 bits": form(f"Content-Length: {(1 << 64) + SIZE}"),
    "chunks": form("Transfer-Encoding: chunked", body=CHUNKS),
    "chunks and a length": form("Transfer-Encoding: chunked", "Content-Length: 4", body=CHUNKS),
    "chunks, by capital letters": form("TRANSFER-ENCODING: CHUNKED", body=CHUNKS),
    "an unknown coding": form("Transfer-Encoding: xchunked", LENGTH),
    "two codings": form("Transfer-Encoding: chunked", "Transfer-Encoding: identity", body=CHUNKS),
    "a blank before the colon": form("Transfer-Encoding : chunked", LENGTH),
    "a tab before the value": form("Transfer-Encoding:\tchunked", body=CHUNKS),
    "a vertical tab before the value": form("Transfer-Encoding:\x0bchunked", LENGTH),
    "an underscore in the name": form("Transfer_Encoding: chunked", LENGTH),
    "a folded value": form("Transfer-Encoding:", " chunked", LENGTH),
    "a field behind a lone line feed": form(f"X: y\nContent-Length: {SIZE}", "Content-Length: 0"),
    "a field behind a lone carriage return": form(f"X: y\rContent-Length: {SIZE}", "Content-Length: 0"),
    "lines that end in line feeds": form(LENGTH, end="\n"),
    "Expect: 100-continue": form("Expect: 100-continue", LENGTH),
    "Expect and a GET": request("GET /status", "Expect: 100-continue", LENGTH),
    "a request behind the body": form(LENGTH) + request("GET /none", body=b""),
}


def replies(address, text):
    """The statuses of all replies until none has come for a while."""
    host, port = address.rsplit(":", 1)
    reply = b""
    with socket.create_connection((host, int(port)), timeout=60) as peer:
        peer.sendall(text)
        try:
            while part := peer.recv(65_536):
                reply += part
                peer.settimeout(0.3)
        except (TimeoutError, ConnectionResetError):
            pass
    found = re.findall(rb"^HTTP/1\.[01] (\d+)", reply, re.M)
    return " ".join(code.decode() for code in found if code != b"100")


def main():
    for name, text in CASES.items():
        print(replies(sys.argv[1], text), name)


if __name__ == "__main__":
    main()
