#!/usr/bin/env python3
"""Asks a node for pages with bytes that are not UTF-8, and prints of each whether it is UTF-8, and what it echoes.

odd_bytes.py ADDR"""
import re
import socket
import sys

ASKS = [b"/resolve?rft.issn=2434-561X&rft.volume=%FF", b"/resolve?rft.issn=2434-561X&rft.volume=%80%e9",
        b"/resolve?rft.issn=2434-561X&rft.date=%C3", b"/resolve?rft.issn=2434-561X%FF", b"/resolve?rft.atitle=%FF",
        b"/titles?q=%FF", b"/titles?q=a&start=%FF", b"/resolve/Nope?rft.date=%ED%A0%80", b"/none?rft.volume=%FF",
        b"/resolve?rft.issn=2434-561X&rft.volume=\xff", b"/resolve?rft.issn=2434-561X&rft.volume=caf%C3%A9"]
FIELDS = b"Host: a\r\nAccept: text/html\r\nConnection: close\r\n"


def sent(addr, text):
    host, port = addr.split(":")
    with socket.create_connection((host, int(port)), 30) as stream:
        stream.sendall(text)
        stream.shutdown(socket.SHUT_WR)
        return b"".join(iter(lambda: stream.recv(65536), b""))


def told(name, reply):
    head, _, body = reply.partition(b"\r\n\r\n")
    kind = re.search(rb"Content-Type: ([^\r]*)", head)
    try:
        body.decode("utf-8")
        good = "UTF-8"
    except UnicodeDecodeError as error:
        good = f"not UTF-8 at {error.start}"
    values = re.findall(rb'name="(?:rft\.(?:volume|date|issn)|q)"[^>]*value="([^"]+)"', body)
    values += re.findall(rb'value="([^"]+)"[^>]*name="(?:rft\.(?:volume|date|issn)|q)"', body)
    shown = " ".join(it.decode("utf-8", "backslashreplace") for it in values)
    print(head[9:12].decode(), kind[1].decode() if kind else "-", name, good, ascii(shown))


def main():
    addr = sys.argv[1]
    for ask in ASKS:
        told(ascii(ask)[2:-1], sent(addr, b"GET " + ask + b" HTTP/1.1\r\n" + FIELDS + b"\r\n"))
    form = b"rft.issn=2434-561X&rft.volume=\xff\xfe\x00<b>"
    kind = b"Content-Type: application/x-www-form-urlencoded\r\nContent-Length: %d\r\n\r\n" % len(form)
    told("form", sent(addr, b"POST /resolve HTTP/1.1\r\n" + FIELDS + kind + form))


if __name__ == "__main__":
    main()
