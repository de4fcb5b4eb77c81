#!/usr/bin/env python3
"""Has one address queue many requests, and another one ask once.

address_turns.py ADDR LONG COUNT [forwarded]

COUNT clients from 127.0.0.2 ask for LONG, a target that takes the node a few milliseconds, each on a connection of its
own. Then one from 127.0.0.1 asks for /status. With `forwarded` all are from 127.0.0.1, as a proxy is, and the addresses
are those of X-Forwarded-For: those of the first have one network of IPv6. Prints whether the other one had its response
before a quarter of the first had any of theirs, in one of three tries: a machine that does something else may read the
first late."""
import select
import socket
import sys

TRIES = 3


def connected(address, source):
    peer = socket.socket()
    peer.bind((source, 0))
    peer.settimeout(60)
    peer.connect(address)
    return peer


def request(target, field):
    return f"GET {target} HTTP/1.1\r\nHost: h\r\n{field}Connection: close\r\n\r\n".encode()


def forwarded(client):
    return f"X-Forwarded-For: 2001:db8:ffff::1, {client}\r\n"


def ahead(address, target, count, is_forwarded):
    """Returns how many of the clients of the first address have a response when the other one has its own."""
    peers = [connected(address, "127.0.0.1" if is_forwarded else "127.0.0.2") for _ in range(count)]
    reader = connected(address, "127.0.0.1")
    for number, peer in enumerate(peers, 2):
        peer.sendall(request(target, forwarded(f"2001:db8::{number:x}") if is_forwarded else ""))
    reader.sendall(request("/status", forwarded("2001:db8:0:1::1") if is_forwarded else ""))
    reader.recv(1)
    found = len(select.select(peers, [], [], 0)[0])
    for peer in peers:
        while peer.recv(1 << 20):
            pass
        peer.close()
    reader.close()
    return found


def main():
    host, _, port = sys.argv[1].rpartition(":")
    count = int(sys.argv[3])
    counts = []
    while len(counts) < TRIES and (not counts or counts[-1] * 4 >= count):
        counts.append(ahead((host, int(port)), sys.argv[2], count, sys.argv[4:] == ["forwarded"]))
    print("in turn" if counts[-1] * 4 < count else f"behind {counts} of {count}")


main()
