#!/usr/bin/env python3
"""Clients that keep their connections to a node open.

keep_alive.py ADDR idle             prints after how many seconds the node closes an idle connection
keep_alive.py ADDR pipelined N      sends N requests at once, and prints how many replies have which status
keep_alive.py ADDR open TARGET N    N clients get the last reply to TARGET, send one byte more and stay open; prints the
                                    status that another client gets then
keep_alive.py ADDR full N           N clients get a reply and stay open, one half later than the other, and then half as
                                    many connect at once; prints the statuses that these get, and how many of each half
                                    the node closed
keep_alive.py ADDR eight            sends eight requests at once, 50 times; prints whether the median of the times until
                                    the eighth reply is below 20 ms
keep_alive.py ADDR library          Python's http.client sends three requests; prints their statuses, and over how many
                                    connections they went
keep_alive.py ADDR stream           a client streams a body without an end; prints whether each of 200 requests of
                                    another client is answered within 100 ms"""
import http.client
import re
import socket
import statistics
import sys
import time

HEAD = "GET {} HTTP/1.1\r\nHost: h\r\n{}\r\n"


def dialled(address):
    host, port = address.rsplit(":", 1)
    return socket.create_connection((host, int(port)), timeout=60)


def request(target, fields=""):
    return HEAD.format(target, fields).encode()


def read_all(peer):
    reply = b""
    while part := peer.recv(65_536):
        reply += part
    return reply


def read_one(peer):
    """One reply, by its length."""
    reply = b""
    while b"\r\n\r\n" not in reply:
        reply += peer.recv(65_536)
    head, _, body = reply.partition(b"\r\n\r\n")
    size = int(re.search(rb"Content-Length: (\d+)", head)[1])
    while len(body) < size:
        body += peer.recv(65_536)
    return head


def status(reply):
    return reply.split(b" ", 2)[1].decode()


def idle(address):
    with dialled(address) as peer:
        peer.sendall(request("/status"))
        read_one(peer)
        began = time.monotonic()
        read_all(peer)
        print(round(time.monotonic() - began))


def pipelined(address, count):
    with dialled(address) as peer:
        peer.sendall(request("/status") * int(count))
        peer.shutdown(socket.SHUT_WR)
        found = re.findall(rb"HTTP/1\.1 (\d+)", read_all(peer))
        print(*(f"{code.decode()} {found.count(code)}" for code in sorted(set(found))))


def is_closed(peer):
    peer.setblocking(False)
    try:
        return peer.recv(1) == b""
    except BlockingIOError:
        return False
    except ConnectionResetError:
        return True


def replied(address, count):
    """So many clients that connect, ask at once, and stay open, and the statuses of their replies."""
    peers = [dialled(address) for _ in range(count)]
    for peer in peers:
        peer.sendall(request("/status"))
    return peers, {status(read_one(peer)) for peer in peers}


def full(address, count):
    halves = []
    for _ in range(2):
        halves.append(replied(address, int(count) // 2)[0])
        time.sleep(0.6)
    _, found = replied(address, int(count) // 2)
    print(*sorted(found), *(sum(map(is_closed, half)) for half in halves))


def eight(address):
    times = []
    with dialled(address) as peer:
        for _ in range(50):
            began = time.monotonic()
            peer.sendall(request("/status") * 8)
            reply = b""
            while reply.count(b"HTTP/1.1 200") < 8 or not reply.endswith(b"\n"):
                reply += peer.recv(65_536)
            times.append(time.monotonic() - began)
    median = statistics.median(times)
    print("at once" if median < 0.02 else f"{median * 1_000:.0f} ms")


def library(address):
    client = http.client.HTTPConnection(address)
    statuses, ports = [], set()
    for target in ("/status", "/none", "/status"):
        client.request("GET", target)
        ports.add(client.sock.getsockname())
        reply = client.getresponse()
        reply.read()
        statuses.append(reply.status)
    print(*statuses, "over", len(ports))


def stay_open(address, target, count):
    peers = []
    for _ in range(int(count)):
        peer = dialled(address)
        peer.sendall(request(target, "Connection: close\r\n") + b"x")
        read_all(peer)
        peers.append(peer)
    with dialled(address) as peer:
        peer.sendall(request(target))
        print(status(read_one(peer)))


def stream(address):
    with dialled(address) as hostile, dialled(address) as peer:
        hostile.sendall(b"POST /status HTTP/1.1\r\nHost: h\r\nContent-Length: 100000000000\r\n\r\n")
        hostile.setblocking(False)
        slowest = 0
        for _ in range(200):
            for _ in range(100):
                try:
                    hostile.send(b"x" * 65_536)
                except OSError:
                    break
            began = time.monotonic()
            peer.sendall(request("/status"))
            read_one(peer)
            slowest = max(slowest, time.monotonic() - began)
        print("at once" if slowest < 0.1 else f"{slowest * 1_000:.0f} ms")


def main():
    address, kind, *words = sys.argv[1:]
    kinds = [("idle", idle), ("pipelined", pipelined), ("eight", eight), ("library", library), ("full", full),
             ("open", stay_open), ("stream", stream)]
    dict(kinds)[kind](address, *words)


if __name__ == "__main__":
    main()
