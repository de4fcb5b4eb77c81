#!/usr/bin/env python3
"""Runs clients that close their connection after one request.

closing_clients.py ADDR flood TARGET CLIENTS REQUESTS
closing_clients.py ADDR together TARGET CLIENTS PID
closing_clients.py ADDR unread TARGET BYTES

flood    CLIENTS at a time ask for TARGET with `Connection: close`, read the response to its end, close and connect
         again, until REQUESTS are answered. Prints how many were not answered whole, and how many connections the node
         counts as closed meanwhile for each cause that is not `peer`.
together CLIENTS ask for TARGET with `Connection: close` and read the response. The process PID, which is the node, is
         stopped while all of them close, so that it finds all closed at once. Prints the same.
unread   one client asks for TARGET with `Connection: close`, sends BYTES more, ends its side, and reads 4,096 bytes at
         a time, with a small buffer. Prints whether it got the whole response."""
import os
import re
import selectors
import signal
import socket
import sys
import time

READ = 4_096


def connected(address, buffer=None):
    peer = socket.socket()
    if buffer:
        peer.setsockopt(socket.SOL_SOCKET, socket.SO_RCVBUF, buffer)
    peer.settimeout(30)
    peer.connect(address)
    return peer


def request(target):
    return f"GET {target} HTTP/1.1\r\nHost: h\r\nConnection: close\r\n\r\n".encode()


def is_whole(response):
    """Whether the response has as many bytes as its head says."""
    head, end, body = response.partition(b"\r\n\r\n")
    length = re.search(rb"\r\nContent-Length: (\d+)", head)
    return bool(end and length) and len(body) == int(length[1])


def read_to_end(peer, pause=0.0):
    found = []
    try:
        while part := peer.recv(READ):
            found.append(part)
            time.sleep(pause)
    except ConnectionResetError:
        pass
    return b"".join(found)


def closed(address):
    """The closed connections that the node counts, by cause."""
    with connected(address) as peer:
        peer.sendall(request("/metrics"))
        text = read_to_end(peer).decode()
    return {cause: int(count) for cause, count in re.findall(r'closed_total\{cause="(\w+)"\} (\d+)', text)}


def flood(address, target, clients, requests):
    """Returns how many responses were not whole."""
    selector, broken, begun, ended = selectors.DefaultSelector(), 0, 0, 0

    def begin():
        peer = connected(address)
        peer.sendall(request(target))
        peer.setblocking(False)
        selector.register(peer, selectors.EVENT_READ, [])

    for _ in range(clients):
        begin()
        begun += 1
    while ended < requests:
        for key, _ in selector.select(30):
            peer, parts = key.fileobj, key.data
            try:
                part = peer.recv(1 << 20)
            except ConnectionResetError:
                part = b""
            if part:
                parts.append(part)
                continue
            selector.unregister(peer)
            peer.close()
            ended += 1
            broken += not is_whole(b"".join(parts))
            if begun < requests:
                begin()
                begun += 1
    return broken


def together(address, target, clients, node):
    """Returns how many responses were not whole."""
    peers = [connected(address) for _ in range(clients)]
    for peer in peers:
        peer.sendall(request(target))
    broken = sum(not is_whole(read_to_end(peer)) for peer in peers)
    os.kill(node, signal.SIGSTOP)
    for peer in peers:
        peer.close()
    os.kill(node, signal.SIGCONT)
    return broken


def unread(address, target, count):
    with connected(address, READ) as peer:
        peer.sendall(request(target) + b"x" * count)
        peer.shutdown(socket.SHUT_WR)
        time.sleep(0.2)
        response = read_to_end(peer, 0.001)
    print("whole:", is_whole(response), "long:", len(response) > 262_144)


def main():
    host, _, port = sys.argv[1].rpartition(":")
    address = host, int(port)
    if sys.argv[2] == "unread":
        unread(address, sys.argv[3], int(sys.argv[4]))
        return
    before, target, clients, last = closed(address), sys.argv[3], int(sys.argv[4]), int(sys.argv[5])
    is_together = sys.argv[2] == "together"
    broken = together(address, target, clients, last) if is_together else flood(address, target, clients, last)
    requests = clients if is_together else last
    # The node may read a moment later that the last ones have gone.
    end = time.monotonic() + 5
    while (after := closed(address))["complete"] - before["complete"] < requests and time.monotonic() < end:
        time.sleep(0.05)
    counts = {cause: after[cause] - before[cause] for cause in after if cause not in ("complete", "peer")}
    complete = after["complete"] - before["complete"]
    rest = (f"{cause} {count}" for cause, count in counts.items())
    print("broken", broken, "complete", complete >= requests, *rest)


main()
