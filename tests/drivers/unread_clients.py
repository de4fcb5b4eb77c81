#!/usr/bin/env python3
"""Runs clients that pipeline requests for long replies and read nothing, beside well-behaved ones.

unread_clients.py ADDR PID LONG

200 clients with small receive buffers each send 14 requests for LONG, a target with a long reply. Those that the node
has closed connect again. Meanwhile 300 requests for /status and the health, and three for LONG, have to be answered
with 200. Prints how many were, whether the node closed clients for the memory that their replies took, whether the
replies stayed within the limit of the node and one reply, and whether the node took at most 64 MiB more than before."""
import re
import socket
import sys
import time

CLIENTS, DEPTH = 200, 14
LIMIT = 33_554_432
MEMORY = 64 * 1_024
# A slow machine makes a hundred long replies in minutes. The node has to allow its clients as much time.
SECONDS = 600


def kib_of(process):
    for line in open(f"/proc/{process}/status", encoding="ascii"):
        if line.startswith("VmRSS"):
            return int(line.split()[1])
    return 0


def answered(address, target):
    """The reply to one request."""
    reply = b""
    with socket.create_connection(address, timeout=SECONDS) as peer:
        peer.sendall(f"GET {target} HTTP/1.1\r\nHost: h\r\nConnection: close\r\n\r\n".encode())
        while part := peer.recv(65_536):
            reply += part
    return reply


def metric(address, name):
    text = answered(address, "/metrics").decode()
    return int(re.search(rf"^kbfeed_{re.escape(name)} (\d+)$", text, re.MULTILINE)[1])


class Unread:
    """The clients that read nothing."""

    def __init__(self, address, target):
        self.address = address
        self.requests = f"GET {target} HTTP/1.1\r\nHost: h\r\n\r\n".encode() * DEPTH
        self.peers = [self.new() for _ in range(CLIENTS)]

    def new(self):
        peer = socket.socket()
        # Unread bytes stay with the node, and not with the system.
        peer.setsockopt(socket.SOL_SOCKET, socket.SO_RCVBUF, 4_096)
        peer.settimeout(SECONDS)
        peer.connect(self.address)
        peer.sendall(self.requests)
        return peer

    def replace(self, at):
        """Connects again if the node has closed the client."""
        peer = self.peers[at]
        peer.setblocking(False)
        try:
            peer.send(b"x")
            return
        except BlockingIOError:
            return
        except OSError:
            peer.close()
            self.peers[at] = self.new()


def main():
    address, process, target = sys.argv[1:]
    host, port = address.rsplit(":", 1)
    address = (host, int(port))
    longest = len(answered(address, target))
    before = most = kib_of(process)
    clients = Unread(address, target)
    ends = time.monotonic() + SECONDS
    while metric(address, 'connections_closed_total{cause="unread"}') == 0 and time.monotonic() < ends:
        time.sleep(0.1)
    targets = ["/status", "/health/live", "/health/ready"] * 100 + [target] * 3
    good = held = 0
    for at, wanted in enumerate(targets):
        clients.replace(at % CLIENTS)
        good += answered(address, wanted).startswith(b"HTTP/1.1 200 ")
        if at % 20 == 0:
            held = max(held, metric(address, "held_bytes"))
            most = max(most, kib_of(process))
    print(f"answered {good} of {len(targets)}")
    print("closed for memory:", metric(address, 'connections_closed_total{cause="unread"}') > 0)
    # The memory that is allocated for a reply is at most twice its length.
    print("held within the limit:", LIMIT // 2 < held <= LIMIT + 2 * longest)
    print("memory within the limit:", most - before <= MEMORY)


if __name__ == "__main__":
    main()
