#!/usr/bin/env python3
"""Runs a thousand clients that harm a node if it lets them, beside one well-behaved client.

thousand_clients.py [-v] ADDR PID LONG MILLIS

LONG is a target with a long reply. The well-behaved client has to get each of its answers within MILLIS, and the node
must not take more than 64 MiB beyond what it had. The clients are

  silent     400 that connect and send nothing
  slow       200 that send a byte of a head each second
  endless    200 that send fields without an end
  unread     100 that ask for LONG, and read nothing
  reset      100 that disconnect in the middle of a head, again and again

Prints what is wrong, and the kinds; with `-v` also the figures."""
import socket
import sys
import time

SECONDS = 6
MEMORY = 64 * 1_024
HEAD = b"GET /status HTTP/1.1\r\nHost: h\r\n"
KINDS = {"silent": 400, "slow": 200, "endless": 200, "unread": 100, "reset": 100}


def kib_of(process):
    for line in open(f"/proc/{process}/status", encoding="ascii"):
        if line.startswith("VmRSS"):
            return int(line.split()[1])
    return 0


def dialled(address):
    peer = socket.socket()
    # Unread bytes stay with the node, and not with the system.
    peer.setsockopt(socket.SOL_SOCKET, socket.SO_RCVBUF, 4_096)
    peer.settimeout(60)
    peer.connect(address)
    peer.setblocking(False)
    return peer


def sent(peer, text):
    """Whether the peer accepted some of it, or will."""
    try:
        return peer.send(text) > 0
    except BlockingIOError:
        return True
    except OSError:
        return False


def answered(address):
    """The time of one request, and its reply."""
    began = time.monotonic()
    reply = b""
    with socket.create_connection(address, timeout=60) as peer:
        peer.sendall(HEAD + b"Connection: close\r\n\r\n")
        while part := peer.recv(65_536):
            reply += part
    return time.monotonic() - began, reply


class Clients:
    """The hostile clients; each one that the node has closed connects again."""

    def __init__(self, address, target):
        self.address = address
        self.unread = f"GET {target} HTTP/1.1\r\nHost: h\r\n\r\n".encode()
        self.peers = {kind: [self.new(kind) for _ in range(count)] for kind, count in KINDS.items()}
        self.closed = 0

    def new(self, kind):
        peer = dialled(self.address)
        if kind in ("slow", "endless", "reset"):
            sent(peer, HEAD)
        elif kind == "unread":
            sent(peer, self.unread)
        return peer

    def goes_on(self, kind, peer):
        if kind == "slow":
            return sent(peer, b"X")
        if kind == "endless":
            return sent(peer, b"X: 1\r\n" * 100)
        return kind != "reset"

    def step(self, kind, at):
        peer = self.peers[kind][at]
        if self.goes_on(kind, peer):
            return
        if kind == "reset":
            peer.setsockopt(socket.SOL_SOCKET, socket.SO_LINGER, b"\x01\x00\x00\x00\x00\x00\x00\x00")
        peer.close()
        self.closed += 1
        self.peers[kind][at] = self.new(kind)

    def rounds(self):
        """One step of a client after another, each of them once in a second."""
        while True:
            began = time.monotonic()
            for kind, peers in self.peers.items():
                for at in range(len(peers)):
                    self.step(kind, at)
                    yield
            while time.monotonic() - began < 1:
                yield


def main():
    words = sys.argv[1:]
    is_verbose = words[0] == "-v"
    address, process, target, millis = words[is_verbose:]
    host, port = address.rsplit(":", 1)
    address = (host, int(port))
    _, wanted = answered(address)
    before = most = kib_of(process)
    clients = Clients(address, target)
    rounds = clients.rounds()
    times = []
    ends = time.monotonic() + SECONDS
    while time.monotonic() < ends:
        for _ in range(20):
            next(rounds)
        passed, reply = answered(address)
        times.append(passed)
        if reply != wanted:
            print(f"another answer: {reply[:200]!r}")
            break
        if len(times) % 50 == 0:
            most = max(most, kib_of(process))
    slowest = max(times) * 1_000
    if slowest > int(millis):
        print(f"the slowest answer took {slowest:.0f} ms")
    if most - before > MEMORY:
        print(f"the node took {most - before} KiB more")
    print(" ".join(f"{kind} {count}" for kind, count in KINDS.items()))
    if is_verbose:
        times.sort()
        print(f"{len(times)} answers, median {times[len(times) // 2] * 1_000:.2f} ms, slowest {slowest:.1f} ms; "
              f"{before} KiB before, {most} KiB at most; {clients.closed} clients closed")


if __name__ == "__main__":
    main()
