#!/usr/bin/env python3
"""Runs clients that have a node do more than they need, beside one well-behaved client.

pipelining_clients.py [-v] ADDR LONG MILLIS

The well-behaved client asks for /status, and 98 of 100 answers have to be there within MILLIS, or within thrice the
time that LONG, a target with a long reply, takes without the others. These are, one kind after the other,

  unread     300 that pipeline requests for LONG, and read nothing
  titles     8 that pipeline searches for titles, and read
  reset      200 that ask for LONG and disconnect at once, again and again

Prints each kind, and what is wrong with it; with `-v` also the times. A machine that does something else delays
answers now and then, and a node that serves the others first each time: so a kind that was late is tried again, at
most twice."""
import os
import signal
import socket
import struct
import sys
import time

SECONDS, TRIES = 3, 3
KINDS = {"unread": 300, "titles": 8, "reset": 200}


def request(target):
    return f"GET {target} HTTP/1.1\r\nHost: h\r\n\r\n".encode()


def dialled(address, text, is_small):
    peer = socket.socket()
    if is_small:
        # Unread bytes stay with the node, and not with the system.
        peer.setsockopt(socket.SOL_SOCKET, socket.SO_RCVBUF, 4_096)
    peer.settimeout(60)
    peer.connect(address)
    peer.setblocking(False)
    sent(peer, text)
    return peer


def sent(peer, text):
    """Whether the node may still take some of it."""
    try:
        peer.send(text)
    except BlockingIOError:
        pass
    except OSError:
        return False
    return True


def drained(peer):
    try:
        while peer.recv(262_144):
            pass
    except OSError:
        pass


def attack(kind, address, target, ready):
    """Runs until it is killed, and writes a byte once all clients are connected."""
    texts = {"unread": request(target) * 100, "titles": request("/titles?q=zzz") * 100, "reset": request(target)}
    peers = [dialled(address, texts[kind], kind == "unread") for _ in range(KINDS[kind])]
    os.write(ready, b"r")
    while True:
        for at, peer in enumerate(peers):
            if kind == "titles":
                drained(peer)
            is_open = kind != "reset" and sent(peer, texts[kind] if kind == "titles" else b"\r\n")
            if not is_open:
                peer.setsockopt(socket.SOL_SOCKET, socket.SO_LINGER, struct.pack("ii", 1, 0))
                peer.close()
                peers[at] = dialled(address, texts[kind], kind == "unread")
        time.sleep(0.002 if kind != "unread" else 0.5)


def answered(address, target="/status"):
    """The milliseconds of one request, and whether it had its reply."""
    began = time.monotonic()
    reply = b""
    try:
        with socket.create_connection(address, timeout=60) as peer:
            peer.sendall(f"GET {target} HTTP/1.1\r\nHost: h\r\nConnection: close\r\n\r\n".encode())
            while part := peer.recv(65_536):
                reply += part
    except OSError:
        reply = b""
    return (time.monotonic() - began) * 1_000, reply.startswith(b"HTTP/1.1 200 ")


def beside(kind, address, target):
    """The times of the well-behaved client beside the others, and how many of its requests had another reply."""
    is_ready, ready = os.pipe()
    child = os.fork()
    if child == 0:
        try:
            attack(kind, address, target, ready)
        finally:
            os._exit(1)
    # While connections wait to be accepted, the system may refuse another one for seconds.
    os.read(is_ready, 1)
    answered(address)
    time.sleep(1)
    times, refused, ends = [], 0, time.monotonic() + SECONDS
    while time.monotonic() < ends:
        passed, is_good = answered(address)
        times.append(passed)
        refused += not is_good
        time.sleep(0.002)
    os.kill(child, signal.SIGKILL)
    os.waitpid(child, 0)
    os.close(is_ready)
    os.close(ready)
    return sorted(times), refused


def main():
    words = sys.argv[1:]
    is_verbose = words[0] == "-v"
    address, target, millis = words[is_verbose:]
    host, port = address.rsplit(":", 1)
    address = (host, int(port))
    alone = sorted(answered(address, target)[0] for _ in range(9))[4]
    limit = max(int(millis), 3 * alone)
    for kind in KINDS:
        for _ in range(TRIES):
            times, refused = beside(kind, address, target)
            slow = times[len(times) * 98 // 100]
            if slow <= limit:
                break
        print(kind, "in time" if slow <= limit else f"{slow:.0f} ms", f"refused {refused}")
        if is_verbose:
            print(f"{len(times)} answers, median {times[len(times) // 2]:.2f} ms, 98 of 100 within {slow:.2f} ms, "
                  f"slowest {times[-1]:.2f} ms; limit {limit:.0f} ms")


if __name__ == "__main__":
    main()
