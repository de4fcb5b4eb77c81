#!/usr/bin/env python3
"""Runs 200 connections that harm a server if it lets them.

hostile_clients.py ADDR PID

After each kind of client the server has to serve, and at the end it must not have taken more than 16 MiB. Prints what
is wrong, and the kinds."""
import socket
import sys
import time

NAME = "T_2024-01-01.txt"
HEAD = f"GET /{NAME} HTTP/1.1\r\nHost: h\r\n".encode()
KINDS = [
    ("nothing is sent", b"", 2),
    ("one byte is sent", b"G", 2),
    ("a head without an end", HEAD + b"X: 1\r\n" * 50, 2),
    ("a head that is too long", HEAD + b"X: " + b"x" * 8_192, 0),
    ("fields without an end", HEAD + b"X: 1\r\n" * 10_000, 0),
    ("a request whose reply is not read", HEAD + b"\r\n", 0),
    ("bytes that are none of HTTP", bytes(range(256)) * 64, 0),
    ("a reset", HEAD, None),
]
EACH = 25


def dialled(address):
    host, port = address.rsplit(":", 1)
    return socket.create_connection((host, int(port)), timeout=60)


def main():
    address, process = sys.argv[1:]
    for kind, text, held in KINDS:
        for at in range(EACH):
            peer = dialled(address)
            try:
                peer.sendall(text)
            except ConnectionError:
                pass
            if held is None:
                peer.setsockopt(socket.SOL_SOCKET, socket.SO_LINGER, b"\x01\x00\x00\x00\x00\x00\x00\x00")
            elif at < held:
                time.sleep(1.2)
            peer.close()
        with dialled(address) as peer:
            peer.sendall(HEAD + b"\r\n")
            reply = b""
            while part := peer.recv(65_536):
                reply += part
        if not reply.startswith(b"HTTP/1.1 200 ") or not reply.endswith(b"\r\n\r\n0123456789"):
            print(f"{kind}: the next client is not served: {reply!r}")
        print(f"{kind}: {EACH} clients")
    for line in open(f"/proc/{process}/status", encoding="ascii"):
        if line.startswith("VmHWM") and int(line.split()[1]) > 16 * 1_024:
            print("memory:", line)


if __name__ == "__main__":
    main()
