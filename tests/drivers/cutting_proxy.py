#!/usr/bin/env python3
"""Passes connections on to a server, and cuts each reply after a random number of bytes.

cutting_proxy.py ADDR SEED MOST

Prints a free port of 127.0.0.1 and listens there. ADDR is the server. The number of bytes is drawn from 0 to MOST by
the seed. Every second connection is reset after them, and the others end."""
import random
import socket
import struct
import sys


def request_of(peer):
    """The bytes of a request without a body."""
    text = b""
    while not text.endswith(b"\r\n\r\n"):
        block = peer.recv(65_536)
        if not block:
            break
        text += block
    return text


def passed(text, address, peer, count):
    """Sends the first bytes of the reply to a request, and returns whether there were more."""
    with socket.create_connection(address, timeout=60) as server:
        server.sendall(text)
        while block := server.recv(65_536):
            peer.sendall(block[:count])
            if len(block) > count:
                return True
            count -= len(block)
    return False


def main():
    host, port = sys.argv[1].rsplit(":", 1)
    drawn = random.Random(int(sys.argv[2]))
    listener = socket.create_server(("127.0.0.1", 0))
    print(f"127.0.0.1:{listener.getsockname()[1]}", flush=True)
    is_reset = False
    while True:
        with listener.accept()[0] as peer:
            is_reset = not is_reset
            try:
                is_cut = passed(request_of(peer), (host, int(port)), peer, drawn.randint(0, int(sys.argv[3])))
                if is_cut and is_reset:
                    peer.setsockopt(socket.SOL_SOCKET, socket.SO_LINGER, struct.pack("ii", 1, 0))
            except ConnectionError:
                pass


if __name__ == "__main__":
    main()
