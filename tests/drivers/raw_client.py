#!/usr/bin/env python3
"""Sends the bytes of standard input over one connection, ends its side, and prints the bytes received.

raw_client.py ADDR
raw_client.py ADDR --hold SECONDS LEN   sends the first LEN bytes, then nothing, and waits at most SECONDS
raw_client.py ADDR --stall FILE TEXT    sends them all, reads nothing until FILE has TEXT, at most a minute, and prints
                                        whether the reply arrived whole
raw_client.py ADDR --drip SECONDS       sends one byte every SECONDS, until the peer has closed or all were sent
raw_client.py ADDR --reset LEN          with small buffers, sends them all, reads LEN bytes, and resets"""
import socket
import struct
import sys
import time


def received(peer):
    """The bytes received until the end, or until the connection is reset."""
    parts = []
    try:
        while part := peer.recv(65_536):
            parts.append(part)
    except ConnectionError:
        pass
    return b"".join(parts)


def wait_for(file, text):
    """Waits until the file has the text, at most a minute."""
    end = time.monotonic() + 60
    while time.monotonic() < end:
        with open(file, "rb") as it:
            if text in it.read():
                return
        time.sleep(0.05)


def reset_after(count, address, text):
    """Reads so many bytes of the reply, and resets the connection once the peer can send no more."""
    with socket.socket() as peer:
        peer.setsockopt(socket.IPPROTO_TCP, socket.TCP_MAXSEG, 536)
        peer.setsockopt(socket.SOL_SOCKET, socket.SO_RCVBUF, 2_048)
        peer.settimeout(60)
        peer.connect(address)
        peer.sendall(text)
        while count > 0:
            count -= len(peer.recv(min(count, 1_024)))
        time.sleep(0.5)
        peer.setsockopt(socket.SOL_SOCKET, socket.SO_LINGER, struct.pack("ii", 1, 0))


def main():
    host, port = sys.argv[1].rsplit(":", 1)
    text = sys.stdin.buffer.read()
    if "--reset" in sys.argv:
        reset_after(int(sys.argv[3]), (host, int(port)), text)
        return
    with socket.create_connection((host, int(port)), timeout=60) as peer:
        if "--drip" in sys.argv:
            pause = float(sys.argv[3])
            try:
                for at in range(len(text)):
                    peer.sendall(text[at:at + 1])
                    time.sleep(pause)
            except ConnectionError:
                pass
        elif "--hold" in sys.argv:
            peer.settimeout(float(sys.argv[3]))
            peer.sendall(text[:int(sys.argv[4])])
        elif "--stall" in sys.argv:
            peer.sendall(text)
            wait_for(sys.argv[3], sys.argv[4].encode())
            print("all" if received(peer).endswith(b"end") else "cut off")
            return
        else:
            peer.sendall(text)
            peer.shutdown(socket.SHUT_WR)
        try:
            sys.stdout.buffer.write(received(peer))
        except TimeoutError:
            print("held")


if __name__ == "__main__":
    main()
