#!/usr/bin/env python3
"""Starts a node and asks it from the moment it listens until it answers readers.

starting_node.py DB [OPTION ..]

Runs `kbfeed node DB` on a free port, with its log in the file access. Sends a request on each of several connections
before the node has checked its lists, and prints the status, `Retry-After` and `Connection` of each reply, and the
length of its body, if that is short. Then asks for `/health/ready` until that is 200, and prints the statuses that it
had, each once. At last it prints how the same targets are answered then, which requests of readers the metrics have
with a status of 5xx, and which fields of a 404 the first 503 lacked or had with another value, but for its length."""
import re
import socket
import subprocess
import sys
import time

REQUESTS = [("GET", "/status"), ("GET", "/resolve?rft.issn=00000108"), ("POST", "/feed/Many_2024-01-01.txt"),
            ("GET", "/titles?q=a"), ("GET", "/health"), ("GET", "/health/ready"), ("GET", "/health/live"),
            ("GET", "/metrics")]
TOKEN = "0123456789abcdef"


def free_port():
    with socket.socket() as probe:
        probe.bind(("127.0.0.1", 0))
        return probe.getsockname()[1]


def connected(port):
    for _ in range(60_000):
        try:
            return socket.create_connection(("127.0.0.1", port), timeout=60)
        except OSError:
            time.sleep(0.001)
    sys.exit("nothing listens")


def send(conn, method, target):
    conn.sendall(f"{method} {target} HTTP/1.1\r\nHost: a\r\nAuthorization: Bearer {TOKEN}\r\n\r\n".encode())


def received(conn):
    """Returns the status, the fields and the body of the reply on a connection."""
    with conn.makefile("rb") as file:
        status = int(file.readline().split()[1])
        fields = {}
        for line in iter(file.readline, b"\r\n"):
            name, _, value = line.decode().partition(":")
            fields[name] = value.strip()
        return status, fields, file.read(int(fields["Content-Length"])).decode()


def asked(port, method, target):
    with connected(port) as conn:
        send(conn, method, target)
        return received(conn)


def print_replies(port):
    """Sends all requests, then receives the replies and prints them."""
    first = None
    connections = [connected(port) for _ in REQUESTS]
    for conn, request in zip(connections, REQUESTS):
        send(conn, *request)
    for conn, (method, target) in zip(connections, REQUESTS):
        status, fields, body = received(conn)
        first = first or fields
        said = [f"{name} {fields[name]}" for name in ("Retry-After", "Connection") if name in fields]
        print(method, target, status, *said, body.strip() if len(body) < 100 else "..", sep=" | ")
        conn.close()
    return first


def print_lacking(port, first):
    usual = asked(port, "GET", "/none")[1]
    print("lacking:", *[name for name in usual if first.get(name) != usual[name] and name != "Content-Length"])


def print_states(port):
    statuses = []
    while 200 not in statuses:
        status = asked(port, "GET", "/health/ready")[0]
        if status not in statuses:
            statuses.append(status)
    print("ready:", *statuses)
    print("then:", *[asked(port, method, target)[0] for method, target in REQUESTS if method == "GET"])
    counted = re.findall(r'requests_total\{target="(\w+)",class="5xx"\} ([1-9]\d*)', asked(port, "GET", "/metrics")[2])
    print("counted:", *[f"{target} {count}" for target, count in counted if target != "health"])


def wait_for_log(file):
    """Waits at most ten seconds for the first line of the log, and one for each request of a reader and for /none."""
    readers = [method for method, target in REQUESTS if not target.startswith(("/health", "/metrics"))]
    for _ in range(200):
        with open(file, "rb") as log:
            if log.read().count(b"\n") > len(readers) + readers.count("GET") + 1:
                return
        time.sleep(0.05)


def main():
    port = free_port()
    with open("access", "wb") as access:
        node = subprocess.Popen(["kbfeed", "node", sys.argv[1], f"127.0.0.1:{port}", *sys.argv[2:]], stdout=access)
    try:
        first = print_replies(port)
        print_states(port)
        print_lacking(port, first)
        wait_for_log("access")
    finally:
        node.kill()
        node.wait()


if __name__ == "__main__":
    main()
