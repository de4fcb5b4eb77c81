#!/usr/bin/env python3
"""A server of HTTP/1.1 with persistent connections and a strong ETag in its replies, in place of a node behind a proxy.

tagged_server.py

Prints the port that it listens at, and then a line for each request: the number of its connection, the method, the
target, and the fields X-Forwarded-For and If-None-Match, if it has them. Every reply is 200 and the same page, with
`Cache-Control: no-cache` and `Vary: Accept`, or 304 if the request has its ETag, or 400 if it is one of HTTP/1.1
without a host. It ends after ten minutes."""
import http.server
import os
import threading

TAG = '"of one release"'


class Handler(http.server.BaseHTTPRequestHandler):
    protocol_version = "HTTP/1.1"
    connections = []

    def setup(self):
        super().setup()
        self.connections.append(self)
        self.number = len(self.connections)

    def reply(self):
        if self.request_version == "HTTP/1.1" and not self.headers["Host"]:
            return self.send_error(400)
        self.rfile.read(int(self.headers.get("Content-Length", 0)))
        names = ["X-Forwarded-For", "If-None-Match"]
        fields = [f"{name}: {self.headers[name]}" for name in names if self.headers[name]]
        print(" ".join([str(self.number), self.command, self.path, *fields]), flush=True)
        has_tag = self.headers["If-None-Match"] == TAG
        body = b"" if has_tag or self.command == "HEAD" else b"the page\n"
        self.send_response(304 if has_tag else 200)
        self.send_header("ETag", TAG)
        self.send_header("Cache-Control", "no-cache")
        self.send_header("Vary", "Accept")
        if not has_tag:
            self.send_header("Content-Length", str(len(b"the page\n")))
        self.end_headers()
        self.wfile.write(body)

    do_GET = do_HEAD = do_POST = do_OPTIONS = do_PUT = do_DELETE = reply

    def log_message(self, *words):
        pass


def main():
    server = http.server.ThreadingHTTPServer(("127.0.0.1", 0), Handler)
    server.daemon_threads = True
    print(server.server_address[1], flush=True)
    threading.Timer(600, lambda: os._exit(0)).start()
    server.serve_forever()


if __name__ == "__main__":
    main()
