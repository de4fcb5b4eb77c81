#!/usr/bin/python3
"""A server in the place of a node: it has one thread, and a request whose path has `slow` takes it half a second.

slow_node.py

Prints a free port of 127.0.0.1, and listens there until it is ended, for ten minutes at most."""
import http.server
import signal
import time


class Node(http.server.BaseHTTPRequestHandler):
    # A response is written in one piece: a proxy that waits for the second one could cut it.
    wbufsize = -1

    def do_GET(self):
        if "slow" in self.path:
            time.sleep(0.5)
        body = (self.headers["Cookie"] or "no cookie").encode()
        self.send_response(200)
        self.send_header("Content-Length", str(len(body)))
        self.send_header("Cache-Control", "no-cache")
        self.end_headers()
        try:
            self.wfile.write(body)
        except OSError:
            pass

    do_POST = do_HEAD = do_GET

    def log_message(self, *words):
        pass


class Server(http.server.HTTPServer):
    # The connections that wait: a node has room for as many.
    request_queue_size = 1024


signal.alarm(600)
with Server(("127.0.0.1", 0), Node) as server:
    server.handle_error = lambda *given: None
    print(server.server_port, flush=True)
    server.serve_forever()
