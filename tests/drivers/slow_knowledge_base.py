#!/usr/bin/env python3
"""A knowledge base that is slow: it waits before each reply.

slow_knowledge_base.py FILE SECONDS

Serves FILE under every name, whole or by a range, SECONDS after each request. Prints its port, and then a line for each
request with the method and the range. It ends after ten minutes."""
import http.server
import os
import pathlib
import re
import sys
import threading
import time


class Handler(http.server.BaseHTTPRequestHandler):
    protocol_version = "HTTP/1.1"

    def reply(self):
        places = re.fullmatch(r"bytes=(\d+)-(\d+)", self.headers["Range"] or "")
        print(self.command, *(places.groups() if places else ()), flush=True)
        time.sleep(self.server.pause)
        text = self.server.text
        first, last = (int(places[1]), int(places[2])) if places else (0, len(text) - 1)
        self.send_response(206 if places else 200)
        if places:
            self.send_header("Content-Range", f"bytes {first}-{last}/{len(text)}")
        self.send_header("Content-Length", str(last - first + 1))
        try:
            self.end_headers()
            if self.command == "GET":
                self.wfile.write(text[first : last + 1])
        except OSError:  # the node has ended the fetch
            self.close_connection = True

    do_GET = do_HEAD = reply

    def log_message(self, *words):
        pass


def main():
    server = http.server.ThreadingHTTPServer(("127.0.0.1", 0), Handler)
    server.daemon_threads = True
    server.text, server.pause = pathlib.Path(sys.argv[1]).read_bytes(), float(sys.argv[2])
    print(server.server_address[1], flush=True)
    threading.Timer(600, lambda: os._exit(0)).start()
    server.serve_forever()


if __name__ == "__main__":
    main()
