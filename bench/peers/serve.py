#!/usr/bin/env python3
"""Serves a folder by Python's http.server, whole files or single ranges, with one connection for each request.

serve.py DIR PORT"""
import http.server
import os
import re
import sys


class Handler(http.server.BaseHTTPRequestHandler):
    """Responds with a file of the folder, or with one range of it."""

    protocol_version = "HTTP/1.1"

    def log_message(self, *_):
        pass

    def do_GET(self):
        self.close_connection = True
        try:
            file = open(os.path.join(sys.argv[1], os.path.basename(self.path)), "rb")
        except OSError:
            self.send_error(404)
            return
        with file:
            size = os.fstat(file.fileno()).st_size
            first, last = 0, size - 1
            asked = re.fullmatch(r"bytes=(\d+)-(\d*)", self.headers.get("Range", ""))
            if asked and int(asked[1]) < size:
                first, last = int(asked[1]), min(int(asked[2] or last), last)
                self.send_response(206)
                self.send_header("Content-Range", f"bytes {first}-{last}/{size}")
            else:
                self.send_response(200)
            self.send_header("Content-Type", "application/octet-stream")
            self.send_header("Content-Length", str(last - first + 1))
            self.send_header("Connection", "close")
            self.end_headers()
            file.seek(first)
            self.wfile.write(file.read(last - first + 1))


if __name__ == "__main__":
    http.server.HTTPServer(("127.0.0.1", int(sys.argv[2])), Handler).serve_forever()
