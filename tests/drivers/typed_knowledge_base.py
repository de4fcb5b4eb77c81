#!/usr/bin/env python3
"""A knowledge base that states a type for what it serves.

typed_knowledge_base.py FOLDER MODE ASKED

Serves the files of FOLDER, whole or by a range, on a free port of 127.0.0.1, which it prints. The file MODE has a
line for each method, GET or HEAD, with the Content-Type of its replies, and `page` behind it if a login page is in
place of the file. The line `whole` has it ignore ranges. A file that is not there is 404, with a page. The file ASKED
gets a line for each request. It ends after ten minutes."""
import http.server
import os
import pathlib
import re
import sys
import threading

PAGE = b"<!DOCTYPE html><title>Log in</title>\n"


class Handler(http.server.BaseHTTPRequestHandler):
    protocol_version = "HTTP/1.1"

    def reply(self):
        folder, mode, asked = map(pathlib.Path, sys.argv[1:])
        with asked.open("a") as log:
            log.write(f"{self.command} {self.headers['Range'] or ''}\n")
        lines = mode.read_text().splitlines()
        kind = next((line.partition(" ")[2] for line in lines if line.startswith(self.command)), "")
        kind, is_page = kind.removesuffix(" page"), kind.endswith(" page")
        file = folder / self.path[1:]
        if not is_page and not file.exists():
            return self.send_error(404)
        text = PAGE if is_page else file.read_bytes()
        asks = "" if is_page or "whole" in lines else self.headers["Range"] or ""
        places = re.fullmatch(r"bytes=(\d+)-(\d+)", asks)
        first, last = (int(places[1]), int(places[2])) if places else (0, len(text) - 1)
        self.send_response(206 if places else 200)
        if places:
            self.send_header("Content-Range", f"bytes {first}-{last}/{len(text)}")
        if kind:
            self.send_header("Content-Type", kind)
        self.send_header("Content-Length", str(last - first + 1))
        self.end_headers()
        if self.command == "GET":
            self.wfile.write(text[first : last + 1])

    do_GET = do_HEAD = reply

    def log_message(self, *words):
        pass


def main():
    server = http.server.ThreadingHTTPServer(("127.0.0.1", 0), Handler)
    server.daemon_threads = True
    print(server.server_address[1], flush=True)
    threading.Timer(600, lambda: os._exit(0)).start()
    server.serve_forever()


if __name__ == "__main__":
    main()
