#!/usr/bin/env python3
"""Servers of vendors over TLS, which behave as vendors do and as they should not.

vendors.py FOLDER CERTIFICATE

Prints two free ports of 127.0.0.1, and listens at both with CERTIFICATE.pem and CERTIFICATE.key until it is ended, for
ten minutes at most. The first is the vendor, the second another host; a third port, without TLS, is printed too. The
files first.log, other.log and plain.log get a line for each request: its path, and the headers by which a key or a
condition is sent. If FOLDER has a file date-first, date-other or date-plain, that host sends its text as the Date of
each response, and otherwise none. The paths:

  /file/NAME         the file NAME of FOLDER, with an ETag and Last-Modified, and 304 for either of them
  /plain/NAME        the same without both
  /header/NAME, /query/NAME
                     the same if the key of FOLDER/key is in X-API-Key, or in the parameter apikey, and otherwise 403
  /rp26?customer_id=NUMBER
                     the file rp26-NUMBER of FOLDER if the key is the token of Authorization, and otherwise 401
  /gokb/.., /csv, /package2kbart/NAME
                     the files gokb, doaj and bacon, as those knowledge bases have them
  /here/N/PATH       N redirects on this host, and then PATH
  /there/PATH        a redirect to PATH on the other host, and from there to the first one: /there/back/PATH
  /down/PATH         a redirect to PATH without TLS
  /to/HOST/PORT/PATH a redirect to PATH at PORT of HOST, without TLS if this server has none
  /key-tag/NAME      the file with the key in its ETag and Last-Modified
  /echo/PATH         a redirect to PATH on the other host, with the query of the request
  /gzip/NAME, /chunked/NAME, /ended/NAME
                     the file packed, in chunks, or without a length
  /aged/NAME         the file as a cache sends it that has had it for two days
  /cut, /cut-chunks, /cut-tls, /endless, /drip, /hang, /login, /login-key, /coding, /not-http, /status/N
                     what a list is not"""
import gzip
import hashlib
import http.server
import os
import pathlib
import ssl
import sys
import threading
import time
import urllib.parse

FORM = b"<!DOCTYPE html>\n<html><title>Sign in</title><form action=/login></form></html>\n"
LOGGED = ("X-API-Key", "Authorization", "If-None-Match", "If-Modified-Since")
DATE = "Sun, 01 Nov 2026 00:00:00 GMT"


class Vendor(http.server.BaseHTTPRequestHandler):
    protocol_version = "HTTP/1.1"

    def do_GET(self):
        self.query = dict(urllib.parse.parse_qsl(urllib.parse.urlsplit(self.path).query))
        fields = [f"{name}: {self.headers[name]}" for name in LOGGED if self.headers[name]]
        with open(self.server.log, "a", encoding="ascii") as log:
            print(" | ".join([self.path, *fields]), file=log)
        kind, _, rest = urllib.parse.urlsplit(self.path).path.removeprefix("/").partition("/")
        self.close_connection = True
        try:
            getattr(self, "do_" + kind.replace("-", "_"))(rest)
        except OSError:
            pass

    def key(self):
        return (self.server.folder / "key").read_text(encoding="ascii").strip()

    def send_response(self, code, message=None):
        """Sends no Date, as the sessions are on other days, unless the folder has one for this host."""
        self.send_response_only(code, message)
        date = self.server.folder / f"date-{self.server.log.removesuffix('.log')}"
        if date.exists():
            self.send_header("Date", date.read_text(encoding="ascii").strip())

    def reply(self, status, body, *fields, length=None):
        self.send_response(status)
        for name, value in fields:
            self.send_header(name, value)
        if length is not False:
            self.send_header("Content-Length", str(len(body) if length is None else length))
        self.end_headers()
        self.wfile.write(body)

    def read(self, name):
        return (self.server.folder / name).read_bytes()

    def do_file(self, name):
        body = self.read(name)
        tag = f'"{hashlib.sha256(body).hexdigest()[:12]}"'
        if self.headers["If-None-Match"] == tag:
            return self.reply(304, b"", length=False)
        self.reply(200, body, ("ETag", tag), ("Last-Modified", DATE))

    def do_dated(self, name):
        if self.headers["If-Modified-Since"] == DATE:
            return self.reply(304, b"", length=False)
        self.reply(200, self.read(name), ("Last-Modified", DATE))

    def do_aged(self, name):
        self.reply(200, self.read(name), ("Age", str(2 * 86_400)))

    def do_plain(self, name):
        self.reply(200, self.read(name))

    def do_header(self, name):
        self.do_file(name) if self.headers["X-API-Key"] == self.key() else self.reply(403, b"no\n")

    def do_query(self, name):
        self.do_file(name) if self.query.get("apikey") == self.key() else self.reply(403, b"no\n")

    def do_rp26(self, _rest):
        if self.headers["Authorization"] != f"Bearer {self.key()}":
            return self.reply(401, b'{"error": "token"}', ("WWW-Authenticate", "Bearer"))
        self.do_file(f"rp26-{self.query['customer_id']}")

    def do_gokb(self, rest):
        self.do_file("gokb") if rest.startswith("packages/kbart/") else self.reply(404, b"")

    def do_csv(self, _rest):
        self.redirect(f"{self.server.other}/file/doaj")

    def do_package2kbart(self, rest):
        self.do_plain("bacon") if rest == "Meridian_Complete.txt" else self.reply(404, b"")

    def redirect(self, to):
        self.reply(302, b"", ("Location", to))

    def do_here(self, rest):
        count, _, path = rest.partition("/")
        self.redirect(f"/here/{int(count) - 1}/{path}" if int(count) > 1 else f"/{path}")

    def do_there(self, rest):
        self.redirect(f"{self.server.other}/{rest}")

    do_back = do_there

    def do_to(self, rest):
        name, port, path = rest.split("/", 2)
        self.redirect(f"http{'s' if self.server.context else ''}://{name}:{port}/{path}")

    def do_key_tag(self, name):
        self.reply(200, self.read(name), ("ETag", f'"{self.key()}"'), ("Last-Modified", self.key()))

    def do_down(self, rest):
        self.redirect(f"{self.server.down}/{rest}")

    def do_echo(self, rest):
        self.redirect(f"{self.server.other}/{rest}?{urllib.parse.urlsplit(self.path).query}")

    def do_echo_within(self, rest):
        self.redirect(f"/{rest}?{urllib.parse.urlsplit(self.path).query}")

    def do_away(self, _rest):
        self.redirect("ftp://127.0.0.1/list")

    def do_nowhere(self, _rest):
        self.redirect("https://127.0.0.1:99999/list")

    def do_gzip(self, name):
        self.reply(200, gzip.compress(self.read(name)), ("Content-Encoding", "gzip"))

    def chunks(self, name, end):
        self.send_response(200)
        self.send_header("Transfer-Encoding", "chunked")
        self.end_headers()
        body = self.read(name)
        for at in range(0, len(body), 50):
            part = body[at:at + 50]
            self.wfile.write(b"%x\r\n%b\r\n" % (len(part), part))
        self.wfile.write(end)

    def do_chunked(self, name):
        self.chunks(name, b"0\r\n\r\n")

    def do_cut_chunks(self, name):
        self.chunks(name, b"")

    def do_ended(self, name):
        self.reply(200, self.read(name), length=False)
        if isinstance(self.connection, ssl.SSLSocket):
            self.connection.unwrap()

    def do_cut_tls(self, name):
        self.reply(200, self.read(name), length=False)

    def do_cut(self, name):
        self.reply(200, self.read(name), length=100_000)

    def do_endless(self, _rest):
        self.reply(200, b"", length=False)
        while True:
            self.wfile.write(b"x" * 65_536)

    def do_drip(self, _rest):
        self.reply(200, b"", length=1_000)
        for _ in range(1_000):
            self.wfile.write(b"x")
            time.sleep(0.1)

    def do_hang(self, _rest):
        time.sleep(60)

    def do_login(self, _rest):
        self.reply(200, FORM, ("Content-Type", "text/html"))

    def do_login_key(self, _rest):
        self.reply(200, f"the key {self.headers['X-API-Key']} is unknown\n".encode())

    def do_coding(self, name):
        self.reply(200, self.read(name), ("Content-Encoding", "br"))

    def do_not_http(self, _rest):
        self.wfile.write(b"220 ready\r\n")

    def do_status(self, rest):
        self.reply(int(rest), b"no\n")

    def log_message(self, *words):
        pass


class Server(http.server.ThreadingHTTPServer):
    daemon_threads = True

    def handle_error(self, request, client_address):
        pass

    def finish_request(self, request, client_address):
        if self.context:
            request = self.context.wrap_socket(request, server_side=True)
        super().finish_request(request, client_address)


def main():
    folder, certificate = sys.argv[1:]
    context = ssl.SSLContext(ssl.PROTOCOL_TLS_SERVER)
    context.load_cert_chain(f"{certificate}.pem", f"{certificate}.key")
    first, other, plain = [Server(("127.0.0.1", 0), Vendor) for _ in range(3)]
    # The other host has another name, too.
    addresses = [f"https://127.0.0.1:{first.server_port}", f"https://localhost:{other.server_port}",
                 f"http://127.0.0.1:{plain.server_port}"]
    for server, name, to in zip((first, other, plain), ("first", "other", "plain"), (addresses[1], *addresses[:1] * 2)):
        server.context = None if server is plain else context
        server.folder, server.log, server.other, server.down = pathlib.Path(folder), f"{name}.log", to, addresses[2]
        open(server.log, "w", encoding="ascii").close()
        threading.Thread(target=server.serve_forever, daemon=True).start()
    print(*addresses, flush=True)
    threading.Event().wait(600)
    os._exit(0)


if __name__ == "__main__":
    main()
