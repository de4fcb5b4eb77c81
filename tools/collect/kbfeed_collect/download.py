"""Downloads a list over HTTP and TLS: redirects, conditional requests, and limits of time and size."""
import contextlib
import functools
import hashlib
import http.client
import signal
import socket
import ssl
import string
import urllib.error
import urllib.parse
import urllib.request
from types import FrameType
from typing import Any, BinaryIO, Iterator, NamedTuple

from kbfeed_convert.faults import Refused

from .clock import seconds_ahead
from .inside import Connection, TlsConnection, checked, is_proxied, to_addresses
from .keys import Key, origin

REDIRECTS = 10
REDIRECTING = (301, 302, 303, 307, 308)
# The seconds that a server may send nothing.
IDLE = 60
CHUNK = 1 << 18
FAULTS = {401: "the key is refused, or one is missing", 403: "the key is refused, or one is missing",
          404: "the list is not there", 410: "the list is not there"}


class Validators(NamedTuple):
    """What a server says about its file, for a conditional request to the same address. `place` is a digest of it."""
    etag: str = ""
    modified: str = ""
    place: str = ""

    def fields(self, url: str) -> dict[str, str]:
        """Returns the header of a request to an address, none for another address."""
        if self.place != digest(url):
            return {}
        named = {"If-None-Match": self.etag, "If-Modified-Since": self.modified}
        return {name: value for name, value in named.items() if value}


class Response(NamedTuple):
    """What a server responded: the validators of its file, None if the file has not changed; the host, and how many
    seconds its clock is ahead, if it says so."""
    validators: Validators | None
    host: str
    ahead: float | None


class Context(ssl.SSLContext):
    """Takes a connection that ends without the end of TLS for a broken one. To the library the response is whole."""

    def wrap_socket(self, *given: Any, **named: Any) -> ssl.SSLSocket:
        """Wraps a socket. A response without a length is cut if the end of TLS is missing."""
        named["suppress_ragged_eofs"] = False
        return super().wrap_socket(*given, **named)


class EachReply(urllib.request.HTTPErrorProcessor):
    """Returns each response as it is: nothing follows a redirect by itself, since that would send the key along."""

    def http_response(self, request: urllib.request.Request, response: http.client.HTTPResponse) -> Any:
        """Returns the response."""
        return response

    https_response = http_response


class Request(urllib.request.Request):
    """A request, with the addresses to connect to if they were looked up."""
    addresses: list[str] = []


class PlainHandler(urllib.request.HTTPHandler):
    """Sends requests without TLS."""

    def http_open(self, request: urllib.request.Request) -> Any:
        """Sends a request."""
        assert isinstance(request, Request)
        return self.do_open(to_addresses(Connection, request.addresses), request)


class TlsHandler(urllib.request.HTTPSHandler):
    """Sends requests over TLS."""

    def __init__(self, context: ssl.SSLContext):
        """Checks certificates by a context."""
        super().__init__(context=context)
        self.context = context

    def https_open(self, request: urllib.request.Request) -> Any:
        """Sends a request."""
        assert isinstance(request, Request)
        return self.do_open(to_addresses(TlsConnection, request.addresses), request, context=self.context)


def digest(url: str) -> str:
    """Returns a digest of an address, which may have secrets."""
    return hashlib.sha256(url.encode()).hexdigest()


@functools.cache
def opener() -> urllib.request.OpenerDirector:
    """Returns what sends requests. It checks certificates, and follows no redirect."""
    context = Context(ssl.PROTOCOL_TLS_CLIENT)
    context.options &= ~ssl.OP_IGNORE_UNEXPECTED_EOF
    context.load_default_certs()
    return urllib.request.build_opener(EachReply, PlainHandler, TlsHandler(context))


@contextlib.contextmanager
def limited(seconds: int) -> Iterator[None]:
    """Refuses what takes longer than so many seconds, also if bytes arrive one by one."""
    def over(_number: int, _frame: FrameType | None) -> None:
        raise Refused(f"the download took longer than {seconds} s (max_seconds)")
    before = signal.signal(signal.SIGALRM, over)
    signal.setitimer(signal.ITIMER_REAL, seconds)
    try:
        yield
    finally:
        signal.setitimer(signal.ITIMER_REAL, 0)
        signal.signal(signal.SIGALRM, before)


def download(url: str, key: Key | None, known: Validators, to: BinaryIO, most: int, seconds: int,
             may_be_inside: bool) -> Response:
    """Downloads a list into a file, if it has changed since the known validators.

    The list has at most `most` bytes, and all of it takes at most so many seconds. Raises `Refused` with what is wrong,
    and `OSError` if the file cannot be written."""
    with limited(seconds):
        with contextlib.ExitStack() as closing:
            url, reply = followed(url, key, known, min(IDLE, seconds), may_be_inside)
            closing.callback(reply.close)
            ahead = seconds_ahead(reply.headers)
            if reply.status == 304:
                return Response(None, host(url), ahead)
            if reply.status != 200:
                raise Refused(f"status {reply.status} of {host(url)}"
                              + (f": {FAULTS[reply.status]}" if reply.status in FAULTS else ""))
            coding = reply.headers.get("Content-Encoding", "identity").strip().lower()
            if coding not in ("identity", "gzip", "x-gzip"):
                raise Refused(f"{host(url)} sends the list in a coding that was not asked for")
            copy_body(url, reply, to, most)
    named = [reply.headers.get(it, "") for it in ("ETag", "Last-Modified")]
    # A server could send the key back, and these are stored.
    etag, modified = ["" if key and key.is_in(it) else it for it in named]
    return Response(Validators(etag, modified, digest(key.hidden(url) if key else url)), host(url), ahead)


def followed(url: str, key: Key | None, known: Validators, timeout: int,
             may_be_inside: bool) -> tuple[str, http.client.HTTPResponse]:
    """Asks for an address and follows its redirects. Returns the last address and its response."""
    sender, asked, sent_by = opener(), key.with_query(url) if key else url, ""
    for _ in range(REDIRECTS + 1):
        fields = {"User-Agent": "kbfeed-collect", "Accept-Encoding": "gzip",
                  **known.fields(key.hidden(asked) if key else asked), **(key.fields(asked) if key else {})}
        with network_faults(asked, timeout):
            request = Request(asked, headers=fields)
            scheme, name, port = origin(asked)
            if (name, port) != origin(url)[1:] and not may_be_inside and not is_proxied(scheme, name):
                request.addresses = checked(name, port, sent_by)
            reply: http.client.HTTPResponse = sender.open(request, timeout=timeout)
        if reply.status not in REDIRECTING:
            return asked, reply
        reply.close()
        sent_by, asked = host(asked), redirected(asked, reply.headers.get("Location", ""), key)
    raise Refused(f"more than {REDIRECTS} redirects")


def redirected(url: str, location: str, key: Key | None) -> str:
    """Returns the address that a redirect leads to, if it is one to follow."""
    if not location:
        raise Refused(f"{host(url)} sends a redirect without an address")
    try:
        location = urllib.parse.quote(location.strip(), safe=string.punctuation, encoding="latin-1")
        to = urllib.parse.urldefrag(urllib.parse.urljoin(url, location)).url
        scheme, name, _ = origin(to)
    except ValueError as error:
        raise Refused(f"{host(url)} sends a redirect to an invalid address") from error
    if scheme not in ("http", "https") or not name:
        raise Refused(f"{host(url)} sends a redirect to an address that is not one of the web")
    if url.startswith("https:") and scheme == "http":
        raise Refused(f"{host(url)} sends a redirect from https to http, to {name}")
    if key and not key.is_for(to) and key.is_in(to):
        raise Refused(f"{host(url)} sends a redirect that would give the key to {name}")
    return to


def copy_body(url: str, reply: http.client.HTTPResponse, to: BinaryIO, most: int) -> None:
    """Copies the body of a response, if it is whole and within the limit."""
    wanted = reply.length
    if wanted is None and not reply.chunked and url.startswith("http:"):
        raise Refused(f"{host(url)} does not say how long the list is: without https its end cannot be checked")
    if wanted is not None and wanted > most:
        raise Refused(f"the list has more than {most} bytes (max_bytes)")
    size = 0
    while wanted is None or size < wanted:
        with network_faults(url, IDLE):
            # `read` would wait until so many bytes are there.
            part = reply.read1(CHUNK if wanted is None else min(CHUNK, wanted - size))
        if not part:
            break
        size += len(part)
        if size > most:
            raise Refused(f"the list has more than {most} bytes (max_bytes)")
        to.write(part)
    if wanted is not None and size < wanted:
        raise Refused(f"the reply of {host(url)} is cut: {size} of {wanted} bytes")


@contextlib.contextmanager
def network_faults(url: str, timeout: int) -> Iterator[None]:
    """Turns the errors of a connection into faults that name the host, and never the address."""
    try:
        yield
    except (OSError, http.client.HTTPException, ValueError) as error:
        cause = error.reason if isinstance(error, urllib.error.URLError) else error
        raise Refused(network_fault(url, cause, timeout)) from error


def network_fault(url: str, cause: BaseException | str, timeout: int) -> str:
    """Returns what an error of a connection means."""
    if isinstance(cause, ssl.SSLCertVerificationError):
        return f"the certificate of {host(url)} is not accepted: {cause.verify_message}"
    is_cut = isinstance(cause, ssl.SSLError) and cause.reason == "UNEXPECTED_EOF_WHILE_READING"
    if is_cut or isinstance(cause, (ssl.SSLEOFError, http.client.IncompleteRead, ConnectionResetError)):
        return f"the reply of {host(url)} is cut"
    if isinstance(cause, TimeoutError):
        return f"{host(url)} sent nothing for {timeout} s"
    if isinstance(cause, socket.gaierror):
        return f"the name {host(url)} has no address: {cause.strerror}"
    if isinstance(cause, http.client.HTTPException):
        return f"the reply of {host(url)} is not HTTP"
    if isinstance(cause, ValueError):
        return f"the name {host(url)} is not that of a host"
    if isinstance(cause, OSError):
        return f"no connection to {host(url)}: {cause.strerror or cause}"
    return f"no connection to {host(url)}: {cause}"


def host(url: str) -> str:
    """Returns the host of an address. The rest may have a secret."""
    return urllib.parse.urlsplit(url).hostname or ""
