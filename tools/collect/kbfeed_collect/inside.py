"""The addresses that a redirect may not lead to: those of this machine and of the network around it."""
import http.client
import ipaddress
import socket
import urllib.request
from typing import Any, Callable, Sequence

from kbfeed_convert.faults import Refused

Address = ipaddress.IPv4Address | ipaddress.IPv6Address
# An IPv4 address behind a gateway (RFC 6052).
GATEWAY = ipaddress.IPv6Network("64:ff9b::/96")


def is_inside(text: str) -> bool:
    """Returns whether an address is loopback, link-local, private, shared, unspecified or multicast, also if it is an
    IPv4 address within an IPv6 one."""
    address: Address = ipaddress.ip_address(text.partition("%")[0])
    if isinstance(address, ipaddress.IPv6Address):
        within = address.ipv4_mapped or address.sixtofour
        if address in GATEWAY:
            within = ipaddress.IPv4Address(int(address) & 0xffff_ffff)
        address = within or address
    return address.is_multicast or not address.is_global


def places(host: str, port: int) -> list[str]:
    """Returns the addresses of a name."""
    return list(dict.fromkeys(str(it[4][0]) for it in socket.getaddrinfo(host, port, type=socket.SOCK_STREAM)))


def checked(host: str, port: int, shown: str) -> list[str]:
    """Returns the addresses of a name that a redirect leads to, for the connection. Raises `Refused` for the inside."""
    found = places(host, port)
    if any(map(is_inside, found)):
        raise Refused(f"{shown} sends a redirect to {host}, which is inside: inside = true in its source permits it")
    return found


class Connection(http.client.HTTPConnection):
    """A connection to addresses that were looked up before: a second look-up could give others."""
    # Without any it looks up its name itself.
    addresses: Sequence[str] = ()

    def connect(self) -> None:
        """Connects to the first address that accepts."""
        if not self.addresses:
            return super().connect()
        for at, address in enumerate(self.addresses, 1):
            try:
                self.sock = socket.create_connection((address, self.port), self.timeout)
                return None
            except OSError:
                if at == len(self.addresses):
                    raise
        return None


class TlsConnection(http.client.HTTPSConnection, Connection):
    """The same with TLS, whose certificate is that of the name."""


def to_addresses(kind: type[Connection], addresses: Sequence[str]) -> Callable[..., Any]:
    """Returns what makes connections of a kind to addresses."""
    def made(*given: Any, **named: Any) -> Connection:
        connection = kind(*given, **named)
        connection.addresses = addresses
        return connection
    return made


def is_proxied(scheme: str, host: str) -> bool:
    """Returns whether the environment has a proxy for an address. The proxy looks names up then."""
    return scheme in urllib.request.getproxies() and not urllib.request.proxy_bypass(host)
