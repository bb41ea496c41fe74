"""Who may ask the server: requests by the page's own address alone, and with the token where the server is not bound to this machine.

A page elsewhere can make a browser send requests here, under a name of its own that it lets point here (rebinding) or from another origin.
Both are seen in what the browser sends along: Host and Origin.

>>> here = Access("127.0.0.1", 8470, None)
>>> here.link, [here.allows_host(host) for host in ("127.0.0.1:8470", "localhost:8470", "example.org:8470", "127.0.0.1")]
('http://127.0.0.1:8470/', [True, True, False, False])
>>> here.allows_origin("http://localhost:8470"), here.allows_origin("http://example.org"), here.allows_origin(None)
(True, False, False)
>>> other = Access("192.0.2.7", 80, "secret")
>>> other.link, other.allows_host("192.0.2.7"), here.allows_token(b""), other.allows_token(b"token=other"), other.allows_token(b"token=secret")
('http://192.0.2.7/?token=secret', True, True, False, True)
"""

import hmac
import socket
from dataclasses import dataclass
from ipaddress import ip_address
from typing import Optional
from urllib.parse import parse_qs, quote

HERE = "127.0.0.1"
PLAIN_PORT = 80  # which a browser leaves out


def is_address(host: str) -> bool:
    try:
        ip_address(host)
    except ValueError:
        return False
    return True


def bracketed(host: str) -> str:
    return f"[{host}]" if ":" in host else host


@dataclass(frozen=True)
class Access:
    """The address that the server listens on, its port, and the token in the link, if there is one."""

    address: str
    port: int
    token: Optional[str]

    @property
    def is_anywhere(self) -> bool:
        """Bound to all addresses of this machine."""
        return is_address(self.address) and ip_address(self.address).is_unspecified

    @property
    def link(self) -> str:
        host = socket.gethostname() if self.is_anywhere else bracketed(self.address)
        port = "" if self.port == PLAIN_PORT else f":{self.port}"
        return f"http://{host}{port}/" + (f"?token={quote(self.token)}" if self.token else "")

    def allows_host(self, given: str) -> bool:
        """Whether a request names this server: by the port, and by an address or name that is its own. A server on all addresses takes
        any address, since only a name can be made to point elsewhere, and the machine's name."""
        host, port = split_host(given)
        if port != self.port:
            return False
        if self.is_anywhere:
            return is_address(host) or host in (socket.gethostname().lower(), "localhost")
        return host == self.address.lower() or host == "localhost" and self.address == HERE

    def allows_origin(self, given: Optional[str]) -> bool:
        return given is not None and given.startswith("http://") and self.allows_host(given[len("http://") :])

    def allows_token(self, query: bytes) -> bool:
        if self.token is None:
            return True
        try:
            given = parse_qs(query.decode("latin-1"), max_num_fields=16).get("token", [""])[0]
        except ValueError:
            return False
        return hmac.compare_digest(given.encode("utf-8", "replace"), self.token.encode())


def split_host(given: str) -> tuple[str, int]:
    """A header's host and port, the port -1 where it can't be read.

    >>> split_host("[::1]:8470"), split_host("LocalHost"), split_host("a:b")
    (('::1', 8470), ('localhost', 80), ('a', -1))
    """
    host, colon, port = given.rpartition(":")
    if not colon or port.endswith("]"):
        host, port = given, str(PLAIN_PORT)
    number = int(port) if port.isascii() and port.isdigit() and len(port) < 6 else -1
    return host.strip("[]").lower(), number
