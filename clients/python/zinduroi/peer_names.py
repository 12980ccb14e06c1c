"""What an operator says of peers: addresses, times, and certificates, with the names that these have."""
from __future__ import annotations

import dataclasses
import ipaddress
import re
import ssl
from typing import Any, Collection, Mapping, Optional, Tuple

from .peer_texts import SITES

# What OpenSSL says of a certificate that has another name: X509_V_ERR_HOSTNAME_MISMATCH; .. that is not valid yet, or no more:
# X509_V_ERR_CERT_NOT_YET_VALID, X509_V_ERR_CERT_HAS_EXPIRED.
OTHER_NAME = 62
OUT_OF_DATE = (9, 10)


class OutOfDate(ValueError):
    """A certificate is out of date by this machine's clock, which may be wrong."""


@dataclasses.dataclass(frozen=True)
class Peer:
    """A neighbour. `address` is where it listens, as `host:port` or `[::1]:port`; `None` if only it connects. `carries` are
    the sites whose texts are taken over it."""

    address: Optional[str] = None
    carries: Collection[int] = frozenset()


@dataclasses.dataclass(frozen=True)
class Timing:
    """Times in seconds. `handshake`: until a connection has its certificates checked and its first line. `beat`: between
    two lines where nothing is new. `silence`: without a byte, or without room for one, a connection is dropped. Pauses
    between two attempts to connect double from `first_pause` to `longest_pause`. `patience`: how long the first question for
    messages waits for the peers. `again`: after that time each newest text is handed out once more. `linger`: how long `close` waits
    until the last texts are written. `strangers` is the most connections that have not yet shown who they are."""

    handshake: float = 5.0
    beat: float = 5.0
    silence: float = 15.0
    first_pause: float = 0.2
    longest_pause: float = 10.0
    patience: float = 2.0
    again: float = 60.0
    linger: float = 1.0
    strangers: int = 32


def name_of(site: int, group: Optional[str]) -> str:
    """The name that a site's certificate has as a subject alternative name."""
    return f"site-{site}.zinduroi" if group is None else f"site-{site}.{group}.zinduroi"


def site_in(certificate: Mapping[str, Any], group: Optional[str]) -> Optional[int]:
    """The one site of the group that a certificate names; `None` if it names none or several."""
    names = {value for kind, value in certificate.get("subjectAltName", ()) if kind == "DNS"}
    sites = [site for site in range(SITES) if name_of(site, group) in names]
    return sites[0] if len(sites) == 1 else None


def parse_address(address: str) -> Tuple[str, int]:
    """Host and port of `host:port` or `[host]:port`. Raises `ValueError`."""
    found = re.fullmatch(r"(?:\[([0-9A-Fa-f:.%]+)\]|([^:\[\]\s]+)):([0-9]{1,5})", address)
    if found is None or int(found[3]) > 65_535:
        raise ValueError(f"{address!r} is no address of the form host:port")
    return found[1] or found[2], int(found[3])


def is_loopback(host: str) -> bool:
    """Whether a host is an address of loopback; a name is none, as it may come to mean another machine."""
    try:
        return ipaddress.ip_address(host).is_loopback
    except ValueError:
        return False


def tls_contexts(authority: str, certificate: str, key: str) -> Tuple[ssl.SSLContext, ssl.SSLContext]:
    """The contexts of the side that listens and of the one that connects: TLS 1.3, and both certificates of this authority
    alone. Raises `OSError`, which names the files, if one can't be used."""
    both = []
    for protocol in (ssl.PROTOCOL_TLS_SERVER, ssl.PROTOCOL_TLS_CLIENT):
        context = ssl.SSLContext(protocol)
        context.minimum_version = ssl.TLSVersion.TLSv1_3
        context.verify_mode = ssl.CERT_REQUIRED
        context.hostname_checks_common_name = False
        try:
            # Without a password a key that needs one is refused; else OpenSSL would ask at the terminal.
            context.load_cert_chain(certificate, key, password=lambda: "")
        except OSError as error:
            raise OSError(f"certificate {certificate} and key {key}: {error}") from error
        try:
            context.load_verify_locations(cafile=authority)
        except OSError as error:
            raise OSError(f"authority {authority}: {error}") from error
        both.append(context)
    # No session is resumed: each connection shows its certificates.
    setattr(both[0], "num_tickets", 0)
    return both[0], both[1]


def check_own(server: ssl.SSLContext, client: ssl.SSLContext, site: int, group: Optional[str]) -> None:
    """Has both contexts shake hands in memory, as two peers would. Raises `ValueError` if the certificate is not of the
    authority or does not name this site alone, and its subclass `OutOfDate` if it is that."""
    to_server, to_client = ssl.MemoryBIO(), ssl.MemoryBIO()
    sides = [client.wrap_bio(to_client, to_server, server_hostname=name_of(site, group)),
             server.wrap_bio(to_server, to_client, server_side=True)]
    waiting = list(sides)
    for _ in range(20):
        for side in list(waiting):
            try:
                side.do_handshake()
                waiting.remove(side)
            except ssl.SSLWantReadError:
                pass
            except ssl.SSLCertVerificationError as error:
                if error.verify_code == OTHER_NAME:
                    raise ValueError(f"the certificate has no name {name_of(site, group)}") from error
                kind = OutOfDate if error.verify_code in OUT_OF_DATE else ValueError
                raise kind(f"the certificate: {error.verify_message}") from error
    if waiting or site_in(sides[1].getpeercert() or {}, group) != site:
        raise ValueError(f"the certificate does not name {name_of(site, group)} alone")
