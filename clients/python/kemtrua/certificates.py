"""When certificates end."""
from __future__ import annotations

import ssl
import time
from collections.abc import Iterator

from . import clock, logs
from .address import Tls
from .errors import BadSettings

log = logs.logger("kemtrua.certificates")

WARN_BEFORE = 30 * 86400.0  # seconds before an end
DAY = 86400.0
_BEGIN, _END = "-----BEGIN CERTIFICATE-----", "-----END CERTIFICATE-----"
_SEQUENCE, _UTC_TIME = 0x30, 0x17


def _parts(data: bytes) -> Iterator[tuple[int, bytes]]:
    """The tags and contents of DER values that stand one after the other."""
    at = 0
    while at < len(data):
        tag, length, at = data[at], data[at + 1], at + 2
        if length & 0x80:
            count = length & 0x7F
            length, at = int.from_bytes(data[at : at + count], "big"), at + count
        yield tag, data[at : at + length]
        at += length


def _end_of(der: bytes) -> float:
    """When a certificate ends, in seconds since 1970."""
    (_, certificate), *_ = _parts(der)
    (_, body), *_ = _parts(certificate)
    # (the fields of a certificate's body: version, number, algorithm, issuer, validity ..; validity is the second sequence that has times)
    validity = [content for tag, content in _parts(body) if tag == _SEQUENCE][2]
    tag, text = list(_parts(validity))[1]
    form = "%y%m%d%H%M%SZ" if tag == _UTC_TIME else "%Y%m%d%H%M%SZ"
    return float(ssl.cert_time_to_seconds(time.strftime("%b %d %H:%M:%S %Y GMT", time.strptime(text.decode(), form))))


def ends_of(path: str) -> float:
    """When the first certificate of a PEM file to end does so, in seconds since 1970."""
    try:
        with open(path) as file:
            text = file.read()
        found = [part.partition(_END)[0] for part in text.split(_BEGIN)[1:]]
        return min(_end_of(ssl.PEM_cert_to_DER_cert(f"{_BEGIN}{part}{_END}")) for part in found)
    except (OSError, ValueError, IndexError) as error:
        raise BadSettings(f"{path} has no certificate that can be read: {error}") from None


def warn(path: str, name: str) -> bool:
    """Says where a certificate ends within 30 days. Whether it does."""
    left = ends_of(path) - clock.now() / 1000
    if left > WARN_BEFORE:
        return False
    ended = f"ends in {max(int(left // DAY), 0)} days" if left > 0 else "has ended"
    log.warning("%s (%s) %s: make a new one in time", name, path, ended)
    return True


def warn_of(tls: Tls) -> None:
    """The same of one's own certificate and the authority's."""
    warn(tls.certificate, "this side's certificate")
    warn(tls.authority, "the authority's certificate")
