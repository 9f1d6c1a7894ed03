"""Addresses as the dialects write them."""
from __future__ import annotations

from ipaddress import AddressValueError, IPv4Address

from . import fields
from .fields import Spans
from .listing import Refused

# The most prefixes that a wildcard, or a mask with holes, may become.
MOST_PREFIXES = 256


def number_of(text: str) -> int:
    """The number of an address with points."""
    try:
        return int(IPv4Address(text))
    except AddressValueError:
        raise Refused(f"address {text}") from None


def prefix(address: str, length: str) -> Spans:
    """The addresses that agree with this one in so many first bits."""
    if not is_number(length, 32):
        raise Refused(f"prefix {address}/{length}")
    return masked(number_of(address), (1 << 32 - int(length)) - 1, length)


def masked(address: int, free: int, mask: str) -> Spans:
    """The addresses that agree with this one in each bit that isn't free, as this wildcard or mask says."""
    values = fields.agreeing(address, free, MOST_PREFIXES)
    if values is None:
        raise Refused(f"{mask} needs more than {MOST_PREFIXES} prefixes")
    return values


def span(low: str, high: str) -> Spans:
    """The addresses from one to another."""
    if number_of(low) > number_of(high):
        raise Refused(f"the range {low}-{high} begins above its end")
    return ((number_of(low), number_of(high)),)


def is_number(text: str, most: int) -> bool:
    """Whether a text is a decimal number, of at most this value."""
    return text.isascii() and text.isdigit() and len(text) <= 10 and int(text) <= most
