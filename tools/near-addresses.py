#!/usr/bin/env python3
"""Writes crates/text_tests/src/near_addresses.rt: texts made from good addresses by dropping, doubling or replacing a
character, and what Python's ipaddress says of each: the family and the number, or the length of the longest front
that some ending makes an address."""
import ipaddress

GOOD = """192.0.2.1 0.0.0.0 255.255.255.255 10.20.30.40 2001:db8::1:0:0:1 :: ::1 1:: 1:2:3:4:5:6:7:8 1:2:3:4:5:6:7::
    ::2:3:4:5:6:7:8 ::ffff:192.0.2.1 1:2:3:4:5:6:1.2.3.4 1::5:1.2.3.4 2001:DB8:0:0:1:0:0:1 fe80::abcd:ef01:2345:6789
    1::2:3:4:5:6:7 1:2:3::6:7:8 64:ff9b::192.0.2.33""".split()
OTHERS = "0:.9fG1/c-B2_5"


def address(text):
    """The address as (family, number), or None."""
    if "%" in text or "/" in text:  # scopes and prefixes are other texts
        return None
    try:
        ip = ipaddress.ip_address(text)
    except ValueError:
        return None
    return ip.version, int(ip)


def endings():
    """Endings of which one makes an address of each text that begins any."""
    groups = [first + ":0" * n for n in range(9) for first in ("", "0", ":", ":0", "0:")]
    octets = [first + ".0" * n for n in range(4) for first in ("", "0")]
    return sorted({"", *groups, *octets})


ENDINGS = endings()


def front(text):
    """The length of the longest front that some ending makes an address."""
    return max(n for n in range(len(text) + 1) if any(address(text[:n] + ending) for ending in ENDINGS))


def near(good):
    """The text itself, and those one step from it."""
    yield good
    for place, character in enumerate(good):
        yield good[:place] + good[place + 1 :]
        yield good[:place] + character + good[place:]
        yield good[:place] + OTHERS[(place * 5 + len(good)) % len(OTHERS)] + good[place + 1 :]


def row(text):
    answer = address(text)
    if answer is None:
        return f"{text} at {front(text)}"
    return f"{text} v{answer[0]} {answer[1]:x}"


texts = list(dict.fromkeys(text for good in GOOD for text in near(good)))[::2]
print("""//! Texts near good addresses, and what Python's ipaddress says of each: its family and number, or how far it goes along.
//! Written by tools/near-addresses.py.

pub(crate) const TEXTS: &str = "\\""")
print("\n".join(map(row, texts)) + '";')
