"""Packets for the generator: good ones, odd ones that are fine, and broken ones of every kind."""

from __future__ import annotations

from collections.abc import Callable, Sequence
from random import Random

from hall.packets import MOST_BYTES, Argument, Blob, Text

Fill = Callable[[int], bytes]
STRANGE_TAGS = b"fTFNIhdtcrmS[]{ \xff"


def int32(number: int) -> bytes:
    """The four bytes of a number, with or without a sign."""
    return (number % 2**32).to_bytes(4, "big")


def any_fill(rng: Random) -> Fill:
    """Fill bytes that are any bytes."""
    return rng.randbytes


def laid_out(address: bytes, arguments: Sequence[Argument], fill: Fill = bytes) -> bytes:
    """A message, with a choice of fill bytes."""
    tags = b","
    data = b""
    for argument in arguments:
        if isinstance(argument, Text):
            tags, data = tags + b"s", data + string(argument.data, fill)
        elif isinstance(argument, Blob):
            tags, data = tags + b"b", data + int32(len(argument.data)) + filled(argument.data, fill)
        else:
            tags, data = tags + b"i", data + int32(argument)
    return string(address, fill) + string(tags, fill) + data


def filled(data: bytes, fill: Fill = bytes) -> bytes:
    """Bytes with fill bytes behind them."""
    return data + fill(-len(data) % 4)


def string(data: bytes, fill: Fill = bytes) -> bytes:
    """A string: its bytes, a zero byte and fill bytes."""
    return filled(data + b"\0", fill)


def no_tag_string(rng: Random, address: bytes) -> bytes:
    """The address alone, or arguments without their tags."""
    return string(address) + int32(rng.randrange(16)) * rng.randrange(3)


def tags_without_comma(rng: Random, address: bytes) -> bytes:
    """A tag string that lacks its comma."""
    return string(address) + string(b"i") + int32(rng.randrange(16))


def strange_tags(rng: Random, address: bytes) -> bytes:
    """A tag string with a letter that is none of the three."""
    letters = [rng.choice(b"isb") for _ in range(rng.randrange(3))] + [rng.choice(STRANGE_TAGS)]
    rng.shuffle(letters)
    return string(address) + string(b"," + bytes(letters)) + int32(0) * len(letters)


def negative_blob(rng: Random, address: bytes) -> bytes:
    """A blob with a count below zero."""
    count = rng.choice([-1, -4, -8, -(2**31), -65_536])
    return string(address) + string(b",b") + int32(count) + bytes(4 * rng.randrange(4))


def long_blob(rng: Random, address: bytes) -> bytes:
    """A blob with fewer bytes than its count says."""
    there = 4 * rng.randrange(5)
    count = rng.choice([there + 1, there + 4, there + 100, 4_096, 65_536, 2**31 - 1, 2**31 - 4])
    return string(address) + string(b",b") + int32(count) + rng.randbytes(there)


def endless_address(rng: Random, address: bytes) -> bytes:
    """An address without its zero byte."""
    return address + b"x" * (-len(address) % 4) + b",iii" * rng.randrange(3)


def endless_tags(rng: Random, address: bytes) -> bytes:
    """A tag string without its zero byte."""
    return string(address) + b"," + rng.choice([b"iii", b"sbi", b"iiiiiii"])


def endless_text(rng: Random, address: bytes) -> bytes:
    """A text without its zero byte."""
    return string(address) + string(b",s") + b"text" * rng.randrange(4)


def trailing(rng: Random, address: bytes) -> bytes:
    """A message with bytes behind it."""
    behind = rng.choice([bytes(4), rng.randbytes(4), string(b","), bytes(8)])
    return laid_out(address, [rng.randrange(16)] * rng.randrange(4)) + behind


def cut_short(rng: Random, address: bytes) -> bytes:
    """A message that lacks its last bytes."""
    return laid_out(address, [rng.randrange(16)] * rng.randrange(1, 4))[:-4]


def no_slash(rng: Random, address: bytes) -> bytes:
    """An address without its slash, or with something in front of it."""
    bare = rng.choice([address[1:], b" " + address, b"", b"\xff" + address, b"hall", b"," + address])
    return laid_out(bare, [rng.randrange(16)] * rng.randrange(4))


def bundle(rng: Random, address: bytes) -> bytes:
    """A bundle, which is no message."""
    inner = laid_out(address, [rng.randrange(16)])
    return b"#bundle\0" + int32(0) + int32(1) + int32(len(inner)) + inner


def scrap(rng: Random, address: bytes) -> bytes:
    """A packet of next to nothing."""
    scraps = [bytes(4), b"/\0\0\0", b",\0\0\0", bytes(4) + b",\0\0\0", b"////", bytes(8), address[:4], b"/\0,\0"]
    return rng.choice(scraps)


def chaff(rng: Random, address: bytes) -> bytes:
    """Bytes by chance, behind the address or alone."""
    front = rng.choice([b"", string(address), string(address) + b","])
    return filled(front + rng.randbytes(4 * rng.randrange(1, 6)))


def turned(rng: Random, address: bytes) -> bytes:
    """A message in which one byte is another; that may leave it a message."""
    packet = bytearray(laid_out(address, [rng.randrange(8)] * rng.randrange(4)))
    packet[rng.randrange(len(packet))] = rng.choice([0, 1, rng.randrange(256)])
    return bytes(packet)


BROKEN = (
    no_tag_string,
    tags_without_comma,
    strange_tags,
    negative_blob,
    long_blob,
    endless_address,
    endless_tags,
    endless_text,
    trailing,
    cut_short,
    no_slash,
    bundle,
    scrap,
    chaff,
    turned,
)


def longest(rng: Random, address: bytes) -> bytes:
    """A message of as many bytes as a packet may have, or one that lacks its last bytes."""
    room = MOST_BYTES - len(string(address)) - len(string(b",b")) - 4
    packet = laid_out(address, [Blob(rng.randbytes(room - rng.randrange(4)))])
    return rng.choice([packet, packet[:-4]])
