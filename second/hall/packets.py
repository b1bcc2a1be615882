"""Messages of OSC 1.0: reading packets, writing them, and their sizes in a stream."""

from __future__ import annotations

from collections.abc import Iterable, Sequence
from dataclasses import dataclass

from .refusals import Refusal, Refused

MOST_BYTES = 4_096


@dataclass(frozen=True)
class Text:
    """A string as an argument."""

    data: bytes


@dataclass(frozen=True)
class Blob:
    """Any bytes as an argument."""

    data: bytes


Argument = int | Text | Blob


@dataclass(frozen=True)
class Message:
    """An address, the letters of the arguments, and the arguments."""

    address: bytes
    tags: bytes
    arguments: tuple[Argument, ...]


@dataclass(frozen=True)
class Place:
    """A part of the lent bytes, up to an end that is left out; it is a text or a blob."""

    start: int
    end: int
    is_text: bool


def _broken() -> Refused:
    """The refusal of what is no message."""
    return Refused(Refusal.BROKEN_LAYOUT)


class _Reader:
    """A packet, read from front to back."""

    def __init__(self, packet: bytes) -> None:
        self.packet = packet
        self.at = 0

    def take(self, count: int) -> bytes:
        """The next bytes, which must all be there."""
        end = self.at + count
        if end > len(self.packet):
            raise _broken()
        taken = self.packet[self.at : end]
        self.at = end
        return taken

    def skip_fill(self) -> None:
        """Passes the fill bytes, whatever they are."""
        self.take(-self.at % 4)

    def number(self) -> int:
        """The next four bytes as a number with a sign."""
        return int.from_bytes(self.take(4), "big", signed=True)

    def string(self) -> bytes:
        """The next string, up to its zero byte."""
        end = self.packet.find(0, self.at)
        if end < 0:
            raise _broken()
        data = self.take(end - self.at)
        self.take(1)
        self.skip_fill()
        return data

    def blob(self) -> bytes:
        """The next blob, behind the count of its bytes."""
        count = self.number()
        if count < 0:
            raise _broken()
        data = self.take(count)
        self.skip_fill()
        return data

    def argument(self, tag: int) -> Argument:
        """The next argument, of the kind that its letter says."""
        if tag == ord("i"):
            return self.number()
        if tag == ord("s"):
            return Text(self.string())
        if tag == ord("b"):
            return Blob(self.blob())
        raise _broken()


def read_message(packet: bytes) -> Message:
    """The message that the packet is an encoding of, or a refusal where it is none."""
    if len(packet) > MOST_BYTES:
        raise _broken()
    reader = _Reader(packet)
    address = reader.string()
    tags = reader.string()
    if not address.startswith(b"/") or not tags.startswith(b","):
        raise _broken()
    arguments = tuple(reader.argument(tag) for tag in tags[1:])
    if reader.at != len(packet):
        raise _broken()
    return Message(address, tags[1:], arguments)


def _filled(data: bytes) -> bytes:
    """The bytes with zero bytes behind them, to a multiple of 4."""
    return data + bytes(-len(data) % 4)


def _string(data: bytes) -> bytes:
    """The bytes of a string."""
    if 0 in data:
        raise _broken()
    return _filled(data + b"\0")


def _int32(number: int) -> bytes:
    """The four bytes of a number."""
    if not -(2**31) <= number < 2**31:
        raise _broken()
    return number.to_bytes(4, "big", signed=True)


def _tag_and_bytes(argument: Argument) -> tuple[bytes, bytes]:
    """The letter of an argument, and its bytes."""
    if isinstance(argument, Text):
        return b"s", _string(argument.data)
    if isinstance(argument, Blob):
        return b"b", _int32(len(argument.data)) + _filled(argument.data)
    return b"i", _int32(argument)


def encode(address: bytes, arguments: Iterable[Argument]) -> bytes:
    """The bytes of a message with zero fill bytes, or a refusal where it is none."""
    if not address.startswith(b"/"):
        raise _broken()
    parts = [_tag_and_bytes(argument) for argument in arguments]
    tags = b"," + b"".join(tag for tag, _ in parts)
    packet = _string(address) + _string(tags) + b"".join(data for _, data in parts)
    if len(packet) > MOST_BYTES:
        raise _broken()
    return packet


def write_message(address: bytes, entries: Sequence[int | Place], lent: bytes, out: bytearray) -> int:
    """Writes a message to the front of a buffer and answers how many bytes it has."""
    packet = encode(address, [_meant(item, lent) for item in entries])
    if len(packet) > len(out):
        raise Refused(Refusal.BUFFER_TOO_SHORT)
    out[: len(packet)] = packet
    return len(packet)


def _meant(item: int | Place, lent: bytes) -> Argument:
    """The argument that an entry means."""
    if isinstance(item, int):
        return item
    if not 0 <= item.start <= item.end <= len(lent):
        raise _broken()
    data = lent[item.start : item.end]
    return Text(data) if item.is_text else Blob(data)


def packet_size(head: bytes) -> int:
    """The size that four bytes of a stream are, or a refusal where they are none."""
    size = int.from_bytes(head, "big")
    if len(head) != 4 or size % 4 or not 4 <= size <= MOST_BYTES:
        raise _broken()
    return size
