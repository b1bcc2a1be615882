"""Play, which makes the call that a packet names, and the console, which plays a stream."""

from __future__ import annotations

from dataclasses import dataclass
from typing import BinaryIO

from .calls import Hall
from .packets import Message, encode, packet_size, read_message
from .refusals import Refusal, Refused
from .rigs import ScriptRig
from .rounds import SHEET, Parts
from .rules import CountRule
from .words import VOID, Gates, WordKind

NO_STATION = 65_535
LAST_TAKE = 65_535
REPLY_ROOM = 28
MAKE = b"/hall/make"
MAKE_TAGS = b"iiib"
TAGS = {
    b"/hall/open": b"iii",
    b"/hall/round": b"",
    b"/hall/strike": b"",
    b"/hall/mark": b"i",
    b"/hall/clear": b"i",
    b"/hall/read": b"i",
    b"/hall/lamp": b"i",
}


@dataclass(frozen=True)
class Call:
    """A call that a message names, with its numbers."""

    address: bytes
    numbers: tuple[int, ...]


def narrowed(number: int) -> int:
    """A number of 16 bits, or the highest of them, which no hall has, for one outside."""
    return number if 0 <= number <= NO_STATION else NO_STATION


def call_of(message: Message, kind: WordKind) -> Call:
    """The call that a message names, or a refusal before any hall is asked."""
    address, numbers = message.address, message.arguments
    if address not in TAGS:
        raise Refused(Refusal.UNKNOWN_ADDRESS)
    if message.tags != TAGS[address]:
        raise Refused(Refusal.WRONG_TAGS)
    if address != b"/hall/open":
        return Call(address, tuple(narrowed(number) for number in numbers))
    take, caller, code = numbers
    if not 0 <= take <= LAST_TAKE:
        raise Refused(Refusal.TAKE_OUT_OF_RANGE)
    kind.decode(code)
    return Call(address, (take, narrowed(caller), code))


def reply(address: bytes, *numbers: int) -> bytes:
    """A size and a message of that size."""
    packet = encode(address, numbers)
    return len(packet).to_bytes(4, "big") + packet


def no(refusal: Refusal) -> bytes:
    """The reply to a call that is refused."""
    return reply(b"/hall/no", refusal.number)


def made(hall: Hall, call: Call, sheet: list[int]) -> bytes:
    """Makes a call and answers the reply to it."""
    name, numbers = call.address.removeprefix(b"/hall/"), call.numbers
    if name == b"read":
        return reply(b"/hall/word", numbers[0], hall.read(numbers[0]))
    if name == b"lamp":
        return reply(b"/hall/lamp", numbers[0], hall.lamp(numbers[0]))
    if name == b"round":
        hall.round(sheet)
    elif name == b"strike":
        hall.strike()
    elif name == b"open":
        hall.open(*numbers)
    elif name == b"mark":
        hall.mark(numbers[0])
    else:
        hall.clear(numbers[0])
    return reply(b"/hall/ok")


def play(hall: Hall, packet: bytes, sheet: list[int], out: bytearray) -> int:
    """Makes the call that a packet names, writes the reply to a buffer and answers its length."""
    if len(out) < REPLY_ROOM:
        raise Refused(Refusal.BUFFER_TOO_SHORT)
    try:
        answer = made(hall, call_of(read_message(packet), hall.parts.kind), sheet)
    except Refused as refused:
        answer = no(refused.refusal)
    out[: len(answer)] = answer
    return len(answer)


class Console:
    """A hall of gates that is made by a message and then played."""

    def __init__(self) -> None:
        self.kind = Gates()
        self.hall: Hall | None = None
        self.sheet = [VOID] * SHEET

    def answer(self, packet: bytes) -> bytes:
        """The reply to a packet."""
        try:
            message = read_message(packet)
            if message.address == MAKE:
                self._make(message)
                return reply(b"/hall/ok")
            call = call_of(message, self.kind)
            if self.hall is None:
                raise Refused(Refusal.NOT_MADE)
            return made(self.hall, call, self.sheet)
        except Refused as refused:
            return no(refused.refusal)

    def _make(self, message: Message) -> None:
        """Makes the hall that a message asks for."""
        if message.tags != MAKE_TAGS:
            raise Refused(Refusal.WRONG_TAGS)
        n, t, rest, blob = message.arguments
        if len(blob.data) % 2:
            raise Refused(Refusal.ODD_SCRIPT)
        self.kind.decode(rest)
        if self.hall is not None:
            raise Refused(Refusal.ALREADY_MADE)
        rule = CountRule.make(narrowed(n), narrowed(t))
        pairs = zip(blob.data[::2], blob.data[1::2])
        rig = ScriptRig(tuple(256 * high + low for high, low in pairs))
        self.hall = Hall(Parts(rule, rig, self.kind, rest))


def next_packet(stream: BinaryIO) -> bytes | None:
    """The next packet of a stream, or nothing where it ends; a bad size and a cut are refused."""
    head = stream.read(4)
    if not head:
        return None
    size = packet_size(head)
    packet = stream.read(size)
    if len(packet) < size:
        raise Refused(Refusal.BROKEN_LAYOUT)
    return packet


def run(stream: BinaryIO, out: BinaryIO) -> None:
    """Plays a stream, with each reply written before the next packet is waited for."""
    console = Console()
    try:
        while (packet := next_packet(stream)) is not None:
            out.write(console.answer(packet))
            out.flush()
    except Refused as refused:
        out.write(no(refused.refusal))
        out.flush()
