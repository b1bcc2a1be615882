"""Random streams of packets for the console, each with one hall."""

from __future__ import annotations

from collections.abc import Callable, Iterator
from itertools import islice
from random import Random

from hall.packets import Argument, Blob, Text
from inputs import layout
from inputs.layout import int32, laid_out

CALLS = (b"open", b"round", b"strike", b"mark", b"clear", b"read", b"lamp")
STRANGE_ADDRESSES = (
    b"/hall/opens",
    b"/hall/ope",
    b"/hall/Open",
    b"/hall/open/",
    b"/hall/*",
    b"/hall/rea?",
    b"//hall/read",
    b"/hall",
    b"/",
    b"/hall/ok",
    b"/hall/no",
    b"/hall/word",
    b"/Hall/round",
    b"/hall/round ",
    b"/hall/m\xc3\xa4rk",
    b"/hall/strike\xff",
    b"/lamp",
)
OUTSIDE = (-1, -1, 65_536, 65_536, -2, -(2**31), 2**31 - 1, 65_537, 65_538, 131_072, -65_536, -65_535)
BAD_SIZES = (0, 1, 2, 3, 5, 6, 22, 4_095, 4_098, 4_100, 65_536, 2**31, 2**31 + 8, 2**32 - 4, 2**32 - 1)


def stream(packets: int, seed: int) -> bytes:
    """A stream of this many packets, which ends badly where five divides the seed."""
    rng = Random(seed)
    bad_end = seed % 5 == 0
    packed = b"".join(int32(len(packet)) + packet for packet in islice(_Show(rng).packets(packets), packets - bad_end))
    return packed + _bad_end(rng) if bad_end else packed


def _bad_end(rng: Random) -> bytes:
    """The end of a stream: a bad size, a cut size or a cut packet."""
    packet = laid_out(b"/hall/read", [1])
    whole = int32(len(packet)) + packet
    bad_size = int32(rng.choice(BAD_SIZES)) + whole * rng.randrange(3)
    return rng.choice([bad_size, whole[: rng.randrange(1, 4)], whole[: rng.randrange(4, len(whole))]])


class _Show:
    """One hall of the console, as the generator sees it."""

    def __init__(self, rng: Random) -> None:
        self.rng = rng
        self.n = rng.choice([3, 3, 4, 5, 5, 6, 7, 7, 8, 9, 10, 11, 12, 13, 14, 15, 16])
        self.t = rng.randint(1, (self.n - 1) // 2) if rng.random() < 0.5 else (self.n - 1) // 2
        self.rest = rng.randrange(2)
        self.script = self._script()
        self.broken: set[int] = set()

    def packets(self, count: int) -> Iterator[bytes]:
        """Packets without end; the hall is made early among this many."""
        for _ in range(self.rng.randrange(count // 5 + 1) if count < 200 else self.rng.randrange(20, 60)):
            yield self._before_make()
        yield self._sent(b"/hall/make", [self.n, self.t, self.rest, self.script])
        while True:
            yield from self._between_cues()
            for packet in self._cue():
                yield packet
                if self._chance(0.14):
                    yield self._nonsense()

    def _chance(self, share: float) -> bool:
        """Whether something happens that does so in this share of cases."""
        return self.rng.random() < share

    def _script(self) -> Blob:
        """The entries of a script: mostly words, some that are none."""
        usual = [0, 1, self.rng.choice([2, 7, 256, 65_534, 65_535]), self.rng.randrange(65_536)]
        weights = self.rng.choice([(1, 1, 0, 0), (4, 4, 1, 1), (1, 4, 4, 0), (4, 1, 4, 0), (1, 1, 1, 1), (1, 1, 2, 0)])
        entries = self.rng.choices(usual, weights, k=self.rng.choice([0, 1, 2, 3, 4, 5, 7, 16, 37, 64, 101]))
        return Blob(b"".join(code.to_bytes(2, "big") for code in entries))

    def _sent(self, address: bytes, arguments: list[Argument]) -> bytes:
        """A message, at times with fill bytes that are any bytes."""
        fill = layout.any_fill(self.rng) if self._chance(0.1) else bytes
        return laid_out(address, arguments, fill)

    def _station(self, odd: float) -> int:
        """The number of a station, or of none in this share of cases."""
        if not self._chance(odd):
            return self.rng.randrange(self.n)
        near = [self.n, self.n + 1, 15, 16, 17, 255, 256, 256 + self.rng.randrange(self.n), 65_534, 65_535]
        return self.rng.choice([*near, *OUTSIDE, self.rng.randrange(-(2**31), 2**31)])

    def _any_call(self) -> bytes:
        """A call by its right tags, with odd numbers at times."""
        name = self.rng.choice(CALLS)
        if name == b"open":
            return self._open(self._station(0.3), 0.5)
        numbers = [] if name in (b"round", b"strike") else [self._station(0.4)]
        return self._sent(b"/hall/" + name, numbers)

    def _open(self, caller: int, odd: float) -> bytes:
        """An opening, with an odd take or code in this share of cases."""
        take, code = self.rng.choice([0, 1, 65_535, self.rng.randrange(65_536)]), self.rng.randrange(2)
        if self._chance(odd):
            take = self.rng.choice([*OUTSIDE, take])
        if self._chance(odd):
            code = self.rng.choice([*OUTSIDE, 2, 3, 4_095, 4_096, 65_534, 65_535, code])
        return self._sent(b"/hall/open", [take, caller, code])

    def _address(self) -> bytes:
        """The address of a call or of a making."""
        return b"/hall/" + self.rng.choice([*CALLS, b"make"])

    def _wrong_tags(self) -> bytes:
        """A call with arguments by chance."""
        kinds: list[Callable[[], Argument]] = [
            lambda: self.rng.randrange(-3, 20),
            lambda: Text(bytes(self.rng.randrange(1, 256) for _ in range(self.rng.randrange(9)))),
            lambda: Blob(self.rng.randbytes(self.rng.randrange(9))),
        ]
        arguments = [self.rng.choice(kinds)() for _ in range(self.rng.randrange(6))]
        return self._sent(self._address(), arguments)

    def _unknown(self) -> bytes:
        """A message to an address that names no call."""
        return self._sent(self.rng.choice(STRANGE_ADDRESSES), [self.rng.randrange(4)] * self.rng.randrange(4))

    def _broken(self) -> bytes:
        """A packet that is broken in one of the many ways."""
        return self.rng.choice(layout.BROKEN)(self.rng, self._address())

    def _refused_make(self) -> bytes:
        """A making that is refused, also where no hall is made yet."""
        n, t, rest, script = self.n, self.t, self.rest, self.script
        match self.rng.randrange(4):
            case 0:
                n = self.rng.choice([0, 1, 2, 17, 18, 65_535, *OUTSIDE])
            case 1:
                t = self.rng.choice([0, (n + 1) // 2, n // 2 + 1, n, 65_535, *OUTSIDE])
            case 2:
                rest = self.rng.choice([2, 3, 4_096, 65_534, 65_535, *OUTSIDE])
            case 3:
                script = Blob(script.data + b"\0")
        if self._chance(0.2):
            n, rest = self.rng.choice([(0, rest), (n, 2), (2, 9)])
        if self._chance(0.1):
            script = Blob(self.rng.randbytes(self.rng.choice([4_059, 2_029])))
        return self._sent(b"/hall/make", [n, t, rest, script])

    def _before_make(self) -> bytes:
        """A packet that makes no hall."""
        match self.rng.randrange(10):
            case 0 | 1 | 2:
                return self._any_call()
            case 3 | 4 | 5 | 6:
                return self._refused_make()
            case 7:
                return self._unknown()
        return self._no_call()

    def _no_call(self) -> bytes:
        """A packet with broken bytes or wrong tags."""
        if self._chance(0.02):
            return layout.longest(self.rng, self._address())
        packet = self._broken() if self._chance(0.6) else self._wrong_tags()
        return packet if not self._would_make(packet) else self._unknown()

    @staticmethod
    def _would_make(packet: bytes) -> bool:
        """Whether the packet might be a making that is done."""
        return packet.startswith(b"/hall/make\0") and b",iiib\0" in packet

    def _nonsense(self) -> bytes:
        """A packet that hardly ever changes the hall."""
        match self.rng.randrange(12):
            case 0 | 1 | 2 | 3 | 4:
                return self._no_call()
            case 5:
                return self._unknown()
            case 6:
                return self._refused_make()
            case 7:
                return self._sent(b"/hall/make", [self.n, self.t, self.rest, self.script])
            case 8 | 9:
                return self._sent(self.rng.choice([b"/hall/read", b"/hall/lamp"]), [self._station(0.3)])
            case 10:
                return self._open(self._station(0.3), 0.5)
        return self._sent(b"/hall/clear", [self._station(0.3)]) if self._chance(0.8) else self._any_call()

    def _mark(self, odd: float) -> bytes:
        """A mark of a station, mostly one that may be broken too."""
        station = self._station(odd)
        if 0 <= station < self.n and len(self.broken | {station}) <= self.t:
            self.broken.add(station)
        return self._sent(b"/hall/mark", [station])

    def _between_cues(self) -> Iterator[bytes]:
        """Marks and clearings in an idle hall."""
        for station in sorted(self.broken):
            if self._chance(0.5):
                self.broken.discard(station)
                yield self._sent(b"/hall/clear", [station])
        for _ in range(self.rng.randrange(self.t + 2)):
            yield self._mark(0.1)
        while len(self.broken) < self.t and self._chance(0.8):
            yield self._mark(0.0)
        if self._chance(0.2):
            yield self._any_call()

    def _cue(self) -> Iterator[bytes]:
        """A cue, mostly from its opening through all its rounds to its strike."""
        broken = sorted(self.broken)
        yield self._open(self.rng.choice(broken) if broken and self._chance(0.6) else self._station(0.05), 0.03)
        stop = self.rng.randrange(3 * self.t + 1) if self._chance(0.08) else 3 * self.t + 1
        for _ in range(stop):
            yield self._sent(b"/hall/round", [])
            if self._chance(0.08):
                yield self._mark(0.1)
            if self._chance(0.15):
                yield self._sent(b"/hall/lamp", [self._station(0.1)])
        if self._chance(0.1):
            yield self._sent(b"/hall/round", [])
        yield from self._told()
        if self._chance(0.95):
            yield self._sent(b"/hall/strike", [])

    def _told(self) -> Iterator[bytes]:
        """What all or some stations hold, and which lamps are lit."""
        share = self.rng.choice([0.2, 1.0])
        for station in range(self.n):
            if self._chance(share):
                yield self._sent(b"/hall/read", [station])
            if self._chance(share / 2):
                yield self._sent(b"/hall/lamp", [station])
        if self._chance(0.2):
            yield self._sent(b"/hall/read", [self._station(1.0)])
