"""Rigs, which carry codes between stations: wires, trio lines, torn lines, the mender and patches."""

from __future__ import annotations

from collections.abc import Sequence
from dataclasses import dataclass, field
from typing import NamedTuple, Protocol

from .refusals import Refusal, Refused
from .rules import MOST_STATIONS
from .words import SILENCE, VOID

LAST_ROUND = 64
NOISE_FACTOR = 2_654_435_761
TORN_SIZE = 8_192
TORN_BIT = 13

Heard = tuple[int, int, int]
SILENCES: Heard = (SILENCE, SILENCE, SILENCE)


class WireKey(NamedTuple):
    """One use of a wire."""

    take: int
    round: int
    sender: int
    receiver: int

    def is_good(self) -> bool:
        """Whether the key names a round and two different stations."""
        _, number, sender, receiver = self
        return 1 <= number <= LAST_ROUND and 0 <= sender < 16 and 0 <= receiver < 16 and sender != receiver

    def place(self) -> int:
        """The number from which scripts and noise are read."""
        take, number, sender, receiver = self
        return take + 16_384 * number + 16 * sender + receiver


class TrioKey(NamedTuple):
    """One use of a trio line or a torn line."""

    take: int
    round: int
    a: int
    b: int
    c: int
    speaker: int

    def is_good(self) -> bool:
        """Whether the key names a round, three stations in rising order and one of them as the speaker."""
        _, number, a, b, c, speaker = self
        return 1 <= number <= LAST_ROUND and 0 <= a < b < c < 16 and (speaker == a or speaker == b or speaker == c)

    def holds(self, station: int) -> bool:
        """Whether the station is one of the three."""
        return station in (self.a, self.b, self.c)

    def tells(self, teller: int) -> bool:
        """Whether the key of a telling by this station is good."""
        return self.is_good() and self.holds(teller) and teller != self.speaker

    def other(self, teller: int) -> int:
        """The one of the three that is neither the speaker nor the teller."""
        return self.a + self.b + self.c - self.speaker - teller

    def position(self, station: int) -> int:
        """The position of a station among the three, 0 for the lowest."""
        return 0 if station == self.a else 1 if station == self.b else 2

    def place(self, station: int) -> int:
        """The number from which scripts and noise are read for the station that speaks or tells."""
        take, number, a, b, c, _ = self
        return take + 16_384 * number + 1_024 * a + 64 * b + 4 * c + (0 if station == a else 1 if station == b else 2)


class Wire(Protocol):
    """What a wire carries."""

    def wire(self, key: WireKey, code: int, broken: int) -> int:
        """The code that arrives."""


class Rig(Wire, Protocol):
    """Wires and a trio line."""

    def trio(self, key: TrioKey, code: int, broken: int) -> Heard:
        """What each of the three hears, the lowest station first."""


class WeakRig(Wire, Protocol):
    """Wires, a torn line and a telling."""

    def cast(self, key: TrioKey, code: int, broken: int) -> Heard:
        """What each of the three hears on the torn line, the lowest station first."""

    def tell(self, key: TrioKey, teller: int, code: int, broken: int) -> int:
        """The code that arrives at the other listener."""


def is_broken(broken: int, station: int) -> bool:
    """Whether the station is in the broken set."""
    return bool(broken >> station & 1)


class _Plain:
    """Good speakers are heard as spoken, broken ones by the sound of the key's place."""

    def sound(self, place: int, code: int) -> int:
        """What a broken speaker of this code is heard as."""
        raise NotImplementedError

    def wire(self, key: WireKey, code: int, broken: int) -> int:
        """The code that arrives; the sender is the speaker."""
        if not key.is_good():
            return SILENCE
        return self.sound(key.place(), code) if is_broken(broken, key.sender) else code


class _PlainRig(_Plain):
    """A plain rig whose trio line is heard alike by all three."""

    def trio(self, key: TrioKey, code: int, broken: int) -> Heard:
        """What each of the three hears, the lowest station first."""
        if not key.is_good():
            return SILENCES
        speaker = key.speaker
        heard = self.sound(key.place(speaker), code) if broken >> speaker & 1 else code
        return heard, heard, heard


def _entry(entries: Sequence[int], place: int, code: int) -> int:
    """The entry at a place modulo the length, or the code where there are no entries."""
    return entries[place % len(entries)] if entries else code


@dataclass(frozen=True)
class ScriptRig(_PlainRig):
    """Broken speakers say what a list says."""

    entries: tuple[int, ...]

    def sound(self, place: int, code: int) -> int:
        """The entry at the place, or the code where there are no entries."""
        return _entry(self.entries, place, code)


@dataclass(frozen=True)
class NoiseRig(_PlainRig):
    """Broken speakers say numbers made from a seed."""

    seed: int

    def sound(self, place: int, code: int) -> int:
        """The number made of the place and the seed."""
        return (place + self.seed) * NOISE_FACTOR % 2**32 // 65_536


@dataclass(frozen=True)
class TornRig(_Plain):
    """A weak rig over a list: broken speakers say what it says, and some may hear nothing."""

    entries: tuple[int, ...]

    def sound(self, place: int, code: int) -> int:
        """The entry at the place, or the code where there are no entries."""
        return _entry(self.entries, place, code)

    def cast(self, key: TrioKey, code: int, broken: int) -> Heard:
        """What each of the three hears: the low part of the entry, or silence where its bit is set."""
        if not key.is_good():
            return SILENCES
        if not self.entries or not is_broken(broken, key.speaker):
            return code, code, code
        entry = self.sound(key.place(key.speaker), code)
        low = entry % TORN_SIZE
        return tuple(SILENCE if entry >> (TORN_BIT + j) & 1 else low for j in range(3))

    def tell(self, key: TrioKey, teller: int, code: int, broken: int) -> int:
        """The code that arrives at the other listener."""
        if not key.tells(teller):
            return SILENCE
        return self.sound(key.place(teller), code) if is_broken(broken, teller) else code


@dataclass(frozen=True)
class Slack:
    """Any rig taken as a weak rig."""

    rig: Rig

    def wire(self, key: WireKey, code: int, broken: int) -> int:
        """The code that arrives."""
        return self.rig.wire(key, code, broken)

    def cast(self, key: TrioKey, code: int, broken: int) -> Heard:
        """What each of the three hears on the rig's trio line."""
        return self.rig.trio(key, code, broken)

    def tell(self, key: TrioKey, teller: int, code: int, broken: int) -> int:
        """The code that arrives over the rig's wire to the other listener."""
        if not key.tells(teller):
            return SILENCE
        return self.rig.wire(WireKey(key.take, key.round, teller, key.other(teller)), code, broken)


@dataclass(frozen=True)
class Mender:
    """A rig of any weak rig: the listeners tell each other what they heard."""

    weak: WeakRig

    def wire(self, key: WireKey, code: int, broken: int) -> int:
        """The code that arrives."""
        return self.weak.wire(key, code, broken)

    def trio(self, key: TrioKey, code: int, broken: int) -> Heard:
        """What each of the three has after the telling."""
        if not key.is_good():
            return SILENCES
        heard = self.weak.cast(key, code, broken)
        return tuple(self._mended(key, heard, station, broken) for station in (key.a, key.b, key.c))

    def _mended(self, key: TrioKey, heard: Heard, station: int, broken: int) -> int:
        """What one station has after the telling; a listener in silence takes what it is told, or void."""
        own = heard[key.position(station)]
        if station == key.speaker or own != SILENCE:
            return own
        teller = key.other(station)
        told = self.weak.tell(key, teller, heard[key.position(teller)], broken)
        return VOID if told == SILENCE else told


@dataclass(frozen=True)
class Patch:
    """A number whose hexadecimal digit i, counted from the lowest, is the box under station i."""

    number: int
    boxes: tuple[int, ...]
    _downs: dict[int, int] = field(default_factory=dict, repr=False, compare=False)

    @classmethod
    def make(cls, number: int) -> Patch:
        """The patch of this number, or a refusal where a digit occurs twice."""
        boxes = tuple(number >> 4 * station & 15 for station in range(MOST_STATIONS))
        if len(set(boxes)) < MOST_STATIONS:
            raise Refused(Refusal.DIGIT_TWICE)
        return cls(number, boxes)

    def down(self, stations: int) -> int:
        """The boxes under a set of stations."""
        if stations not in self._downs:
            members = (box for station, box in enumerate(self.boxes) if stations >> station & 1)
            self._downs[stations] = sum(1 << box for box in members)
        return self._downs[stations]


@dataclass(frozen=True)
class Patched:
    """A rig of any rig: questions go down as boxes, answers come up in station order."""

    patch: Patch
    rig: Rig

    def wire(self, key: WireKey, code: int, broken: int) -> int:
        """The code that arrives between the boxes."""
        if not key.is_good():
            return SILENCE
        boxes = self.patch.boxes
        below = WireKey(key.take, key.round, boxes[key.sender], boxes[key.receiver])
        return self.rig.wire(below, code, self.patch.down(broken))

    def trio(self, key: TrioKey, code: int, broken: int) -> Heard:
        """What each of the three hears: what its box heard."""
        if not key.is_good():
            return SILENCES
        take, number, a, b, c, speaker = key
        boxes = self.patch.boxes
        a, b, c = boxes[a], boxes[b], boxes[c]
        low, middle, high = sorted((a, b, c))
        below = TrioKey(take, number, low, middle, high, boxes[speaker])
        heard = dict(zip((low, middle, high), self.rig.trio(below, code, self.patch.down(broken))))
        return heard[a], heard[b], heard[c]


def pile(patches: Sequence[Patch], rig: Rig) -> Rig:
    """The rig under these patches, the top one first."""
    for patch in reversed(patches):
        rig = Patched(patch, rig)
    return rig
