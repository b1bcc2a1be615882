"""Rules, which say what sets of stations can fail, and the kings of a caller; sets are masks."""

from __future__ import annotations

from collections.abc import Sequence
from dataclasses import dataclass
from itertools import combinations_with_replacement
from typing import Protocol

from .refusals import Refusal, Refused

LEAST_STATIONS = 3
MOST_STATIONS = 16
MOST_MASKS = 16


class Rule(Protocol):
    """A number of stations, and for each set of them whether all of it may be broken together."""

    @property
    def n(self) -> int:
        """How many stations there are."""

    def can_fail(self, stations: int) -> bool:
        """Whether all of this set may be broken together."""


def all_stations(n: int) -> int:
    """The set of the stations below n."""
    return (1 << n) - 1


def within(part: int, whole: int) -> bool:
    """Whether each station of the one set is in the other."""
    return part & ~whole == 0


@dataclass(frozen=True)
class CountRule:
    """Any t stations may be broken together."""

    n: int
    t: int

    @classmethod
    def make(cls, n: int, t: int) -> CountRule:
        """The rule of these numbers, or a refusal where they make none."""
        if LEAST_STATIONS <= n <= MOST_STATIONS and t >= 1 and 2 * t < n:
            return cls(n, t)
        raise Refused(Refusal.UNLAWFUL_RULE)

    def can_fail(self, stations: int) -> bool:
        """Whether the set has stations of the hall alone and at most t of them."""
        return stations >> self.n == 0 and stations.bit_count() <= self.t


@dataclass(frozen=True)
class GroupRule:
    """Any one station may be broken, or all of any listed mask."""

    n: int
    masks: tuple[int, ...]

    @classmethod
    def make(cls, n: int, masks: Sequence[int]) -> GroupRule:
        """The rule of these masks, or a refusal where they make none."""
        if not LEAST_STATIONS <= n <= MOST_STATIONS or len(masks) > MOST_MASKS:
            raise Refused(Refusal.UNLAWFUL_RULE)
        if not all(within(mask, all_stations(n)) for mask in masks) or _make_up_all(n, masks):
            raise Refused(Refusal.UNLAWFUL_RULE)
        return cls(n, tuple(masks))

    def can_fail(self, stations: int) -> bool:
        """Whether the set has stations of the hall alone and is a single one or lies within a mask."""
        if stations >> self.n:
            return False
        return stations.bit_count() <= 1 or any(within(stations, mask) for mask in self.masks)


def _make_up_all(n: int, masks: Sequence[int]) -> bool:
    """Whether two of the masks and the single stations, or one of them twice, make up all n."""
    largest = [*masks, *(1 << station for station in range(n))]
    return any(one | other == all_stations(n) for one, other in combinations_with_replacement(largest, 2))


def kings_of(rule: Rule, caller: int) -> tuple[int, ...]:
    """The fewest other stations, in rising order, that cannot fail together with the caller."""
    if caller >= rule.n:
        raise Refused(Refusal.NO_SUCH_STATION)
    kings: list[int] = []
    together = 1 << caller
    for station in range(rule.n):
        if not rule.can_fail(together):
            break
        if station != caller:
            kings.append(station)
            together |= 1 << station
    return tuple(kings)


def rounds_of(kings: Sequence[int]) -> int:
    """How many rounds a cue with these kings has."""
    return 3 * len(kings) + 1
