"""The rounds of a cue, for all stations at once: caller, weak, graded and king."""

from __future__ import annotations

from collections.abc import Sequence
from dataclasses import dataclass
from enum import Enum, auto
from itertools import combinations

from .rigs import Rig, TrioKey, WireKey
from .rules import Rule, all_stations
from .words import VOID, WordKind, is_word

SHEET = 4_096


class RoundKind(Enum):
    """What a round does."""

    CALLER = auto()
    WEAK = auto()
    GRADED = auto()
    KING = auto()

    @classmethod
    def of(cls, number: int) -> RoundKind:
        """The kind of the round with this number, counted from 1."""
        if number == 1:
            return cls.CALLER
        return (cls.GRADED, cls.KING, cls.WEAK)[number % 3]


@dataclass(frozen=True)
class Parts:
    """What a hall is made of."""

    rule: Rule
    rig: Rig
    kind: WordKind
    rest: int


@dataclass(frozen=True)
class Start:
    """What a round starts from."""

    take: int
    number: int
    broken: int
    held: tuple[int, ...]
    lit: int


def entry(p: int, q: int, r: int) -> int:
    """The place of v(p,q,r) on a sheet."""
    return 256 * p + 16 * q + r


def run(parts: Parts, start: Start, caller: int, kings: Sequence[int], sheet: list[int]) -> tuple[tuple[int, ...], int]:
    """What all stations hold and which lamps are lit after a round."""
    kind = RoundKind.of(start.number)
    if kind is RoundKind.CALLER:
        return wired(parts, start, caller, 0), start.lit
    if kind is RoundKind.KING:
        return wired(parts, start, kings[start.number // 3 - 1], start.lit), start.lit
    vote(parts, start, sheet)
    if kind is RoundKind.WEAK:
        return weak(parts, start, sheet), start.lit
    return graded(parts, start, sheet)


def wired(parts: Parts, start: Start, sender: int, keeping: int) -> tuple[int, ...]:
    """What stations hold after the sender wired its code to those that do not keep theirs."""
    held = list(start.held)
    for station in range(parts.rule.n):
        if station != sender and not keeping >> station & 1:
            key = WireKey(start.take, start.number, sender, station)
            code = parts.rig.wire(key, start.held[sender], start.broken)
            held[station] = code if is_word(parts.kind, code) else parts.rest
    return tuple(held)


def shared(first: int, second: int, third: int) -> int:
    """The code that at least two of three readings share, or void."""
    if first == second or first == third:
        return first
    return second if second == third else VOID


def vote(parts: Parts, start: Start, sheet: list[int]) -> None:
    """Writes v(p,q,r) for all stations to the sheet; in each trio every one casts its code once."""
    sheet[:SHEET] = [VOID] * SHEET
    words = range(parts.kind.size)
    trio, held, broken = parts.rig.trio, start.held, start.broken
    take, number = start.take, start.number
    for a, b, c in combinations(range(parts.rule.n), 3):
        of_a = trio(TrioKey(take, number, a, b, c, a), held[a], broken)
        of_b = trio(TrioKey(take, number, a, b, c, b), held[b], broken)
        of_c = trio(TrioKey(take, number, a, b, c, c), held[c], broken)
        for p, q, r, x, y, z in zip((a, b, c), (b, a, a), (c, c, b), of_a, of_b, of_c):
            x = x if x in words else VOID
            y = y if y in words else VOID
            z = z if z in words else VOID
            sheet[256 * p + 16 * q + r] = sheet[256 * p + 16 * r + q] = shared(x, y, z)


def _others(n: int, *left_out: int) -> list[int]:
    """The stations below n but those that are left out."""
    return [station for station in range(n) if station not in left_out]


def votes_of(sheet: Sequence[int], n: int, p: int) -> dict[int, dict[int, int]]:
    """For each station q but p, what v(p,q,r) is for each other r."""
    return {q: {r: sheet[entry(p, q, r)] for r in _others(n, p, q)} for q in _others(n, p)}


def weak(parts: Parts, start: Start, sheet: Sequence[int]) -> tuple[int, ...]:
    """What stations hold after a weak round with these votes."""
    held = list(start.held)
    for p in range(parts.rule.n):
        held[p] = _weak_word(parts, p, votes_of(sheet, parts.rule.n, p))
    return tuple(held)


def _weak_word(parts: Parts, p: int, votes: dict[int, dict[int, int]]) -> int:
    """The smallest word for which all stations but p and those in X(w) can fail, or void."""
    sure: dict[int, int] = {}
    for q, of_q in votes.items():
        codes = set(of_q.values())
        word = codes.pop()
        if not codes and is_word(parts.kind, word):
            sure[word] = sure.get(word, 0) | 1 << q
    hall = all_stations(parts.rule.n)
    passing = (word for word in sorted(sure) if parts.rule.can_fail(hall & ~(1 << p) & ~sure[word]))
    return next(passing, VOID)


def graded(parts: Parts, start: Start, sheet: Sequence[int]) -> tuple[tuple[int, ...], int]:
    """What stations hold and which lamps are lit after a graded round with these votes."""
    held = list(start.held)
    lit = 0
    for p in range(parts.rule.n):
        votes = votes_of(sheet, parts.rule.n, p)
        held[p] = _backed_word(parts, votes)
        if _is_lit(parts, p, held[p], votes):
            lit |= 1 << p
    return tuple(held), lit


def _backed_word(parts: Parts, votes: dict[int, dict[int, int]]) -> int:
    """The smallest word with Y(w) not empty, or the rest word."""
    backed: set[int] = set()
    for q, of_q in votes.items():
        backers: dict[int, int] = {}
        for r, code in of_q.items():
            backers[code] = backers.get(code, 1 << q) | 1 << r
        backed |= {code for code, stations in backers.items() if not parts.rule.can_fail(stations)}
    return min((code for code in backed if is_word(parts.kind, code)), default=parts.rest)


def _is_lit(parts: Parts, p: int, word: int, votes: dict[int, dict[int, int]]) -> bool:
    """Whether p with the stations all of whose votes are its word cannot fail."""
    together = 1 << p
    for q, of_q in votes.items():
        if all(code == word for code in of_q.values()):
            together |= 1 << q
    return not parts.rule.can_fail(together)
