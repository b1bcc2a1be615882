"""Scripts of calls: halls of all rules, rigs and word kinds, made and called by lines of text."""

from __future__ import annotations

import string
from collections.abc import Callable, Iterable, Iterator, Sequence
from dataclasses import dataclass, field
from functools import partial

from .calls import Hall
from .refusals import Refusal, Refused
from .rigs import Mender, NoiseRig, Patch, Rig, ScriptRig, TornRig, pile
from .rounds import Parts
from .rules import MOST_STATIONS, CountRule, GroupRule, Rule
from .words import Gates, Scenes, WordKind

MOST_16 = 65_535
MOST_32 = 4_294_967_295
MOST_PATCHES = 3
USUAL_SHEET = 4_100
LONGEST_SHEET = 8_192
SHEET_FILL = 9
KINDS: dict[str, Callable[[], WordKind]] = {"gate": Gates, "scene": Scenes}
CALLS = {"open": 3, "strike": 0, "mark": 1, "clear": 1, "read": 1, "lamp": 1}


class Unreadable(Exception):
    """A line of a script cannot be read."""


@dataclass
class Settings:
    """What halls are made of from here on."""

    rule: Callable[[], Rule] = partial(CountRule.make, 3, 1)
    kind: WordKind = field(default_factory=Gates)
    rest: int = 0
    rig: Rig = ScriptRig(())
    patches: tuple[int, ...] = ()

    def make(self) -> Hall:
        """A hall of these, or a refusal."""
        self.kind.decode(self.rest)
        patches = [Patch.make(number) for number in self.patches]
        return Hall(Parts(self.rule(), pile(patches, self.rig), self.kind, self.rest))


def number(word: str, most: int = MOST_16) -> int:
    """A decimal number that is not too large."""
    if not (word.isascii() and word.isdigit()):
        raise Unreadable
    digits = word.lstrip("0") or "0"
    if len(digits) > len(str(most)) or int(digits) > most:
        raise Unreadable
    return int(digits)


def mask(word: str) -> int:
    """A set of stations as it is written in braces."""
    if len(word) < 2 or word[0] != "{" or word[-1] != "}":
        raise Unreadable
    inside = word[1:-1]
    stations = {number(part, MOST_STATIONS - 1) for part in inside.split(",")} if inside else set()
    return sum(1 << station for station in stations)


def patch(word: str) -> int:
    """The number of a patch, as sixteen hexadecimal digits."""
    if len(word) != MOST_STATIONS or not set(word) <= set(string.hexdigits):
        raise Unreadable
    return int(word, 16)


def digest(sheet: Iterable[int]) -> str:
    """FNV-1a of 32 bits over the entries, the high byte of each first."""
    total = 2_166_136_261
    for code in sheet:
        total = (total ^ code >> 8) * 16_777_619 & MOST_32
        total = (total ^ code & 255) * 16_777_619 & MOST_32
    return f"{total:08x}"


def _rule(words: Sequence[str]) -> Callable[[], Rule]:
    """How the rule of these words is made."""
    match words:
        case ["count", n, t]:
            return partial(CountRule.make, number(n), number(t))
        case ["group", n, *masks]:
            return partial(GroupRule.make, number(n), [mask(word) for word in masks])
    raise Unreadable


def _rig(words: Sequence[str]) -> Rig:
    """The rig of these words."""
    match words:
        case ["script", *entries]:
            return ScriptRig(tuple(number(word) for word in entries))
        case ["noise", seed]:
            return NoiseRig(number(seed, MOST_32))
        case ["torn", *entries]:
            return Mender(TornRig(tuple(number(word) for word in entries)))
    raise Unreadable


class Script:
    """A run over the lines of a script."""

    def __init__(self) -> None:
        self.settings = Settings()
        self.hall: Hall | None = None

    def answer(self, line: str) -> str | None:
        """The answer to a line, or nothing where it is no making and no call."""
        words = [word for word in line.split("#", 1)[0].split(" ") if word]
        if not words or self._set(words):
            return None
        match words:
            case ["make"]:
                return self._make()
            case ["round"]:
                return self._round(USUAL_SHEET)
            case ["round", length]:
                return self._round(number(length, LONGEST_SHEET))
            case [name, *numbers] if CALLS.get(name) == len(numbers):
                return self._call(name, [number(word) for word in numbers])
        raise Unreadable

    def _set(self, words: Sequence[str]) -> bool:
        """Takes a line that says what halls are made of; whether it is such a line."""
        match words:
            case ["rule", *more]:
                self.settings.rule = _rule(more)
            case ["words", ("gate" | "scene") as kind]:
                self.settings.kind = KINDS[kind]()
            case ["rest", code]:
                self.settings.rest = number(code)
            case ["rig", *more]:
                self.settings.rig = _rig(more)
            case ["patches", *more] if len(more) <= MOST_PATCHES:
                self.settings.patches = tuple(patch(word) for word in more)
            case _:
                return False
        return True

    def _make(self) -> str:
        """Makes a hall and takes it in place of the one before."""
        try:
            self.hall = self.settings.make()
        except Refused as refused:
            return f"no {refused.refusal.number}"
        return "made"

    def _round(self, length: int) -> str:
        """Runs a round on a fresh sheet."""
        sheet = [SHEET_FILL] * length
        try:
            self._hall().round(sheet)
        except Refused as refused:
            return f"no {refused.refusal.number} {digest(sheet)}"
        return f"ok {digest(sheet)}"

    def _call(self, name: str, numbers: Sequence[int]) -> str:
        """Makes a call other than a round."""
        try:
            if name == "open":
                self._kind().decode(numbers[2])
            told = getattr(self._hall(), name)(*numbers)
        except Refused as refused:
            return f"no {refused.refusal.number}"
        if name == "read":
            return f"word {told}"
        return f"lamp {told}" if name == "lamp" else "ok"

    def _hall(self) -> Hall:
        """The hall, or a refusal where none was made."""
        if self.hall is None:
            raise Refused(Refusal.NOT_MADE)
        return self.hall

    def _kind(self) -> WordKind:
        """The word kind of the hall, or the one that is set where no hall was made."""
        return self.settings.kind if self.hall is None else self.hall.parts.kind


def answers(lines: Iterable[str]) -> Iterator[str]:
    """The answers to the lines of a script, up to the first that cannot be read."""
    script = Script()
    for count, line in enumerate(lines, 1):
        try:
            answer = script.answer(line.removesuffix("\n"))
        except Unreadable:
            yield f"line {count}: cannot be read"
            return
        if answer is not None:
            yield answer
