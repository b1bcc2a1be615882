"""A hall and its calls."""

from __future__ import annotations

from dataclasses import dataclass
from enum import Enum, auto

from . import rounds
from .refusals import Refusal, Refused
from .rounds import Parts, Start
from .rules import MOST_STATIONS, kings_of, rounds_of
from .words import VOID, is_word


class Stage(Enum):
    """Where a hall stands."""

    IDLE = auto()
    RUNNING = auto()
    DECIDED = auto()


@dataclass
class Cue:
    """One run, from its opening to its strike."""

    take: int
    caller: int
    kings: tuple[int, ...]
    rounds_run: int = 0


class Hall:
    """Stations that settle cues one after another."""

    def __init__(self, parts: Parts) -> None:
        self.parts = parts
        self.stage = Stage.IDLE
        self.broken = 0
        self.held = (VOID,) * MOST_STATIONS
        self.lit = 0
        self.cue: Cue | None = None

    def open(self, take: int, caller: int, word: int) -> None:
        """Opens a cue of the caller with the word of this code."""
        self._want(self.stage is Stage.IDLE, Refusal.NOT_IDLE)
        self._want_station(caller)
        self.cue = Cue(take, caller, kings_of(self.parts.rule, caller))
        self.held = tuple(word if station == caller else self.parts.rest for station in range(MOST_STATIONS))
        self.lit = 0
        self.stage = Stage.RUNNING

    def round(self, sheet: list[int]) -> None:
        """Runs the next round; after the last one the hall is decided."""
        self._want(self.stage is Stage.RUNNING, Refusal.NOT_RUNNING)
        self._want(len(sheet) >= rounds.SHEET, Refusal.SHEET_TOO_SHORT)
        cue = self.cue
        cue.rounds_run += 1
        start = Start(cue.take, cue.rounds_run, self.broken, self.held, self.lit)
        self.held, self.lit = rounds.run(self.parts, start, cue.caller, cue.kings, sheet)
        if cue.rounds_run == rounds_of(cue.kings):
            self.stage = Stage.DECIDED

    def strike(self) -> None:
        """Ends the cue; the broken stay broken."""
        self._want(self.stage is not Stage.IDLE, Refusal.IDLE)
        self.held = (VOID,) * MOST_STATIONS
        self.lit = 0
        self.cue = None
        self.stage = Stage.IDLE

    def mark(self, station: int) -> None:
        """Marks a station as broken."""
        self._want_station(station)
        broken = self.broken | 1 << station
        self._want(self.parts.rule.can_fail(broken), Refusal.TOO_MANY_BROKEN)
        self.broken = broken

    def clear(self, station: int) -> None:
        """Makes a station good again."""
        self._want(self.stage is Stage.IDLE, Refusal.NOT_IDLE)
        self._want_station(station)
        self.broken &= ~(1 << station)

    def read(self, station: int) -> int:
        """The code of the word that a station holds."""
        self._want(self.stage is Stage.DECIDED, Refusal.NOT_DECIDED)
        self._want_station(station)
        self._want(is_word(self.parts.kind, self.held[station]), Refusal.HOLDS_VOID)
        return self.held[station]

    def lamp(self, station: int) -> int:
        """1 if the station's lamp is lit, else 0."""
        self._want(self.stage is not Stage.IDLE, Refusal.IDLE)
        self._want_station(station)
        return self.lit >> station & 1

    def _want_station(self, station: int) -> None:
        """Refuses a number that no station of the hall has."""
        self._want(station < self.parts.rule.n, Refusal.NO_SUCH_STATION)

    @staticmethod
    def _want(holds: bool, refusal: Refusal) -> None:
        """Refuses where something does not hold."""
        if not holds:
            raise Refused(refusal)
