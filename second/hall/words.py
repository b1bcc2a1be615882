"""Word kinds: what a cue can carry, and the code of each word."""

from __future__ import annotations

from dataclasses import dataclass
from enum import Enum
from typing import Protocol

from .refusals import Refusal, Refused

VOID = 65_534
SILENCE = 65_535
BANKS = 16
SLOTS = 64


class Gate(Enum):
    """A word that holds a cue or lets it go."""

    HOLD = 0
    GO = 1

    @property
    def code(self) -> int:
        """The code of this word."""
        return self.value


@dataclass(frozen=True)
class Scene:
    """A word that names a slot of a bank."""

    bank: int
    slot: int

    @classmethod
    def make(cls, bank: int, slot: int) -> Scene:
        """The scene of these parts, or a refusal where they make none."""
        if 0 <= bank < BANKS and 0 <= slot < SLOTS:
            return cls(bank, slot)
        raise Refused(Refusal.NO_WORD)

    @property
    def code(self) -> int:
        """The code of this word."""
        return SLOTS * self.bank + self.slot


class WordKind(Protocol):
    """A kind of words, with codes from 0 to size - 1."""

    @property
    def size(self) -> int:
        """How many words there are."""

    def decode(self, code: int) -> Gate | Scene:
        """The word of this code, or a refusal where it is no word's."""


class Gates:
    """The kind of the gate."""

    size = len(Gate)

    def decode(self, code: int) -> Gate:
        """The gate of this code, or a refusal where it is no word's."""
        if is_word(self, code):
            return Gate(code)
        raise Refused(Refusal.NO_WORD)


class Scenes:
    """The kind of the scene."""

    size = BANKS * SLOTS

    def decode(self, code: int) -> Scene:
        """The scene of this code, or a refusal where it is no word's."""
        if is_word(self, code):
            return Scene(*divmod(code, SLOTS))
        raise Refused(Refusal.NO_WORD)


def is_word(kind: WordKind, code: int) -> bool:
    """Whether the code is a word's."""
    return 0 <= code < kind.size
