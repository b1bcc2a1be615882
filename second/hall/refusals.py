"""Why a call is refused, and the number that stands for each reason."""

from __future__ import annotations

from enum import Enum


class Refusal(Enum):
    """A reason for refusing a call: its number and its words."""

    NO_SUCH_STATION = (1, "there is no such station")
    NOT_IDLE = (2, "the hall is not idle")
    NOT_RUNNING = (2, "no cue is running")
    IDLE = (2, "the hall is idle")
    NOT_DECIDED = (2, "no cue is decided")
    NOT_MADE = (2, "no hall has been made")
    ALREADY_MADE = (2, "a hall has been made already")
    TOO_MANY_BROKEN = (3, "too many stations would be broken")
    SHEET_TOO_SHORT = (4, "the sheet is too short")
    BUFFER_TOO_SHORT = (4, "the buffer is too short")
    UNLAWFUL_RULE = (5, "the rule is not lawful")
    HOLDS_VOID = (6, "the station holds no word")
    DIGIT_TWICE = (7, "a digit of the patch occurs twice")
    BROKEN_LAYOUT = (8, "the layout of the packet is broken")
    UNKNOWN_ADDRESS = (9, "the address names no call")
    WRONG_TAGS = (10, "the tags are not the call's")
    TAKE_OUT_OF_RANGE = (10, "the take is out of range")
    ODD_SCRIPT = (10, "the script has an odd number of bytes")
    NO_WORD = (11, "the number is no word's code")

    @property
    def number(self) -> int:
        """The number that stands for this reason on a line."""
        return self.value[0]

    @property
    def words(self) -> str:
        """This reason in words."""
        return self.value[1]


class Refused(Exception):
    """A call was refused and has changed nothing."""

    def __init__(self, refusal: Refusal) -> None:
        super().__init__(refusal.words)
        self.refusal = refusal
