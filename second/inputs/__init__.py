"""Random inputs for the console and for scripts of calls."""

from __future__ import annotations

from inputs import calls, console

INPUTS = {
    "console": console.stream,
    "calls": lambda halls, seed: calls.script(halls, seed).encode(),
}


def generated(name: str, count: int, seed: int) -> bytes:
    """The input of a program, of this size and by this seed."""
    return INPUTS[name](count, seed)
