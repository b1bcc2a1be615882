"""Halls, their rules, rigs, rounds and calls, and the console that drives them, written from docs/."""
