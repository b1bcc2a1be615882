"""Random scripts of calls, with halls of all rules, rigs and word kinds."""

from __future__ import annotations

from collections.abc import Iterator
from dataclasses import dataclass
from random import Random

from hall.refusals import Refused
from hall.rules import CountRule, GroupRule, Rule, all_stations, kings_of, rounds_of

LAWFUL = 0.93
UNREADABLE = (
    "jump",
    "open 1 2",
    "read 65536",
    "mark -1",
    "round 8193",
    "words colour",
    "patches FEDCBA987654301",
    "rig noise 4294967296",
    "rule group 4 {0,16}",
    "rest",
    "make hall",
    "lamp x",
)


@dataclass(frozen=True)
class Setting:
    """Lines that say what a hall is made of; the rule is none where the making is refused."""

    lines: list[str]
    rule: Rule | None
    codes: list[int]


@dataclass
class Made:
    """A hall as the generator sees it."""

    rule: Rule
    codes: list[int]
    broken: int = 0


def script(halls: int, seed: int) -> str:
    """A script of about this many halls; its end cannot be read where five divides the seed."""
    rng = Random(seed)
    lines = _no_hall(rng)
    set_up = Setting([], CountRule.make(3, 1), [0, 1])
    made = Made(set_up.rule, set_up.codes)
    for count in range(halls):
        lines.append(f"# hall {count + 1}")
        if rng.random() < 0.2:
            lines += _refused_makes(rng)
            set_up = _setting(rng)
            lines += set_up.lines
        elif rng.random() < 0.85:
            set_up = _setting(rng)
            lines += set_up.lines
        if set_up.rule is not None:
            made = Made(set_up.rule, set_up.codes)
        lines += ["make", *_history(rng, made)]
    if seed % 5 == 0:
        lines += [rng.choice(UNREADABLE), "make", "open 0 0 0"]
    return "".join(_spaced(rng, line) + "\n" for line in lines)


def _spaced(rng: Random, line: str) -> str:
    """A line, at times with more spaces, a comment or blank lines."""
    match rng.randrange(40):
        case 0:
            return line.replace(" ", "  ")
        case 1:
            return f"  {line} "
        case 2:
            return f"{line} # so"
        case 3:
            return f"{line}#so"
        case 4:
            return f"\n   \n{line}"
    return line


def _no_hall(rng: Random) -> list[str]:
    """Calls where no hall was made yet."""
    lines = ["open 0 0 0", "open 0 99 2", "round", "round 5", "strike", "mark 0", "clear 0", "read 0", "lamp 0"]
    return rng.sample(lines, rng.randrange(len(lines) + 1))


def _refused_makes(rng: Random) -> list[str]:
    """Settings that refuse the making, and calls that still go to the hall before."""
    bad = {
        "rest": ["rest 1024", "rest 65534", "rest 65535", "rest 4096"],
        "patches": ["patches FEDCBA9876543011", "patches FEDCBA9876543210 0000000000000000"],
        "rule": ["rule count 4 2", "rule count 3 0", "rule group 4 {0,1} {2,3}", "rule count 17 3"],
    }
    keys = rng.sample(sorted(bad), rng.randrange(1, 4))
    words = [f"words {rng.choice(['gate', 'scene'])}"]
    after = ["strike", "mark 1", "open 3 0 1", "open 3 0 2", "round", "lamp 0"]
    return words + [rng.choice(bad[key]) for key in keys] + ["make"] + rng.sample(after, rng.randrange(4))


def _setting(rng: Random) -> Setting:
    """What a hall is made of, by chance."""
    rule_line, rule = _any_rule(rng)
    kind = rng.choice(["gate", "scene"])
    codes, rest = _codes(rng, kind)
    patches, stand = _patches(rng)
    lines = [rule_line, f"words {kind}", f"rest {rest}", _rig(rng, codes), patches]
    rng.shuffle(lines)
    return Setting(lines, rule if stand and rest in codes else None, codes)


def _codes(rng: Random, kind: str) -> tuple[list[int], int]:
    """The codes that cues of a hall carry, and the code of its rest word, now and then no word's."""
    if kind == "gate":
        codes, odd = [0, 1], [2, 65_535, 1_023]
    else:
        codes, odd = rng.sample([0, 1, 63, 64, 1_023, rng.randrange(1_024)], 3), [1_024, 4_095, 65_534]
    return codes, rng.choice(codes) if rng.random() < LAWFUL else rng.choice(odd)


def stations(rng: Random) -> int:
    """A number of stations, the smaller ones more often."""
    return rng.choice([3, 3, 4, 4, 5, 5, 6, 6, 7, 8, 9, 10, 11, 12, 13, 14, 15, 16])


def _any_rule(rng: Random) -> tuple[str, Rule | None]:
    """A line for a rule, and the rule where it is lawful."""
    return (count_rule if rng.random() < 0.4 else group_rule)(rng, rng.random() < LAWFUL)


def count_rule(rng: Random, lawful: bool) -> tuple[str, Rule | None]:
    """A line for a count rule, and the rule where it is lawful."""
    n = stations(rng)
    t = rng.randint(1, (n - 1) // 2)
    if not lawful:
        n, t = rng.choice([(n, 0), (n, (n + 1) // 2), (2, 1), (1, 0), (0, 0), (17, 2), (65_535, 1), (n, 65_535)])
    return f"rule count {n} {t}", CountRule.make(n, t) if lawful else None


def group_rule(rng: Random, lawful: bool) -> tuple[str, Rule | None]:
    """A line for a group rule, and the rule where it is lawful."""
    n = stations(rng)
    masks = _masks(rng, n) if lawful else _unlawful_masks(rng, n)
    if not lawful and rng.random() < 0.2:
        n = rng.choice([0, 2, 17, 65_535])
    listed = "".join(f" {_braced(rng, mask)}" for mask in masks)
    return f"rule group {n}{listed}", _group(n, masks)


def _group(n: int, masks: list[int]) -> Rule | None:
    """The rule of these masks, or nothing where they make none."""
    try:
        return GroupRule.make(n, masks)
    except Refused:
        return None


def _masks(rng: Random, n: int) -> list[int]:
    """Masks that make a rule; those that would not are left out one after another."""
    dense = rng.choice([0.3, 0.5, 0.8])
    masks: list[int] = []
    for _ in range(rng.choice([0, 1, 2, 2, 3, 4, 6, 16])):
        mask = sum(1 << station for station in range(n) if rng.random() < dense)
        if _group(n, [*masks, mask]) is not None:
            masks.append(mask)
    return masks


def _unlawful_masks(rng: Random, n: int) -> list[int]:
    """Masks most of which make no rule."""
    hall = all_stations(n)
    some = rng.randrange(hall + 1)
    choices = [[hall], [hall & ~1], [some, hall & ~some], [hall & ~3, 3], [1] * 17, [0xFFFF], [some, 1 << n & 0xFFFF]]
    return rng.choice(choices)


def _braced(rng: Random, mask: int) -> str:
    """A set in braces, at times with a station twice."""
    members = [station for station in range(16) if mask >> station & 1]
    if members and rng.random() < 0.1:
        members.append(rng.choice(members))
        rng.shuffle(members)
    return "{" + ",".join(map(str, members)) + "}"


def entries(rng: Random, codes: list[int], torn: bool) -> list[int]:
    """The entries of a list: mostly the words that cues carry, for a torn line with bits for silence."""
    odd = [65_534, 65_535, 4_095, 8_191, rng.randrange(65_536)]
    share = rng.choice([0.0, 0.1, 0.5])
    length = rng.choice([0, 1, 2, 3, 5, 8, 31, 100])
    listed = [rng.choice(odd if rng.random() < share else codes) for _ in range(length)]
    return [code | rng.choice([0, 0, 0, 1, 2, 3, 4, 5, 6, 7]) << 13 for code in listed] if torn else listed


def _rig(rng: Random, codes: list[int]) -> str:
    """A line for a rig."""
    kind = rng.choice(["script", "script", "noise", "torn", "torn"])
    if kind == "noise":
        return f"rig noise {rng.choice([0, 1, 4_294_967_295, rng.randrange(2**32)])}"
    return " ".join(["rig", kind, *map(str, entries(rng, codes, kind == "torn"))])


def patch(rng: Random) -> str:
    """The sixteen digits of a patch."""
    return "".join(rng.sample("0123456789ABCDEF", 16))


def _patches(rng: Random) -> tuple[str, bool]:
    """A line for patches, and whether all of them stand."""
    patches = [patch(rng) for _ in range(rng.choice([0, 0, 1, 2, 3]))]
    stand = not patches or rng.random() < 0.95
    if not stand:
        at, digit = rng.randrange(len(patches)), rng.randrange(15)
        patches[at] = patches[at][:digit] + patches[at][digit + 1] + patches[at][digit + 1 :]
    return " ".join(["patches", *patches]), stand


def _history(rng: Random, made: Made) -> Iterator[str]:
    """The calls of a hall: one cue or some, with nonsense in between."""
    if rng.random() < 0.1:
        yield "strike"
    for _ in range(rng.choice([1, 1, 2, 3]) if made.rule.n < 9 else 1):
        for line in _cue(rng, made):
            yield line
            if rng.random() < 0.06:
                yield _nonsense(rng, made)
        yield "strike"


def _station(rng: Random, made: Made, odd: float) -> int:
    """The number of a station, or of none in this share of cases."""
    n = made.rule.n
    return rng.choice([n, n + 1, 16, 17, 256, 65_534, 65_535]) if rng.random() < odd else rng.randrange(n)


def _nonsense(rng: Random, made: Made) -> str:
    """A call that hardly ever changes the hall."""
    station = _station(rng, made, 0.4)
    bad_code = rng.choice([2, 1_024, 4_096, 65_534, 65_535, *made.codes])
    lines = [
        f"read {station}",
        f"lamp {station}",
        f"clear {station}",
        f"open {rng.randrange(65_536)} {station} {bad_code}",
        f"round {rng.choice([0, 1, 16, 4_095])}",
    ]
    return rng.choice(lines) if rng.random() < 0.93 else rng.choice(["strike", "round", f"mark {station}"])


def _mark(rng: Random, made: Made, odd: float) -> str:
    """A mark of a station, mostly one that may be broken too."""
    station = _station(rng, made, odd)
    for _ in range(3):
        if made.rule.can_fail(made.broken | 1 << station):
            made.broken |= 1 << station
            break
        station = _station(rng, made, odd)
    return f"mark {station}"


def _round(rng: Random) -> str:
    """A round, mostly on a sheet that is long enough."""
    return f"round {rng.choice([4_096, 4_097, 5_000, 8_192, 4_095])}" if rng.random() < 0.15 else "round"


def _cue(rng: Random, made: Made) -> Iterator[str]:
    """A cue, mostly from its opening through all its rounds, and what it came to."""
    for station in range(made.rule.n):
        if made.broken >> station & 1 and rng.random() < 0.5:
            made.broken &= ~(1 << station)
            yield f"clear {station}"
    for _ in range(rng.randrange(made.rule.n)):
        yield _mark(rng, made, 0.05)
    broken = [station for station in range(made.rule.n) if made.broken >> station & 1]
    caller = rng.choice(broken) if broken and rng.random() < 0.6 else rng.randrange(made.rule.n)
    yield f"open {rng.choice([0, 1, 65_535, rng.randrange(65_536)])} {caller} {rng.choice(made.codes)}"
    rounds = rounds_of(kings_of(made.rule, caller))
    for _ in range(rounds if rng.random() < 0.93 else rng.randrange(rounds)):
        yield _round(rng)
        if rng.random() < 0.1:
            yield _mark(rng, made, 0.1)
        if rng.random() < 0.2:
            yield f"lamp {_station(rng, made, 0.1)}"
    yield from _told(rng, made)


def _told(rng: Random, made: Made) -> Iterator[str]:
    """What stations hold, and which lamps are lit; rounds once more where short sheets put them off."""
    for _ in range(rng.randrange(3)):
        yield "round"
    for station in range(made.rule.n):
        yield f"read {station}"
        if rng.random() < 0.5:
            yield f"lamp {station}"
    if rng.random() < 0.2:
        yield f"read {_station(rng, made, 1.0)}"
