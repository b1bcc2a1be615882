#!/usr/bin/env python3
"""Tests with values worked out by hand from docs/, and the laws of agreement on random histories."""

from __future__ import annotations

import io
import unittest
from collections.abc import Callable
from random import Random

from hall import console, packets, scripts
from hall.calls import Hall, Stage
from hall.packets import Blob, Place, Text
from hall.refusals import Refusal, Refused
from hall.rigs import Mender, NoiseRig, Patch, Patched, Rig, ScriptRig, Slack, TornRig, TrioKey, WireKey, pile
from hall.rounds import SHEET, Parts, RoundKind, entry, shared
from hall.rules import CountRule, GroupRule, kings_of, rounds_of
from hall.words import SILENCE, VOID, Gate, Gates, Scene, Scenes, is_word
from inputs import calls as call_inputs
from inputs import generated

HOLD, GO = Gate.HOLD.code, Gate.GO.code
TURNED_THREE = 0xFEDCBA9876543012
HISTORIES = 300


def sheet() -> list[int]:
    """A sheet of just the right length."""
    return [9] * SHEET


class Case(unittest.TestCase):
    """A test case that can ask for refusals."""

    def refused(self, refusal: Refusal, call: Callable, *arguments: object) -> None:
        """Asserts that a call is refused for this reason."""
        with self.assertRaises(Refused) as caught:
            call(*arguments)
        self.assertIs(caught.exception.refusal, refusal)


class RuleCases(Case):
    """docs/RULES.md."""

    def test_count_rules_at_their_borders(self) -> None:
        for n, t in [(3, 1), (5, 2), (16, 7)]:
            self.assertEqual(CountRule.make(n, t).n, n)
        for n, t in [(4, 2), (16, 8), (3, 0), (2, 1), (17, 1), (65_535, 1), (3, 65_535)]:
            self.refused(Refusal.UNLAWFUL_RULE, CountRule.make, n, t)

    def test_counted_sets(self) -> None:
        rule = CountRule.make(5, 2)
        self.assertTrue(all(rule.can_fail(mask) for mask in [0, 0b1, 0b10001]))
        self.assertFalse(any(rule.can_fail(mask) for mask in [0b111, 0b100000, 0b100001]))

    def test_group_rules(self) -> None:
        rule = GroupRule.make(6, [0b000111, 0b011000])
        self.assertTrue(all(rule.can_fail(mask) for mask in [0, 0b111, 0b101, 0b11000, 0b100000]))
        self.assertFalse(any(rule.can_fail(mask) for mask in [0b1001, 0b100001, 0b1000000]))
        self.assertEqual(GroupRule.make(3, []).masks, ())
        self.assertEqual(len(GroupRule.make(4, [1] * 16).masks), 16)

    def test_group_rules_refused(self) -> None:
        unlawful = [(6, [0b111, 0b111000]), (6, [0b11111]), (4, [0b10000]), (4, [1] * 17), (2, []), (17, [])]
        for n, masks in unlawful:
            self.refused(Refusal.UNLAWFUL_RULE, GroupRule.make, n, masks)

    def test_kings(self) -> None:
        rule = GroupRule.make(6, [0b000111, 0b011000])
        self.assertEqual(kings_of(rule, 0), (1, 2, 3))
        self.assertEqual(rounds_of(kings_of(rule, 0)), 10)
        self.assertEqual(kings_of(rule, 5), (0,))
        self.assertEqual(rounds_of(kings_of(rule, 5)), 4)
        self.assertEqual(kings_of(rule, 2), (0, 1, 3))
        self.assertEqual(kings_of(CountRule.make(5, 2), 1), (0, 2))
        self.refused(Refusal.NO_SUCH_STATION, kings_of, rule, 6)

    def test_numbers_of_refusals(self) -> None:
        numbers = [refusal.number for refusal in Refusal]
        self.assertEqual(numbers, [1, 2, 2, 2, 2, 2, 2, 3, 4, 4, 5, 6, 7, 8, 9, 10, 10, 10, 11])


class WordCases(Case):
    """Gates and scenes."""

    def test_gates(self) -> None:
        self.assertEqual([Gates().decode(code) for code in (0, 1)], [Gate.HOLD, Gate.GO])
        for code in (-1, 2, VOID, SILENCE, 65_536):
            self.assertFalse(is_word(Gates(), code))
            self.refused(Refusal.NO_WORD, Gates().decode, code)

    def test_scenes(self) -> None:
        self.assertEqual(Scene.make(15, 63).code, 1_023)
        self.assertEqual(Scenes().decode(64), Scene(1, 0))
        for bank, slot in [(16, 0), (0, 64), (-1, 0)]:
            self.refused(Refusal.NO_WORD, Scene.make, bank, slot)
        self.refused(Refusal.NO_WORD, Scenes().decode, 1_024)


class Recorder:
    """A rig that answers a trio by three letters of its own and keeps the question."""

    def wire(self, key: WireKey, code: int, broken: int) -> int:
        """Keeps the question."""
        self.asked = (key, code, broken)
        return 77

    def trio(self, key: TrioKey, code: int, broken: int) -> tuple[int, int, int]:
        """Keeps the question."""
        self.asked = (key, code, broken)
        return 100, 101, 102


class RigCases(Case):
    """docs/RIGS.md."""

    def test_places(self) -> None:
        self.assertEqual(WireKey(0, 1, 0, 1).place(), 16_385)
        self.assertEqual(WireKey(0, 1, 0, 2).place(), 16_386)
        self.assertEqual(WireKey(5, 2, 3, 4).place(), 32_825)
        self.assertEqual(TrioKey(0, 2, 0, 1, 2, 0).place(0), 32_840)
        self.assertEqual(TrioKey(0, 3, 0, 1, 2, 0).place(0), 49_224)
        self.assertEqual(TrioKey(1, 1, 1, 4, 6, 4).place(4), 17_690)
        self.assertEqual(TrioKey(1, 1, 1, 4, 6, 4).place(6), 17_691)

    def test_good_and_bad_keys(self) -> None:
        for key in [WireKey(65_535, 1, 0, 15), WireKey(0, 64, 15, 0), TrioKey(0, 64, 13, 14, 15, 14)]:
            self.assertTrue(key.is_good())
        for key in [WireKey(0, 0, 0, 1), WireKey(0, 65, 0, 1), WireKey(0, 1, 3, 3), WireKey(0, 1, 0, 16)]:
            self.assertFalse(key.is_good())
            self.assertEqual(ScriptRig(()).wire(key, 1, 0), SILENCE)
        bad = [(0, 0, 1, 2, 0), (65, 0, 1, 2, 0), (1, 1, 0, 2, 1), (1, 1, 1, 2, 1), (1, 3, 4, 16, 3), (1, 0, 1, 2, 3)]
        patched = Patched(Patch.make(TURNED_THREE), Recorder())
        rigs: list[Rig] = [ScriptRig(()), NoiseRig(1), Mender(TornRig((1,))), patched]
        for rig in rigs:
            for numbers in bad:
                self.assertEqual(rig.trio(TrioKey(0, *numbers), 1, 0), (SILENCE,) * 3)

    def test_tellers(self) -> None:
        key = TrioKey(0, 1, 1, 4, 6, 4)
        self.assertEqual([key.tells(station) for station in (1, 4, 6, 2)], [True, False, True, False])
        self.assertEqual((key.other(1), key.other(6)), (6, 1))
        self.assertEqual([key.position(station) for station in (1, 4, 6)], [0, 1, 2])

    def test_script(self) -> None:
        rig = ScriptRig((10, 11, 12))
        self.assertEqual(rig.wire(WireKey(0, 1, 0, 1), 5, 0b10), 5)
        self.assertEqual(rig.wire(WireKey(0, 1, 0, 1), 5, 0b01), 12)  # 16,385 is 3 x 5,461 + 2
        self.assertEqual(rig.trio(TrioKey(0, 2, 0, 1, 2, 0), 5, 0b001), (12, 12, 12))  # 32,840 is 3 x 10,946 + 2
        self.assertEqual(rig.trio(TrioKey(0, 2, 0, 1, 2, 0), 5, 0b110), (5, 5, 5))
        self.assertEqual(ScriptRig(()).wire(WireKey(0, 1, 0, 1), 5, 0b01), 5)

    def test_noise(self) -> None:
        self.assertEqual(NoiseRig(1).sound(0, 5), 40_503)
        self.assertEqual(NoiseRig(2**32 - 16_384).wire(WireKey(0, 1, 0, 1), 5, 0b01), 40_503)
        self.assertEqual(NoiseRig(2**32 - 16_384).wire(WireKey(0, 1, 0, 1), 5, 0b10), 5)

    def test_torn(self) -> None:
        key = TrioKey(0, 1, 1, 4, 6, 4)
        self.assertEqual(TornRig((32_773,)).cast(key, 7, 1 << 4), (5, 5, SILENCE))
        self.assertEqual(TornRig((32_773,)).cast(key, 7, 1 << 1), (7, 7, 7))
        self.assertEqual(TornRig(()).cast(key, 9_000, 1 << 4), (9_000,) * 3)
        self.assertEqual(TornRig((32_773,)).wire(WireKey(0, 1, 4, 1), 7, 1 << 4), 32_773)

    def test_tellings_have_places_of_their_own(self) -> None:
        rig = TornRig(tuple(range(4)))
        key = TrioKey(0, 1, 1, 4, 6, 4)  # its place without a position is a multiple of 4
        self.assertEqual(rig.tell(key, 1, 9, 1 << 1), 0)
        self.assertEqual(rig.tell(key, 6, 9, 1 << 6), 2)
        self.assertEqual(rig.tell(key, 6, 9, 1 << 4), 9)
        self.assertEqual(rig.tell(key, 4, 9, 0), SILENCE)

    def test_mended(self) -> None:
        key = TrioKey(0, 1, 1, 4, 6, 4)
        self.assertEqual(Mender(TornRig((32_773,))).trio(key, 7, 1 << 4), (5, 5, 5))
        self.assertEqual(Mender(TornRig((32_773 + 8_192,))).trio(key, 7, 1 << 4), (VOID, 5, VOID))
        self.assertEqual(Mender(TornRig((32_773,))).trio(key, 7, 1 << 4 | 1 << 1), (5, 5, 32_773))
        self.assertEqual(Mender(TornRig((SILENCE,))).trio(key, 7, 1 << 4 | 1 << 1), (VOID, SILENCE, VOID))
        self.assertEqual(Mender(TornRig((1,))).trio(key, VOID, 1 << 1), (VOID, VOID, VOID))

    def test_slack(self) -> None:
        slack = Slack(ScriptRig((10, 11, 12)))
        key = TrioKey(0, 1, 0, 1, 2, 2)
        self.assertEqual(slack.tell(key, 0, 5, 0b001), 12)  # the wire from 0 to 1 has place 16,385
        self.assertEqual(slack.tell(key, 0, 5, 0b100), 5)
        self.assertEqual(slack.tell(key, 2, 5, 0), SILENCE)
        self.assertEqual(slack.cast(key, 5, 0), (5, 5, 5))

    def test_patches(self) -> None:
        self.assertEqual(Patch.make(TURNED_THREE).boxes[:4], (2, 1, 0, 3))
        for number in (0, 0xFEDCBA9876543211, 0x0123456789ABCDEE):
            self.refused(Refusal.DIGIT_TWICE, Patch.make, number)
        below = Recorder()
        rig = Patched(Patch.make(TURNED_THREE), below)
        self.assertEqual(rig.trio(TrioKey(3, 2, 0, 1, 2, 0), 9, 0b001), (102, 101, 100))
        self.assertEqual(below.asked, (TrioKey(3, 2, 0, 1, 2, 2), 9, 0b100))
        self.assertEqual(rig.wire(WireKey(3, 2, 0, 3), 9, 0b1001), 77)
        self.assertEqual(below.asked, (WireKey(3, 2, 2, 3), 9, 0b1100))

    def test_a_pile_is_one_patch(self) -> None:
        top, bottom = Patch.make(0x13579BDF02468ACE), Patch.make(0xFEDCBA9876543120)
        joined = sum(bottom.boxes[box] << 4 * station for station, box in enumerate(top.boxes))
        rig = Mender(TornRig(tuple(range(0, 65_536, 97))))
        both, one = pile([top, bottom], rig), Patched(Patch.make(joined), rig)
        for key in [TrioKey(7, 5, 0, 3, 9, 3), TrioKey(8, 2, 2, 5, 15, 15), TrioKey(1, 64, 1, 2, 3, 1)]:
            self.assertEqual(both.trio(key, 4, 0b1000100000101010), one.trio(key, 4, 0b1000100000101010))


def cue_of_three(entries: tuple[int, ...], take: int) -> Hall:
    """A hall of three whose broken station 0 has opened a cue with HOLD."""
    hall = Hall(Parts(CountRule.make(3, 1), ScriptRig(entries), Gates(), HOLD))
    hall.mark(0)
    hall.open(take, 0, HOLD)
    return hall


class RoundCases(Case):
    """docs/ROUNDS.md."""

    def test_votes(self) -> None:
        self.assertEqual(shared(1, 1, 0), 1)
        self.assertEqual(shared(0, 1, VOID), VOID)
        self.assertEqual(shared(VOID, VOID, 1), VOID)
        self.assertEqual((shared(1, 0, 1), shared(0, 1, 1)), (1, 1))

    def test_kinds_of_rounds(self) -> None:
        kinds = [RoundKind.of(number) for number in range(1, 8)]
        trio = [RoundKind.WEAK, RoundKind.GRADED, RoundKind.KING]
        self.assertEqual(kinds, [RoundKind.CALLER, *trio, *trio])

    def run_cue(self, hall: Hall, table: list[tuple[tuple[int, int, int], int]]) -> None:
        """Runs a cue round by round and compares it with a table."""
        for held, lit in table:
            self.assertIs(hall.stage, Stage.RUNNING)
            hall.round(sheet())
            self.assertEqual((hall.held[:3], hall.lit), (held, lit))
        self.assertIs(hall.stage, Stage.DECIDED)

    def test_entries_0_1_take_0(self) -> None:
        hall = cue_of_three((0, 1), 0)
        self.run_cue(hall, [((0, 1, 0), 0), ((0, 0, 0), 0), ((0, 0, 0), 0b111), ((0, 0, 0), 0b111)])
        self.assertEqual([hall.read(station) for station in range(3)], [HOLD] * 3)

    def test_entries_0_1_take_1(self) -> None:
        hall = cue_of_three((0, 1), 1)
        self.run_cue(hall, [((0, 0, 1), 0), ((1, 1, 1), 0), ((1, 1, 1), 0b111), ((1, 1, 1), 0b111)])
        self.assertEqual(hall.read(1), GO)

    def test_entries_7_1_0_7_take_0(self) -> None:
        hall = cue_of_three((7, 1, 0, 7), 0)
        self.run_cue(hall, [((0, 1, 0), 0), ((VOID,) * 3, 0), ((0, 0, 0), 0), ((0, 0, 0), 0)])
        self.assertEqual((hall.read(2), hall.lamp(2)), (HOLD, 0))

    def test_sheets(self) -> None:
        hall = cue_of_three((0, 1), 1)
        page = [9] * (SHEET + 4)
        hall.round(page)
        self.assertEqual(page, [9] * (SHEET + 4))
        hall.round(page)
        votes = {entry(p, q, 3 - p - q): GO for p in range(3) for q in range(3) if p != q}
        self.assertEqual(votes.keys(), {18, 33, 258, 288, 513, 528})
        self.assertEqual(page[:SHEET], [votes.get(at, VOID) for at in range(SHEET)])
        self.assertEqual(page[SHEET:], [9] * 4)


class CallCases(Case):
    """The calls of a hall and their refusals in order."""

    def test_idle(self) -> None:
        hall = Hall(Parts(CountRule.make(3, 1), ScriptRig(()), Gates(), HOLD))
        self.refused(Refusal.NOT_RUNNING, hall.round, [])
        self.refused(Refusal.IDLE, hall.strike)
        self.refused(Refusal.NOT_DECIDED, hall.read, 9)
        self.refused(Refusal.IDLE, hall.lamp, 9)
        self.refused(Refusal.NO_SUCH_STATION, hall.open, 0, 3, GO)
        self.refused(Refusal.NO_SUCH_STATION, hall.mark, 3)
        self.refused(Refusal.NO_SUCH_STATION, hall.clear, 3)
        hall.mark(2)
        hall.mark(2)
        self.refused(Refusal.TOO_MANY_BROKEN, hall.mark, 0)
        hall.clear(2)
        hall.mark(0)
        self.assertEqual(hall.broken, 0b001)

    def test_running_and_decided(self) -> None:
        hall = cue_of_three((), 0)
        self.refused(Refusal.NOT_IDLE, hall.open, 0, 9, GO)
        self.refused(Refusal.NOT_IDLE, hall.clear, 9)
        self.refused(Refusal.NOT_DECIDED, hall.read, 9)
        self.refused(Refusal.NO_SUCH_STATION, hall.lamp, 3)
        self.refused(Refusal.SHEET_TOO_SHORT, hall.round, [9] * (SHEET - 1))
        for _ in range(4):
            hall.round(sheet())
        self.refused(Refusal.NOT_RUNNING, hall.round, [])
        self.refused(Refusal.NO_SUCH_STATION, hall.read, 3)
        self.assertEqual((hall.read(0), hall.lamp(0)), (HOLD, 1))
        hall.strike()
        self.assertEqual((hall.stage, hall.held[:3], hall.lit, hall.broken), (Stage.IDLE, (VOID,) * 3, 0, 0b001))


WORKED_PACKET = bytes.fromhex("2f616263 00000000 2c627369 00000000 00000003 01020300 78000000 00010000")


class PacketCases(Case):
    """docs/PACKETS.md."""

    def test_the_worked_packet(self) -> None:
        arguments = (Blob(b"\1\2\3"), Text(b"x"), 65_536)
        self.assertEqual(packets.read_message(WORKED_PACKET), packets.Message(b"/abc", b"bsi", arguments))
        self.assertEqual(packets.encode(b"/abc", arguments), WORKED_PACKET)

    def test_fill_bytes_may_be_any(self) -> None:
        turned = bytearray(WORKED_PACKET)
        for at in [5, 6, 7, 13, 14, 15, 23, 26, 27]:
            turned[at] = 0xFF
        self.assertEqual(packets.read_message(bytes(turned)), packets.read_message(WORKED_PACKET))

    def test_broken_layout(self) -> None:
        broken = ["", "00000000", "2f000000", "2f2f2f2f", "2f000000 2c690000", "2f000000 2c660000 00000000"]
        broken += ["2f000000 69000000 00000000", "61000000 2c000000", "2f000000 2c000000 00000000", "2f000000 2c0000"]
        broken += ["2f000000 2c620000 ffffffff", "2f000000 2c620000 00000005 01020304", "2f000000 2c620000 00000001 ff"]
        broken += ["2f000000 2c730000 78787878", "2f000000 2c696969 00000000", "23627564 6c650000 2c000000"]
        for digits in broken:
            self.refused(Refusal.BROKEN_LAYOUT, packets.read_message, bytes.fromhex(digits))
        self.assertEqual(packets.read_message(bytes.fromhex("2f000000 2c000000")).arguments, ())

    def test_4096_bytes_and_no_more(self) -> None:
        longest = packets.encode(b"/", [Blob(bytes(4_084))])
        self.assertEqual(len(longest), 4_096)
        self.assertEqual(packets.read_message(longest).tags, b"b")
        self.refused(Refusal.BROKEN_LAYOUT, packets.encode, b"/", [Blob(bytes(4_085))])
        longer = bytes.fromhex("2f000000 2c620000 00000ff8") + bytes(4_088)
        self.refused(Refusal.BROKEN_LAYOUT, packets.read_message, longer)

    def test_writing(self) -> None:
        out = bytearray(b"." * 34)
        entries = [Place(0, 3, False), Place(3, 4, True), 65_536]
        self.assertEqual(packets.write_message(b"/abc", entries, b"\1\2\3x", out), 32)
        self.assertEqual(out, WORKED_PACKET + b"..")
        short = bytearray(31)
        self.refused(Refusal.BUFFER_TOO_SHORT, packets.write_message, b"/abc", entries, b"\1\2\3x", short)
        for address, place in [(b"abc", Place(0, 1, True)), (b"/a", Place(1, 0, True)), (b"/a", Place(0, 9, False))]:
            self.refused(Refusal.BROKEN_LAYOUT, packets.write_message, address, [place], b"\1\2\3x", short)
        self.refused(Refusal.BROKEN_LAYOUT, packets.write_message, b"/a", [Place(0, 1, True)], b"\0", short)
        self.assertEqual(short, bytes(31))

    def test_sizes(self) -> None:
        self.assertEqual([packets.packet_size(size.to_bytes(4, "big")) for size in (4, 4_096)], [4, 4_096])
        for size in (0, 2, 3, 4_095, 4_100, 2**31, 2**32 - 4):
            self.refused(Refusal.BROKEN_LAYOUT, packets.packet_size, size.to_bytes(4, "big"))


def make(n: int, t: int, rest: int, script: bytes) -> bytes:
    """A packet that asks for a hall."""
    return packets.encode(b"/hall/make", [n, t, rest, Blob(script)])


class ConsoleCases(Case):
    """docs/CONSOLE.md."""

    def played(self, stream: bytes) -> bytes:
        """What the console writes on a stream."""
        out = io.BytesIO()
        console.run(io.BytesIO(stream), out)
        return out.getvalue()

    def answers(self, desk: console.Console, packet: bytes, address: bytes, *numbers: int) -> None:
        """Asserts what the console replies to a packet."""
        self.assertEqual(desk.answer(packet), console.reply(address, *numbers))

    def test_the_whole_case(self) -> None:
        stream = bytes.fromhex("00000014 2F68616C 6C2F7265 61640000 2C690000 00000001")
        wanted = bytes.fromhex("00000014 2F68616C 6C2F6E6F 00000000 2C690000 00000002")
        self.assertEqual(self.played(stream), wanted)
        self.assertEqual(self.played(stream * 2), wanted * 2)

    def test_ends_of_streams(self) -> None:
        no_8 = console.no(Refusal.BROKEN_LAYOUT)
        self.assertEqual(self.played(b""), b"")
        bad_sizes = ["00000000 2f000000", "00000006 2f00", "00001004", "ffffffff 00000004"]
        for digits in [*bad_sizes, "00", "000000", "00000004", "00000008 2f000000 2c0000"]:
            self.assertEqual(self.played(bytes.fromhex(digits)), no_8)

    def test_lengths_of_replies(self) -> None:
        self.assertEqual(len(console.reply(b"/hall/word", 1, 1)), 28)
        self.assertEqual(len(console.reply(b"/hall/lamp", 1, 0)), 28)
        self.assertEqual(len(console.reply(b"/hall/ok")), 20)
        self.assertEqual(len(console.no(Refusal.NOT_MADE)), 24)

    def test_making(self) -> None:
        desk = console.Console()
        wrong = packets.encode(b"/hall/make", [3, 1, 0])
        refused = [(wrong, 10), (make(3, 1, 2, b"\0"), 10), (make(4, 2, 2, b""), 11), (make(4, 2, 0, b""), 5)]
        refused += [(make(65_539, 1, 0, b""), 5), (make(3, 65_537, 0, b""), 5), (make(3, 1, 65_536, b""), 11)]
        for packet, number in refused:
            self.answers(desk, packet, b"/hall/no", number)
        self.answers(desk, make(3, 1, 0, b"\0\0\0\1"), b"/hall/ok")
        self.answers(desk, make(4, 2, 0, b""), b"/hall/no", 2)
        self.answers(desk, make(3, 1, -1, b""), b"/hall/no", 11)
        self.assertEqual(desk.hall.parts.rig, ScriptRig((0, 1)))

    def test_before_a_hall_is_made(self) -> None:
        desk = console.Console()
        asked = [(b"/hall/open", [65_536, 0, 2], 10), (b"/hall/open", [0, 0, 2], 11), (b"/hall/open", [0, 9, 1], 2)]
        asked += [(b"/hall/round", [1], 10), (b"/hall/round", [], 2), (b"/hall/ok", [], 9), (b"/hall/mark", [-1], 2)]
        for address, numbers, number in asked:
            self.answers(desk, packets.encode(address, numbers), b"/hall/no", number)
        self.answers(desk, b"/hall/round\0", b"/hall/no", 8)

    def test_a_cue(self) -> None:
        desk = console.Console()
        calls = [(b"/hall/mark", [0]), (b"/hall/open", [1, 0, 0])] + [(b"/hall/round", [])] * 4
        self.answers(desk, make(3, 1, 0, b"\0\0\0\1"), b"/hall/ok")
        for address, numbers in calls:
            self.answers(desk, packets.encode(address, numbers), b"/hall/ok")
        self.answers(desk, packets.encode(b"/hall/read", [2]), b"/hall/word", 2, 1)
        self.answers(desk, packets.encode(b"/hall/lamp", [1]), b"/hall/lamp", 1, 1)
        self.answers(desk, packets.encode(b"/hall/mark", [1]), b"/hall/no", 3)
        self.answers(desk, packets.encode(b"/hall/mark", [65_536]), b"/hall/no", 1)
        self.answers(desk, packets.encode(b"/hall/clear", [65_536]), b"/hall/no", 2)
        self.answers(desk, packets.encode(b"/hall/strike", []), b"/hall/ok")
        self.answers(desk, packets.encode(b"/hall/open", [0, -1, 1]), b"/hall/no", 1)

    def test_play(self) -> None:
        hall = Hall(Parts(CountRule.make(3, 1), ScriptRig(()), Gates(), HOLD))
        packet = packets.encode(b"/hall/mark", [0])
        self.refused(Refusal.BUFFER_TOO_SHORT, console.play, hall, packet, sheet(), bytearray(27))
        self.assertEqual(hall.broken, 0)
        out = bytearray(b"." * 28)
        self.assertEqual(console.play(hall, packet, sheet(), out), 20)
        self.assertEqual(out, console.reply(b"/hall/ok") + b"." * 8)
        self.assertEqual(console.play(hall, make(3, 1, 0, b""), sheet(), out), 24)
        self.assertEqual(out[:24], console.reply(b"/hall/no", 9))


class ScriptCases(Case):
    """docs/SECOND.md."""

    def answered(self, *lines: str) -> list[str]:
        """The answers to the lines of a script."""
        return list(scripts.answers(lines))

    def test_digests(self) -> None:
        self.assertEqual(scripts.digest([]), "811c9dc5")
        self.assertEqual(scripts.digest([0x666F, 0x6F62, 0x6172]), "bf9cf968")  # of the letters foobar

    def test_before_a_hall_is_made(self) -> None:
        lines = ["open 0 9 2", "open 0 9 1", "read 0", "round 0", "words scene", "open 0 9 2"]
        self.assertEqual(self.answered(*lines), ["no 11", "no 2", "no 2", "no 2 811c9dc5", "no 2"])

    def test_making(self) -> None:
        bad = ["rest 2", f"patches {'0' * 16}", "rule count 4 2", "make"]
        good = ["rest 1 # GO", "make", "patches", "make", "rule group 4 {1,2,1} {}", "make", "", "  # so"]
        self.assertEqual(self.answered(*bad, *good), ["no 11", "no 7", "no 5", "made"])

    def test_a_cue(self) -> None:
        lines = ["rig script 0 1", "make", "mark 0", "open 1 0 0", "round 4095", "round 4096", *["round"] * 3]
        answers = self.answered(*lines, "read 1", "lamp 2", "read 3", "strike", "strike")
        self.assertEqual(answers[:3], ["made", "ok", "ok"])
        self.assertEqual(answers[3], f"no 4 {scripts.digest([9] * 4_095)}")
        self.assertEqual(answers[4], f"ok {scripts.digest([9] * 4_096)}")
        votes = [GO if at in {18, 33, 258, 288, 513, 528} else VOID for at in range(SHEET)]
        self.assertEqual(answers[5:7], [f"ok {scripts.digest(votes + [9] * 4)}"] * 2)
        self.assertEqual(answers[7:], [f"ok {scripts.digest([9] * 4_100)}", "word 1", "lamp 1", "no 1", "ok", "no 2"])

    def test_lines_that_cannot_be_read(self) -> None:
        more = ["rig", "rule count 3", "round x", "patches 1", "rule group 3 {0", "Make"]
        for line in [*call_inputs.UNREADABLE, *more]:
            self.assertEqual(self.answered("make", "", line, "make"), ["made", "line 3: cannot be read"])


def random_hall(rng: Random) -> tuple[Hall, list[int]]:
    """A lawful hall by chance, and the codes of the words that its cues carry."""
    _, rule = rng.choice([call_inputs.count_rule, call_inputs.group_rule])(rng, True)
    kind, codes = rng.choice([(Gates(), [0, 1]), (Scenes(), [0, 64, 1_023])])
    listed = tuple(call_inputs.entries(rng, codes, False))
    torn = tuple(call_inputs.entries(rng, codes, True))
    script, noise = ScriptRig(listed), NoiseRig(rng.randrange(2**32))
    rig = rng.choice([script, noise, Mender(TornRig(torn)), Mender(Slack(script))])
    patches = [Patch.make(int(call_inputs.patch(rng), 16)) for _ in range(rng.randrange(4))]
    return Hall(Parts(rule, pile(patches, rig), kind, rng.choice(codes))), codes


def mark_some(rng: Random, hall: Hall, count: int) -> None:
    """Marks stations by chance, as far as the rule has it."""
    for _ in range(count):
        station = rng.randrange(hall.parts.rule.n)
        if hall.parts.rule.can_fail(hall.broken | 1 << station):
            hall.mark(station)


class AgreementCases(Case):
    """The laws of agreement, at run time."""

    def test_random_histories(self) -> None:
        rng = Random(20)
        for _ in range(HISTORIES):
            hall, codes = random_hall(rng)
            mark_some(rng, hall, rng.randrange(2 * hall.parts.rule.n))
            broken = [station for station in range(hall.parts.rule.n) if hall.broken >> station & 1]
            caller = rng.choice(broken) if broken and rng.random() < 0.7 else rng.randrange(hall.parts.rule.n)
            word = rng.choice(codes)
            hall.open(rng.randrange(65_536), caller, word)
            self.run_cue(rng, hall)
            self.check_end(hall, caller, word)

    def run_cue(self, rng: Random, hall: Hall) -> None:
        """Runs a cue to its end, with marks in between, and looks at its lamps."""
        final: int | None = None
        while hall.stage is Stage.RUNNING:
            hall.round(sheet())
            if rng.random() < 0.2:
                mark_some(rng, hall, 1)
            good = [station for station in range(hall.parts.rule.n) if not hall.broken >> station & 1]
            words = {hall.held[station] for station in good}
            lit = [hall.lit >> station & 1 for station in good]
            self.assertNotIn(SILENCE, hall.held)
            if RoundKind.of(hall.cue.rounds_run) is RoundKind.GRADED and any(lit):
                self.assertEqual(len(words), 1)
                self.assertTrue(words <= set(range(hall.parts.kind.size)))
            if all(lit):
                self.assertEqual(words, words if final is None else {final})
                (final,) = words
            self.assertTrue(final is None or all(lit))

    def check_end(self, hall: Hall, caller: int, word: int) -> None:
        """Asserts that all good stations hold one word, the good caller's."""
        good = [station for station in range(hall.parts.rule.n) if not hall.broken >> station & 1]
        read = {hall.read(station) for station in good}
        self.assertEqual(len(read), 1)
        if caller in good:
            self.assertEqual(read, {word})


class InputCases(Case):
    """The random inputs."""

    def test_a_seed_gives_one_input(self) -> None:
        for name, count in [("console", 200), ("calls", 3)]:
            self.assertEqual(generated(name, count, 8), generated(name, count, 8))
            self.assertNotEqual(generated(name, count, 8), generated(name, count, 9))

    def replies(self, stream: bytes) -> list[packets.Message]:
        """The replies to a stream."""
        out = io.BytesIO()
        console.run(io.BytesIO(stream), out)
        out.seek(0)
        found = []
        while (packet := console.next_packet(out)) is not None:
            found.append(packets.read_message(packet))
        return found

    def test_a_stream_has_as_many_packets_as_asked_for(self) -> None:
        for seed in range(1, 11):
            self.assertEqual(len(self.replies(generated("console", 150, seed))), 150)

    def test_all_replies_occur(self) -> None:
        found = [reply for seed in range(1, 16) for reply in self.replies(generated("console", 300, seed))]
        self.assertEqual({reply.address for reply in found}, {b"/hall/ok", b"/hall/no", b"/hall/word", b"/hall/lamp"})
        numbers = {reply.arguments[0] for reply in found if reply.address == b"/hall/no"}
        self.assertEqual(numbers, {1, 2, 3, 5, 8, 9, 10, 11})

    def test_all_answers_occur(self) -> None:
        texts = [generated("calls", 12, seed).decode().splitlines() for seed in range(1, 9)]
        found = [answer.split(" ") for text in texts for answer in scripts.answers(text)]
        self.assertEqual({words[0] for words in found}, {"made", "ok", "no", "word", "lamp", "line"})
        self.assertEqual({words[1] for words in found if words[0] == "no"}, {"1", "2", "3", "4", "5", "7", "11"})


if __name__ == "__main__":
    unittest.main()
