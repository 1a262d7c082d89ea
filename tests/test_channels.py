"""Tests of document 02, Ask 11: the four-channel instrument."""
import unittest
from collections import Counter
from functools import lru_cache
from hashlib import sha256
from itertools import chain, combinations, islice
from tempfile import NamedTemporaryFile
from unittest.mock import patch

import test_outcomes
import test_reference
from generate import channels, exchanges, faults, owners
from generate.channels import (BASE, LEAF_1, LEAF_21, call, channel_sheets, first_later,
                               wide_leaves)
from generate.draws import Draws
from generate.exchanges import PARTS, SITES, WRONG_WAYS
from generate.outcomes import FOUR, FRONT, METHODS, PASS, POINT
from generate.owners import THEN_FOUR, THREE, owned
from generate.plans import CHANNEL_SHAPES
from generate.refusals import positions
from generate.special import M
from generate.stops import END, NEW, PAIR, STOP
from generate.trees import events_of, random_tree
from generate.words import matches
from reference import reading, rules
from reference.channels import (exchanged, exchanged_event, exchanged_set,
                                exchanged_word)
from reference.conditions import ANY, LEAF, STAR, WIDE_ANY, bits, holds, places_of
from reference.instruments import (ENTRY, FOUR_CHANNEL, INSTRUMENTS, LARGE,
                                   TWO_CHANNEL, Instrument)
from reference.loader import (Accepted, first_unproved, line_of, load_line, verdict,
                              word_line, word_line_of)
from reference.reading import (BODY_LENGTHS, SECTIONS, Method, Point, Reader, Refusal,
                               Sheet, Step, named_fields, read_sheet, reading_line)
from reference.rules import (all_rules, called_condition, certificates_needed, join,
                             rule_count)
from reference.runs import (FAIL, RETURN, Move, first_break, first_owed_break,
                            first_owner_break, make_move, missing, start)
from sheets import records as r
from sheets.assemble import TextError, assemble
from sheets.disassemble import disassemble
from sheets.expressions import parse_expression, show
from simulate import Totals, Walker, channel_sheets as accepted_on_channels, walk
from test_outcomes import without_number
from test_owners import number_at
from test_reference import is_true, make

ORDER = [2, 3, 4, 19, 20, 5, 6, 7, 9, 18, 24, 26]
TAIL = channels.TAIL
# What each of the 64 events becomes, by channel, typed.
EXCHANGED = {
    0: [*range(64)],
    1: [*range(16, 32), *range(16), *range(32, 64)],
    2: [*range(32, 48), *range(16, 32), *range(16), *range(48, 64)],
    3: [*range(48, 64), *range(16, 48), *range(16)]}


def four_sheet(text):
    return read_sheet(assemble(text, FOUR_CHANNEL), FOUR_CHANNEL)


@lru_cache
def true_on_channels():
    return channel_sheets(701, 108, 80)


def wrong_call(records, index):
    """Whether 26 holds of a record by itself, by the text of Ask 11; a method that does
    not exist is passed over."""
    one = records[index]
    if one[0] != 22 or len(one) < 8:
        return False
    kinds = [other[0] for other in records[:index] if other[0] in (8, 9, 15, 16)]
    method = number_at(one, 5)
    return one[7] > 3 or method < len(kinds) and kinds[method] in (9, 15, 16)


def wrong_owners(records, index):
    """Whether 24 holds of a call on a channel by itself."""
    one = records[index]
    points = [number_at(other, 7) if other[0] == 20 else None
              for other in records if other[0] in (7, 20)]
    held = [points[number_at(one, at)] for at in (1, 3)
            if at + 2 <= len(one) and number_at(one, at) < len(points)]
    return any(None not in two and two[0] != two[1] for two in combinations(held, 2))


class Reading(unittest.TestCase):
    def lines(self, *cases):
        """Each case is the bytes, and the line or what follows `refused`."""
        for data, line in cases:
            if line[0].isdigit():
                line = f"refused {line}"
            self.assertEqual(reading_line(data, FOUR_CHANNEL), line, data.hex())

    def test_instrument(self):
        self.assertEqual(FOUR_CHANNEL, (65536, 512, 22, 64))
        self.assertEqual(list(INSTRUMENTS), ["large", "entry", "four"])

    def test_kinds(self):
        """Lengths, sections, and no kind above 22; the two-channel instruments give 2
        for both kinds wherever they stand."""
        self.assertEqual((BODY_LENGTHS[20:], SECTIONS[20:]), ((8, 7), (1, 4)))
        for kind in (0, *range(23, 256)):
            self.lines((bytes([kind]) + bytes(20), "2 at 0"))
        for instrument in TWO_CHANNEL.values():
            for _, before, after in positions(owners.BASE):
                for one in (LEAF_21, call(1, 2), b"\x15", b"\x16"):
                    self.assertEqual(read_sheet(before + one + after, instrument),
                                     Refusal(2, len(before)))

    def test_sets(self):
        """Low byte first; kind 1 leaves the upper bits 0."""
        data = (b"\x15\x01\x02\x04\x08\x10\x20\x40\x80\x06" b"\x01\xff\xff\xff\xff\x06"
                b"\x15" + b"\xff" * 8 + b"\x06\x15\xff\xff\xff\xff\0\0\0\0\x06" + TAIL)
        self.assertEqual(read_sheet(data, FOUR_CHANNEL).conditions, [
            (LEAF, sum(1 << 9 * byte for byte in range(8))), (LEAF, ANY),
            (LEAF, WIDE_ANY), (LEAF, ANY)])
        for event in range(64):
            for number, held in enumerate((event % 9 == 0, event < 32, True,
                                           event < 32)):
                self.assertEqual(word_line(data, number, (event,), FOUR_CHANNEL),
                                 "yes" if held else "no 0")

    def test_call_fields(self):
        front = FRONT + POINT * 300 + METHODS[9] + METHODS[8] * 9
        sheet = read_sheet(front + b"\x16\x2b\x01\x02\x01\x09\x00\x03", FOUR_CHANNEL)
        self.assertEqual(sheet.steps[0]._asdict(), {
            "kind": 22, "source": 299, "target": 258, "operand": 9,
            "failed_target": None, "channel": 3})
        self.assertEqual((sheet.steps[0].is_call, sheet.steps[0].outcomes),
                         (True, (False,)))

    def test_as_kind_1(self):
        """Kind 21 for 4 to 6, and at the end."""
        leaves = LEAF_1 * 16 + LEAF_21 * 15
        self.lines(
            (LEAF_21, "8 at 9"), (NEW + LEAF_21, "8 at 10"),
            (LEAF_21 + b"\x06", "9 at 10"),
            (LEAF_21 + b"\x06" + TAIL, "read 1 1 1 0 0"),
            (LEAF_21 + LEAF_1 + b"\x06", "5 at 14"), (LEAF_21 + b"\x03", "5 at 9"),
            (LEAF_21 + POINT, "4 at 9"), (LEAF_21 + NEW, "4 at 9"),
            (LEAF_21 + call(9), "4 at 9"), (FRONT + POINT + LEAF_21, "4 at 9"),
            (FOUR + LEAF_21, f"4 at {len(FOUR)}"),
            (FOUR + call(1) + LEAF_21, f"4 at {len(FOUR) + 8}"),
            (FOUR + END + LEAF_21, f"4 at {len(FOUR) + 1}"),
            (leaves + b"\x03" * 30 + b"\x06" + TAIL, "read 1 1 1 0 0"),
            (leaves + LEAF_1, "6 at 215"), (leaves + LEAF_21, "6 at 215"),
            (leaves + LEAF_21[:8], "3 at 215"),
            (LEAF_21 + b"\x05" * 95 + b"\x06" + TAIL, "read 1 1 1 0 0"),
            (LEAF_21 + b"\x05" * 96, "6 at 104"),
            (b"\x02" + b"\x05" * 95 + LEAF_21, "6 at 96"))

    def test_events(self):
        for event in range(256):
            self.lines((FOUR + r.event_step(0, 0, event),
                        "read 1 1 4 1 0" if event < 64 else f"7 at {len(FOUR)}"))
            for instrument in TWO_CHANNEL.values():
                self.assertEqual(reading_line(FOUR + r.event_step(0, 0, event),
                                              instrument),
                                 "read 1 1 4 1 0" if event < 32
                                 else f"refused 7 at {len(FOUR)}")

    def test_refusal_26(self):
        """Every channel with a method of every kind."""
        for channel in range(256):
            for method in range(6):
                right = channel < 4 and method == 1
                self.lines((FOUR + call(channel, method), "read 1 1 4 1 0" if right
                            else f"{26 if method < 4 else 7} at {len(FOUR)}"))

    def test_orders(self):
        """6, 7, 24, 26 at one record; at the end 26 has come before 8, 25 and 10."""
        full, four = FOUR + PASS * 511, THREE + THEN_FOUR
        self.lines(
            (full + call(4), f"26 at {len(full)}"),
            (full + call(3), "read 1 1 4 512 0"),
            (full + PASS + call(4), f"6 at {len(full) + 5}"),
            (full + PASS + call(4, 9), f"6 at {len(full) + 5}"),
            (FOUR + call(4, 1, 1), f"7 at {len(FOUR)}"),
            (FOUR + call(4, 0, 0, 1), f"7 at {len(FOUR)}"),
            (FOUR + call(255, 4), f"7 at {len(FOUR)}"),
            (four + call(4, 1, 1, 2), f"24 at {len(four)}"),
            (four + call(1, 1, 1, 2), f"24 at {len(four)}"),
            (four + call(1, 3, 2, 1), f"24 at {len(four)}"),
            (four + call(4, 1, 1, 0), f"26 at {len(four)}"),
            (four + call(1, 3, 2, 2), f"26 at {len(four)}"),
            (four + call(1, 1, 2, 0), "read 1 3 4 1 0"),
            (FOUR + call(4) + PAIR, f"26 at {len(FOUR)}"),
            (THREE + owned(9) + THEN_FOUR + call(4), f"26 at {len(four) + 9}"),
            (THREE + owned(9) + THEN_FOUR + call(3), f"25 at {len(THREE)}"),
            (FOUR + STOP + call(4), f"20 at {len(FOUR)}"),
            (NEW + FOUR + STOP + call(4), f"26 at {len(FOUR) + 4}"))

    def test_order_at_one_record(self):
        """Each pair with 26 that can meet at a record does so among the cases."""
        met = set()
        for case in channels.record_cases():
            result = read_sheet(case.data, FOUR_CHANNEL)
            if (not isinstance(result, Refusal) or result.place >= len(case.data)
                    or case.data[result.place] != 22 or result.number == 25):
                continue
            both = self.faults_at(case.data, result.place)
            self.assertEqual(result.number, min(both, key=ORDER.index), case.label)
            met |= {one for one in both if 26 in both}
        self.assertEqual(met, {4, 6, 7, 24, 26})

    @staticmethod
    def faults_at(data, place):
        """Every refusal that holds of a call on a channel, by itself."""
        records, one = faults.records_of(data[:place]), data[place:place + 8]
        kinds = [other[0] for other in records]
        sections = [SECTIONS[kind - 1] for kind in kinds]
        inside = bool(kinds) and (kinds[-1] < 6 or kinds[-1] == 21)
        found = [4] * (inside or 5 in sections)
        found += [6] * (sections.count(4) >= 512) + [3] * (len(one) < 8)
        found += [26] * wrong_call(records + [one], len(records))
        found += [24] * wrong_owners(records + [one], len(records))
        counts = {1: sections.count(2), 3: sections.count(2), 5: sections.count(3)}
        return found + [7] * any(number_at(one, at) >= count
                                 for at, count in counts.items() if at + 2 <= len(one))

    def test_cases_by_construction(self):
        for cases, instrument in ((chain(channels.kind_cases(), channels.record_cases(),
                                         channels.limit_cases(FOUR_CHANNEL)),
                                   FOUR_CHANNEL),
                                  (channels.reading_cases(), LARGE),
                                  (channels.entry_reading_cases(), ENTRY)):
            seen = Counter()
            for case in cases:
                if case.line is not None:
                    self.assertEqual(reading_line(case.data, instrument), case.line,
                                     case.label)
                    seen[case.line.split(" at ")[0]] += 1
            for number in ((2, 3, 4, 5, 6, 7, 8, 9, 24, 26)
                           if instrument == FOUR_CHANNEL else (2, 7)):
                self.assertGreater(seen[f"refused {number}"], 1, number)
            self.assertEqual(seen["refused 26"] > 0, instrument == FOUR_CHANNEL)
        other = Instrument(5000, 7, 22, 64)
        for case in channels.limit_cases(other):
            self.assertEqual(reading_line(case.data, other), case.line, case.label)

    def test_read_back(self):
        for sheet in true_on_channels():
            self.assertEqual(read_sheet(r.encode(sheet), FOUR_CHANNEL), sheet)

    def test_judged(self):
        """Another reading of 26 and of the owners of such calls says the same of sheets
        with changed records."""
        draws, found = Draws(702), Counter()
        for _ in range(2000):
            records = list(BASE)
            at = draws.between(20, len(records) - 4)
            records.insert(at, call(draws.below(6), draws.below(4), draws.below(4),
                                    draws.below(4)))
            result = read_sheet(b"".join(records), FOUR_CHANNEL)
            number = (result.number if isinstance(result, Refusal)
                      and result.place == len(b"".join(records[:at])) else None)
            wrong = 24 if wrong_owners(records, at) else None
            wrong = wrong or (26 if wrong_call(records, at) else None)
            if SECTIONS[records[at - 1][0] - 1] in (3, 4) and number not in (4, 7):
                self.assertEqual(number, wrong)
                found[number] += 1
        self.assertEqual(set(found), {None, 24, 26})
        self.assertGreater(min(found.values()), 50)

    def test_words(self):
        """13 above 63; 26 comes before 14, 12 and 13."""
        for number, word, line in (
                (0, (), "yes"), (0, (63,), "no 0"), (0, (63, 64), "refused 13 at 1"),
                (0, (255,), "refused 13 at 0"), (0, (64,) * 4097, "refused 12"),
                (9, (64,), "refused 14")):
            self.assertEqual(word_line(FOUR + call(3), number, word, FOUR_CHANNEL),
                             line)
            self.assertEqual(word_line(FOUR + call(4), number, word, FOUR_CHANNEL),
                             f"refused 26 at {len(FOUR)}")
            for instrument in TWO_CHANNEL.values():
                self.assertEqual(word_line(FOUR + call(3), number, word, instrument),
                                 f"refused 2 at {len(FOUR)}")


class Exchange(unittest.TestCase):
    def test_events(self):
        for channel, row in EXCHANGED.items():
            self.assertEqual([exchanged_event(event, channel) for event in range(64)],
                             row)
            self.assertEqual([row[row[event]] for event in range(64)], [*range(64)])

    def test_sets(self):
        """Event by event, of random sets; all events remain all."""
        draws = Draws(703)
        for channel, row in EXCHANGED.items():
            for events in [0, ANY, WIDE_ANY, 1, 1 << 63, *(
                    int.from_bytes(draws.bytes(8), "little") for _ in range(200))]:
                self.assertEqual(exchanged_set(events, channel),
                                 sum(1 << row[event] for event in bits(events)))
            self.assertEqual(exchanged_set(WIDE_ANY, channel), WIDE_ANY)
            self.assertEqual(exchanged_set(ANY, channel) == ANY, channel < 2)

    def test_conditions(self):
        """An exchanged condition holds a word exactly if the condition holds the
        exchanged word; re says the same."""
        draws, found = Draws(704), Counter()
        alphabet = [1, 17, 33, 49]
        for _ in range(300):
            tree = random_tree(draws, draws.between(1, 6), alphabet, 0.1, WIDE_ANY)
            channel = draws.below(4)
            for _ in range(6):
                word = tuple(draws.pick(alphabet) for _ in range(draws.below(5)))
                held = holds(exchanged(tree, channel), word)
                self.assertEqual(held, holds(tree, exchanged_word(word, channel)))
                self.assertEqual(held, matches(exchanged(tree, channel), word))
                found[held, channel > 0] += 1
            self.assertEqual(exchanged(exchanged(tree, channel), channel), tree)
            self.assertEqual(events_of(exchanged(tree, channel)),
                             exchanged_set(events_of(tree), channel))
            self.assertEqual(places_of(exchanged(tree, channel))[:4],
                             places_of(tree)[:4])
        self.assertGreater(min(found.values()), 50)

    def test_wrong_ways(self):
        """Each differs from the exchange, also on sets of one channel alone."""
        for channel in (1, 2, 3):
            low, own = 1 << 3, 1 << 16 * channel + 3
            self.assertEqual([[way(events, channel) for events in (low, own)]
                              for way in (exchanged_set, *WRONG_WAYS.values())],
                             [[own, low], [low, own], [own, own], [low, low]])


class Rules(unittest.TestCase):
    # Each condition is a leaf of its own, so sides tell which they come from; those of
    # the primitive have an event of channel 0, of channel 2 and of a third one.
    NAMES = ("past0 own0 due0 past1 own1 due1 pre trace future "
             "ppre ptrace pfuture").split()
    EVENTS = dict(zip(NAMES, [[n] for n in range(9)]
                      + [[9, 40, 20], [10, 41, 50], [43, 11, 60]]))
    READ = EVENTS | {"ppre": [41, 8, 20], "ptrace": [42, 9, 50],
                     "pfuture": [11, 43, 60]}
    SIDES = [(10, "past0", "ppre"), (11, "past0 ptrace", "past1"),
             (12, "own0 ptrace", "own1"), (13, "due1", "pfuture"),
             (14, "ptrace due1", "due0")]

    def sheet(self, channel, new):
        trees = [self.leaf(self.EVENTS[name]) for name in self.NAMES]
        return Sheet(trees, [Point(0, 1, 2), Point(3, 4, 5)],
                     [Method(6, 7, 8, 0, 1), Method(9, 10, 11)],
                     [Step(22, 0, 1, 1, channel=channel)], [], new)

    @staticmethod
    def leaf(events):
        return (LEAF, sum(1 << event for event in events))

    def side(self, names, events):
        first, *second = (self.leaf(events[name]) for name in names.split())
        return join(first, *second) if second else first

    def test_sides(self):
        """Each rule's sides, in the order of testing, on channel 2, and on channel 0,
        where nothing is exchanged; rule 26 in neither edition."""
        for channel, events in ((2, self.READ), (0, self.EVENTS)):
            for new in (False, True):
                found = [(rule.number, rule.subject, rule.left, rule.right)
                         for rule in all_rules(self.sheet(channel, new))
                         if rule.subject_kind == "step"]
                self.assertEqual(found, [
                    (number, 0, self.side(left, events), self.side(right, events))
                    for number, left, right in self.SIDES])

    def test_counts(self):
        """Five rules and five certificates for each call on a channel."""
        seen = Counter()
        for sheet in true_on_channels():
            found = list(all_rules(sheet))
            self.assertEqual(rule_count(sheet), len(found))
            self.assertEqual(certificates_needed(sheet), sum(
                rule.has_certificate for rule in found))
            for number, step in enumerate(sheet.steps):
                if step.kind == 22:
                    self.assertEqual([rule.number for rule in found if rule.subject
                                      == number and rule.subject_kind == "step"],
                                     [10, 11, 12, 13, 14])
                    seen[step.channel, sheet.new] += 1
        self.assertEqual(len(seen), 8)

    def test_cases_by_construction(self):
        for case in exchanges.single_cases():
            line = load_line(case.data, FOUR_CHANNEL)
            self.assertTrue(faults.agrees(case, line),
                            f"{case.label}: {case.line} {line}")
        for case in exchanges.full_limits():
            self.assertEqual(load_line(case.data, FOUR_CHANNEL), case.line)

    def test_same_lines(self):
        """Sheets without channels, with their calls on channels and the exchanged
        conditions, and with their events moved."""
        found = Counter()
        cases = list(exchanges.former_cases(705, 0.5))
        for case in chain(exchanges.same_lines(706, cases),
                          exchanges.moved_cases(cases)):
            self.assertEqual(load_line(case.data, FOUR_CHANNEL), case.line, case.label)
            found[case.label.rsplit(", ", 1)[-1], case.line.split()[0]] += 1
        for label in ("on channels", *exchanges.MOVES):
            for line in ("accepted", "unproved"):
                self.assertGreater(found[label.rsplit(", ", 1)[-1], line], 5)

    def test_clauses(self):
        """Each of rules 10 to 14 of a call on a channel fails clauses 1 to 4 as the
        first fault; events above 31 are named."""
        found, above = Counter(), 0
        for case in chain(
                faults.certificate_faults(707, true_on_channels(), 8, range(10, 15),
                                          FOUR_CHANNEL),
                faults.broken_rules(708, 3, range(10, 15), CHANNEL_SHAPES,
                                    FOUR_CHANNEL, (22,))):
            line = load_line(case.data, FOUR_CHANNEL)
            self.assertTrue(faults.agrees(case, line), f"{case.line} {line}")
            words = line.split()
            sheet = read_sheet(case.data, FOUR_CHANNEL)
            if sheet.steps[int(words[4])].kind == 22:
                found[int(words[2]), int(words[6])] += 1
                above += int(words[10]) > 31
        self.assertEqual(set(found), {(rule, clause) for rule in range(10, 15)
                                      for clause in (1, 2, 3, 4)})
        self.assertGreater(above, 5)

    def test_changed_sheets(self):
        """An unproved sheet with exact certificates has a false rule: the first, by the
        languages; an accepted one has none."""
        seen = Counter()
        for case in chain(faults.changed_conditions(709, true_on_channels()),
                          exchanges.channel_changes(710, true_on_channels(), 2)):
            if "new certificates" not in case.label:
                continue
            sheet = read_sheet(case.data, FOUR_CHANNEL)
            if isinstance(sheet, Refusal):
                continue
            wrong = [rule for rule in all_rules(sheet) if not is_true(rule)]
            unproved = first_unproved(sheet)
            self.assertEqual(unproved.rule if unproved else None,
                             wrong[0] if wrong else None)
            seen[unproved.rule.number if unproved else 0] += 1
        for rule in (0, 10, 11, 13):
            self.assertGreater(seen[rule], 5, rule)

    def test_kind_21_for_kind_1(self):
        """A leaf of kind 21 without upper bits is that of kind 1."""
        for sheet in true_on_channels():
            for data in (r.encode(sheet), r.encode(sheet._replace(certificates=[
                    [] for _ in sheet.certificates]))):
                self.assertEqual(verdict(wide_leaves(data), FOUR_CHANNEL),
                                 verdict(data, FOUR_CHANNEL))


class Alone(unittest.TestCase):
    """For each of rules 10 to 14 sheets on which it alone is false because the events
    are exchanged, with an event of channel 0 or of the other; and a run that breaks
    demand 3."""

    def alone(self, right):
        for rule in SITES:
            for channel in (1, 2, 3):
                for event in (3, 16 * channel + 3):
                    yield rule, channel, exchanges.site_alone(rule, channel, event,
                                                              right)

    def test_rule(self):
        for rule, _, one in self.alone(False):
            sheet = four_sheet(one.text)
            wrong = [one for one in all_rules(sheet) if not is_true(one)]
            self.assertEqual([one.number for one in wrong], [rule])
            self.assertEqual(first_unproved(sheet).rule, wrong[0])

    def test_accepted(self):
        """With the exchanged event at the points the sheet is accepted, and the run
        keeps demand 3 and Ask 12."""
        for _, _, one in self.alone(True):
            self.assertRegex(load_line(assemble(one.text, FOUR_CHANNEL), FOUR_CHANNEL),
                             "^accepted ")
            sheet = four_sheet(one.text)
            for count in range(len(one.moves) + 1):
                run = make(sheet, *one.moves[:count])
                self.assertIsNone(first_break(sheet, run))
                self.assertIsNone(first_owed_break(sheet, run))

    def test_run(self):
        for rule, _, one in self.alone(False):
            sheet = four_sheet(one.text)
            run = start(sheet)
            for move in one.moves:
                self.assertIsNone(first_break(sheet, run), rule)
                after = make_move(sheet, run, move)
                self.assertNotEqual(after, run)
                run = after
            found, broken = first_break(sheet, run)
            self.assertEqual((found.method, broken), (one.method, one.broken))

    def test_owed(self):
        """Those on futures break Ask 12 before the end."""
        for rule, _, one in self.alone(False):
            sheet = four_sheet(one.text)
            found = [first_owed_break(sheet, make(sheet, *one.moves[:count]))
                     for count in range(len(one.moves) + 1)]
            methods = {call.method for call, _ in filter(None, found)}
            self.assertEqual(methods, {one.method} if rule in (13, 14) else set(), rule)

    def test_wrong_ways_are_taken_in(self):
        """Each wrong way, of the part that a rule is about, makes one of its two sheets
        true, and that is the one which it does not tell from a sheet without
        channels."""
        for rule in SITES:
            taken = Counter()
            for channel in (1, 2, 3):
                for event in (3, 16 * channel + 3):
                    one = exchanges.site_alone(rule, channel, event, False)
                    sheet = four_sheet(one.text)
                    for label, way in WRONG_WAYS.items():
                        read = exchanges.read_wrongly(sheet, way, (PARTS[rule],))
                        false = [one for one in all_rules(read) if not is_true(one)]
                        taken[label, event < 16] += not false
            self.assertEqual(taken, {("not made", True): 3, ("not made", False): 3,
                                     ("up only", False): 3, ("up only", True): 0,
                                     ("down only", True): 3, ("down only", False): 0})


class Runs(unittest.TestCase):
    SHEET = four_sheet(exchanges.whole_text(2))

    def same(self, run, *moves):
        for move in moves:
            self.assertEqual(make_move(self.SHEET, run, move), run, move)

    def test_call(self):
        """A word of the exchanged trace, and no other; the call does not fail."""
        run = make(self.SHEET, Move(0, (35,)))
        self.same(run, Move(1), Move(1, ()), Move(1, (5,)), Move(1, (32,)),
                  Move(1, (37, 0)), Move(1, (37,), True), FAIL, RETURN)
        for event in (37, 0):
            after = make_move(self.SHEET, run, Move(1, (event,)))
            self.assertEqual((after.history, after.point), ((35, event), 2))
            self.assertEqual(after.returned_calls[-1].raised, (event,))
            self.assertIsNone(first_break(self.SHEET, after))

    def test_whole(self):
        """Every run of it keeps demand 3 and Ask 12."""
        words = {0: [(35,), (4,)], 1: [(37,), (0,)],
                 2: [(9, 40), (9, 0)]}
        runs = [start(self.SHEET)]
        for number, some in words.items():
            runs = [make_move(self.SHEET, run, Move(number, word))
                    for run in runs for word in some]
            for run in runs:
                self.assertEqual(len(run.returned_calls), number + 1)
                self.assertIsNone(first_break(self.SHEET, run))
                self.assertIsNone(first_owed_break(self.SHEET, run))
        ended = [make_move(self.SHEET, run, RETURN) for run in runs]
        self.assertEqual((len(ended), all(run.ended for run in ended)), (8, True))
        for run in ended:
            self.assertIsNone(first_break(self.SHEET, run))

    def test_each_part(self):
        """On another channel the same run breaks each part."""
        ended = make(self.SHEET, Move(0, (35,)), Move(1, (37,)), Move(2, (9, 40)),
                     RETURN)
        self.assertTrue(ended.ended)
        history = ended.history
        for channel in (0, 1, 3):
            steps = [step._replace(channel=channel) if step.channel else step
                     for step in self.SHEET.steps]
            sheet, called = self.SHEET._replace(steps=steps), ended.returned_calls[1]
            self.assertEqual(first_break(sheet, ended), (called, "pre"))
            for part, word in (("pre", history[:1]), ("trace", history[1:2]),
                               ("future", history[2:])):
                self.assertFalse(holds(called_condition(sheet, steps[1], part), word))

    def test_missing(self):
        """What is lacking is a word of due, as it is raised."""
        sheet = self.SHEET._replace(conditions=self.SHEET.conditions + [
            (LEAF, 1 << 33 | 1 << 20), (LEAF, 1 << 1), (LEAF, 1 << 20)])
        due, low, third = range(len(self.SHEET.conditions), len(sheet.conditions))
        self.assertEqual(missing(sheet, due, low, (), 2), (20,))
        self.assertEqual(missing(sheet, due, third, (), 2), (33,))
        self.assertIn(missing(sheet, due, low, ()), [(20,), (33,)])
        self.assertIsNone(missing(sheet, third, third, (), 2))

    def test_owner(self):
        """The owner of a run's point, where calls are on channels."""
        draws, seen = Draws(711), 0
        for _ in range(150):
            sheet = read_sheet(r.encode(r.with_certificates(
                owners.random_sheet(draws, 0, True))), FOUR_CHANNEL)
            walker, run = Walker(draws, sheet), start(sheet)
            for _ in range(30):
                run = make_move(sheet, run, walker.move(run))
                self.assertIsNone(first_owner_break(sheet, run))
                seen += any(call.step is not None and sheet.steps[call.step].kind == 22
                            for call in run.returned_calls)
        self.assertGreater(seen, 100)


def exchange_by(changed):
    """called_condition with the parts read as given, by a function of a condition and a
    channel for each part that is not read rightly."""
    def wrong(sheet, step, part, failed=False):
        if step.channel is None or part not in changed:
            return called_condition(sheet, step, part, failed)
        method = sheet.methods[step.operand]
        tree = sheet.conditions[getattr(method, part)]
        return changed[part](tree, step.channel)
    return wrong


def by_sets(way):
    return lambda tree, channel: exchanges.read_by(way, tree, channel)


class RandomRuns(unittest.TestCase):
    @staticmethod
    @lru_cache
    def broken_rules():
        """For each of rules 10 to 14, sheets on which it alone is false, of a call on a
        channel."""
        return [(int(case.label.split()[1]), read_sheet(case.data, FOUR_CHANNEL))
                for case in faults.broken_rules(712, 24, range(10, 15), CHANNEL_SHAPES,
                                                FOUR_CHANNEL, (22,))]

    def breaks_without(self, check):
        found = {}
        for rule, sheet in self.broken_rules():
            walker = Walker(Draws(713), sheet)
            for _ in range(20):
                result = walk(walker, Totals(), 0, check)
                if result:
                    found.setdefault(rule, set()).add(result.broken)
                    break
        return found

    def test_each_rule_counts(self):
        """Without any one of rules 10 to 14 of calls on channels, some sheet has a run
        that breaks demand 3."""
        self.assertEqual(self.breaks_without(Walker.demand_3), {
            10: {"pre"}, 11: {"pre"}, 12: {"trace"}, 13: {"future"}, 14: {"future"}})

    def test_rules_of_ask_12(self):
        found = self.breaks_without(Walker.ask_12)
        self.assertEqual(found, {rule: {"owed"} for rule in (13, 14)} | {
            rule: {"owed"} for rule in found if rule == 12})

    def test_accepted_sheets(self):
        """Random runs of sheets with calls on channels keep demand 3 and Ask 12."""
        totals, draws = Totals(), Draws(714)
        for sheet in accepted_on_channels(715, 60):
            walker = Walker(draws, sheet)
            for _ in range(4):
                self.assertIsNone(walk(walker, totals, 0))
        for channel in (1, 2, 3):
            self.assertGreater(totals.on_channel[channel], 50)
        for part in ("pre", "trace", "future", "owed"):
            self.assertGreater(totals.exchanged[part], 50, part)

    @staticmethod
    @lru_cache
    def exchanged_parts(part):
        """True sheets in which that part of a primitive that is called on a channel is
        the exchanged one: its rules are those of the sheet if the exchange is not
        made."""
        found = []
        for sheet in true_on_channels() + [four_sheet(
                exchanges.site_alone(rule, channel, event, True).text)
                for rule in SITES for channel in (1, 2, 3)
                for event in (3, 16 * channel + 3)]:
            for step in sheet.steps:
                if step.channel:
                    methods = list(sheet.methods)
                    called = methods[step.operand]
                    tree = exchanged(sheet.conditions[getattr(called, part)],
                                     step.channel)
                    methods[step.operand] = called._replace(
                        **{part: len(sheet.conditions)})
                    found.append(sheet._replace(conditions=sheet.conditions + [tree],
                                                methods=methods))
        return found

    def breaks_of(self, part, way):
        """What random runs break of the sheets that a loader accepts which reads a part
        by a way, and the number of these sheets that the loader itself does not."""
        found, taken = Counter(), 0
        for sheet in self.exchanged_parts(part):
            with patch.object(rules, "called_condition", exchange_by(
                    {part: by_sets(way)})):
                try:
                    tried = r.with_certificates(sheet, 400)
                except r.TooManyPairs:
                    continue
                accepted = first_unproved(tried) is None
            if not accepted:
                continue
            if isinstance(verdict(r.encode(tried), FOUR_CHANNEL), Accepted):
                continue
            taken += 1
            walker = Walker(Draws(717), tried)
            result = next(filter(None, (walk(walker, Totals(), 0)
                                        for _ in range(8))), None)
            found[result and result.broken] += 1
        return found, taken

    def test_wrong_loaders(self):
        """A loader that does not exchange one part, or exchanges it one way only, is
        found out: random runs of what it accepts break demand 3 or Ask 12. Nothing is
        broken of a sheet that the loader accepts."""
        parts = {"pre": {"pre"}, "future": {"future", "owed"},
                 "trace": {"pre", "trace", "future", "owed"}}
        for part, broken in parts.items():
            for label, way in WRONG_WAYS.items():
                found, taken = self.breaks_of(part, way)
                self.assertGreater(taken, 5, (part, label))
                seen = set(found) - {None}
                self.assertTrue(seen and seen <= broken, (part, label, found))
                if part == "future":
                    self.assertGreater(found["owed"] + found["future"], 5, label)

    def test_right_loader(self):
        """The exchange itself takes in nothing that the loader does not."""
        for part in ("pre", "trace", "future"):
            found, taken = self.breaks_of(part, exchanged_set)
            self.assertEqual((found, taken), ({}, 0))


def some_leaves(choose):
    """The exchange of those leaves of a condition which are chosen, by number."""
    def change(tree, channel):
        count, seen = places_of(tree).leaves, iter(range(1000))

        def changed(item):
            if item[0] == LEAF:
                chosen = choose(next(seen), count, item[1])
                return exchanged(item, channel) if chosen else item
            return (item[0], *(changed(part) for part in item[1:]))
        return changed(tree)
    return change


def other_channel(move):
    return lambda tree, channel: exchanged(tree, move(channel))


def places_lost(mask):
    """The exchange of some events of each channel alone."""
    def way(events, channel):
        kept = mask | mask << 16 * channel
        return exchanged_set(events & kept, channel) | events & ~kept
    return by_sets(way)


ALL_PARTS = "pre", "trace", "future"
# Mistakes in the exchange: how the parts are read.
WRONG_EXCHANGES = [{part: by_sets(way)} for part in ALL_PARTS
                   for way in WRONG_WAYS.values()]
WRONG_EXCHANGES += [dict.fromkeys(ALL_PARTS, way) for way in (
    *map(by_sets, WRONG_WAYS.values()),
    other_channel(lambda channel: 3 - channel),
    other_channel(lambda channel: max(1, channel - 1)),
    other_channel(lambda channel: min(3, channel + 1)),
    some_leaves(lambda number, count, events: number == 0),
    some_leaves(lambda number, count, events: number == count - 1),
    some_leaves(lambda number, count, events: events >> 32),
    some_leaves(lambda number, count, events: not events >> 32),
    some_leaves(lambda number, count, events: events & 0xFFFF),
    places_lost(0x7FFF), places_lost(0xFFFE), places_lost(0x00FF))]


class Wrong(Reader):
    """Reading that can be wrong about Ask 11. As it stands it is right."""
    BODY = OUTCOMES = True   # whether 26 looks at these of the method
    CHANNELS = 4
    EARLY = ()               # refusals that come behind 26
    JUDGED = ()              # refusals that judge kind 22 as they should not
    OWNED = True             # whether 24 judges kind 22
    COUNTED = True           # whether kind 22 is a step
    LEAF = RECORD = True     # whether kind 21 is a leaf, and one of 96 records
    CLOSED = False           # whether 4 is for kind 21 inside a condition
    EVENTS = 64

    def __init__(self, instrument):
        super().__init__(instrument._replace(events=self.EVENTS))

    def is_wrong_channel_call(self, record):
        names = named_fields(record) if record.kind == 22 else {"operand": 65535}
        if names["operand"] >= len(self.sheet.methods):
            return False
        called = self.sheet.methods[names["operand"]]
        return (self.BODY and called.has_body or self.OUTCOMES and called.may_fail
                or names["channel"] >= self.CHANNELS)

    def is_late(self, number, record):
        return number in self.EARLY and self.is_wrong_channel_call(record)

    def has_bad_name(self, record):
        if 7 in self.JUDGED and record.kind == 22 and record.body[-1] > 3:
            return True
        return not self.is_late(7, record) and super().has_bad_name(record)

    def is_call_of_other_outcomes(self, record):
        if 18 in self.JUDGED and record.kind == 22:
            return self.sheet.methods[named_fields(record)["operand"]].may_fail
        return super().is_call_of_other_outcomes(record)

    def has_other_owner(self, record):
        if record.kind == 22 and (not self.OWNED or self.is_late(24, record)):
            return False
        return super().has_other_owner(record)

    def is_out_of_order(self, record):
        return (self.CLOSED and record.kind == 21 and self.condition_open
                or super().is_out_of_order(record))

    def is_over_limit(self, record):
        if record.kind == 22 and (not self.COUNTED or self.is_late(6, record)):
            return False
        return super().is_over_limit(record)

    def _add_item(self, record):
        super()._add_item(record)
        if record.kind == 21:
            self.leaves -= not self.LEAF
            self.records -= not self.RECORD


WRONG = [{"BODY": False}, {"OUTCOMES": False}, {"CHANNELS": 3}, {"CHANNELS": 5},
         {"CHANNELS": 256}, {"EARLY": (24,)}, {"EARLY": (24, 7)}, {"EARLY": (7, 24, 6)},
         {"JUDGED": (7,)}, {"JUDGED": (18,)}, {"OWNED": False}, {"COUNTED": False},
         {"LEAF": False}, {"RECORD": False}, {"CLOSED": True}, {"EVENTS": 32},
         {"EVENTS": 63}, {"EVENTS": 65}, {"EVENTS": 256}]


class Mistakes(unittest.TestCase):
    """Each of these mistakes changes a line of the stored cases."""

    @staticmethod
    @lru_cache
    def read_cases():
        cases = chain(channels.record_cases(), channels.leaf_limit_cases(),
                      channels.record_limit_cases(), channels.step_limit_cases())
        return [(case.data, reading_line(case.data, FOUR_CHANNEL)) for case in cases]

    @staticmethod
    @lru_cache
    def loaded_cases():
        cases = chain(exchanges.whole_cases(),
                      islice(exchanges.site_cases(), 0, None, 3),
                      islice(exchanges.wrong_way_cases(), 0, None, 5))
        return [(case.data, load_line(case.data, FOUR_CHANNEL)) for case in cases]

    def read_otherwise(self, wrong):
        cases = self.read_cases()
        with patch.object(reading, "Reader", type("Changed", (Wrong,), wrong)):
            return any(reading_line(data, FOUR_CHANNEL) != line for data, line in cases)

    def loaded_otherwise(self, wrong):
        cases = self.loaded_cases()
        with wrong:
            return any(load_line(data, FOUR_CHANNEL) != line for data, line in cases)

    def test_right(self):
        self.assertFalse(self.read_otherwise({}))
        right = dict.fromkeys(ALL_PARTS, exchanged)
        self.assertFalse(self.loaded_otherwise(
            patch.object(rules, "called_condition", exchange_by(right))))

    def test_reading(self):
        for wrong in WRONG:
            self.assertTrue(self.read_otherwise(wrong), wrong)

    def test_exchange(self):
        for number, wrong in enumerate(WRONG_EXCHANGES):
            self.assertTrue(self.loaded_otherwise(
                patch.object(rules, "called_condition", exchange_by(wrong))), number)

    def test_kind_1(self):
        """FF FF FF FF in kind 1 is not "any"."""
        def add(stack, kind, events=0):
            wide = kind == 1 and events == ANY
            return apply_record(stack, kind, WIDE_ANY if wide else events)
        apply_record = reading.apply_record
        self.assertTrue(self.loaded_otherwise(
            patch.object(reading, "apply_record", add)))

    def test_events_above_31(self):
        """Clause 4 goes through all 64 events."""
        for last in (32, 48, 63):
            def places(tree, last=last):
                held = places_of(tree)
                return held._replace(holding={event: some for event, some
                                              in held.holding.items() if event < last})
            with patch("reference.certificates.places_of", places):
                self.assertTrue(any(
                    load_line(case.data, FOUR_CHANNEL) != case.line
                    for case in exchanges.event_cases()), last)


class OverEvents(unittest.TestCase):
    """Places and clauses do not depend on the number of events that there are."""

    def test_verdicts(self):
        """Of two instruments that differ in events alone, from 32 up, the smaller one's
        answer is 7 at an event step that only the larger takes, or the larger one's
        with all its values."""
        draws, found = Draws(718), Counter()
        sheets = true_on_channels()
        cases = [r.encode(sheet) for sheet in sheets]
        cases += [case.data for case in chain(
            faults.certificate_faults(719, sheets, 1, range(1, 27), FOUR_CHANNEL),
            faults.changed_bytes(720, sheets, 2),
            faults.changed_records(721, sheets, 1))]
        for data in cases:
            small = draws.between(32, 63)
            answers = [verdict(data, FOUR_CHANNEL._replace(events=events))
                       for events in (small, draws.between(small, 200))]
            if answers[0] != answers[1]:
                self.assertEqual((answers[0].number, data[answers[0].place]), (7, 10))
                self.assertGreaterEqual(data[answers[0].place + 5], small)
            found[answers[0] == answers[1], line_of(answers[1]).split()[0]] += 1
        for same in (True, False):
            for line in ("accepted", "unproved"):
                self.assertGreater(found[same, line], 10)

    def test_words(self):
        """The word test's answer is 13 at an event that only the larger takes, or the
        larger one's."""
        draws, found = Draws(722), Counter()
        data = r.condition((STAR, (LEAF, WIDE_ANY ^ 1 << 40))) + TAIL
        for _ in range(400):
            word = tuple(draws.below(70) for _ in range(draws.below(5)))
            small = draws.between(32, 70)
            larger = draws.between(small, 80)
            line, other = (word_line(data, 0, word,
                                     FOUR_CHANNEL._replace(events=events))
                           for events in (small, larger))
            if line != other:
                at = int(line.removeprefix("refused 13 at "))
                self.assertTrue(small <= word[at] < larger
                                and max(word[:at], default=0) < small)
            found[line == other, without_number(line).split(" at ")[0]] += 1
        self.assertEqual(set(found), {(True, "yes"), (True, "no"), (True, "refused 13"),
                                      (False, "refused 13")})


class Texts(unittest.TestCase):
    HEAD = ("condition a = empty", "point p past a own a due a",
            "method m pre a trace a future a entry p exit p",
            "primitive f pre a trace a future a",
            "primitive g pre a trace a future a failed trace a failed future a")

    def fault(self, line, instrument=FOUR_CHANNEL):
        with self.assertRaises(TextError) as caught:
            assemble("\n".join(self.HEAD + (line,)), instrument)
        self.assertEqual(caught.exception.line, 6)
        return str(caught.exception)

    def test_errors(self):
        ends = ("a step ends with: event EVENT, call METHOD, call METHOD failing to "
                "POINT, call METHOD channel NUMBER, or pass")
        for line, message in (
                ("step p -> p call f channel", ends),
                ("step p -> p call f channel 1 2", ends),
                ("step p -> p call f on 1", ends),
                ("step p -> p call f channel x", "'x' is not a number from 0 to 255"),
                ("step p -> p call f channel -1", "'-1' is not a number from 0 to 255"),
                ("step p -> p call f channel 256",
                 "'256' is not a number from 0 to 255"),
                ("step p -> p call h channel 1", "unknown method 'h'"),
                ("step q -> p call f channel 1", "unknown point 'q'"),
                ("step p -> p event 64", "event 64 is above 63"),
                ("event e = 64", "event 64 is above 63"),
                ("condition b = {3,64}", "event 64 is above 63")):
            self.assertEqual(self.fault(line), message)

    def test_other_instruments(self):
        for instrument in TWO_CHANNEL.values():
            self.assertEqual(self.fault("step p -> p call f channel 1", instrument),
                             "a call on a channel is for the four-channel instrument")
            self.assertEqual(self.fault("step p -> p event 32", instrument),
                             "event 32 is above 31")
            self.assertEqual(self.fault("condition b = {32}", instrument),
                             "event 32 is above 31")

    def test_refused_26(self):
        """A wrong call is assembled; the loader refuses it."""
        for method, channel, right in (("f", 0, True), ("f", 3, True), ("f", 4, False),
                                       ("f", 255, False), ("m", 0, False),
                                       ("g", 1, False)):
            data = assemble("\n".join(self.HEAD + (
                f"step p -> p call {method} channel {channel}",)), FOUR_CHANNEL)
            line = load_line(data, FOUR_CHANNEL)
            self.assertEqual(line, "accepted 11" if right else "refused 26 at 38")

    def test_leaves(self):
        """Kind 21 where an event is above 31; any is all 64."""
        for text, data in (
                ("{31}", r.item(LEAF, 1 << 31)), ("{32}", r.wide_leaf(1 << 32)),
                ("any", r.wide_leaf(WIDE_ANY)), ("none", r.item(LEAF, 0)),
                ("not {0}", r.wide_leaf(WIDE_ANY ^ 1)),
                ("not not {0,63}", r.wide_leaf(1 << 63 | 1))):
            made = assemble("\n".join((f"condition b = {text}",) + self.HEAD),
                            FOUR_CHANNEL)
            self.assertEqual(made[:len(data) + 1], data + b"\x06")
        minimal = "\n".join(self.HEAD[:3])
        self.assertEqual(assemble(minimal, FOUR_CHANNEL), M)

    def test_show(self):
        draws = Draws(723)
        for _ in range(300):
            tree = random_tree(draws, draws.between(1, 12), [0, 31, 32, 63], 0.1,
                               draws.pick((ANY, WIDE_ANY)))
            self.assertEqual(parse_expression(show(tree, 64), {}, 64), tree)
        self.assertEqual([show((LEAF, events), 64) for events in
                          (WIDE_ANY, WIDE_ANY ^ 1, 1 << 40)],
                         ["any", "not {0}", "{40}"])
        self.assertNotIn("any", show((LEAF, ANY), 64))

    def test_disassemble(self):
        data = assemble(exchanges.whole_text(2), FOUR_CHANNEL)
        lines = disassemble(data, FOUR_CHANNEL)
        shown = [line.lstrip().split("  ", 1)[-1] for line in lines]
        for line in ("15    leaf {3,36}", "15    leaf {0,37}", "01    leaf {9}",
                     "16  call step 1: from 1 to 2 method 2 channel 2"):
            self.assertIn(line, shown)
        self.assertEqual(lines[-1], "accepted 21")
        self.assertEqual(disassemble(data)[-1], load_line(data))
        for case in islice(channels.record_cases(), 0, None, 3):
            if len(case.data) < 300:
                for instrument in INSTRUMENTS.values():
                    self.assertEqual(disassemble(case.data, instrument)[-1],
                                     load_line(case.data, instrument))

    def test_names_like_words(self):
        """A method may be called channel."""
        data = assemble("\n".join(self.HEAD + (
            "primitive channel pre a trace a future a",
            "step p -> p call channel channel 2", "step p -> p call channel")),
            FOUR_CHANNEL)
        self.assertEqual(load_line(data, FOUR_CHANNEL), "accepted 16")


class Programs(unittest.TestCase):
    """The option of the programs of this folder."""

    def test_four(self):
        run = test_reference.Programs().run_module
        data = assemble(exchanges.whole_text(3), FOUR_CHANNEL)
        option = "--instrument", "four"
        self.assertEqual(run("reference.loader", *option, data=data),
                         (0, b"accepted 21\n", ""))
        code, out, _ = run("sheets.disassemble", *option, data=data)
        self.assertEqual((code, out.splitlines()[-1]), (0, b"accepted 21"))
        with NamedTemporaryFile("wb") as sheet, NamedTemporaryFile("w") as text:
            sheet.write(data)
            text.write(exchanges.whole_text(3))
            sheet.flush()
            text.flush()
            self.assertEqual(run("sheets.assemble", *option, text.name), (0, data, ""))
            for number, event, line in ((1, "3", b"yes"), (1, "52", b"yes"),
                                        (1, "4", b"no 0"), (1, "64", b"refused 13 at 0")):
                self.assertEqual(run("reference.wordtest", *option, sheet.name,
                                     str(number), event), (0, line + b"\n", ""))
            code, out, error = run("sheets.assemble", text.name)
            self.assertEqual((code, out), (1, b""))
            self.assertIn("is above 31", error)


class Stored(unittest.TestCase):
    FILES = {"four_reading": channels.four_reading_cases,
             "reading": channels.reading_cases,
             "entry_reading": channels.entry_reading_cases,
             "four_sheets": exchanges.single_cases}
    entries = test_outcomes.AsBefore.entries

    @classmethod
    def setUpClass(cls):
        cls.stored = test_reference.Vectors
        cls.stored.setUpClass()

    def test_stored(self):
        """Each case is stored, with its line."""
        for name, cases in self.FILES.items():
            stored = dict(zip(self.stored.cases(name), self.stored.lines[name]))
            for case in cases():
                self.assertIn(case.data, stored)
                if case.line is not None:
                    self.assertTrue(faults.agrees(case, stored[case.data]), case.label)

    def test_answers(self):
        """26 has come up in each file of the four-channel instrument and in no other;
        2 for kinds 21 and 22 in each of the others."""
        for name, lines in self.stored.lines.items():
            found = Counter(line.split(" at ")[0] for line in lines)
            self.assertEqual(found["refused 26"] > 10, name.startswith("four"), name)
            if name.startswith("four"):
                continue
            twos = Counter(sheet[int(line.split()[-1])] for sheet, line
                           in self.entries(name) if line.startswith("refused 2 at "))
            self.assertGreater(twos[21], 2, name)
            if not name.endswith("words"):
                self.assertGreater(twos[22], 2, name)

    def test_events(self):
        """Events above 31 are named in clause 4, in every quarter."""
        found = Counter(int(line.split()[10]) // 16 for line in
                        self.stored.lines["four_sheets"] if " clause 4 " in line)
        self.assertGreater(min(found[channel] for channel in range(4)), 20)


class AsBefore(test_outcomes.AsBefore):
    """The two-channel instruments judge every sheet as before; the four-channel one
    gives the large one's answer where nothing of Ask 11 is used."""
    KINDS = 20
    FORMER = {
        "reading": (2310007, "07100f5a9dfc0859", 13300, 0),
        "sheets": (3651142, "c02a1b0c243199a9", 7138, 0),
        "words": (1319017, "5317695252cf6db3", 23653, 0),
        "entry_reading": (947155, "be578b2364b33f69", 3431, 0),
        "entry_sheets": (1020883, "25f493b424dd0679", 1639, 0),
        "entry_words": (217242, "65e5caec1a761204", 1614, 0)}
    DIGEST = "a45a99d153cbac96"
    test_what_differs = None   # the two-channel instruments have the kinds they had

    def test_former_lines(self):
        """Every former line is the present one without the number of a no."""
        lines = [without_number(line) + "\n" for name, (_, _, count, _) in self.FORMER.items()
                 for line in self.stored.lines[name][:count]]
        digest = sha256("".join(lines).encode()).hexdigest()
        self.assertEqual(digest[:16], self.DIGEST)

    def differing(self, data, line, other):
        """Whether the line of the four-channel instrument is another than the large
        one's: then that is 2 or 7 at the first record of kinds 21 and 22, or event step
        above 31."""
        later = first_later(data)
        if line == other:
            return False
        self.assertIsNotNone(later)
        self.assertEqual(line, f"refused {later[0]} at {later[1]}")
        return True

    def test_same_on_four(self):
        """Every former stored sheet, read and loaded."""
        found = Counter()
        for name, line_of_ in (("reading", reading_line), ("sheets", load_line)):
            former = islice(self.entries(name), self.FORMER[name][2])
            for data, line in former:
                other = line_of_(data, FOUR_CHANNEL)
                found[name, self.differing(data, line, other)] += 1
        self.assertEqual(found["reading", True] + found["reading", False], 13300)
        self.assertEqual(found["sheets", True] + found["sheets", False], 7138)
        self.assertTrue(0 < found["reading", True] < 500)
        self.assertTrue(found["sheets", True] < 50)

    def test_same_words_on_four(self):
        """Every former stored word; with an event above 31 the large one gives 13."""
        lines, found = iter(self.stored.lines["words"]), Counter()
        count = self.FORMER["words"][2]
        for data, words in self.stored.groups("words"):
            sheet = read_sheet(data, FOUR_CHANNEL)
            for number, word in words:
                line = next(lines)
                if not count:
                    continue
                count -= 1
                other = word_line_of(sheet, number, word, FOUR_CHANNEL)
                if line != other and first_later(data) is None:
                    at = int(line.removeprefix("refused 13 at "))
                    self.assertIn(word[at], range(32, 64))
                    self.assertLess(max(word[:at], default=0), 32)
                    found["13"] += 1
                elif line != other:
                    self.assertTrue(self.differing(data, line, other))
        self.assertGreater(found["13"], 5)

    def test_same_verdicts(self):
        """Random sheets of the large instrument, whole and changed, have the same
        verdict, with all its values; those of the four-channel instrument give 2 or 7
        on the large one at their first such record, or the refusal before it."""
        found, plain = Counter(), [
            sheet for sheet in channel_sheets(724, 54)] + owners.true_owned(725, 74)
        for case in chain(faults.changed_bytes(726, plain, 4),
                          faults.changed_records(727, plain, 2),
                          (exchanges.Case("", r.encode(sheet)) for sheet in plain)):
            large, four = (verdict(case.data, one) for one in (LARGE, FOUR_CHANNEL))
            later = first_later(case.data)
            if large != four:
                self.assertEqual(large, Refusal(*later))
            found[large == four, later is None, line_of(four).split()[0]] += 1
        for line in ("accepted", "unproved", "refused"):
            self.assertGreater(found[True, True, line], 20)
            self.assertEqual(found[False, True, line], 0)
        self.assertGreater(found[False, False, "accepted"], 20)

    def test_entry(self):
        """What the entry instrument accepts the four-channel one accepts with an equal
        count."""
        for data in self.stored.cases("entry_sheets"):
            answer = verdict(data, ENTRY)
            if isinstance(answer, Accepted):
                self.assertEqual(verdict(data, FOUR_CHANNEL), answer)


if __name__ == "__main__":
    unittest.main()
