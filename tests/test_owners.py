"""Tests of document 02, Ask 9: points with an owner."""
import unittest
from collections import Counter
from functools import lru_cache
from itertools import chain, combinations
from unittest.mock import patch

import test_outcomes
import test_reference
from generate import faults, outcomes, owners, stops
from generate.draws import Draws
from generate.outcomes import FOUR, FRONT, METHODS, PASS, POINT, WORDS
from generate.owners import ALL_SHAPES, THEN_FOUR, THREE, body, owned
from generate.special import EXAMPLES, M
from generate.stops import END, NEW, PAIR
from generate.true_sheets import true_sheets
from reference import reading
from reference.instruments import (ENTRY, FOUR_CHANNEL, INSTRUMENTS, LARGE,
                                   TWO_CHANNEL, Instrument)
from reference.loader import line_of, load_line, verdict, word_line
from reference.reading import (BODY_LENGTHS, SECTIONS, Point, Reader, Refusal,
                               named_fields, read_sheet, reading_line)
from reference.rules import all_rules, certificates_needed, rule_count
from reference.runs import (RETURN, Move, all_owned, first_owner_break, make_move,
                            start)
from sheets import records as r
from sheets.assemble import TextError, assemble
from sheets.disassemble import disassemble
from simulate import Totals, Walker, sheets_read_whole, walk
from test_outcomes import former_answer, sheet_of, uses_later
from test_reference import make

ORDER = [2, 3, 4, 19, 20, 5, 6, 7, 9, 18, 24]
# What the fields of methods and steps name, conditions, points and methods, and where
# they stand in the record.
NAMES = {kind: [(sort, 1 + 2 * index) for index, sort in enumerate(sorts)]
         for kind, sorts in {9: "cccpp", 16: "cccppccp", 10: "pp", 11: "ppm", 12: "pp",
                             17: "pppm"}.items()}


@lru_cache
def plain_sheets():
    """True sheets of every shape without owners."""
    return [sheet for _, sheet in true_sheets(501, 74, 80, ALL_SHAPES)]


def owned_sheets():
    return list(map(owners.owned_sheet, plain_sheets()))


def without_owners(sheet):
    return owners.with_owners(sheet, [None] * len(sheet.points))


def number_at(record, at):
    return int.from_bytes(record[at:at + 2], "little")


def wrong_owners(records, index):
    """Whether 24 holds of a record by itself: each two of the points that it joins have
    one owner, and a method's points its number, where they have an owner at all. Names
    that do not exist are passed over."""
    points = [number_at(one, 7) if one[0] == 20 else None
              for one in records if one[0] in (7, 20)]
    one = records[index]
    named = [number_at(one, at) for sort, at in NAMES.get(one[0], ())
             if sort == "p" and at + 2 <= len(one)]
    held = [points[end] for end in named if end < len(points)]
    if one[0] in (9, 16):
        number = sum(SECTIONS[other[0] - 1] == 3 for other in records[:index])
        return any(owner not in (None, number) for owner in held)
    return any(None not in two and two[0] != two[1] for two in combinations(held, 2))


def judged(data):
    """Refusal 24 or 25 of bytes of which nothing else is wrong while reading, or None:
    by the text of Ask 9, on the whole list of records."""
    records = faults.records_of(data)
    places = [sum(map(len, records[:index])) for index in range(len(records))]
    for index in range(len(records)):
        if wrong_owners(records, index):
            return Refusal(24, places[index])
    methods = sum(SECTIONS[one[0] - 1] == 3 for one in records)
    for one, place in zip(records, places):
        if one[0] == 20 and number_at(one, 7) >= methods:
            return Refusal(25, place)
    return None


class Reading(unittest.TestCase):
    def lines(self, *cases):
        """Each case is the bytes, and the line or what follows `refused`."""
        for data, line in cases:
            if line[0].isdigit():
                line = f"refused {line}"
            for instrument in INSTRUMENTS.values():
                self.assertEqual(reading_line(data, instrument), line, data.hex())

    def test_least_sheets(self):
        """M with an owner, and with one more point whose owner is none."""
        self.assertEqual((owners.M20, len(owners.M20)),
                         (M[:2] + b"\x14" + bytes(8) + M[9:], 43))
        for edition in (b"", NEW):
            at = len(edition)
            self.assertEqual(load_line(edition + owners.M20), "accepted 6")
            for owner in (1, 256, 65535):
                self.assertEqual(load_line(edition + M[:2] + owned(owner) + M[9:]),
                                 f"refused 24 at {at + 11}")
                self.assertEqual(load_line(edition + M[:9] + owned(owner) + M[9:]),
                                 f"refused 25 at {at + 9}")

    def test_kinds(self):
        """Length, section, and no kind above the instrument's."""
        self.assertEqual((BODY_LENGTHS[19:20], SECTIONS[19:20]), ((8,), (2,)))
        for instrument in TWO_CHANNEL.values():
            self.assertEqual(instrument.kinds, 20)
            for kind in (0, *range(21, 256)):
                self.assertEqual(reading_line(bytes([kind]) + bytes(20), instrument),
                                 "refused 2 at 0")
            for kinds in (14, 17, 19):
                former = instrument._replace(kinds=kinds)
                for data, place in ((owners.M20, 2), (b"\x14", 0), (FRONT + b"\x14", 2),
                                    (FRONT + POINT + owned(9), 9)):
                    self.assertEqual(load_line(data, former), f"refused 2 at {place}")

    def test_fields(self):
        """Each field in its place, low byte first; kind 7 has no owner."""
        front, rest = FRONT * 256 + b"\x14\x01\x00\x02\x00\xff\x00", owned(0)
        rest += r.point(1, 2, 3) + r.method(0, 0, 0, 1, 2) + METHODS[8] * 63
        data = front + b"\x3f\x00" + rest
        sheet = read_sheet(data)
        self.assertEqual(sheet.points, [Point(1, 2, 255, 63), Point(0, 0, 0, 0),
                                        Point(1, 2, 3, None)])
        self.assertEqual([point.kind for point in sheet.points], [20, 20, 7])
        self.assertEqual(r.encode(sheet), data)
        for owner in (b"\x40\x00", b"\x00\x01", b"\x3f\x01"):
            self.assertEqual(read_sheet(front + owner + rest), Refusal(25, 512))

    def test_sections(self):
        """Kind 20 stands where kind 7 stands."""
        self.lines(
            (owned(0), "7 at 0"), (NEW + owned(0), "7 at 1"),
            (FRONT + owned(0), "9 at 11"),
            (b"\x02" + owned(0), "4 at 1"), (FRONT + b"\x02" + owned(0), "4 at 3"),
            (FRONT + POINT + METHODS[9] + owned(0), "4 at 20"),
            (FOUR + PASS + owned(0), f"4 at {len(FOUR) + 5}"),
            (FOUR + END + owned(0), f"4 at {len(FOUR) + 1}"),
            (FOUR + PAIR + owned(0), f"4 at {len(FOUR) + 6}"),
            (FRONT + owned(0) + b"\x02", "4 at 11"),
            (FRONT + owned(0) + POINT + owned(0) + METHODS[9], "read 1 3 1 0 0"),
            *((FRONT + owned(65535)[:length], "3 at 2") for length in range(1, 9)))

    def test_unknown_names(self):
        """7 judges past, own and due, and not the owner."""
        for owner in (0, 9, 65535):
            for names in ((1, 0, 0), (0, 1, 0), (0, 0, 1)):
                self.lines((FRONT + owned(owner, *names) + METHODS[9], "7 at 2"))
        self.lines((FRONT + POINT + owned(65535), "9 at 18"),
                   (FRONT + POINT + owned(65535) + METHODS[9], "25 at 9"))

    def test_unknown_owners(self):
        """25 at the end: an owner is below the number of methods, of any kind."""
        for count in (1, 2, 3, 4, 64):
            for owner in (0, count - 1, count, 255, 256, 0xFF00, 65535, count + 256):
                self.lines((FRONT + POINT + owned(owner) + owners.some_methods(count),
                            "25 at 9" if owner >= count else f"read 1 2 {count} 0 0"))
        self.lines(
            (FRONT + POINT + owned(0) + owned(2) + owned(1) + METHODS[9], "25 at 18"),
            (FRONT + POINT + owned(1) + owned(2) + METHODS[9] + METHODS[8], "25 at 18"),
            (FRONT + owned(1) + owned(1) + POINT + body(9, 2, 2) + METHODS[8],
             "read 1 3 2 0 0"))

    def test_order_at_the_end(self):
        """8, 9, 25, 10."""
        bad = FRONT + POINT + owned(1)
        self.lines((bad, "9 at 18"), (bad + PAIR, "8 at 24"), (bad + END, "9 at 19"),
                   (bad + METHODS[9] + PAIR, "8 at 35"),
                   (bad + METHODS[9] + END, "25 at 9"),
                   (bad + METHODS[9] + METHODS[8] + END, "read 1 2 2 0 1"))
        for ends in range(5):
            data = bad + METHODS[9] + END * ends
            self.assertEqual(load_line(data), "refused 25 at 9")
            data = bad + METHODS[9] + METHODS[8] + END * ends
            self.assertEqual(load_line(data).split()[0],
                             "unproved" if ends == 3 else "refused")

    def test_wrong_owners(self):
        """24 at methods and steps; an unowned point agrees with any."""
        four, at = THREE + THEN_FOUR, len(THREE + THEN_FOUR)
        self.lines(
            (THREE + body(9, 1, 0), "25 at 18"), (THREE + body(9, 2, 0), "24 at 27"),
            (THREE + body(9, 0, 2), "24 at 27"), (THREE + body(9, 1, 1), "25 at 18"),
            (THREE + body(16, 0, 1, 2), "24 at 27"),
            (THREE + METHODS[9] + body(16, 2, 0, 2), "read 1 3 2 0 0"),
            (THREE + METHODS[9] + body(16, 0, 0, 1), "24 at 38"),
            (four + r.pass_step(0, 1) + r.pass_step(0, 2), "read 1 3 4 2 0"),
            (four + r.pass_step(1, 2), f"24 at {at}"),
            (four + r.event_step(2, 1, 0), f"24 at {at}"),
            (four + r.call_step(1, 2, 0), f"24 at {at}"),
            (four + r.call_step(1, 0, 1), "read 1 3 4 1 0"),
            (four + r.failing_call(0, 1, 2, 2), f"24 at {at}"),
            (four + r.failing_call(1, 0, 2, 2), f"24 at {at}"),
            (four + r.failing_call(1, 2, 0, 2), f"24 at {at}"),
            (four + r.failing_call(2, 2, 0, 3), "read 1 3 4 1 0"),
            (NEW + four + r.stop_step(1) + r.stop_step(2), "read 1 3 4 2 0"))

    def test_order_at_one_record(self):
        """Each pair with 24 that can meet at a record does so among the cases."""
        met = set()
        for case in chain(owners.two_fault_cases(), owners.count_limit_cases(LARGE)):
            result = read_sheet(case.data)
            if not isinstance(result, Refusal) or result.number not in ORDER:
                continue
            both = self.faults_at(case.data, result.place)
            self.assertEqual(result.number, min(both, key=ORDER.index), case.label)
            met |= {one for one in both if 24 in both}
        self.assertEqual(met, {3, 4, 6, 7, 18, 24})

    @staticmethod
    def faults_at(data, place):
        """Every refusal that holds of a method or step at a place, by itself."""
        records, kind = faults.records_of(data[:place]), data[place]
        sections = [SECTIONS[one[0] - 1] for one in records]
        section, length = SECTIONS[kind - 1], BODY_LENGTHS[kind - 1]
        one = data[place:place + 1 + length]
        found = [24] * wrong_owners(records + [one], len(records))
        found += [4] * (sections[-1] > section)
        found += [6] * (sections.count(section) >= {3: 64, 4: 512}[section])
        if len(one) <= length:
            return found + [3]
        counts = {"c": sum(other[0] == 6 for other in records),
                  "p": sections.count(2), "m": sections.count(3)}
        names = [(sort, number_at(one, at)) for sort, at in NAMES[kind]]
        found += [7] * (any(name >= counts[sort] for sort, name in names)
                        or kind == 10 and one[5] > 31)
        kinds = [other[0] for other, part in zip(records, sections) if part == 3]
        found += [18] * any(sort == "m" and name < len(kinds)
                            and (kinds[name] > 9) != (kind == 17)
                            for sort, name in names)
        return found

    def test_cases_by_construction(self):
        for instrument in (LARGE, ENTRY):
            seen = Counter()
            for case in chain(owners.record_cases(), owners.limit_cases(instrument)):
                if case.line is not None:
                    self.assertEqual(reading_line(case.data, instrument),
                                     case.line, case.label)
                    seen[case.line.split(" at ")[0]] += 1
            for number in (2, 3, 4, 6, 7, 8, 9, 18, 24, 25):
                self.assertGreater(seen[f"refused {number}"], 4, number)
        other = Instrument(5000, 7)
        for case in owners.limit_cases(other):
            self.assertEqual(reading_line(case.data, other), case.line, case.label)

    def test_read_back(self):
        for sheet in owned_sheets():
            self.assertEqual(read_sheet(r.encode(sheet)), sheet)

    def test_judged(self):
        """Another reading of Ask 9 says the same of sheets with changed owners."""
        draws, found = Draws(502), Counter()
        changed = [case.data for case in chain(
            owners.owner_changes(503, owned_sheets(), 8),
            owners.pasted_steps(504, owned_sheets(), 4),
            owners.unknown_owner_sheets(517, owned_sheets()))]
        changed += [r.encode(owners.random_sheet(draws, 0.02)) for _ in range(400)]
        for data in changed:
            result = read_sheet(data)
            refusal = result if isinstance(result, Refusal) else None
            self.assertEqual(refusal, judged(data))
            found[refusal and refusal.number] += 1
        self.assertEqual(set(found), {None, 24, 25})
        self.assertGreater(min(found.values()), 50)

    def test_words(self):
        """24 and 25 come before 14, 12 and 13; 10 and 11 do not matter."""
        bad = FRONT + POINT + owned(1) + METHODS[9]
        wrong = THREE + body(9, 0, 2)
        for data, line in ((bad, "refused 25 at 9"), (bad + END, "refused 25 at 9"),
                           (wrong, "refused 24 at 27")):
            for number, word in ((0, ()), (9, ()), (0, (32,)), (0, (1,) * 4097)):
                for instrument in INSTRUMENTS.values():
                    self.assertEqual(word_line(data, number, word, instrument), line)
        self.assertEqual(word_line(bad + METHODS[8], 0, ()), "yes")


class Elsewhere(unittest.TestCase):
    """A point with an owner behaves as one without in all else."""

    def test_owners(self):
        """Most points of most sheets can have one."""
        found = Counter(point.owner is None for sheet in owned_sheets()
                        for point in sheet.points)
        self.assertGreater(found[False], 4 * found[True])
        self.assertGreater(sum(map(all_owned, owned_sheets())), 40)

    def test_rules(self):
        for plain, sheet in zip(plain_sheets(), owned_sheets()):
            self.assertEqual(list(all_rules(sheet)), list(all_rules(plain)))
            self.assertEqual((rule_count(sheet), certificates_needed(sheet)),
                             (rule_count(plain), certificates_needed(plain)))
            self.assertEqual(r.with_certificates(sheet).certificates,
                             plain.certificates)
            self.assertEqual(without_owners(sheet), plain)

    def test_verdicts(self):
        """The verdict, with all its values, is that without owners; of refusal 10 the
        place is the length."""
        found = Counter()
        cases = chain(
            faults.certificate_faults(505, plain_sheets(), 1),
            faults.broken_rules(506, 1, range(1, 27), stops.STOPPING_SHAPES),
            faults.certificate_counts(507, plain_sheets()[:4]))
        for data in chain(map(r.encode, plain_sheets()), (case.data for case in cases)):
            changed = owners.owned_data(data)
            before, after = verdict(data), verdict(changed)
            if isinstance(before, Refusal):
                self.assertEqual((before, after), (Refusal(10, len(data)),
                                                   Refusal(10, len(changed))))
            else:
                self.assertEqual(after, before)
            found[line_of(before).split()[0]] += 1
        self.assertGreater(min(found.values()), 20)
        self.assertEqual(set(found), {"accepted", "unproved", "refused"})

    def test_runs(self):
        """So is every run."""
        draws = Draws(508)
        for plain, sheet in zip(plain_sheets(), owned_sheets()):
            walker, run = Walker(draws, plain), start(plain)
            for _ in range(40):
                move = walker.move(run)
                after = make_move(plain, run, move)
                self.assertEqual(make_move(sheet, run, move), after)
                run = after

    def test_unknown_owner_first(self):
        """25 comes before 10 and before any rule."""
        cases = list(owners.unknown_owner_sheets(509, owned_sheets()[:20]))
        for case in cases:
            self.assertEqual(load_line(case.data), case.line)
        self.assertEqual(len(cases), 100)

    def test_same_sheets(self):
        """The stored true sheets without owners are among the stored cases."""
        stored = test_reference.Vectors
        sheets = set(stored.cases("sheets"))
        for sheet in owners.same_sheets(0.1):
            self.assertIn(r.encode(sheet), sheets)
            self.assertIn(r.encode(owners.owned_sheet(sheet)), sheets)

    def test_limits(self):
        for instrument in INSTRUMENTS.values():
            case = owners.full_limits(instrument)
            self.assertEqual(load_line(case.data, instrument), case.line)
            sheet = read_sheet(case.data)
            self.assertEqual(len(sheet.points), instrument.points)
            self.assertTrue(all_owned(sheet))


# Two methods of two points each, and a primitive that may fail.
BOTH = "edition new\n" + WORDS + """point a past all own all due all owner main
point b past all own all due all owner main
point c past all own all due all owner walk
point d past all own all due all owner walk
method main pre all trace all future all entry a exit b
method walk pre all trace all future all entry c exit d failed trace all failed future all failed exit d
primitive try pre all trace all future all failed trace all failed future all
"""
WALK = "step a -> b call walk failing to b\n"
# What is added or changed, and moves by which a run then comes to another's point.
WITHOUT_24 = {
    "event step": ("step a -> c event 0", (Move(0),)),
    "pass step": ("step a -> c pass", (Move(0),)),
    "call of a primitive": ("step a -> c call try failing to b", (Move(0, ()),)),
    "call that fails": ("step a -> b call try failing to c", (Move(0, (), True),)),
    "return": ("step a -> c call main\nstep a -> b pass", (Move(0), Move(1), RETURN)),
    "failing return": (WALK.replace("to b", "to c") + "step c -> d pass",
                       (Move(0), Move(1), Move(failed=True))),
    "entry of method 0": (("method main", "entry c"), ()),
    "entry of a called method": (("method walk", "entry b"), (Move(0),))}


class Runs(unittest.TestCase):
    """If all points have owners, the point of a run belongs to the active method."""

    @staticmethod
    def read_without_24(data):
        """What reading gives that leaves refusal 24 out."""
        with patch.object(Reader, "has_other_owner", return_value=False):
            return read_sheet(data)

    def text(self, change):
        if isinstance(change, tuple):
            return outcomes.changed_text(BOTH + WALK, [change])
        return BOTH + change

    def test_keeps(self):
        """Without the step at fault the owner is the active method, also where a run
        stops and after a return."""
        sheet = sheet_of(BOTH + WALK + "step c stop\nstep c -> d pass\nstep a stop")
        for moves, owner in (((), 0), ((Move(0),), 1), ((Move(0), Move(1)), 1),
                             ((Move(0), Move(2)), 1), ((Move(0), Move(2), RETURN), 0),
                             ((Move(3),), 0)):
            run = make(sheet, *moves)
            self.assertIsNone(first_owner_break(sheet, run))
            self.assertEqual((sheet.points[run.point].owner, run.active.method),
                             (owner, owner))

    def test_each_part_of_24(self):
        """Where 24 is left out, each part of it lets a run come to another's point. A
        method's exits alone do not: no run comes to one of another owner."""
        for label, (change, moves) in WITHOUT_24.items():
            data = assemble(self.text(change))
            self.assertEqual(read_sheet(data).number, 24, label)
            sheet = self.read_without_24(data)
            run = start(sheet)
            for move in moves:
                self.assertIsNone(first_owner_break(sheet, run), label)
                after = make_move(sheet, run, move)
                self.assertNotEqual(after, run, label)
                run = after
            call, broken = first_owner_break(sheet, run)
            self.assertEqual((call, broken), (run.active, "owner"), label)

    def test_after_the_end(self):
        """Where no call is open, nothing is said."""
        data = assemble(self.text("step a -> b pass\nstep b -> c pass"))
        sheet = self.read_without_24(data)
        run = make(sheet, Move(0), RETURN)
        self.assertTrue(run.ended)
        for point in range(4):
            self.assertIsNone(first_owner_break(sheet, run._replace(point=point)))

    def test_not_all_owned(self):
        """By one point without an owner a run comes to another's point."""
        text = (BOTH + "point e past all own all due all\n"
                "step a -> e pass\nstep e -> c pass")
        sheet = sheet_of(text)
        self.assertFalse(all_owned(sheet))
        run = make(sheet, Move(0), Move(1))
        self.assertEqual((sheet.points[run.point].owner, run.active.method), (1, 0))
        self.assertIsNone(first_owner_break(sheet, run))

    def test_accepted(self):
        """Random runs of accepted sheets."""
        totals, draws = Totals(), Draws(510)
        for sheet in filter(all_owned, owned_sheets()):
            walker = Walker(draws, sheet)
            for _ in range(6):
                self.assertIsNone(walk(walker, totals, 0))
        for way in ("outermost", "inside", "returned", "stopped"):
            self.assertGreater(totals.owned[way], 20, way)

    def test_read_whole(self):
        """Random runs of any sheets that are read whole; most are not accepted."""
        totals, draws, found = Totals(), Draws(511), Counter()
        for sheet in sheets_read_whole(512, 150):
            found[line_of(verdict(r.encode(sheet), FOUR_CHANNEL)).split()[0]] += 1
            walker = Walker(draws, sheet)
            for _ in range(6):
                self.assertIsNone(walk(walker, totals, 0, Walker.ask_9))
        for way in ("outermost", "inside", "returned", "stopped"):
            self.assertGreater(totals.owned[way], 100, way)
        self.assertGreater(found["unproved"], 50)
        self.assertEqual(found["refused"], 0)

    def test_random_without_24(self):
        """Of random sheets that go astray, a reading that leaves 24 out takes some of
        which runs break it; the reading takes none."""
        draws, found = Draws(513), Counter()
        for _ in range(400):
            data = r.encode(owners.random_sheet(draws, 0.05))
            whole = not isinstance(read_sheet(data), Refusal)
            walker = Walker(draws, self.read_without_24(data))
            broken = [walk(walker, Totals(), 0, Walker.ask_9) for _ in range(6)]
            found[whole, any(broken)] += 1
        self.assertEqual(found[True, True], 0)
        self.assertGreater(min(found[True, False], found[False, True]), 50)


class Texts(unittest.TestCase):
    HEAD = ("condition a = empty", "point p past a own a due a owner m",
            "method m pre a trace a future a entry p exit p")

    def test_errors(self):
        form = ("expected: point NAME past .. own .. due .., "
                "then all or none of owner ..")
        for line, message in (
                ("point q past a own a due a owner", form),
                ("point q past a own a due a owned m", form),
                ("point q past a own a owner m due a", form),
                ("point q past a own a due a owner m owner m", form),
                ("point q past a own a due a owner m m", form),
                ("point q past a own a", form),
                ("point q past a own a due b owner m", "unknown condition 'b'"),
                ("point q past a own a due a owner n", "unknown method 'n'"),
                ("point q past a own a due a owner 0", "unknown method '0'"),
                ("point q past a own a due a owner p", "unknown method 'p'")):
            for last in ((), ("step p -> p pass",)):
                with self.assertRaises(TextError) as caught:
                    assemble("\n".join(self.HEAD + (line,) + last))
                self.assertEqual((caught.exception.line, str(caught.exception)),
                                 (4, message))
        with self.assertRaises(TextError) as caught:
            assemble("\n".join(self.HEAD[:2]))
        self.assertEqual((caught.exception.line, str(caught.exception)),
                         (2, "there is no method"))

    def test_owner_anywhere(self):
        """A method may be named before it is defined, and behind; also a primitive."""
        lines = list(self.HEAD) + ["point q past a own a due a owner f",
                                   "primitive f pre a trace a future a",
                                   "point s past a own a due a",
                                   "point t past a own a due a owner m"]
        sheet = sheet_of("\n".join(lines))
        self.assertEqual([point.owner for point in sheet.points], [0, 1, None, 0])
        self.assertEqual(load_line(r.encode(sheet)), "accepted 6")

    def test_names_like_keys(self):
        """A condition, a point and a method may be called owner."""
        sheet = sheet_of("""condition owner = empty
point owner past owner own owner due owner owner owner
method owner pre owner trace owner future owner entry owner exit owner""")
        self.assertEqual(load_line(r.encode(sheet)), "accepted 6")
        self.assertEqual(r.encode(sheet), owners.M20)

    def test_wrong_owner(self):
        """It is assembled; the loader refuses it."""
        data = assemble("\n".join(self.HEAD + (
            "primitive f pre a trace a future a", "point q past a own a due a owner f",
            "step p -> q pass")))
        self.assertEqual(load_line(data), "refused 24 at 38")

    def test_last_line(self):
        """What is wrong with the whole sheet is told of its last line."""
        lines = self.HEAD + tuple(f"condition c{number} = " + "any " * 31
                                  for number in range(50))
        with self.assertRaises(TextError) as caught:
            assemble("\n".join(lines), ENTRY)
        self.assertEqual(caught.exception.line, 53)

    def test_disassemble(self):
        lines = disassemble((EXAMPLES / "owned_points.sheet").read_bytes())
        shown = [line.lstrip().split("  ", 1)[-1] for line in lines]
        for line in ("14  point 0: past 0 own 0 due 1 owner 0",
                     "14  point 5: past 5 own 4 due 3 owner 1"):
            self.assertIn(line, shown)
        self.assertEqual(lines[-1], "accepted 28")

    def test_disassemble_refused(self):
        """24 is told where the records end; 25 is known behind all of them."""
        lines = disassemble((EXAMPLES / "pasted_step.sheet").read_bytes())
        self.assertEqual((lines[-2][:20], lines[-1]),
                         ("   241  0b 05 00 03 ", "refused 24 at 241"))
        lines = disassemble(FRONT + POINT + owned(1) + METHODS[9])
        self.assertEqual(lines[-4:], [
            "     9  14  point 1: past 0 own 0 due 0 owner 1",
            "    18  09  method 0: pre 0 trace 0 future 0 entry 0 exit 0",
            "    29  end", "refused 25 at 9"])
        for case in owners.record_cases():
            if len(case.data) < 300:
                self.assertEqual(disassemble(case.data)[-1], load_line(case.data))

    def test_pasted_step(self):
        """Without owners the loader names a rule of the pasted step, and without the
        step the exercise is accepted."""
        whole = (EXAMPLES / "owned_points.txt").read_text(encoding="utf-8")
        pasted = (EXAMPLES / "pasted_step.txt").read_text(encoding="utf-8")
        step = "step walk_end -> done call close_gate\n"
        self.assertEqual(pasted.split("event open", 1)[1],
                         whole.split("event open", 1)[1] + step)
        plain = without_owners(Runs.read_without_24(assemble(pasted)))
        self.assertRegex(load_line(r.encode(plain)), "^unproved rule 12 step 4 ")


class Wrong(Reader):
    """Reading that can be wrong about owners. As it stands it is right."""
    LOST = None           # a field whose point is not compared
    MASK = 65535          # the part of an owner that 24 compares
    END_MASK = 65535      # the part that 25 compares
    UNOWNED = None        # what stands for no owner
    NUMBER = 0            # what is added to a method's number
    EARLY = ()            # refusals that come behind 24 or 25
    LAST = False          # whether 25 is of the last point
    KINDS = 8, 9, 15, 16  # the methods that 25 counts

    def has_other_owner(self, record):
        names = named_fields(record) if SECTIONS[record.kind - 1] in (3, 4) else {}
        points = [names[end] for end in ("entry", "exit", "failed_exit", "source",
                                         "target", "failed_target")
                  if end in names and end != self.LOST]
        found = [self.sheet.points[point].owner for point in points
                 if point < len(self.sheet.points)]
        if record.kind in (9, 16):
            found.append(len(self.sheet.methods) + self.NUMBER)
        return len({self.UNOWNED if owner is None else owner & self.MASK
                    for owner in found} - {None}) > 1

    def has_bad_name(self, record):
        late = 7 in self.EARLY and self.has_other_owner(record)
        return not late and super().has_bad_name(record)

    def is_call_of_other_outcomes(self, record):
        late = 18 in self.EARLY and self.has_other_owner(record)
        return not late and super().is_call_of_other_outcomes(record)

    def refusal_at_end(self, length):
        count = sum(method.kind in self.KINDS for method in self.sheet.methods)
        places = [place for owner, place in self.owners
                  if owner & self.END_MASK >= count]
        unknown = Refusal(25, places[-self.LAST]) if places else None
        self.owners.clear()
        other = super().refusal_at_end(length)
        if unknown and other and other.number in self.EARLY:
            return unknown
        return other or unknown


WRONG = [{"LOST": end} for end in ("entry", "exit", "failed_exit", "source", "target",
                                   "failed_target")]
WRONG += [{"MASK": 255}, {"MASK": 0xFF00}, {"END_MASK": 255}, {"END_MASK": 0xFF00},
          {"UNOWNED": 0}, {"UNOWNED": 65535}, {"NUMBER": 1}, {"NUMBER": -1},
          {"EARLY": (7, 18)}, {"EARLY": (18,)}, {"EARLY": (8,)}, {"EARLY": (9,)},
          {"LAST": True}, {"KINDS": (9, 16)}, {"KINDS": (8, 9)}]


class Mistakes(unittest.TestCase):
    """Each of these mistakes changes a line of the stored cases."""

    @staticmethod
    @lru_cache
    def cases():
        return [case.data for case in owners.record_cases()]

    def lines_with(self, wrong):
        with patch.object(reading, "Reader", type("Changed", (Wrong,), wrong)):
            return list(map(reading_line, self.cases()))

    def test_right(self):
        self.assertEqual(self.lines_with({}), list(map(reading_line, self.cases())))

    def test_wrong(self):
        right = self.lines_with({})
        for wrong in WRONG:
            self.assertNotEqual(self.lines_with(wrong), right, wrong)


class Stored(unittest.TestCase):
    FILES = {"reading": owners.reading_cases,
             "entry_reading": owners.entry_reading_cases}

    @classmethod
    def setUpClass(cls):
        cls.stored = test_reference.Vectors
        cls.stored.setUpClass()

    def test_stored(self):
        """Each case that is read is stored, with its line."""
        for name, cases in self.FILES.items():
            stored = dict(zip(self.stored.cases(name), self.stored.lines[name]))
            for case in cases():
                self.assertIn(case.data, stored)
                if case.line is not None:
                    self.assertEqual(stored[case.data], case.line, case.label)

    def test_answers(self):
        """Both refusals have come up in each file."""
        for name, lines in self.stored.lines.items():
            found = Counter(line.split(" at ")[0] for line in lines)
            for number in (24, 25):
                self.assertGreater(found[f"refused {number}"], 10, name)


class AsBefore(test_outcomes.AsBefore):
    """Sheets that have no records of kind 20 are judged as before."""
    KINDS = 19
    FORMER = {
        "reading": (1611684, "caa0cef2c312df83", 11787, 61),
        "sheets": (3341616, "ebabf36302823fe5", 6482, 1),
        "words": (1263062, "a59fc2a67755835c", 23367, 0),
        "entry_reading": (807301, "430eb6e49af8b369", 3106, 14),
        "entry_sheets": (903013, "5db7d217104aeb6d", 1413, 0),
        "entry_words": (188517, "6b60ebff0c70b7fa", 1469, 0)}
    DIGEST = "dc1dc76cff1a2093"
    # The lines that are others, from 0: random bytes, the kind 20 alone and among
    # records of requests 2 and 4, and the 256 kinds of request 7.
    OTHERS = {
        "reading": (2007, 2391, 2819, 2823, 3008, 3488, *range(3713, 3716), 4985,
                    *range(4992, 5019), 5916, 5919, *range(6111, 6117),
                    *range(7780, 7796)),
        "sheets": (2817,),
        "entry_reading": (856, *range(1246, 1253), *range(1692, 1698))}

    def test_others(self):
        """Just these lines are others: each was `refused 2 at` a byte 20, and is 3, 4
        or 7 at that byte."""
        for name, (_, _, count, _) in self.FORMER.items():
            instrument, others = self.stored.FILES[name], []
            for index, (data, line) in enumerate(self.entries(name)):
                before = former_answer(data, instrument, self.KINDS)
                if index >= count or before is None:
                    continue
                others.append(index)
                self.assertEqual((before.number, data[before.place]), (2, 20))
                self.assertIn(line, [f"refused {number} at {before.place}"
                                     for number in (3, 4, 7)])
            self.assertEqual(others, list(self.OTHERS.get(name, ())))

    def test_same_verdicts(self):
        """A sheet in which reading meets no record of kind 20 has the same verdict,
        with all its values, on the former instruments of 19 kinds; another one had
        2."""
        found = Counter()
        sheets = plain_sheets()[::2] + owned_sheets()[1::2]
        for case in chain(faults.changed_bytes(514, sheets, 6),
                          faults.changed_records(515, sheets),
                          faults.certificate_faults(516, sheets, 1)):
            for instrument in (LARGE, Instrument(600, 4)):
                former = verdict(case.data, instrument._replace(kinds=19))
                if uses_later(case.data, instrument, 19):
                    self.assertEqual((former.number, case.data[former.place]), (2, 20))
                    found["later"] += 1
                else:
                    self.assertEqual(verdict(case.data, instrument), former)
                    found[line_of(former).split()[0]] += 1
        self.assertEqual(set(found), {"later", "accepted", "unproved", "refused"})
        self.assertGreater(min(found.values()), 20)


if __name__ == "__main__":
    unittest.main()
