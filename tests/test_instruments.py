"""Tests of the reference on both instruments and on any limits: document 02, Ask 8."""
import unittest
from collections import Counter
from functools import lru_cache

from generate import entry, faults, owners
from generate.draws import Draws
from generate.refusals import limit_cases, random_cases
from generate.special import EXAMPLES, M
from generate.true_sheets import true_sheets
from reference.conditions import LEAF
from reference.instruments import (ENTRY, INSTRUMENTS, LARGE, Instrument,
                                   chosen_instrument)
from reference.loader import Accepted, Unproved, load_line, verdict, word_line
from reference.reading import Refusal, Sheet, read_sheet, reading_line
from reference import loader, wordtest
from sheets import records as r
from sheets.assemble import TextError, assemble
from sheets.disassemble import disassemble
from test_outcomes import without_number

FRONT, POINT, METHOD = M[:2], M[2:9], M[9:20]
SMALL = FRONT + POINT + METHOD
END = b"\x0e"


@lru_cache
def some_true_sheets():
    return [sheet for _, sheet in true_sheets(31, 96, 80)]


def walk(points, after=METHOD):
    """A sheet with that many points, and what follows them."""
    return FRONT + POINT * points + after


def long_m(size):
    """M with its first pair again and again, and a condition, up to the size."""
    pairs, rest = divmod(size - len(M) - 2, 6)
    return (FRONT + b"\x02" + b"\x05" * rest + b"\x06" + M[2:20]
            + M[20:26] * pairs + M[20:])


# For each refusal a sheet, and the place; the limits of neither instrument matter.
REFUSED = {2: (SMALL + b"\x00", 20), 3: (SMALL + b"\x0d", 20), 4: (SMALL + POINT, 20),
           5: (FRONT + b"\x03", 2), 6: (r.item(LEAF, 1) * 32, 155),
           7: (SMALL + r.pass_step(0, 1), 20), 8: (M[:-1], 40), 9: (FRONT, 2),
           10: (M + END, 42)}


class Limits(unittest.TestCase):
    """What the two instruments say at their limits."""

    def check(self, data, entry_line, large_line, line_of=load_line):
        self.assertEqual((line_of(data, ENTRY), line_of(data, LARGE)),
                         (entry_line, large_line))
        self.assertEqual(line_of(data), large_line)

    def same(self, data, line, line_of=load_line):
        self.check(data, line, line, line_of)

    def test_values(self):
        self.assertEqual((LARGE, ENTRY),
                         ((65536, 512, 20, 32), (8192, 64, 20, 32)))

    def test_bytes(self):
        for size in (8191, 8192):
            self.same(bytes(size), "refused 2 at 0")
            self.same(long_m(size), "accepted 6")
            self.assertEqual(len(long_m(size)), size)
        for size in (8193, 65536):
            self.check(bytes(size), "refused 1 at 8192", "refused 2 at 0")
            self.check(long_m(size), "refused 1 at 8192", "accepted 6")
        for size in (65537, 100000):
            self.check(bytes(size), "refused 1 at 8192", "refused 1 at 65536")
            self.check(long_m(size), "refused 1 at 8192", "refused 1 at 65536")

    def test_points(self):
        for points in (63, 64):
            self.same(walk(points), f"read 1 {points} 1 0 0", reading_line)
            self.same(walk(points, M[9:]), "accepted 6")
        for points in (65, 66, 512):
            self.check(walk(points), "refused 6 at 450",
                       f"read 1 {points} 1 0 0", reading_line)
            self.check(walk(points, M[9:]), "refused 6 at 450", "accepted 6")
        self.check(walk(513), "refused 6 at 450", "refused 6 at 3586")

    def test_points_that_are_named(self):
        for end in (63, 64, 511):
            missing, read = f"refused 7 at {2 + 7 * end}", f"read 1 {end + 1} 1 0 0"
            for method in (r.method(0, 0, 0, end, 0), r.method(0, 0, 0, 0, end)):
                self.check(walk(end, method),
                           missing if end <= 64 else "refused 6 at 450", missing)
                self.check(walk(end + 1, method),
                           read if end < 64 else "refused 6 at 450",
                           read, reading_line)

    def test_each_refusal(self):
        """What is not about bytes or points is the same on both."""
        self.check(bytes(8193), "refused 1 at 8192", "refused 2 at 0")
        for number, (data, place) in REFUSED.items():
            self.same(data, f"refused {number} at {place}")

    def test_at_the_65th_point(self):
        """The table's order at that record: 2, 3 and 4 come first, 7 and 9 later."""
        full = walk(64, b"")
        self.check(full + r.point(1, 0, 0), "refused 6 at 450", "refused 7 at 450")
        self.check(full + r.point(0, 0, 9) + METHOD, "refused 6 at 450",
                   "refused 7 at 450")
        for length in range(1, 7):
            self.same(full + POINT[:length], "refused 3 at 450")
        self.same(full + b"\x15" + POINT, "refused 2 at 450")
        self.same(full + b"\x0f" + POINT, "refused 3 at 450")
        self.same(full + b"\x02" + POINT, "refused 4 at 450")
        self.same(full + METHOD + POINT, "refused 4 at 461")
        self.same(full + r.primitive(0, 0, 0), "refused 9 at 450")
        self.same(full, "refused 9 at 450")

    def test_faults_before(self):
        """The earliest record at fault counts."""
        last = FRONT + POINT * 63
        self.same(last + r.point(0, 1, 0) + POINT * 9, "refused 7 at 443")
        self.same(FRONT + r.point(0, 1, 0) + POINT * 99, "refused 7 at 2")
        self.same(last + b"\x00" + POINT * 9, "refused 2 at 443")
        self.same(FRONT + b"\x06" + POINT * 99, "refused 5 at 2")
        self.same(b"\x02" + POINT * 99, "refused 4 at 1")

    def test_faults_after(self):
        full = walk(65, b"")
        for after, line in (
                (b"\x00", "refused 2 at 457"), (METHOD[:9], "refused 3 at 457"),
                (b"\x02", "refused 4 at 457"),
                (r.point(0, 0, 1), "refused 7 at 457"),
                (METHOD + r.pass_step(65, 0), "refused 7 at 468"),
                (METHOD + M[20:26], "refused 8 at 474"), (b"", "refused 9 at 457"),
                (r.primitive(0, 0, 0), "refused 9 at 457"),
                (METHOD, "refused 10 at 468"),
                (METHOD + END * 3, "unproved rule 3 method 0 clause 1"
                 " pair 0 event 0 place 0")):
            self.check(full + after, "refused 6 at 450", line)

    def test_too_long_with_faults(self):
        """Refusal 1 comes before reading; a byte less, and it does not."""
        for number, (data, place) in REFUSED.items():
            if number == 3 or number > 7:  # these are not for a longer sheet
                continue
            for size in (8191, 8192, 8193, 20000):
                line = f"refused {number} at {place}"
                self.check(data + bytes(size - len(data)),
                           line if size <= 8192 else "refused 1 at 8192", line)
        for size in (8191, 8192, 8193):
            ends = END * (size - 468)
            self.check(walk(65, METHOD + ends),
                       "refused 6 at 450" if size <= 8192 else "refused 1 at 8192",
                       f"refused 10 at {size}")
            for data, number in ((SMALL + END * (size - 26) + M[20:26], 8),
                                 (FRONT + POINT + END * (size - 9), 9),
                                 (SMALL + END * (size - 20), 10)):
                line = f"refused {number} at {size}"
                self.check(data, line if size <= 8192 else "refused 1 at 8192", line)

    def test_unproved_near_the_limits(self):
        """A fault in the last certificate: with all bytes, with all points."""
        data, rule = long_m(8192), "unproved rule 6 method 0 "
        self.same(data[:-7] + r.pair(1, 1) + END,
                  rule + "clause 1 pair 0 event 0 place 0")
        self.same(walk(64, M[9:-1] + r.pair(9, 1) + END),
                  rule + "clause 2 pair 1 event 0 place 0")

    def test_words(self):
        """12, 13 and 14 on both; 1 and 6 come first."""
        for instrument in (ENTRY, LARGE):
            for sheet in (SMALL, walk(64), SMALL + END * (8192 - 20)):
                for condition, word, line in (
                        (0, (), "yes"), (0, (0,), "no 0"), (0, (0,) * 4096, "no 0"),
                        (0, (0,) * 4097, "refused 12"), (0, (0, 32), "refused 13 at 1"),
                        (1, (), "refused 14"), (1, (32,) * 4097, "refused 14"),
                        (0, (32,) * 4097, "refused 12")):
                    self.assertEqual(word_line(sheet, condition, word, instrument),
                                     line)
            for number, (data, place) in REFUSED.items():
                line = f"refused {number} at {place}" if number < 10 else "yes"
                self.assertEqual(word_line(data, 0, (), instrument), line)
        for word in ((), (99,), (0,) * 4097):
            for condition in (0, 1):
                self.assertEqual(word_line(walk(65), condition, word, ENTRY),
                                 "refused 6 at 450")
                self.assertEqual(word_line(SMALL + END * 8173, condition, word, ENTRY),
                                 "refused 1 at 8192")
        self.assertEqual(word_line(walk(65), 0, (99,)), "refused 13 at 0")
        self.assertEqual(word_line(SMALL + END * 8173, 0, ()), "yes")


class AnyLimits(unittest.TestCase):
    """Limits by value: what a case says by construction, on more instruments."""

    def test_cases_by_construction(self):
        for instrument in (ENTRY, Instrument(5000, 7), Instrument(20000, 200)):
            seen = Counter()
            for cases in (limit_cases, entry.point_count_cases,
                          entry.point_order_cases, entry.size_cases,
                          entry.differing_reading_cases):
                for case in cases(instrument):
                    if case.line is not None:
                        self.assertEqual(reading_line(case.data, instrument),
                                         case.line, case.label)
                        seen[case.line.split(" at ")[0].split()[-1]] += 1
            for number in range(1, 10):
                self.assertGreater(seen[str(number)], 0)

    def test_sheets_by_construction(self):
        sheets = some_true_sheets()[:8]
        for instrument in (ENTRY, Instrument(3000, 20), Instrument(12000, 130)):
            seen = Counter()
            for cases in (entry.walks(instrument),
                          entry.point_sheets(22, sheets, instrument),
                          entry.size_sheets(23, sheets, instrument),
                          entry.long_faults(24, sheets, instrument)):
                for case in cases:
                    if instrument.points > 100 and "walk" in case.label:
                        continue  # longer than 12,000 bytes
                    line = load_line(case.data, instrument)
                    self.assertTrue(faults.agrees(case, line),
                                    f"{case.label}: {case.line} {line}")
                    seen[line.split(" at ")[0].split(" rule")[0]] += 1
            self.assertTrue({"unproved", "refused 1", "refused 6", "refused 8",
                             "refused 10"} <= set(seen))

    def test_nothing_fits(self):
        """No points, no bytes."""
        none = Instrument(0, 0)
        self.assertEqual(load_line(b"", none), "refused 9 at 0")
        self.assertEqual(load_line(b"\x02", none), "refused 1 at 0")
        self.assertEqual(load_line(M, Instrument(41, 0)), "refused 6 at 2")
        self.assertEqual(load_line(M, Instrument(41, 1)), "accepted 6")
        self.assertEqual(load_line(M, Instrument(40, 1)), "refused 1 at 40")


def smaller_answers(small, answer, larger_answer):
    """The statement of Ask 8 on the answer of the instrument `small`."""
    return (answer == Refusal(1, small.bytes)
            or isinstance(answer, Refusal) and answer.number == 6
            or type(answer) is type(larger_answer) and answer == larger_answer)


def kind_of(answer):
    if isinstance(answer, Refusal):
        return answer.number
    return type(answer).__name__


class SmallerAndLarger(unittest.TestCase):
    """Ask 8 over both limits as parameters, on random sheets and limits."""

    @staticmethod
    @lru_cache
    def sheets():
        return list(SmallerAndLarger.all_sheets())

    @staticmethod
    def all_sheets():
        true, draws = some_true_sheets(), Draws(32)
        yield from (r.encode(sheet) for sheet in true)
        yield from (r.encode(sheet)[:-cut] for sheet in true[:20] for cut in (1, 2))
        yield from (r.encode(Sheet(*sheet[:2], [], [], [])) for sheet in true[:20])
        yield from (r.encode(entry.with_points(draws, sheet, len(sheet.points) + more))
                    for sheet in true[:40] for more in (1, 3))
        for cases in (faults.certificate_faults(33, true, 2),
                      faults.certificate_counts(34, true[:20]),
                      faults.changed_bytes(35, true, 3),
                      faults.changed_records(36, true, 2),
                      random_cases(37, 60), SmallerAndLarger.owner_cases(true[:40])):
            yield from (case.data for case in cases)
        yield from (data + b"\x00" for data, _ in REFUSED.values())
        yield from (data for data, _ in REFUSED.values())

    @staticmethod
    def owner_cases(sheets):
        """Sheets with owners, right and wrong ones."""
        owned = list(map(owners.owned_sheet, sheets))
        yield from owners.owner_changes(44, owned, 2)
        yield from owners.unknown_owner_sheets(45, owned[:5])

    @staticmethod
    def limits(draws, data):
        """Limits near what a sheet has, and others that are no smaller."""
        sheet = read_sheet(data)
        points = 2 if isinstance(sheet, Refusal) else len(sheet.points)
        small = Instrument(max(0, len(data) + draws.between(-2, 9)),
                           max(0, points + draws.between(-2, 3)))
        return small, Instrument(small.bytes + draws.pick((0, 0, 1, 2, 5, 99)),
                                 small.points + draws.pick((0, 0, 1, 2, 5, 99)))

    def test_statement(self):
        """The smaller's answer is 1 at its limit, 6, or the larger's with all its
        values: accepted with an equal count, a refusal that is the larger's too."""
        draws, found = Draws(38), Counter()
        for data in self.sheets():
            for _ in range(3):
                small, large = self.limits(draws, data)
                answer, larger = verdict(data, small), verdict(data, large)
                self.assertTrue(smaller_answers(small, answer, larger),
                                (small, large, answer, larger))
                if isinstance(answer, Accepted):
                    self.assertEqual(larger, answer)
                if isinstance(answer, Refusal) and answer.number not in (1, 6):
                    self.assertEqual(larger, answer)
                found[kind_of(answer), kind_of(larger), answer == larger] += 1
        for kind in ("Accepted", "Unproved", 2, 3, 4, 5, 7, 8, 9, 10, 24, 25):
            self.assertGreater(found[kind, kind, True], 4, kind)
            self.assertEqual(sum(count for (one, _, equal), count in found.items()
                                 if one == kind and not equal), 0)
        # Both ways to differ, and with every kind of the larger's answer.
        for number in (1, 6):
            for kind in ("Accepted", "Unproved", 7, 10):
                self.assertGreater(found[number, kind, False], 4, (number, kind))
        self.assertGreater(found[1, 6, False], 0)
        self.assertGreater(found[6, 6, True], 0)

    def broken(self, pairs):
        """How often the statement fails on limits that are chosen otherwise."""
        draws, found = Draws(39), Counter()
        for data in self.sheets():
            small, large = pairs(*self.limits(draws, data))
            answer, other = verdict(data, small), verdict(data, large)
            if not smaller_answers(small, answer, other):
                found[kind_of(answer), kind_of(other)] += 1
        return found

    def test_other_way_round(self):
        """False where the limits are exchanged: in both, in bytes, in points."""
        def in_bytes(small, large):
            return small._replace(bytes=large.bytes), small

        def in_points(small, large):
            return small._replace(points=large.points), small

        self.assertGreater(self.broken(lambda *both: both[::-1])["Accepted", 6], 4)
        self.assertGreater(self.broken(in_bytes)["Accepted", 1], 4)
        self.assertGreater(self.broken(in_points)["Accepted", 6], 4)

    def test_less_than_the_statement(self):
        """Without one of its parts it would be false: 1 and 6 do differ."""
        draws, found = Draws(40), Counter()
        for data in self.sheets():
            small, large = self.limits(draws, data)
            answer, larger = verdict(data, small), verdict(data, large)
            if answer != larger:
                found[answer.number] += 1
                self.assertIsInstance(answer, Refusal)
        self.assertEqual(set(found), {1, 6})

    def test_words(self):
        """The word test's refusal is 1, 6, or its answer is the larger's."""
        draws, found = Draws(41), Counter()
        for data in self.sheets():
            small, large = self.limits(draws, data)
            word = tuple(draws.below(33) for _ in range(draws.below(3)))
            number = draws.below(4)
            line, larger = (word_line(data, number, word, one)
                            for one in (small, large))
            if line not in (f"refused 1 at {small.bytes}", larger):
                self.assertTrue(line.startswith("refused 6 at "))
            found[without_number(line).split(" at ")[0], line == larger] += 1
        for line in ("yes", "no", "refused 13", "refused 14", "refused 2"):
            self.assertGreater(found[line, True], 4)
        for line in ("refused 1", "refused 6"):
            self.assertGreater(found[line, False], 4)

    def test_unproved_values(self):
        """An unproved answer is the larger's with its rule, subject and fault."""
        seen = Counter()
        for case in faults.certificate_faults(43, some_true_sheets(), 2):
            sheet = read_sheet(case.data)
            exact = Instrument(len(case.data), len(sheet.points))
            answer, larger = verdict(case.data, exact), verdict(case.data)
            self.assertIsInstance(answer, Unproved)
            self.assertEqual(answer, larger)
            self.assertEqual(load_line(case.data, exact), load_line(case.data))
            seen[answer.rule.number, answer.fault.clause] += 1
        self.assertGreater(len(seen), 40)


class Programs(unittest.TestCase):
    """The option of the programs of this folder."""

    TEXT = (EXAMPLES / "long_walk.txt").read_text(encoding="utf-8")
    SHEET = (EXAMPLES / "long_walk.sheet").read_bytes()

    def test_option(self):
        self.assertEqual(chosen_instrument([]), (LARGE, []))
        self.assertEqual(chosen_instrument(["x", "--instrument", "entry"]),
                         (LARGE, ["x", "--instrument", "entry"]))
        for name, instrument in INSTRUMENTS.items():
            self.assertEqual(chosen_instrument(["--instrument", name, "x"]),
                             (instrument, ["x"]))
        for words in ([], [""], ["small", "x"], ["Entry"], ["entry "]):
            with self.assertRaisesRegex(ValueError, "large, entry or four"):
                chosen_instrument(["--instrument", *words])

    def test_wrong_arguments(self):
        for program in (loader, wordtest):
            self.assertIn("large, entry or four",
                          program.main(["--instrument", "x"]))
        self.assertIn("usage", loader.main(["--instrument", "entry", "sheet"]))
        self.assertIn("usage", wordtest.main(["--instrument", "entry", "sheet"]))

    def test_assembler(self):
        self.assertEqual(assemble(self.TEXT), self.SHEET)
        with self.assertRaisesRegex(TextError, "more than 64 points"):
            assemble(self.TEXT, ENTRY)
        minimal = (EXAMPLES / "minimal.txt").read_text(encoding="utf-8")
        self.assertEqual(assemble(minimal, ENTRY), M)
        conditions = "".join(f"condition c{number} = {'any ' * 31}\n"
                             for number in range(50))
        text = conditions + minimal
        with self.assertRaisesRegex(TextError, "bytes, more than 8192"):
            assemble(text, ENTRY)
        self.assertGreater(len(assemble(text)), 8192)

    def test_pairs_that_do_not_fit(self):
        """The assembler stops at the pairs that no sheet of the instrument has."""
        both = "{0,1} " * 8
        text = (f"condition a = empty | {{0,1}}* {{0}} {both}\n"
                f"condition b = {{0,1}}* {{0}} {both} | empty\n"
                "condition n = empty\n"
                "point p past b own n due n\n"
                "method m pre a trace n future n entry p exit p\n")
        self.assertEqual(load_line(assemble(text)), "accepted 6")
        with self.assertRaisesRegex(TextError, "rule 3 do not fit in a sheet"):
            assemble(text, ENTRY)

    def test_disassembler(self):
        lines = disassemble(self.SHEET, ENTRY)
        self.assertEqual(lines[-1], "refused 6 at 457")
        self.assertTrue(lines[-2].startswith("   457  07 "))
        self.assertEqual(disassemble(self.SHEET)[-1], "accepted 198")
        self.assertEqual(disassemble(bytes(8193), ENTRY),
                         ["  8193  end", "refused 1 at 8192"])


if __name__ == "__main__":
    unittest.main()
