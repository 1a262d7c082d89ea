"""Tests of document 02, Ask 4: exercises that stop themselves."""
import unittest
from collections import Counter
from functools import lru_cache
from itertools import chain

import test_outcomes
from generate import faults, outcomes, plans, stops
from generate.draws import Draws
from generate.outcomes import changed_text
from generate.plans import FAILING_SHAPES, SHAPES, STOPPING_SHAPES
from generate.refusals import random_cases
from generate.special import EXAMPLES, M
from generate.true_sheets import true_sheets
from generate.words import short_groups
from reference.conditions import LEAF
from reference.instruments import ENTRY, INSTRUMENTS, LARGE, Instrument
from reference.loader import (first_unproved, line_of, load_line, verdict,
                              word_line)
from reference.reading import (BODY_LENGTHS, SECTIONS, Refusal, read_sheet,
                               reading_line)
from reference.rules import (all_rules, certificates_needed, join, rule_count,
                             subject_kind)
from reference.runs import (FAIL, RETURN, Move, first_break, first_owed_break,
                            make_move, missing, start)
from sheets import records as r
from sheets.assemble import TextError, assemble
from sheets.disassemble import disassemble
from simulate import Totals, Walker, walk
from test_outcomes import example, former_answer, sheet_of, uses_later
from test_reference import is_true, make

NEW, STOP, FOUR, PASS = stops.NEW, stops.STOP, outcomes.FOUR, outcomes.PASS
FRONT, POINT, METHOD = outcomes.FRONT, outcomes.POINT, outcomes.METHODS[9]
END, PAIR = stops.END, stops.PAIR
NEW_RULES = 25, 26


@lru_cache
def stopping_sheets():
    return stops.stopping_sheets(301, 100)


def in_edition(sheet, new):
    """The sheet in an edition, with exact certificates."""
    return r.with_certificates(sheet._replace(new=new))


def without_stops(sheet):
    return sheet._replace(steps=[one for one in sheet.steps if one.kind != 19])


class Reading(unittest.TestCase):
    def lines(self, *cases):
        """Each case is the bytes, and the line or what follows `refused`."""
        for data, line in cases:
            if line[0].isdigit():
                line = f"refused {line}"
            for instrument in INSTRUMENTS.values():
                self.assertEqual(reading_line(data, instrument), line, data.hex())

    def test_least_sheets(self):
        self.assertEqual(load_line(NEW), "refused 9 at 1")
        self.assertEqual((load_line(stops.M18), len(stops.M18)), ("accepted 6", 42))
        self.assertEqual((load_line(stops.M19), len(stops.M19)), ("accepted 7", 45))
        self.assertEqual(stops.M19[1:21] + stops.M19[24:], M)
        self.assertEqual(load_line(stops.M19[1:]), "refused 20 at 20")

    def test_kinds(self):
        """Lengths, sections, and no kind above the instrument's."""
        self.assertEqual((BODY_LENGTHS[17:19], SECTIONS[17:19]), ((0, 2), (1, 4)))
        for instrument in INSTRUMENTS.values():
            former = instrument._replace(kinds=19)
            for kind in (0, *range(20, 256)):
                self.assertEqual(reading_line(bytes([kind]) + bytes(20), former),
                                 "refused 2 at 0")
            for kinds in (14, 17):
                former = instrument._replace(kinds=kinds)
                for data, place in ((stops.M18, 0), (M[:20] + STOP, 20),
                                    (M[:20] + STOP[:1], 20), (NEW + b"\x00", 0),
                                    (b"\x02" + NEW, 1), (FRONT + NEW, 2)):
                    self.assertEqual(load_line(data, former), f"refused 2 at {place}")
        self.assertEqual(load_line(stops.M18, LARGE._replace(kinds=18)), "accepted 6")
        self.assertEqual(load_line(stops.M19, LARGE._replace(kinds=18)),
                         "refused 2 at 21")

    def test_fields(self):
        front = NEW + r.item(LEAF, 6) + b"\x06" + FRONT + POINT * 300 + METHOD
        sheet = read_sheet(front + b"\x13\x2b\x01")
        self.assertTrue(sheet.new)
        self.assertEqual(sheet.conditions[0], (LEAF, 6))
        self.assertEqual(sheet.counts, [2, 300, 1, 1, 0])
        self.assertEqual(sheet.steps[0]._asdict(), {
            "kind": 19, "source": 299, "target": None, "operand": None,
            "failed_target": None, "channel": None})
        self.assertEqual((sheet.steps[0].is_call, sheet.steps[0].outcomes),
                         (False, ()))
        self.assertFalse(read_sheet(front[1:]).new)

    def test_edition(self):
        """Kind 18 elsewhere than in front: 4 or 19."""
        self.lines(
            (NEW, "9 at 1"), (NEW * 2, "19 at 1"), (NEW * 3, "19 at 1"),
            (NEW + b"\x02", "8 at 2"), (NEW + b"\x02" + NEW, "4 at 2"),
            (b"\x02" + NEW, "4 at 1"), (b"\x02\x05" + NEW + b"\x06", "4 at 2"),
            (FRONT + NEW, "19 at 2"), (FRONT + NEW + FRONT, "19 at 2"),
            (FRONT * 2 + NEW + FOUR[2:], "19 at 4"),
            (NEW + FRONT + NEW + POINT, "19 at 3"),
            (FRONT + POINT + NEW, "4 at 9"), (NEW + FRONT + POINT + NEW, "4 at 10"),
            (FRONT + POINT + METHOD + NEW, "4 at 20"),
            (FOUR + PASS + NEW, f"4 at {len(FOUR) + 5}"),
            (NEW + FOUR + STOP + NEW, f"4 at {len(FOUR) + 4}"),
            (FOUR + PAIR + NEW, f"4 at {len(FOUR) + 6}"),
            (FOUR + END + NEW, f"4 at {len(FOUR) + 1}"))

    def test_stop(self):
        """Kind 19 in both editions."""
        at = len(FOUR)
        self.lines(
            (STOP, "20 at 0"), (STOP[:2], "3 at 0"), (NEW + STOP, "7 at 1"),
            (FOUR + STOP, f"20 at {at}"), (NEW + FOUR + STOP, "read 1 1 4 1 0"),
            (FOUR + r.stop_step(1), f"20 at {at}"),
            (NEW + FOUR + r.stop_step(1), f"7 at {at + 1}"),
            (FOUR + END + STOP, f"4 at {at + 1}"),
            (NEW + FOUR + END + STOP, f"4 at {at + 2}"),
            (NEW + FRONT + POINT + STOP + METHOD, "4 at 13"),
            (NEW + FRONT + POINT + STOP, "9 at 13"),
            (b"\x02" + STOP, "4 at 1"), (NEW + b"\x02" + STOP, "4 at 2"),
            (FRONT + NEW + POINT + METHOD + STOP, "19 at 2"))

    def test_512_steps(self):
        """A stop as step 512 and 513."""
        for edition in (b"", NEW):
            last = edition + FOUR + PASS * 511
            for point in (0, 9):
                for length, one in ((3, r.stop_step(point)), (2, STOP[:2])):
                    for before, number in ((last, 7), (last + PASS, 6)):
                        number = number if edition else 20
                        line = f"{number} at {len(before)}"
                        if length == 2:
                            line = f"3 at {len(before)}"
                        elif edition and before == last and point == 0:
                            line = "read 1 1 4 512 0"
                        self.lines((before + one, line))

    def test_order_at_one_record(self):
        """2, 3, 4, 19, 20, 5, 6, 7, 9, 18: each pair that can meet at a record of the
        new kinds does so among the cases by construction."""
        order = [2, 3, 4, 19, 20, 5, 6, 7, 9, 18]
        met = set()
        for case in stops.two_fault_cases():
            result = read_sheet(case.data)
            if not isinstance(result, Refusal):
                continue
            both = self.faults_at(case.data, result.place)
            self.assertEqual(result.number, min(both, key=order.index))
            met |= {(one, other) for one in both for other in both
                    if order.index(one) < order.index(other)}
        self.assertEqual(met, {(3, 4), (3, 20), (3, 6), (3, 7), (4, 19), (4, 20),
                               (4, 6), (4, 7), (20, 6), (20, 7), (6, 7)})

    @staticmethod
    def faults_at(data, place):
        """Every refusal that holds of a record of kind 18 or 19, by itself."""
        before, kind, body = data[:place], data[place], data[place + 1:place + 3]
        end = faults.records_of(before)[-1:] or [b""]
        kinds = [one[0] for one in faults.records_of(before)]
        inside = bool(kinds) and kinds[-1] < 6
        section = SECTIONS[kinds[-1] - 1] if kinds else 1
        found = [4] if inside or end[0] and section > SECTIONS[kind - 1] else []
        if kind == 18:
            return found + [19] * bool(before)
        if len(body) < 2:
            found.append(3)
        if data[0] != 18:
            found.append(20)
        if sum(SECTIONS[one - 1] == 4 for one in kinds) >= 512:
            found.append(6)
        if int.from_bytes(body.ljust(2, b"\x00"), "little") >= kinds.count(7):
            found.append(7)
        return found

    def test_cases_by_construction(self):
        for instrument in (LARGE, ENTRY):
            seen = Counter()
            for case in chain(stops.record_cases(), stops.limit_cases(instrument)):
                if case.line is not None:
                    self.assertEqual(reading_line(case.data, instrument),
                                     case.line, case.label)
                    seen[case.line.split(" at ")[0]] += 1
            for number in (2, 3, 4, 5, 6, 7, 9, 18, 19, 20):
                self.assertGreater(seen[f"refused {number}"], 4, number)
        other = Instrument(5000, 7)
        for case in stops.limit_cases(other):
            self.assertEqual(reading_line(case.data, other), case.line, case.label)

    def test_read_back(self):
        for sheet in stopping_sheets():
            self.assertEqual(read_sheet(r.encode(sheet)), sheet)

    def test_words(self):
        """The word test finds each condition behind the edition; 19 and 20 come before
        14, 12 and 13."""
        for group in short_groups(302, 2):
            for number, word, line in group.cases:
                self.assertEqual(word_line(NEW + group.sheet, number, word), line)
                self.assertEqual(word_line(group.sheet, number, word), line)
        for data, line in ((NEW * 2 + FOUR, "refused 19 at 1"),
                           (FOUR + STOP, f"refused 20 at {len(FOUR)}")):
            for number, word in ((0, ()), (9, ()), (0, (32,)), (0, (1,) * 4097)):
                for instrument in INSTRUMENTS.values():
                    self.assertEqual(word_line(data, number, word, instrument), line)


class Rules(unittest.TestCase):
    # Each condition is a leaf of its own, so sides tell which they come from.
    NAMES = ("past0 own0 due0 past1 own1 due1 past2 own2 due2 "
             "pre trace future ftrace ffuture").split()
    LEAVES = {name: (LEAF, 1 << number) for number, name in enumerate(NAMES)}
    TEXT = "\n".join(
        [f"condition {name} = {{{number}}}" for number, name in enumerate(NAMES)]
        + [f"point p{number} past past{number} own own{number} due due{number}"
           for number in range(3)]
        + ["method main pre pre trace trace future future entry p0 exit p1 "
           "failed trace ftrace failed future ffuture failed exit p2",
           "step p1 stop", "step p1 -> p2 call main failing to p0", "step p2 stop",
           "edition new"])
    SIDES = [(25, 0, "due1", None), (10, 1, "past1", "pre"),
             (11, 1, "past1 trace", "past2"), (12, 1, "own1 trace", "own2"),
             (13, 1, "due2", "future"), (14, 1, "trace due2", "due1"),
             (18, 1, "past1 ftrace", "past0"), (19, 1, "own1 ftrace", "own0"),
             (20, 1, "due0", "ffuture"), (21, 1, "ftrace due0", "due1"),
             (26, 1, "due0", "due1"), (25, 2, "due2", None)]

    def side(self, name):
        if name is None:
            return None
        first, *second = (self.LEAVES[one] for one in name.split())
        return join(first, *second) if second else first

    def test_sides(self):
        """Each rule's sides, of steps, in the order of testing."""
        rules = [rule for rule in all_rules(sheet_of(self.TEXT))
                 if rule.subject_kind == "step"]
        self.assertEqual(
            [(rule.number, rule.subject, rule.left, rule.right) for rule in rules],
            [(number, subject, self.side(left), self.side(right))
             for number, subject, left, right in self.SIDES])

    def test_order(self):
        self.assertEqual([(rule.number, rule.subject)
                          for rule in all_rules(sheet_of(stops.ORDER))],
                         stops.ORDER_RULES)

    def test_subjects(self):
        self.assertEqual([number for number in range(1, 27)
                          if subject_kind(number) == "method"],
                         [1, 2, 3, 4, 5, 6, 22, 23, 24])

    def test_counts(self):
        """One more for each stop, and for each call of a method with body."""
        seen = Counter()
        for sheet in stopping_sheets():
            rules = list(all_rules(sheet))
            self.assertEqual(rule_count(sheet), len(rules))
            self.assertEqual(certificates_needed(sheet), sum(
                rule.has_certificate for rule in rules))
            kinds = Counter(one.kind for one in sheet.methods + sheet.steps)
            kinds["entered"] = sum(step.is_call and sheet.methods[step.operand].kind
                                   in (9, 16) for step in sheet.steps)
            bodies, calls = kinds[9] + kinds[16], kinds[11] + kinds[17]
            self.assertEqual(
                rule_count(sheet),
                2 + 4 * bodies + 3 * kinds[10] + 5 * calls + 3 * kinds[12]
                + 2 * kinds[16] + (sheet.methods[0].kind == 16) + 4 * kinds[17]
                + kinds[19] + kinds["entered"])
            old = without_stops(sheet)._replace(new=False)
            self.assertEqual(certificates_needed(sheet) - kinds["entered"],
                             certificates_needed(old))
            seen.update(kinds)
        self.assertGreater(min(seen[kind] for kind in range(8, 13)), 20)
        self.assertGreater(min(seen[kind] for kind in (15, 16, 17, 19, "entered")),
                           20)

    def test_without_certificate(self):
        self.assertEqual({rule.number for sheet in stopping_sheets()
                          for rule in all_rules(sheet)
                          if not rule.has_certificate}, {1, 2, 4, 24, 25})

    def test_both_editions(self):
        """The rules of a new sheet are those of the old one, and 26 behind the others
        of each call of a method with body, whether or not anything stops."""
        calls = Counter()
        for sheet in map(without_stops, stopping_sheets()):
            old = list(all_rules(sheet._replace(new=False)))
            new = list(all_rules(sheet))
            self.assertEqual([rule for rule in new if rule.number != 26], old)
            for before, rule in zip(new, new[1:]):
                if rule.number == 26:
                    step = sheet.steps[rule.subject]
                    self.assertEqual((before.number, before.subject),
                                     (14 if step.kind == 11 else 21, rule.subject))
                    calls[step.kind, sheet.methods[step.operand].kind] += 1
        self.assertEqual(set(calls), {(11, 9), (17, 16)})
        self.assertGreater(min(calls.values()), 20)

    def test_certificates_of_both_editions(self):
        for data, count in stops.both_editions():
            for instrument in INSTRUMENTS.values():
                self.assertEqual(load_line(data, instrument), f"accepted {count}")
        for case in stops.edition_number_cases():
            self.assertEqual(load_line(case.data), case.line)

    def test_cases_by_construction(self):
        """The single sheets on both instruments."""
        for instrument in INSTRUMENTS.values():
            for case in stops.single_cases():
                line = load_line(case.data, instrument)
                self.assertTrue(faults.agrees(case, line),
                                f"{case.label}: {case.line} {line}")
        for case in chain(stops.full_limits(), stops.wide_sides(),
                          stops.records_put_in(303, stopping_sheets()[:20])):
            self.assertTrue(faults.agrees(case, load_line(case.data)), case.label)

    def test_clauses(self):
        """Rule 26 fails clauses 1 to 4 as the first fault, and 25 clause 5."""
        found = Counter()
        for case in chain(
                faults.certificate_faults(304, stopping_sheets(), 3, NEW_RULES),
                faults.broken_rules(305, 3, NEW_RULES, STOPPING_SHAPES)):
            line = load_line(case.data)
            self.assertTrue(faults.agrees(case, line), f"{case.line} {line}")
            words = line.split()
            self.assertEqual(words[3], "step")
            found[int(words[2]), int(words[6])] += 1
        self.assertEqual(set(found), {(25, 5), (26, 1), (26, 2), (26, 3), (26, 4)})

    @staticmethod
    def changed_dues(seed, sheets):
        """Other dues where a run may stop, where calls are made and where called
        methods begin."""
        draws = Draws(seed)
        for sheet in sheets:
            points = [step.source for step in sheet.steps
                      if step.kind == 19 or step.is_call]
            points += [sheet.methods[step.operand].entry for step in sheet.steps
                       if step.is_call and sheet.methods[step.operand].has_body]
            for number in draws.some(points, 3):
                changed = list(sheet.points)
                changed[number] = changed[number]._replace(
                    due=draws.below(len(sheet.conditions)))
                yield r.with_certificates(sheet._replace(points=changed))

    def test_changed_sheets(self):
        """An unproved sheet with exact certificates has a false rule: the first,
        by the languages; an accepted one has none."""
        seen = Counter()
        cases = chain((case for case
                       in faults.changed_conditions(306, stopping_sheets())
                       if "new certificates" in case.label),
                      faults.broken_rules(319, 8, NEW_RULES, STOPPING_SHAPES))
        changed = [read_sheet(case.data) for case in cases]
        for sheet in chain(changed, self.changed_dues(318, stopping_sheets())):
            wrong = [rule for rule in all_rules(sheet) if not is_true(rule)]
            unproved = first_unproved(sheet)
            self.assertEqual(unproved.rule if unproved else None,
                             wrong[0] if wrong else None)
            seen[unproved.rule.number if unproved else 0] += 1
        self.assertGreater(seen[0], 10)
        self.assertGreater(min(seen[25], seen[26]), 5)


class Alone(unittest.TestCase):
    """Sheets on which rule 25, or 26, alone is false, and runs that then break demand
    3 at a stop."""

    def test_rule(self):
        self.assertEqual({number for number, _, _ in stops.ALONE.values()},
                         set(NEW_RULES))
        for label, (number, step, one) in stops.ALONE.items():
            sheet = sheet_of(one.text)
            wrong = [rule for rule in all_rules(sheet) if not is_true(rule)]
            self.assertEqual([(rule.number, rule.subject) for rule in wrong],
                             [(number, step)], label)
            self.assertEqual(first_unproved(sheet).rule, wrong[0])

    def test_run(self):
        """Before the stop nothing is broken, nor is Ask 12 at it; the call whose future
        is broken was made by a call that is still open."""
        for label, (number, _, one) in stops.ALONE.items():
            sheet = sheet_of(one.text)
            run = start(sheet)
            for move in one.moves:
                self.assertIsNone(first_break(sheet, run), label)
                self.assertIsNone(first_owed_break(sheet, run), label)
                after = make_move(sheet, run, move)
                self.assertNotEqual(after, run)
                run = after
            self.assertTrue(run.stopped)
            found, broken = first_break(sheet, run)
            self.assertEqual((found.method, broken), (one.method, one.broken))
            self.assertTrue(any(found.maker is call for call in run.open_calls))
            if number == 26:
                self.assertIsNot(found.maker, run.active)
            self.assertIsNone(first_owed_break(sheet, run), label)

    def test_mended(self):
        """With a wider due and a wider future, the sheet is accepted."""
        opened = [("point opened", "due all"), ("primitive open_gate", "future all")]
        probed = [("point middle", "due all"), ("primitive probe", "future all")]
        mended = {
            "25": probed, "25 in a called method": probed + [("point inner", "due all")],
            "26": opened, "26 of a call that may fail": [
                opened[0], ("primitive open_gate", "failed future all")],
            "26 of the inner of two calls": opened + [("point middle", "due all")],
            "26 of a method that calls itself": opened}
        self.assertEqual(list(mended), list(stops.ALONE))
        for label, changes in mended.items():
            text = changed_text(stops.ALONE[label][2].text, changes)
            self.assertRegex(load_line(assemble(text)), "^accepted ", label)

    def test_old_edition(self):
        """Without its stops, the sheet with rule 26 false is accepted as an old one."""
        for number, _, one in stops.ALONE.values():
            old = in_edition(without_stops(sheet_of(one.text)), False)
            self.assertRegex(load_line(r.encode(old)), "^accepted ")


class Runs(unittest.TestCase):
    def same(self, sheet, run, *moves):
        for move in moves:
            self.assertEqual(make_move(sheet, run, move), run, move)

    def test_stop_inside(self):
        """The open calls stay open, and nothing else changes."""
        sheet = example("stop_inside")
        before = make(sheet, Move(0, (0,)), Move(1, (1,)), Move(2), Move(3))
        self.assertEqual((before.history, len(before.open_calls), before.ended),
                         ((0, 1, 2), 2, False))
        run = make_move(sheet, before, Move(4))
        self.assertEqual(run, before._replace(stopped=True))
        self.assertTrue(run.ended)
        self.assertIs(run.active, before.active)
        self.assertEqual([call.returned for call in run.open_calls], [None, None])
        self.assertIsNone(first_break(sheet, run))
        self.assertIsNone(first_owed_break(sheet, run))
        # The same point is the exit of the called method.
        after = make_move(sheet, before, RETURN)
        ended = make_move(sheet, after, RETURN)
        self.assertEqual((ended.ended, ended.stopped), (True, False))
        self.assertIsNone(first_break(sheet, ended))

    def test_after_a_stop(self):
        sheet = example("stop_inside")
        run = make(sheet, Move(0, (0,)), Move(1, (1,)), Move(2), Move(3), Move(4))
        self.same(sheet, run, RETURN, FAIL, *map(Move, range(-1, 6)),
                  Move(0, (0,)), Move(4, (1,), True))

    def test_needs_control(self):
        """A stop elsewhere is no move; nor is any in an old sheet."""
        sheet = example("stop_inside")
        moves = Move(0, (0,)), Move(1, (1,)), Move(2), Move(3)
        for count in range(4):
            self.same(sheet, make(sheet, *moves[:count]), Move(4))
        old = sheet._replace(new=False)
        self.same(old, make(old, *moves), Move(4), Move(4, ()), Move(4, None, True))

    def test_what_is_not_read(self):
        """A word or an outcome given with a stop."""
        sheet = example("stop_inside")
        run = make(sheet, Move(0, (0,)), Move(1, (1,)), Move(2), Move(3))
        after = make_move(sheet, run, Move(4))
        for move in (Move(4, ()), Move(4, (1, 99)), Move(4, None, True),
                     Move(4, (0,), True)):
            self.assertEqual(make_move(sheet, run, move), after)

    def test_outermost(self):
        """Method 0 may stop at once; it owes its pre only."""
        sheet = read_sheet(stops.M19)
        run = make(sheet, Move(0))
        self.assertEqual((run.stopped, run.history, len(run.open_calls)),
                         (True, (), 1))
        text = stops.EDITION + outcomes.WORDS + """point p past all own all due all
method main pre nothing trace one future one entry p exit p
step p stop
step p -> p event 0
"""
        sheet = sheet_of(text)
        self.assertEqual({rule.number for rule in all_rules(sheet)
                          if not is_true(rule)}, {2, 5})
        for moves in ((Move(0),), (Move(1), Move(1), Move(0))):
            self.assertIsNone(first_break(sheet, make(sheet, *moves)))
        found, broken = first_break(sheet, make(sheet, RETURN))
        self.assertEqual((found.method, broken), (0, "trace"))
        wrong = sheet_of(changed_text(text, [("method main", "pre one")]))
        for moves in ((), (Move(0),)):
            found, broken = first_break(wrong, make(wrong, *moves))
            self.assertEqual((found.method, broken), (0, "pre"))

    def test_open_calls(self):
        """A called method that stops owes its pre, not its trace or future."""
        text = stops.EDITION + outcomes.WORDS + """point p past all own all due all
point i past all own all due all
method main pre nothing trace one future one entry p exit p
method inner pre nothing trace one future one entry i exit i
step p -> p call inner
step p -> p event 0
step i stop
"""
        sheet = sheet_of(text)
        self.assertIsNone(first_break(sheet, make(sheet, Move(0), Move(2))))
        self.assertEqual(first_break(sheet, make(sheet, Move(0), RETURN))[1], "trace")
        late = make(sheet, Move(1), Move(0), Move(2))
        found, broken = first_break(sheet, late)
        self.assertEqual((late.stopped, found.method, broken), (True, 1, "pre"))

    def test_returned_calls(self):
        """What followed a return, up to the stop, is in the future: also where the
        call that made it is open."""
        sheet = example("stop_owed")
        before = make(sheet, Move(0, (0,)), Move(1), Move(3))
        self.assertIsNone(first_break(sheet, before))
        stopped = make_move(sheet, before, Move(4))
        found, broken = first_break(sheet, stopped)
        self.assertEqual((found.method, found.returned, broken),
                         (2, (0,), "future"))
        self.assertIs(found.maker, stopped.open_calls[0])
        self.assertIsNot(found.maker, stopped.active)
        # Where walk returns, the gate is closed.
        ended = make(sheet, Move(0, (0,)), Move(1), Move(3), RETURN, Move(2, (1,)),
                     RETURN)
        self.assertTrue(ended.ended)
        self.assertIsNone(first_break(sheet, ended))

    def test_outcomes(self):
        """The future of a returned call is that of its outcome."""
        number, _, one = stops.ALONE["26 of a call that may fail"]
        sheet = sheet_of(one.text)
        run = make(sheet, *one.moves)
        self.assertEqual(first_break(sheet, run)[1], "future")
        calls = [call._replace(failed=False) for call in run.returned_calls]
        self.assertIsNone(first_break(sheet, run._replace(
            returned_calls=tuple(calls))))

    def test_owed_at_a_stop(self):
        """Ask 12 at a stop: control is in the innermost open call, as before it."""
        text = changed_text(stops.ALONE["25"][2].text,
                            [("point middle", "due all")])
        sheet = sheet_of(text)
        run = make(sheet, Move(0, ()))
        stopped = make_move(sheet, run, Move(2))
        self.assertTrue(stopped.stopped)
        for state in (run, stopped):
            found, broken = first_owed_break(sheet, state)
            self.assertEqual((found.method, broken), (1, "owed"))
        # Inside a further call, nothing is owed to what its caller called.
        sheet = sheet_of(stops.ALONE["26"][2].text)
        run = make(sheet, *stops.ALONE["26"][2].moves)
        self.assertIsNone(first_owed_break(sheet, run))

    def test_unwinding(self):
        """Stops at any depth."""
        sheet = sheet_of(stops.UNWINDING)
        for depth in range(6):
            run = make(sheet, *[Move(0), Move(1)] * depth, Move(5))
            self.assertEqual((run.stopped, len(run.open_calls)), (True, depth + 1))
            self.assertIsNone(first_break(sheet, run))


class CallSites(unittest.TestCase):
    """The example of two call sites."""

    TEXT = (EXAMPLES / "two_call_sites.txt").read_text(encoding="utf-8")

    def test_every_run(self):
        """Every run of it keeps demand 3 and Ask 12: those of up to 16 moves that can
        be made are all there are."""
        sheet = example("two_call_sites")
        self.assertEqual([(rule.number, rule.subject) for rule in all_rules(sheet)
                          if not is_true(rule)], [(26, 1)])
        moves = [RETURN, Move(0, (0,)), Move(1), Move(2, (1,)), *map(Move, (3, 4, 5))]
        runs, ends = [start(sheet)], Counter()
        for _ in range(16):
            runs = [after for run in runs for move in moves
                    if (after := make_move(sheet, run, move)) != run]
            for run in runs:
                self.assertIsNone(first_break(sheet, run))
                self.assertIsNone(first_owed_break(sheet, run))
                ends[run.ended, run.stopped] += 1
        self.assertEqual(runs, [])
        self.assertEqual((ends[True, True], ends[True, False]), (1, 1))

    def test_old_edition(self):
        """In the old edition, without the stop, it is accepted."""
        text = self.TEXT.replace("edition new\n", "")
        self.assertRegex(load_line(assemble(text)), "^refused 20 at ")
        text = text.replace("step outside stop\n", "")
        self.assertEqual(load_line(assemble(text)), "accepted 33")

    def test_two_methods(self):
        """With one method for each place it is accepted."""
        text = changed_text(self.TEXT, [
            ("point walk_start", "past one_open"), ("point walk_start", "due then_walk"),
            ("point walk_end", "past further"), ("point walk_end", "due then_close"),
            ("method walk", "pre one_open"), ("method walk", "future then_close"),
            ("step outside -> done", "call stroll")])
        lines = text.splitlines()
        at = next(number for number, line in enumerate(lines)
                  if line.startswith("method walk"))
        lines[at:at] = [
            "point stroll_start past round own nothing due one_advance",
            "point stroll_end past whole own one_advance due nothing"]
        lines.insert(at + 3, "method stroll pre round trace one_advance future nothing"
                     " entry stroll_start exit stroll_end")
        lines.append("step stroll_start -> stroll_end event advance")
        text = "\n".join(lines)
        self.assertRegex(load_line(assemble(text)), "^accepted ")

    def test_one_stop_more(self):
        """A stop in walk breaks what is asked where the gate is open."""
        sheet = sheet_of(self.TEXT + "step walk_end stop\n")
        run = make(sheet, Move(0, (0,)), Move(1), Move(5), Move(6))
        self.assertEqual(first_break(sheet, run)[1], "future")


class RandomRuns(unittest.TestCase):
    SHAPES = tuple(map(plans.stopping, (
        plans.line, plans.nested_calls, plans.recursion, plans.repeated_calls,
        plans.two_call_sites, plans.failing(plans.nested_calls))))

    @staticmethod
    @lru_cache
    def broken_rules():
        """For each new rule, sheets on which just that rule is false."""
        return [(int(case.label.split()[1]), read_sheet(case.data))
                for case in faults.broken_rules(307, 40, NEW_RULES,
                                                RandomRuns.SHAPES)]

    def breaks_without(self, check):
        """For each rule, what random runs break where just that rule is false."""
        found = {}
        for rule, sheet in self.broken_rules():
            walker = Walker(Draws(4), sheet)
            for _ in range(20):
                result = walk(walker, Totals(), 0, check)
                if result:
                    found.setdefault(rule, Counter())[result.broken] += 1
                    break
        return found

    def test_each_new_rule_counts(self):
        """Without rule 25 or 26, some sheet has a run that breaks demand 3."""
        found = self.breaks_without(Walker.demand_3)
        self.assertEqual({rule: set(broken) for rule, broken in found.items()},
                         {25: {"future"}, 26: {"future"}})

    def test_ask_12(self):
        """It rests on neither."""
        self.assertEqual(self.breaks_without(Walker.ask_12), {})

    def test_accepted_sheets(self):
        """Random runs of new sheets keep demand 3 and Ask 12, also where they stop."""
        totals, draws = Totals(), Draws(5)
        for sheet in stopping_sheets():
            walker = Walker(draws, sheet)
            for _ in range(8):
                self.assertIsNone(walk(walker, totals, 0))
        inside = sum(runs for depth, runs in totals.stopped.items() if depth > 1)
        for count in (totals.stopped[1], inside, totals.due_at_stop,
                      totals.due_above, totals.ended - sum(totals.stopped.values())):
            self.assertGreater(count, 20)

    def everywhere(self, sheets, seed):
        """For how many returned calls, in the states of random runs, the events since
        the return, followed by any word of due, are in the future, and for how many
        not."""
        draws, found = Draws(seed), Counter()
        for sheet in sheets:
            walker = Walker(draws, sheet)
            for _ in range(4):
                run = start(sheet)
                for _ in range(25):
                    run = make_move(sheet, run, walker.move(run))
                    for call in run.returned_calls if run.open_calls else ():
                        future = sheet.methods[call.method].outcome(call.failed).future
                        lacks = missing(sheet, sheet.points[run.point].due, future,
                                        run.history[len(call.returned):])
                        found[lacks is None] += 1
        return found

    def test_owed_everywhere(self):
        """In a new sheet, rule 26 lets a returned call bind all activations that come
        later; in an old one it does not bind those which its maker calls."""
        new = self.everywhere(stopping_sheets(), 6)
        self.assertEqual(new[False], 0)
        self.assertGreater(new[True], 1000)
        old = self.everywhere([example("activations")] * 20, 7)
        self.assertGreater(old[False], 20)


class Texts(unittest.TestCase):
    HEAD = ("condition a = empty", "point p past a own a due a",
            "method m pre a trace a future a entry p exit p")

    def test_errors(self):
        step = ("expected: step POINT -> POINT event|call|pass .., "
                "or step POINT stop")
        for line, message in (
                ("edition", "expected: edition new"),
                ("edition old", "expected: edition new"),
                ("edition new edition", "expected: edition new"),
                ("edition new new", "expected: edition new"),
                ("editions new", "unknown statement 'editions'"),
                ("step p stop p", step), ("step p", step), ("step stop", step),
                ("step q stop", "unknown point 'q'"),
                ("step p -> p stop", "a step ends with: event EVENT, call METHOD, "
                 "call METHOD failing to POINT, call METHOD channel NUMBER, or pass")):
            with self.assertRaises(TextError) as caught:
                assemble("\n".join(self.HEAD + (line,)))
            self.assertEqual((caught.exception.line, str(caught.exception)),
                             (4, message))
        for lines in (("edition new",) + self.HEAD + ("edition new",),
                      self.HEAD + ("edition new", "edition new")):
            with self.assertRaisesRegex(TextError, "the edition is already given"):
                assemble("\n".join(lines))

    def test_steps(self):
        """A stop counts among the 512 steps."""
        lines = self.HEAD + ("edition new",) + ("step p stop",) * 512
        self.assertEqual(load_line(assemble("\n".join(lines))), "accepted 518")
        with self.assertRaisesRegex(TextError, "more than 512 steps"):
            assemble("\n".join(lines + ("step p stop",)))

    def test_edition_anywhere(self):
        """The line may stand anywhere; without it the sheet is old."""
        lines = list(self.HEAD) + ["step p -> p call m", "step p -> p pass"]
        whole = [assemble("\n".join(lines[:at] + ["edition new"] + lines[at:]))
                 for at in range(len(lines) + 1)]
        self.assertEqual(len(set(whole)), 1)
        old = assemble("\n".join(lines))
        self.assertEqual((whole[0][0], old[0]), (18, 2))
        self.assertEqual((load_line(whole[0]), load_line(old)),
                         ("accepted 15", "accepted 14"))
        self.assertEqual(read_sheet(whole[0])._replace(new=False, certificates=[]),
                         read_sheet(old)._replace(certificates=[]))

    def test_stop_in_an_old_text(self):
        """It is assembled; the loader refuses it."""
        data = assemble("\n".join(self.HEAD + ("step p stop",)))
        self.assertEqual(load_line(data), "refused 20 at 20")
        self.assertEqual(data[20:23], STOP)

    def test_names_like_words(self):
        """A point may be called stop or edition."""
        sheet = sheet_of("""condition edition = empty
point stop past edition own edition due edition
method new pre edition trace edition future edition entry stop exit stop
step stop stop
step stop -> stop pass
edition new""")
        self.assertEqual(load_line(r.encode(sheet)), "accepted 10")

    def test_disassemble(self):
        """The words of the text form, and every certificate's rule."""
        lines = disassemble((EXAMPLES / "stop_inside.sheet").read_bytes())
        shown = [line.lstrip().split("  ", 1)[-1] for line in lines]
        self.assertEqual(lines[0], "     0  12  edition new")
        for line in ("0B  call step 2: from 2 to 3 method 1",
                     "13  stop step 4: from 5"):
            self.assertIn(line, shown)
        ends = [line.split(": ")[1] for line in lines if "end of cert" in line]
        self.assertEqual(ends[-9:], [f"rule {rule} step 2" for rule in
                                     (10, 11, 12, 13, 14, 26)]
                         + [f"rule {rule} step 3" for rule in (7, 8, 9)])
        self.assertEqual(lines[-1], "accepted 30")

    def test_disassemble_refused(self):
        self.assertEqual(disassemble(FRONT + NEW + POINT)[-2:], [
            "     2  12 07 00 00 00 00 00 00", "refused 19 at 2"])
        self.assertEqual(disassemble(STOP), ["     0  13 00 00", "refused 20 at 0"])
        for case in stops.record_cases():
            if len(case.data) < 500:
                self.assertEqual(disassemble(case.data)[-1], load_line(case.data))

    def test_exact_certificates(self):
        """What the assembler makes is accepted where every rule is true."""
        for label, (text, count) in stops.ACCEPTED.items():
            self.assertEqual(load_line(assemble(text)), f"accepted {count}", label)


class AsBefore(test_outcomes.AsBefore):
    """Sheets that have no records of kinds 18 and 19 are judged as before."""
    KINDS = 17
    FORMER = {
        "reading": (1090809, "8cffeac79b3f8f95", 4984, 63),
        "sheets": (2646480, "d203a2a01765ced5", 5306, 3),
        "words": (1163005, "181c5b238decf55f", 22637, 0),
        "entry_reading": (626842, "2f909cf34d810002", 1244, 14),
        "entry_sheets": (700516, "97ee6153a48d852e", 1093, 0),
        "entry_words": (159098, "a41076e74be0b5f8", 1181, 0)}
    DIGEST = "454e09ae05fa81f5"

    @staticmethod
    @lru_cache
    def old_sheets():
        """Old sheets, whole and changed, and random bytes."""
        sheets = [sheet for _, sheet in true_sheets(309, 40, 80, SHAPES
                                                    + FAILING_SHAPES)]
        cases = chain(
            faults.certificate_faults(310, sheets, 1),
            faults.certificate_counts(311, sheets[:8]),
            faults.changed_conditions(312, sheets),
            faults.changed_bytes(313, sheets, 4), faults.changed_records(314, sheets),
            faults.broken_rules(315, 1, range(1, 25), FAILING_SHAPES),
            random_cases(316, 60))
        return [r.encode(sheet) for sheet in sheets] + [case.data for case in cases]

    def test_same_verdicts(self):
        """A sheet in which reading meets no record of kinds 18 and 19 has the same
        verdict, with all its values, on the former instruments of 17 kinds."""
        found = Counter()
        for data in self.old_sheets():
            for instrument in (LARGE, ENTRY, Instrument(600, 4)):
                former = verdict(data, instrument._replace(kinds=17))
                if uses_later(data, instrument, 17):
                    self.assertEqual(former.number, 2)
                    self.assertIn(data[former.place], (18, 19))
                    found["later"] += 1
                    continue
                self.assertEqual(verdict(data, instrument), former)
                self.assertEqual(former_answer(data, instrument, 17), None)
                found[line_of(former).split(" rule")[0].split(" at")[0]] += 1
        for line in ("refused 1", "refused 6", "refused 7", "refused 10", "unproved"):
            self.assertGreater(found[line], 20)
        accepted = [count for line, count in found.items() if "accepted" in line]
        self.assertGreater(sum(accepted), 50)

    def test_put_in(self):
        """The same sheets with a record of kind 18 or 19 put in: the former instruments
        give 2 at it, or the fault before it; so do those of 14 kinds."""
        draws, found = Draws(8), Counter()
        for _, sheet in true_sheets(317, 40, 80):
            for one in (NEW, STOP):
                records = faults.records_of(r.encode(sheet))
                at = draws.below(len(records) + 1)
                data = b"".join(records[:at] + [one] + records[at:])
                place = len(b"".join(records[:at]))
                for kinds in (14, 17):
                    former = verdict(data, LARGE._replace(kinds=kinds))
                    self.assertEqual(former, Refusal(2, place))
                self.assertNotEqual(former, verdict(data))
                found[one, line_of(verdict(data)).split(" at ")[0]] += 1
        for line in ("refused 4", "refused 19"):
            self.assertGreater(found[NEW, line], 0)
        for line in ("refused 4", "refused 20"):
            self.assertGreater(found[STOP, line], 0)

    def test_no_new_rules(self):
        """An old sheet has none of rules 25 and 26."""
        for data in self.old_sheets():
            sheet = read_sheet(data)
            if not isinstance(sheet, Refusal) and not sheet.new:
                self.assertLess(max(rule.number for rule in all_rules(sheet)), 25)


if __name__ == "__main__":
    unittest.main()
