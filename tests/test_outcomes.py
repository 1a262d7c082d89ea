"""Tests of document 02, Ask 2: a call that fails owes something else."""
import unittest
from collections import Counter
from functools import lru_cache
from hashlib import sha256
from itertools import chain, islice

import test_reference
from generate import faults, outcomes, plans
from generate.draws import Draws
from generate.plans import FAILING_SHAPES
from generate.special import EXAMPLES
from generate.true_sheets import true_sheets
from reference.conditions import LEAF
from reference.instruments import ENTRY, INSTRUMENTS, LARGE, Instrument
from reference.loader import first_unproved, line_of, load_line, word_line
from reference.reading import (Reader, Refusal, read_record, read_sheet,
                               reading_line)
from reference.rules import (all_rules, certificates_needed, join, rule_count,
                             subject_kind)
from reference.runs import (FAIL, RETURN, Move, first_break, first_owed_break,
                            make_move, start)
from sheets import records as r
from sheets.assemble import TextError, assemble
from sheets.disassemble import disassemble
from simulate import Totals, Walker, walk
from test_reference import is_true, make

NEW_RULES = range(18, 25)
FRONT = outcomes.FRONT + outcomes.POINT
FOUR, NUMBERS, call = outcomes.FOUR, outcomes.NUMBERS, outcomes.call


def sheet_of(text):
    return read_sheet(assemble(text))


def example(name):
    return sheet_of((EXAMPLES / f"{name}.txt").read_text(encoding="utf-8"))


@lru_cache
def failing_sheets():
    return [sheet for _, sheet in true_sheets(201, 90, 80, FAILING_SHAPES)]


def failed(step, *word):
    return Move(step, word, True)


class Reading(unittest.TestCase):
    def test_least_sheets(self):
        self.assertEqual(load_line(b"\x0f"), "refused 3 at 0")
        self.assertEqual(load_line(outcomes.M16), "accepted 9")
        self.assertEqual(len(outcomes.M16), 2 + 7 + 17 + 5 * 7)
        self.assertEqual(outcomes.M16[9], 16)

    def test_body_lengths(self):
        """Each body whole, and one byte short."""
        for kind, length in ((15, 10), (16, 16), (17, 8)):
            record = bytes([kind]) + bytes(length)
            self.assertEqual(reading_line(record[:-1]), "refused 3 at 0")
            self.assertEqual(reading_line(record), "refused 7 at 0")
        for kind in (0, *range(18, 256)):
            for instrument in INSTRUMENTS.values():
                former = instrument._replace(kinds=17)
                self.assertEqual(reading_line(bytes([kind]) + bytes(20), former),
                                 "refused 2 at 0")

    def test_fields(self):
        """Each field in its place."""
        front = b"\x02\x06" * 9 + outcomes.POINT * 9 + outcomes.METHODS[16]
        sheet = read_sheet(front + r.failing_primitive(1, 2, 3, 4, 5)
                           + r.failing_method(1, 2, 3, 4, 5, 6, 7, 8)
                           + b"\x11" + r.u16(1, 2, 3, 0))
        one, other = sheet.methods[1:]
        self.assertEqual(one._asdict(), {
            "pre": 1, "trace": 2, "future": 3, "entry": None, "exit": None,
            "failed_trace": 4, "failed_future": 5, "failed_exit": None})
        self.assertEqual(other._asdict(), {
            "pre": 1, "trace": 2, "future": 3, "entry": 4, "exit": 5,
            "failed_trace": 6, "failed_future": 7, "failed_exit": 8})
        self.assertEqual(sheet.steps[0]._asdict(), {
            "kind": 17, "source": 1, "target": 2, "failed_target": 3,
            "operand": 0, "channel": None})

    def test_refusal_18(self):
        """Each kind of call with each kind of method."""
        for kind in (11, 17):
            for method_kind, number in NUMBERS.items():
                wrong = (kind, method_kind) in ((11, 15), (11, 16), (17, 8), (17, 9))
                data = FOUR + call(kind, number)
                line = f"refused 18 at {len(FOUR)}" if wrong else "read 1 1 4 1 0"
                for instrument in INSTRUMENTS.values():
                    self.assertEqual(reading_line(data, instrument), line)
                    self.assertEqual(load_line(data, instrument), line if wrong
                                     else f"refused 10 at {len(data)}")
                    self.assertEqual(word_line(data, 0, (), instrument),
                                     line if wrong else "yes")
                    for condition, word in ((9, ()), (0, (32,)), (0, (1,) * 4097)):
                        found = word_line(data, condition, word, instrument)
                        self.assertEqual(found == line, wrong)

    def test_first_method(self):
        one = r.failing_primitive(*[0] * 5)
        self.assertEqual(load_line(FRONT + one), "refused 9 at 9")
        self.assertEqual(load_line(FRONT + one[:-2] + b"\x01\x00"),
                         "refused 7 at 9")
        self.assertEqual(reading_line(FRONT + outcomes.METHODS[16]),
                         "read 1 1 1 0 0")

    def test_cases_by_construction(self):
        for instrument in (LARGE, ENTRY, Instrument(5000, 7)):
            seen = Counter()
            cases = chain(outcomes.record_cases(), outcomes.limit_cases(instrument))
            for case in cases:
                if case.line is not None:
                    self.assertEqual(reading_line(case.data, instrument),
                                     case.line, case.label)
                    seen[case.line.split(" at ")[0]] += 1
            for number in (2, 3, 4, 6, 7, 9, 18):
                self.assertGreater(seen[f"refused {number}"], 9, number)

    def test_read_back(self):
        for sheet in failing_sheets():
            self.assertEqual(read_sheet(r.encode(sheet)), sheet)


class Rules(unittest.TestCase):
    # Each condition is a leaf of its own, so sides tell which they come from.
    NAMES = ("past0 own0 due0 past1 own1 due1 past2 own2 due2 past3 own3 due3 "
             "pre trace future ftrace ffuture ppre ptrace pfuture pftrace "
             "pffuture").split()
    LEAVES = {name: (LEAF, 1 << number) for number, name in enumerate(NAMES)}
    TEXT = "\n".join(
        [f"condition {name} = {{{number}}}" for number, name in enumerate(NAMES)]
        + [f"point p{number} past past{number} own own{number} due due{number}"
           for number in range(4)]
        + ["method main pre pre trace trace future future entry p0 exit p1 "
           "failed trace ftrace failed future ffuture failed exit p2",
           "primitive try pre ppre trace ptrace future pfuture "
           "failed trace pftrace failed future pffuture",
           "step p1 -> p2 call try failing to p3"])
    SIDES = {1: ["pre"], 2: ["future"], 3: ["pre", "past0"], 4: ["own0"],
             5: ["own1", "trace"], 6: ["future", "due1"],
             22: ["own2", "ftrace"], 23: ["ffuture", "due2"], 24: ["ffuture"],
             10: ["past1", "ppre"], 11: ["past1 ptrace", "past2"],
             12: ["own1 ptrace", "own2"], 13: ["due2", "pfuture"],
             14: ["ptrace due2", "due1"], 18: ["past1 pftrace", "past3"],
             19: ["own1 pftrace", "own3"], 20: ["due3", "pffuture"],
             21: ["pftrace due3", "due1"]}

    def side(self, name):
        first, *second = (self.LEAVES[one] for one in name.split())
        return join(first, *second) if second else first

    def test_sides(self):
        """Each rule's sides, in the order of testing."""
        rules = list(all_rules(sheet_of(self.TEXT)))
        self.assertEqual([rule.number for rule in rules], list(self.SIDES))
        for rule in rules:
            left, *right = map(self.side, self.SIDES[rule.number])
            self.assertEqual((rule.left, rule.right),
                             (left, right[0] if right else None))
            self.assertEqual(rule.subject, 0)

    def test_order(self):
        sheet = sheet_of(outcomes.ORDER)
        self.assertEqual([(rule.number, rule.subject) for rule in all_rules(sheet)],
                         outcomes.ORDER_RULES)

    def test_subjects(self):
        self.assertEqual([number for number in range(1, 25)
                          if subject_kind(number) == "method"],
                         [1, 2, 3, 4, 5, 6, 22, 23, 24])

    def test_counts(self):
        """Document 01's formula, and one for each of rules 18 to 24."""
        seen = Counter()
        for sheet in failing_sheets():
            rules = list(all_rules(sheet))
            self.assertEqual(rule_count(sheet), len(rules))
            self.assertEqual(certificates_needed(sheet), sum(
                rule.has_certificate for rule in rules))
            kinds = Counter(one.kind for one in sheet.methods + sheet.steps)
            bodies = kinds[9] + kinds[16]
            calls = kinds[11] + kinds[17]
            self.assertEqual(
                rule_count(sheet),
                2 + 4 * bodies + 3 * kinds[10] + 5 * calls + 3 * kinds[12]
                + 2 * kinds[16] + (sheet.methods[0].kind == 16) + 4 * kinds[17])
            seen.update(kinds)
        self.assertGreater(min(seen[kind] for kind in range(8, 13)), 20)
        self.assertGreater(min(seen[kind] for kind in (15, 16, 17)), 20)

    def test_without_certificate(self):
        self.assertEqual({rule.number for sheet in failing_sheets()
                          for rule in all_rules(sheet)
                          if not rule.has_certificate}, {1, 2, 4, 24})

    def test_cases_by_construction(self):
        """The single sheets on both instruments."""
        for instrument in INSTRUMENTS.values():
            for case in outcomes.single_cases():
                line = load_line(case.data, instrument)
                self.assertTrue(faults.agrees(case, line),
                                f"{case.label}: {case.line} {line}")
        for case in chain(outcomes.full_limits(), outcomes.wide_sides()):
            self.assertEqual(load_line(case.data), case.line)

    def test_clauses(self):
        """Each of rules 18 to 23 fails clauses 1 to 4 as the first fault, and 24
        clause 5."""
        found = Counter()
        for case in chain(
                faults.certificate_faults(202, failing_sheets(), 3, NEW_RULES),
                faults.broken_rules(203, 3, NEW_RULES, FAILING_SHAPES)):
            line = load_line(case.data)
            self.assertTrue(faults.agrees(case, line), f"{case.line} {line}")
            words = line.split()
            found[int(words[2]), int(words[6])] += 1
        self.assertEqual(set(found), {(24, 5)} | {
            (rule, clause) for rule in range(18, 24) for clause in (1, 2, 3, 4)})

    def test_changed_sheets(self):
        """An unproved sheet with exact certificates has a false rule: the first,
        by the languages; an accepted one has none."""
        seen = Counter()
        for case in faults.changed_conditions(204, failing_sheets()):
            if "new certificates" not in case.label:
                continue
            sheet = read_sheet(case.data)
            if isinstance(sheet, Refusal):
                continue
            wrong = [rule for rule in all_rules(sheet) if not is_true(rule)]
            unproved = first_unproved(sheet)
            self.assertEqual(unproved.rule if unproved else None,
                             wrong[0] if wrong else None)
            seen[unproved.rule.number if unproved else 0] += 1
        self.assertGreater(seen[0], 10)
        self.assertGreater(sum(seen[number] for number in NEW_RULES), 5)


class Alone(unittest.TestCase):
    """For each new rule a sheet on which it alone is false, and a run that then
    breaks demand 3."""

    def test_rule(self):
        self.assertEqual(list(outcomes.ALONE), list(NEW_RULES))
        for number, one in outcomes.ALONE.items():
            sheet = sheet_of(one.text)
            wrong = [rule for rule in all_rules(sheet) if not is_true(rule)]
            self.assertEqual([rule.number for rule in wrong], [number])
            self.assertEqual(first_unproved(sheet).rule, wrong[0])

    def test_run(self):
        for number, one in outcomes.ALONE.items():
            sheet = sheet_of(one.text)
            run = start(sheet)
            for move in one.moves:
                self.assertIsNone(first_break(sheet, run), number)
                after = make_move(sheet, run, move)
                self.assertNotEqual(after, run)
                run = after
            found, broken = first_break(sheet, run)
            self.assertEqual((found.method, broken), (one.method, one.broken))

    def test_owed(self):
        """Those on futures break Ask 12 before the end, but for 24."""
        for number, one in outcomes.ALONE.items():
            sheet = sheet_of(one.text)
            found = [first_owed_break(sheet, make(sheet, *one.moves[:count]))
                     for count in range(len(one.moves) + 1)]
            methods = {call.method for call, _ in filter(None, found)}
            self.assertEqual(methods, {one.method} if number in (20, 21, 23)
                             else set(), number)

    def test_mended(self):
        """With the failed side mended, the sheet is accepted."""
        mended = {
            18: [("point failed", "past one"), ("primitive probe", "pre one")],
            19: [("primitive try", "failed trace nothing")],
            20: [("primitive try", "failed future one")],
            21: [("primitive try", "failed trace nothing")],
            22: [("method main", "failed trace one")],
            23: [("primitive probe", "future all"), ("point inner_end", "due all"),
                 ("point inner_start", "due all")],
            24: [("method main", "failed future nothing")]}
        for number, changes in mended.items():
            text = outcomes.changed_text(outcomes.ALONE[number].text, changes)
            self.assertRegex(load_line(assemble(text)), "^accepted ", number)


class Runs(unittest.TestCase):
    def same(self, sheet, run, *moves):
        for move in moves:
            self.assertEqual(make_move(sheet, run, move), run, move)

    def test_primitive(self):
        """Failing leads to the failed target by a word of the failed trace."""
        sheet = example("gate_may_fail")
        first = start(sheet)
        self.same(sheet, first, failed(0), failed(0, 0), failed(0, 3, 3),
                  Move(0, None, True), Move(0, (3,)), FAIL, RETURN)
        run = make_move(sheet, first, failed(0, 3))
        self.assertEqual((run.history, run.point),
                         ((3,), sheet.steps[0].failed_target))
        self.assertEqual([(one.failed, one.raised) for one in run.returned_calls],
                         [(True, (3,))])
        run = make(sheet, failed(0, 3), Move(2), RETURN)
        self.assertTrue(run.ended)
        self.assertIsNone(first_break(sheet, run))
        run = make(sheet, Move(0, (0,)))
        self.assertEqual((run.point, run.returned_calls[0].failed),
                         (sheet.steps[0].target, False))
        # A primitive of one outcome does not fail.
        self.same(sheet, run, failed(1, 1), failed(1), FAIL)
        ended = make(sheet, Move(0, (0,)), Move(1, (1,)), RETURN)
        self.assertTrue(ended.ended)
        self.assertIsNone(first_break(sheet, ended))

    def test_method(self):
        """A method that fails leads to the failed target of its caller."""
        sheet = example("method_may_fail")
        inside = make(sheet, Move(0), failed(3, 3))
        self.assertEqual(len(inside.open_calls), 2)
        self.same(sheet, inside, RETURN, Move(4), Move(2))
        run = make_move(sheet, inside, FAIL)
        self.assertEqual((run.point, len(run.open_calls)),
                         (sheet.steps[0].failed_target, 1))
        self.assertEqual([(one.method, one.failed, one.raised)
                          for one in run.returned_calls],
                         [(2, True, (3,)), (1, True, (3,))])
        self.same(sheet, run, FAIL, RETURN)
        at_exit = make_move(sheet, run, Move(2))
        # The outermost method has one outcome.
        self.same(sheet, at_exit, FAIL)
        self.assertTrue(make_move(sheet, at_exit, RETURN).ended)
        normal = make(sheet, Move(0), Move(3, (0,)), Move(4))
        self.same(sheet, normal, FAIL)
        self.assertEqual(make_move(sheet, normal, RETURN).point,
                         sheet.steps[0].target)

    def test_outermost(self):
        """Failing ends the run where the outermost method 0 fails."""
        sheet = sheet_of(outcomes.ALONE[22].text)
        run = make(sheet, Move(1))
        self.same(sheet, run, RETURN)
        ended = make_move(sheet, run, FAIL)
        self.assertTrue(ended.ended)
        self.assertEqual((ended.open_calls, ended.point), ((), run.point))
        self.assertTrue(ended.returned_calls[0].failed)
        self.same(sheet, ended, FAIL, RETURN, Move(0), Move(1))
        other = make(sheet, Move(0))
        self.same(sheet, other, FAIL)
        self.assertFalse(make_move(sheet, other, RETURN).returned_calls[0].failed)

    def test_outcome_that_is_not_read(self):
        """With an event, a pass, and a call that opens a body."""
        through, stuck = (Move(0), Move(3, (0,))), (Move(0), failed(3, 3), FAIL)
        for name, before, number in (
                ("method_may_fail", (), 0), ("method_may_fail", through, 4),
                ("method_may_fail", stuck, 2), ("recursion", (), 0),
                ("recursion", (Move(0),), 1), ("recursion", (), 3)):
            sheet = example(name)
            run = make(sheet, *before)
            after = make_move(sheet, run, Move(number))
            self.assertNotEqual(after, run)
            self.assertEqual(make_move(sheet, run, Move(number, None, True)), after)

    def test_one_exit(self):
        """Where exit and failed exit are one point, the move decides."""
        sheet = sheet_of(outcomes.ONE_EXIT)
        run = make(sheet, Move(0), Move(3))
        for move, step, event in ((RETURN, 1, 1), (FAIL, 2, 2)):
            after = make_move(sheet, run, move)
            self.assertEqual(after.returned_calls[-1].failed, move.failed)
            self.assertEqual(after.point, sheet.steps[step].source)
            ended = make_move(sheet, make_move(sheet, after, Move(step)), RETURN)
            self.assertEqual((ended.ended, ended.history), (True, (0, event)))
            self.assertIsNone(first_break(sheet, ended))

    def test_shared_word(self):
        """Where both traces hold the word, the move decides."""
        sheet = sheet_of(outcomes.SHARED_WORD)
        first = start(sheet)
        self.same(sheet, first, Move(0, (2,)), failed(0, 0))
        for move, point in ((Move(0, (1,)), 1), (failed(0, 1), 2)):
            run = make_move(sheet, first, move)
            self.assertEqual((run.point, run.history), (point, (1,)))
            self.assertIsNone(first_owed_break(sheet, run))

    def test_unwinding(self):
        """Each activation fails in turn."""
        sheet = sheet_of(outcomes.UNWINDING)
        run = make(sheet, Move(0), Move(1), Move(0), Move(1), Move(4))
        self.assertEqual(len(run.open_calls), 3)
        for count in (2, 1, 0):
            self.same(sheet, run, RETURN)
            run = make_move(sheet, run, FAIL)
            self.assertEqual(len(run.open_calls), count)
            self.assertIsNone(first_break(sheet, run))
            self.assertIsNone(first_owed_break(sheet, run))
        self.assertTrue(run.ended)
        self.assertEqual([one.raised for one in run.returned_calls],
                         [(), (3,), (3, 3)])

    def test_no_failed_target(self):
        """Without a failed target a call does not fail, whatever its method."""
        sheet = example("method_may_fail")
        steps = [one._replace(kind=11, failed_target=None) if one.is_call else one
                 for one in sheet.steps]
        changed = sheet._replace(steps=steps)
        self.same(changed, make(changed, Move(0)), failed(3, 3))
        inside = make(sheet, Move(0), failed(3, 3))
        self.same(changed, inside, FAIL)


class ByOutcome(unittest.TestCase):
    """A returned call is held to the trace and the future of its outcome."""

    def with_other_outcome(self, run, index):
        """The run, in which one returned call has the other outcome."""
        calls = list(run.returned_calls)
        calls[index] = calls[index]._replace(failed=not calls[index].failed)
        return run._replace(returned_calls=tuple(calls))

    def check(self, sheet, moves, index, broken, find=first_break):
        run = make(sheet, *moves)
        self.assertIsNone(find(sheet, run))
        found, what = find(sheet, self.with_other_outcome(run, index))
        self.assertEqual((found[:3], what),
                         (run.returned_calls[index][:3], broken))

    def test_trace(self):
        sheet = example("gate_may_fail")
        self.check(sheet, [failed(0, 3)], 0, "trace")
        self.check(sheet, [Move(0, (0,))], 0, "trace")

    def test_future(self):
        sheet = sheet_of(outcomes.ONE_EXIT)
        for back, step in ((RETURN, 1), (FAIL, 2)):
            self.check(sheet, [Move(0), Move(3), back, Move(step), RETURN], 0,
                       "future")

    def test_owed(self):
        sheet = sheet_of(outcomes.ONE_EXIT)
        for back, step in ((RETURN, 1), (FAIL, 2)):
            for moves in ([], [Move(step)]):
                self.check(sheet, [Move(0), Move(3), back] + moves, 0, "owed",
                           first_owed_break)

    def test_owed_by_a_failed_opening(self):
        """The two gates: the run ends without a close."""
        moves = failed(0, 3), Move(2), RETURN
        for name, broken in (("gate_may_fail", None), ("gate_may_fail_owed", 1)):
            sheet = example(name)
            for count in (1, 2):
                found = first_owed_break(sheet, make(sheet, *moves[:count]))
                self.assertEqual(found and found[0].method, broken)
                self.assertIsNone(first_break(sheet, make(sheet, *moves[:count])))
            found = first_break(sheet, make(sheet, *moves))
            self.assertEqual(found and (found[0].method, found[1]),
                             broken and (broken, "future"))


class RandomRuns(unittest.TestCase):
    SHAPES = tuple(map(plans.failing, (plans.line, plans.structured,
                                       plans.nested_calls, plans.exit_steps)))

    @staticmethod
    @lru_cache
    def broken_rules():
        """For each new rule, sheets on which just that rule is false."""
        return [(int(case.label.split()[1]), read_sheet(case.data))
                for case in faults.broken_rules(206, 24, NEW_RULES,
                                                RandomRuns.SHAPES)]

    def breaks_without(self, check):
        """For each rule, what random runs break where just that rule is false."""
        found = {}
        for rule, sheet in self.broken_rules():
            walker = Walker(Draws(2), sheet)
            for _ in range(20):
                result = walk(walker, Totals(), 0, check)
                if result:
                    found.setdefault(rule, set()).add(result.broken)
                    break
        return found

    def test_each_new_rule_counts(self):
        """Without any one of rules 18 to 24, some sheet has a run that breaks
        demand 3."""
        self.assertEqual(self.breaks_without(Walker.demand_3), {
            18: {"pre"}, 19: {"trace"}, 20: {"future"}, 21: {"future"},
            22: {"trace"}, 23: {"future"}, 24: {"future"}})

    def test_rules_of_ask_12(self):
        """The new rules on due; 19 and 22 as in the next test."""
        self.assertEqual(self.breaks_without(Walker.ask_12),
                         {rule: {"owed"} for rule in (20, 21, 23)})

    def test_traces_of_ask_12(self):
        """A caller that trusts a failed trace which the called method breaks."""
        for rule, own in ((19, "advances"), (22, "opens")):
            sheet = sheet_of(f"""condition nothing = empty
condition all = any*
condition opens = {{0}}
condition advances = globally({{2}})
point m0 past all own nothing due all
point m1 past all own nothing due advances
point m2 past all own all due nothing
point i0 past all own nothing due all
point i1 past all own {own} due nothing
point i2 past all own nothing due nothing
method main pre all trace all future nothing entry m0 exit m2
method inner pre all trace advances future nothing entry i0 exit i2 failed trace advances failed future nothing failed exit i1
primitive probe pre all trace nothing future advances
primitive try pre all trace nothing future all failed trace opens failed future all
step m0 -> m1 call probe
step m1 -> m2 call inner failing to m2
step i0 -> i2 call try failing to i1
""")
            self.assertEqual([one.number for one in all_rules(sheet)
                              if not is_true(one)], [rule])
            run = make(sheet, Move(0, ()), Move(1), failed(2, 0))
            self.assertIsNone(first_owed_break(sheet, run))
            found, broken = first_owed_break(sheet, make_move(sheet, run, FAIL))
            self.assertEqual((found.method, found.step, broken), (2, 0, "owed"))

    def test_accepted_sheets(self):
        """Random runs of sheets that may fail keep demand 3 and Ask 12."""
        totals, draws = Totals(), Draws(3)
        for sheet in failing_sheets():
            walker = Walker(draws, sheet)
            for _ in range(6):
                self.assertIsNone(walk(walker, totals, 0))
        for count in (totals.failed_primitives, totals.failed_bodies,
                      totals.failed_ends, totals.chosen, totals.owed_by_failed):
            self.assertGreater(count, 20)


class Texts(unittest.TestCase):
    HEAD = ("condition a = empty", "point p past a own a due a",
            "method m pre a trace a future a entry p exit p",
            "primitive f pre a trace a future a failed trace a failed future a",
            "primitive g pre a trace a future a")

    def test_errors(self):
        both = ("expected: primitive NAME pre .. trace .. future .., then all or "
                "none of failed trace .. failed future ..")
        bodies = ("expected: method NAME pre .. trace .. future .. entry .. exit .., "
                  "then all or none of failed trace .. failed future .. "
                  "failed exit ..")
        ends = ("a step ends with: event EVENT, call METHOD, call METHOD failing to "
                "POINT, call METHOD channel NUMBER, or pass")
        for line, message in (
                ("primitive h pre a trace a future a failed trace a", both),
                ("primitive h pre a trace a future a failed future a", both),
                ("primitive h pre a trace a future a failed", both),
                ("primitive h pre a trace a future a failed trace", both),
                ("primitive h pre a trace a future a "
                 "failed future a failed trace a", both),
                ("primitive h pre a trace a future a failed trace a "
                 "failed future a failed exit p", both),
                ("primitive h pre a pre a trace a", both),
                ("method h pre a trace a future a entry p exit p "
                 "failed trace a failed future a", bodies),
                ("method h pre a trace a future a failed trace a "
                 "failed future a", bodies),
                ("method h pre a trace a future a entry p exit p failed trace a "
                 "failed future a failed exit a", "unknown point 'a'"),
                ("primitive h pre a trace a future a failed trace p "
                 "failed future a", "unknown condition 'p'"),
                ("step p -> p call f", "'f' may fail: call f failing to POINT"),
                ("step p -> p call g failing to p", "'g' cannot fail: call g"),
                ("step p -> p call m failing to p", "'m' cannot fail: call m"),
                ("step p -> p call f failing to q", "unknown point 'q'"),
                ("step p -> p call h failing to p", "unknown method 'h'"),
                ("step p -> p call f failing p", ends),
                ("step p -> p call f failing to p p", ends),
                ("step p -> p pass failing to p", ends)):
            with self.assertRaises(TextError) as caught:
                assemble("\n".join(self.HEAD + (line,)))
            self.assertEqual((caught.exception.line, str(caught.exception)),
                             (6, message))

    def test_first_method(self):
        with self.assertRaisesRegex(TextError, "the first method is a primitive"):
            assemble("\n".join(self.HEAD[:2] + self.HEAD[3:]))

    def test_names_like_keys(self):
        """A condition and a point may be called failed."""
        sheet = sheet_of("""condition failed = empty
point failed past failed own failed due failed
method m pre failed trace failed future failed entry failed exit failed failed trace failed failed future failed failed exit failed
step failed -> failed call m failing to failed""")
        self.assertEqual(load_line(r.encode(sheet)), "accepted 18")

    def test_disassemble(self):
        """The words of the text form, and every certificate's rule."""
        lines = disassemble((EXAMPLES / "method_may_fail.sheet").read_bytes())
        shown = [line.lstrip().split("  ", 1)[-1] for line in lines]
        for line in (
                "10  method 1: pre 0 trace 5 future 8 entry 4 exit 6 "
                "failed trace 4 failed future 1 failed exit 7",
                "0F  primitive 2: pre 6 trace 2 future 8 failed trace 4 "
                "failed future 1",
                "11  call step 0: from 0 to 1 failing to 2 method 1",
                "11  call step 3: from 4 to 5 failing to 7 method 2"):
            self.assertIn(line, shown)
        ends = [line.split(": ")[1] for line in lines if "end of cert" in line]
        self.assertEqual(ends[:8], [f"rule {rule} method {method}" for rule, method
                                    in ((3, 0), (5, 0), (6, 0), (3, 1), (5, 1),
                                        (6, 1), (22, 1), (23, 1))])
        self.assertEqual(ends[8:17], [f"rule {rule} step 0" for rule in
                                      (10, 11, 12, 13, 14, 18, 19, 20, 21)])
        self.assertEqual(lines[-1], "accepted 41")

    def test_disassemble_refused(self):
        data = FOUR + call(11, NUMBERS[16])
        self.assertEqual(disassemble(data)[-2:], [
            f"{len(FOUR):6}  {call(11, NUMBERS[16]).hex(' ')}",
            f"refused 18 at {len(FOUR)}"])
        for case in outcomes.record_cases():
            self.assertEqual(disassemble(case.data)[-1], load_line(case.data))

    def test_exact_certificates(self):
        """What the assembler makes is accepted where every rule is true."""
        for label, (text, count) in outcomes.ACCEPTED.items():
            self.assertEqual(load_line(assemble(text)), f"accepted {count}", label)


@lru_cache(maxsize=None)
def former_answer(data, instrument, kinds):
    """What reading says where there are that many kinds, or None if it says the same
    on the instrument."""
    former = read_sheet(data, instrument._replace(kinds=kinds))
    return None if former == read_sheet(data, instrument) else former


def uses_later(data, instrument, kinds):
    """Whether reading meets a record of a kind above that many."""
    reader, offset = Reader(instrument), 0
    while offset < len(data) <= instrument.bytes:
        if kinds < data[offset] <= instrument.kinds:
            return True
        record = read_record(data, offset, instrument.kinds)
        if isinstance(record, Refusal) or reader.refusal_at(record):
            return False
        reader.add(record)
        offset = record.end
    return False


def without_number(line):
    """The line without what request 3 added: the number of a no."""
    return "no" if line.startswith("no ") else line


class AsBefore(unittest.TestCase):
    """Sheets that do not use what is new are judged as before.

    The former instruments have the kinds up to KINDS. The stored cases of before are
    the first ones of each file. For each file: the bytes of these, a digest of the
    bytes, the number of lines, and how many of the lines are others now. DIGEST is
    that of all their former lines.
    """
    KINDS = 14
    FORMER = {
        "reading": (685097, "a5fb2941603d27be", 3487, 106),
        "sheets": (1872777, "5b6c542622aa9f84", 3386, 8),
        "words": (1124520, "8a46f0af547ce523", 22059, 6),
        "entry_reading": (390250, "79d2c2c5c1419580", 807, 19),
        "entry_sheets": (486841, "5f2d8a6a5f7fe505", 605, 1),
        "entry_words": (121678, "27f4edcf30a1f35d", 781, 6)}
    DIGEST = "b943a6d814095b7a"

    @classmethod
    def setUpClass(cls):
        cls.stored = test_reference.Vectors
        cls.stored.setUpClass()

    def entries(self, name):
        """The sheet and the line of each stored case."""
        lines = iter(self.stored.lines[name])
        if name.endswith("words"):
            for sheet, words in self.stored.groups(name):
                yield from ((sheet, next(lines)) for _ in words)
        else:
            yield from ((sheet, next(lines)) for sheet in self.stored.cases(name))

    def test_former_bytes(self):
        """The former cases stand where they stood."""
        for name, (size, digest, _, _) in self.FORMER.items():
            data = (test_reference.STORED / "data" / name).read_bytes()[:size]
            self.assertEqual(sha256(data).hexdigest()[:16], digest, name)

    def test_former_lines(self):
        """A former line is the present one without the number of a no, or was `refused
        2 at` a record of a later kind; so all former lines come back."""
        former = []
        for name, (_, _, count, others) in self.FORMER.items():
            changed = 0
            instrument = self.stored.FILES[name]
            for data, line in islice(self.entries(name), count):
                before = former_answer(data, instrument, self.KINDS)
                if before is not None:
                    line, changed = line_of(before), changed + 1
                former.append(without_number(line) + "\n")
            self.assertEqual(changed, others, name)
        digest = sha256("".join(former).encode()).hexdigest()
        self.assertEqual(digest[:16], self.DIGEST)

    def test_what_differs(self):
        """In all stored cases, a sheet is read otherwise exactly if a record of a
        later kind is met, which gave 2."""
        found = Counter()
        for name in self.FORMER:
            instrument = self.stored.FILES[name]
            for data in dict.fromkeys(data for data, _ in self.entries(name)):
                before = former_answer(data, instrument, self.KINDS)
                new = uses_later(data, instrument, self.KINDS)
                self.assertEqual(before is not None, new)
                if new:
                    self.assertEqual(before.number, 2)
                    self.assertGreater(data[before.place], self.KINDS)
                found[name, new] += 1
        self.assertGreater(min(found.values()), 20)


if __name__ == "__main__":
    unittest.main()
