"""Tests of the reference: the cases of "Sheets to try" in document 01, and more."""
import re
import subprocess
import sys
import unittest
from collections import Counter
from functools import lru_cache
from itertools import chain, islice, product
from pathlib import Path

from generate import faults
from generate.draws import Draws
from generate.refusals import reading_cases
from generate.special import (ENTRY_EXAMPLES, EXAMPLES, M, closing_loops, examples,
                              last_cases, listed_examples, special_cases, starred)
from generate.trees import random_tree
from generate.plans import recursion, repeated_calls
from generate.true_sheets import true_sheets
from generate.words import condition_words, is_light, matches
from reference.certificates import (Fault, first_fault, is_included, moves,
                                    reachable_pairs)
from reference.conditions import (ANY, EITHER, EMPTY, JOIN, LEAF, STAR, holds,
                                  parse_postfix, places_of, postfix, step)
from reference.inclusion import missing_word
from reference.instruments import ENTRY, FOUR_CHANNEL, INSTRUMENTS, LARGE
from reference.loader import load_line, verdict, word_line, word_line_of
from reference.reading import Refusal, read_sheet, reading_line
from reference.rules import all_rules, certificates_needed, rule_count
from reference.runs import (RETURN, Move, first_break, first_owed_break,
                            in_caller, make_move, missing, start)
from sheets import records as r
from sheets.assemble import TextError, assemble
from sheets.disassemble import disassemble
from sheets.expressions import ExpressionError, parse_expression, show
from simulate import Totals, Walker, in_like_of_caller, walk

HERE = Path(__file__).resolve().parent
CRATES = HERE.parent / "crates"
STORED = CRATES / "stored_cases"
A, B = (LEAF, 1), (LEAF, 2)
NOTHING = (EMPTY,)
ALL = (STAR, (LEAF, ANY))
FRONT = bytes.fromhex("0206 07000000000000 0900000000000000000000")


def text(*lines):
    """The sheet of an assembler text, read."""
    return read_sheet(assemble("\n".join(lines)))


@lru_cache
def broken_rules():
    """For each rule, sheets on which just that rule is false."""
    return [(int(case.label.split()[1]), read_sheet(case.data))
            for case in faults.broken_rules(5, 20)]


def breaks_without(check):
    """For each rule, what random runs break where just that rule is false."""
    found = {}
    for rule, sheet in broken_rules():
        walker = Walker(Draws(1), sheet)
        for _ in range(40):
            result = walk(walker, Totals(), 0, check)
            if result:
                found.setdefault(rule, set()).add(result.broken)
                break
    return found


def is_true(rule):
    """Whether a rule's claim holds of the languages."""
    if rule.right is None:
        return holds(rule.left, ())
    return missing_word(rule.left, rule.right) is None


def example(name):
    return read_sheet(assemble((EXAMPLES / name).read_text(encoding="utf-8")))


class SheetsToTry(unittest.TestCase):
    """The starred cases, and the others of that section."""

    def check(self, hexadecimal, line):
        self.assertEqual(load_line(bytes.fromhex(hexadecimal)), line)

    def test_refusals(self):
        self.check("", "refused 9 at 0")
        self.check("0F", "refused 3 at 0")
        self.check("01", "refused 3 at 0")
        self.check("03", "refused 5 at 0")
        self.check("02 06 07 01 00 00 00 00 00", "refused 7 at 2")

    def test_m(self):
        m = ("02 06 07" + "00" * 6 + "09" + "00" * 10
             + "0D 00 01 00 00 00 0E" * 3)
        self.assertEqual(bytes.fromhex(m), M)
        self.assertEqual(len(M), 41)
        self.check(m, "accepted 6")
        self.check(m[:-2], "refused 8 at 40")

    def test_m_with_trace_1(self):
        self.check("02 06 01 01 00 00 00 06 07" + "00" * 6
                   + "09 00 00 01 00" + "00" * 6 + "0D 00 01 00 00 00 0E" * 3,
                   "unproved rule 5 method 0 clause 3 pair 0 event 0 place 0")

    def test_length(self):
        self.assertEqual(load_line(bytes(65536)), "refused 2 at 0")
        self.assertEqual(load_line(bytes(65537)), "refused 1 at 65536")

    def test_leaves(self):
        leaves = r.item(LEAF, 1) * 31
        tail = FRONT[2:]
        self.assertEqual(reading_line(leaves + b"\x04" * 30 + b"\x06" + tail),
                         "read 1 1 1 0 0")
        self.assertEqual(reading_line(leaves + r.item(LEAF, 1)),
                         "refused 6 at 155")

    def test_words(self):
        sheet = bytes.fromhex("02 0104000000 01FFFFFFFF 05 03 04 06") + FRONT[2:]
        for word, line in (((), "yes"), ((2,), "yes"), ((2, 0), "yes"),
                           ((0,), "no 0"), ((0, 2), "no 0")):
            self.assertEqual(word_line(sheet, 0, word), line)

    def test_close_in_a_loop(self):
        """No point conditions get the loop with open accepted."""
        for case in closing_loops(2, 300):
            self.assertTrue(load_line(case.data).startswith(case.line))


class Conditions(unittest.TestCase):
    def test_places(self):
        """(a b)* a | empty"""
        tree = (EITHER, (JOIN, (STAR, (JOIN, A, B)), A), NOTHING)
        places = places_of(tree)
        self.assertTrue(places.nullable)
        self.assertEqual(places.first, 0b1010)
        self.assertEqual(places.last, 0b1000)
        self.assertEqual(places.follow, (0b1010, 0b0100, 0b1010, 0))
        self.assertEqual(places.ending, 0b1001)
        self.assertEqual(step(places, 1, 0), (0b1010, True))
        self.assertEqual(step(places, 0b1010, 1), (0b0100, True))
        self.assertEqual(step(places, 0b1010, 31), (0, False))

    def test_join_needs_its_second(self):
        """A's last leaf does not end AB where B lacks the empty word."""
        self.assertEqual(places_of((JOIN, A, B)).ending, 0b100)
        self.assertEqual(places_of((JOIN, A, (STAR, B))).ending, 0b110)
        self.assertEqual(places_of((JOIN, (STAR, A), (STAR, B))).ending, 0b111)

    def test_void_leaf(self):
        void = (LEAF, 0)
        self.assertFalse(holds(void, ()))
        self.assertFalse(holds(void, (0,)))
        self.assertTrue(holds((STAR, void), ()))
        self.assertTrue(holds((EITHER, void, A), (0,)))
        self.assertFalse(holds((JOIN, A, void), (0,)))

    def test_postfix(self):
        tree = (JOIN, (STAR, A), (EITHER, B, NOTHING))
        records = postfix(tree)
        self.assertEqual([kind for kind, _ in records], [1, 5, 1, 2, 4, 3])
        self.assertEqual(parse_postfix(records), tree)
        self.assertIsNone(parse_postfix([(JOIN, 0)]))
        self.assertIsNone(parse_postfix([(EMPTY, 0), (EMPTY, 0)]))
        self.assertIsNone(parse_postfix([]))

    def test_against_re(self):
        draws = Draws(3)
        for _ in range(60):
            tree = random_tree(draws, draws.between(1, 6), [0, 1], 0.1)
            for line, words in condition_words(draws, tree, [0, 1], 3).items():
                for word in words:
                    self.assertEqual(holds(tree, word), line == "yes")


class Reading(unittest.TestCase):
    def test_cases_by_construction(self):
        for case in reading_cases(count=20):
            if case.line is not None:
                self.assertEqual(reading_line(case.data), case.line, case.label)

    def test_sheet_read_back(self):
        for _, sheet in true_sheets(4, 40):
            self.assertEqual(read_sheet(r.encode(sheet)), sheet)

    def test_end_record_is_not_among_the_96(self):
        body = b"\x02" + b"\x05" * 95
        self.assertEqual(reading_line(body + b"\x06" + FRONT[2:]),
                         "read 1 1 1 0 0")
        self.assertEqual(reading_line(body + b"\x05"), "refused 6 at 96")

    def test_certificates(self):
        self.assertEqual(reading_line(FRONT + b"\x0e"), "read 1 1 1 0 1")
        self.assertEqual(reading_line(FRONT + r.pair(0, 1)), "refused 8 at 26")
        self.assertEqual(read_sheet(FRONT + b"\x0e").certificates, [[]])

    def test_refusal_10(self):
        for count in (0, 1, 2, 4):
            data = FRONT + M[20:27] * count
            self.assertEqual(load_line(data), f"refused 10 at {len(data)}")
        self.assertEqual(load_line(FRONT + b"\x0e" * 3), "unproved rule 3 "
                         "method 0 clause 1 pair 0 event 0 place 0")


class Rules(unittest.TestCase):
    def test_order_and_counts(self):
        sheet = example("future_past_caller.txt")
        numbers = [(rule.number, rule.subject) for rule in all_rules(sheet)]
        self.assertEqual(numbers, [
            (1, 0), (2, 0), (3, 0), (4, 0), (5, 0), (6, 0),
            (3, 1), (4, 1), (5, 1), (6, 1),
            (10, 0), (11, 0), (12, 0), (13, 0), (14, 0),
            (7, 1), (8, 1), (9, 1),
            (10, 2), (11, 2), (12, 2), (13, 2), (14, 2)])
        self.assertEqual(rule_count(sheet), 2 + 4 * 2 + 3 + 5 * 2)
        self.assertEqual(certificates_needed(sheet), 3 * 2 + 3 + 5 * 2)

    def test_event_side(self):
        """The event is the last left place in 7 and 8, place 1 in 9."""
        sheet = text("condition two = {3} {4}", "condition all = any*",
                     "point p past two own two due two",
                     "method m pre all trace all future all entry p exit p",
                     "step p -> p event 5")
        sides = {rule.number: places_of(rule.left).sets
                 for rule in all_rules(sheet) if rule.number in (7, 8, 9)}
        self.assertEqual(sides, {7: (0, 8, 16, 32), 8: (0, 8, 16, 32),
                                 9: (0, 32, 8, 16)})

    def test_rules_without_certificate(self):
        base = ["condition nothing = empty", "condition one = {1}",
                "condition all = any*"]
        for point, method, line in (
                ("all own all due all", "one trace all future nothing", 1),
                ("all own all due all", "nothing trace all future one", 2),
                ("all own one due all", "nothing trace all future nothing", 4)):
            lines = base + [f"point p past {point}",
                            f"method m pre {method} entry p exit p"]
            self.assertEqual(
                load_line(assemble("\n".join(lines))),
                f"unproved rule {line} method 0 clause 5 pair 0 event 0 place 0")


class Certificates(unittest.TestCase):
    def test_clauses(self):
        left, right = (STAR, A), (STAR, (EITHER, A, B))
        good = [(0, 1), (1, 2)]
        self.assertIsNone(first_fault(left, right, good))
        self.assertEqual(first_fault(left, right, []), Fault(1))
        self.assertEqual(first_fault(left, right, [(0, 3), (1, 2)]), Fault(1))
        self.assertEqual(first_fault(left, right, good[::-1]), Fault(1))
        self.assertEqual(first_fault(left, right, good + [(2, 1)]), Fault(2, 2))
        self.assertEqual(first_fault(left, right, good + [(0, 8)]), Fault(2, 2))
        self.assertEqual(first_fault(left, right, good + [(1, 0)]), Fault(3, 2))
        self.assertEqual(first_fault(left, right, [(0, 1)]), Fault(4, 0, 0, 1))

    def test_listed_set_lies_within(self):
        left, right = (STAR, A), (STAR, (EITHER, A, A))
        self.assertEqual(reachable_pairs(left, right), [(0, 1), (1, 6)])
        self.assertIsNone(first_fault(left, right, [(0, 1), (1, 2)]))
        self.assertEqual(first_fault(left, right, [(0, 1), (1, 7)]),
                         Fault(4, 0, 0, 1))

    def test_later_pairs(self):
        left, right = (STAR, A), (STAR, A)
        pairs = [(0, 1), (1, 2), (0, 1), (0, 3), (1, 3), (1, 2)]
        self.assertIsNone(first_fault(left, right, pairs))

    def test_order_of_clause_4(self):
        left = (EITHER, (LEAF, 0b110), (LEAF, 0b010))
        self.assertEqual(first_fault(left, ALL, [(0, 1)]), Fault(4, 0, 1, 1))
        self.assertEqual(first_fault(left, ALL, [(0, 1), (1, 2)]),
                         Fault(4, 0, 1, 2))

    def test_breadth_first(self):
        left = (JOIN, (EITHER, B, A), (STAR, B))
        right = (JOIN, (LEAF, 3), (STAR, (LEAF, ANY)))
        self.assertEqual(reachable_pairs(left, right),
                         [(0, 1), (2, 2), (1, 2), (3, 4)])

    def test_void_leaves(self):
        void = (LEAF, 0)
        stuck = (JOIN, A, void)
        self.assertEqual(reachable_pairs(stuck, void), [(0, 1), (1, 0)])
        self.assertTrue(is_included(stuck, void))
        self.assertEqual(first_fault(stuck, void, [(0, 1), (1, 0), (2, 0)]),
                         Fault(3, 2))
        self.assertIsNone(first_fault(stuck, void, [(0, 1), (1, 0), (2, 2)]))

    def test_inclusion_against_re(self):
        """A fault of the reachable pairs comes with a word that shows it."""
        draws, found = Draws(6), Counter()
        for _ in range(400):
            left = random_tree(draws, draws.between(1, 4), [0, 1])
            right = random_tree(draws, draws.between(1, 5), [0, 1])
            word = witness(left, right)
            found[word is None] += 1
            self.assertEqual(is_included(left, right), word is None)
            if word is not None:
                self.assertTrue(matches(left, word))
                self.assertFalse(matches(right, word))
                continue
            for inside in condition_words(draws, left, [0, 1], 3)["yes"]:
                if is_light(right, inside, 10000):
                    self.assertTrue(matches(right, inside))
        self.assertGreater(min(found.values()), 50)


def witness(left_tree, right_tree):
    """A word of the left that is not in the right, or None."""
    left, right = places_of(left_tree), places_of(right_tree)
    words = {(0, 1): ()}
    for pair in (queue := [(0, 1)]):
        if left.ending >> pair[0] & 1 and not pair[1] & right.ending:
            return words[pair]
        for event, follower, stepped in moves(left, right, *pair):
            if (follower, stepped) not in words:
                words[follower, stepped] = words[pair] + (event,)
                queue.append((follower, stepped))
    return None


class Loader(unittest.TestCase):
    def test_special_sheets(self):
        for case in chain(special_cases(), last_cases()):
            line = load_line(case.data)
            self.assertTrue(faults.agrees(case, line), f"{case.label}: {line}")

    def test_faults_by_construction(self):
        sheets = [sheet for _, sheet in true_sheets(8, 64, 60)]
        found = Counter()
        for cases in (faults.certificate_faults(9, sheets, 2),
                      faults.broken_rules(10, 2),
                      faults.kept_certificates(11, sheets[:16]),
                      faults.certificate_counts(12, sheets[:4]),
                      faults.two_faults(13, sheets[:16])):
            for case in cases:
                line = load_line(case.data)
                self.assertTrue(faults.agrees(case, line),
                                f"{case.label}: {case.line} {line}")
                words = line.split()
                if words[0] == "unproved":
                    found[int(words[2]), int(words[6])] += 1
        for rule in range(1, 18):
            for clause in (5,) if rule in (1, 2, 4) else (1, 2, 3, 4):
                self.assertGreaterEqual(found[rule, clause], 1)

    def test_word_test_order(self):
        long = (40,) * 4097
        self.assertEqual(word_line(b"\x15", 9, long), "refused 2 at 0")
        self.assertEqual(word_line(b"\x0f", 9, long), "refused 3 at 0")
        self.assertEqual(word_line(FRONT, 1, long), "refused 14")
        self.assertEqual(word_line(FRONT, 0, long), "refused 12")
        self.assertEqual(word_line(FRONT, 0, (0, 40) * 2048), "refused 13 at 1")
        self.assertEqual(word_line(FRONT, 0, (0,) * 4096), "no 0")
        self.assertEqual(word_line(FRONT, 0, ()), "yes")


def make(sheet, *moves_):
    """The run of the moves."""
    run = start(sheet)
    for move in moves_:
        run = make_move(sheet, run, move)
    return run


class Runs(unittest.TestCase):
    def test_close_loop(self):
        sheet = example("close_loop.txt")
        run = make(sheet, Move(0), Move(1, (1,)), Move(0), Move(1, (1,)))
        self.assertEqual(run.history, (2, 1, 2, 1))
        self.assertEqual([call.raised for call in run.returned_calls],
                         [(1,), (1,)])
        self.assertFalse(run.ended)
        run = make_move(sheet, run, RETURN)
        self.assertTrue(run.ended)
        self.assertIsNone(first_break(sheet, run))
        for move in (RETURN, Move(0), Move(1, (1,))):
            self.assertEqual(make_move(sheet, run, move), run)

    def test_impossible_moves(self):
        sheet = example("close_loop.txt")
        first, middle = start(sheet), make(sheet, Move(0))
        for move in (Move(1, (1,)), Move(2), Move(-1), Move(999)):
            self.assertEqual(make_move(sheet, first, move), first)
        for move in (RETURN, Move(0), Move(1), Move(1, ()), Move(1, (2,)),
                     Move(1, (1, 1)), Move(1, (200,))):
            self.assertEqual(make_move(sheet, middle, move), middle)
        self.assertEqual(make(sheet, Move(0, (9, 200))), middle)

    def test_recursion(self):
        sheet = example("recursion.txt")
        run = make(sheet, Move(0), Move(1), Move(0), Move(1), Move(3))
        self.assertEqual([call.begun for call in run.open_calls],
                         [(), (3,), (3, 3)])
        self.assertEqual([call.step for call in run.open_calls], [None, 1, 1])
        run = make_move(sheet, run, RETURN)
        self.assertEqual(run.point, sheet.steps[1].target)
        for move in (Move(2), RETURN, Move(2), RETURN):
            self.assertIsNone(first_break(sheet, run))
            run = make_move(sheet, run, move)
        self.assertTrue(run.ended)
        self.assertEqual(run.history, (3, 3, 4, 4))
        self.assertEqual([call.raised for call in run.returned_calls],
                         [(), (3, 4), (3, 3, 4, 4)])
        self.assertEqual(run.point, sheet.methods[0].exit)
        self.assertIsNone(first_break(sheet, run))

    def test_break_of_a_future(self):
        """Seen only at the end: after close comes open."""
        sheet = example("close_loop_open.txt")
        run = make(sheet, Move(0), Move(1, (1,)), Move(0), Move(1, (1,)))
        self.assertIsNone(first_break(sheet, run))
        run = make_move(sheet, run, RETURN)
        call, broken = first_break(sheet, run)
        self.assertEqual((call.method, call.step, broken), (1, 1, "future"))

    def test_each_rule_counts(self):
        """Without any one rule, some sheet has a run that breaks demand 3."""
        parts = {1: "pre", 3: "pre", 7: "pre", 10: "pre", 11: "pre", 15: "pre",
                 4: "trace", 5: "trace", 8: "trace", 12: "trace", 16: "trace"}
        self.assertEqual(breaks_without(Walker.demand_3),
                         {number: {parts.get(number, "future")}
                          for number in range(1, 18)})


class Owed(unittest.TestCase):
    """Ask 12: what is owed while a run goes on."""

    def test_missing_word(self):
        """Against every word of up to four of the events that occur."""
        draws = Draws(12)
        words = [word for length in range(5)
                 for word in product((0, 1, 2), repeat=length)]
        seen = Counter()
        for _ in range(400):
            left, right = (random_tree(draws, draws.between(1, 4), [0, 1], 0.1)
                           for _ in range(2))
            before = draws.pick(words[:13])
            lacking = [word for word in words if holds(left, word)
                       and not holds(right, before + word)]
            found = missing_word(left, right, before)
            if found is not None:
                self.assertTrue(holds(left, found))
                self.assertFalse(holds(right, before + found))
            if lacking:
                self.assertEqual(len(found), len(lacking[0]))
            else:
                self.assertTrue(found is None or len(found) > 4)
            seen[found is None, bool(before)] += 1
        self.assertEqual(len(seen), 4)

    def test_in_the_maker(self):
        """What comes after close is not in its future; the end is not awaited."""
        sheet = example("close_loop_open.txt")
        run = make(sheet, Move(0), Move(1, (1,)))
        self.assertIsNone(first_break(sheet, run))
        call, broken = first_owed_break(sheet, run)
        self.assertEqual((call.method, call.step, broken), (1, 1, "owed"))

    def test_after_the_callers_return(self):
        """close is owed when the method that called it has returned."""
        sheet = example("future_past_caller.txt")
        inside = make(sheet, Move(0), Move(2, (1,)))
        self.assertIsNone(first_owed_break(sheet, inside))
        outside = make_move(sheet, inside, RETURN)
        later = make_move(sheet, outside, Move(1))
        for run in (outside, later):
            self.assertIsNone(first_break(sheet, run))
            call, broken = first_owed_break(sheet, run)
            self.assertEqual((call.method, call.step, broken), (2, 2, "owed"))
        ended = make_move(sheet, later, RETURN)
        self.assertTrue(ended.ended)
        self.assertIsNone(first_owed_break(sheet, ended))
        self.assertEqual(first_break(sheet, ended), (call, "future"))

    def test_activations(self):
        """Two activations by one step, with equal histories and one caller."""
        sheet = example("activations.txt")
        probe, visit, leave = Move(0, ()), Move(1), Move(2)
        first = make(sheet, probe, visit, probe)
        back = make_move(sheet, make_move(sheet, first, leave), RETURN)
        second = make_move(sheet, back, visit)
        self.assertEqual(first.open_calls, second.open_calls)
        probed = second.returned_calls[1]
        self.assertIs(probed.maker, first.open_calls[1])
        self.assertEqual([in_caller(run, probed)
                          for run in (first, back, second)],
                         [True, True, False])
        self.assertTrue(in_like_of_caller(second, probed))
        self.assertEqual(missing(sheet, sheet.points[second.point].due,
                                 sheet.methods[probed.method].future, ()), (0,))

    def test_all_moves(self):
        """Every run of up to 14 moves of that sheet owes as it must."""
        sheet = example("activations.txt")
        runs, owed, alike = [start(sheet)], 0, 0
        for _ in range(14):
            runs = [after for run in runs
                    for move in (RETURN, Move(0, ()), Move(1), Move(2), Move(3))
                    if (after := make_move(sheet, run, move)) is not run]
            for run in runs:
                self.assertIsNone(first_owed_break(sheet, run))
                owed += sum(in_caller(run, call)
                            for call in run.returned_calls)
                alike += sum(in_like_of_caller(run, call)
                             and not in_caller(run, call)
                             for call in run.returned_calls)
        self.assertGreater(owed, 1000)
        self.assertGreater(alike, 100)

    def test_callers_by_depth(self):
        """A call's callers are the open calls that no return has closed since."""
        draws, seen = Draws(13), Counter()
        shapes = recursion, repeated_calls
        for _, sheet in true_sheets(13, 40, shapes=shapes):
            walker = Walker(draws, sheet)
            for _ in range(8):
                run, depths = start(sheet), []
                for _ in range(40):
                    run = make_move(sheet, run, walker.move(run))
                    depth = len(run.open_calls)
                    if len(depths) < len(run.returned_calls):
                        depths.append(depth)
                    depths = [min(depth, old) for old in depths]
                    for call, lowest in zip(run.returned_calls, depths):
                        owed = in_caller(run, call)
                        self.assertEqual(owed, 0 < depth == lowest)
                        seen[owed, in_like_of_caller(run, call)] += 1
        self.assertEqual(set(seen), {(True, True), (False, True),
                                     (False, False)})
        self.assertGreater(min(seen.values()), 100)

    def test_rules_it_rests_on(self):
        """Each of the rules on due and own; past and the ends do not matter."""
        found = breaks_without(Walker.ask_12)
        self.assertEqual(found, {rule: {"owed"}
                                 for rule in (4, 6, 9, 12, 13, 14, 17)})

    def test_traces_it_rests_on(self):
        """A caller that trusts a trace which the called method breaks."""
        for rule, inner, exit_, trace in ((5, "opens", "opens", "advances"),
                                          (8, "advances", "advances", "advances"),
                                          (16, "opens", "advances", "advances")):
            sheet = text(
                "condition nothing = empty", "condition all = any*",
                "condition opens = {0}", "condition advances = globally({2})",
                "point m0 past all own nothing due all",
                "point m1 past all own nothing due advances",
                "point m2 past all own all due nothing",
                "point i0 past all own nothing due all",
                f"point i1 past all own {inner} due nothing",
                f"point i2 past all own {exit_} due nothing",
                "method main pre all trace all future nothing entry m0 exit m2",
                f"method inner pre all trace {trace} future nothing"
                " entry i0 exit i2",
                "primitive probe pre all trace nothing future advances",
                "step m0 -> m1 call probe", "step m1 -> m2 call inner",
                "step i0 -> i1 event 0", "step i1 -> i2 pass")
            self.assertEqual([one.number for one in all_rules(sheet)
                              if not is_true(one)], [rule])
            run = make(sheet, Move(0, ()), Move(1), Move(2), Move(3))
            self.assertIsNone(first_owed_break(sheet, run))
            run = make_move(sheet, run, RETURN)
            call, broken = first_owed_break(sheet, run)
            self.assertEqual((call.method, call.step, broken), (2, 0, "owed"))


class Texts(unittest.TestCase):
    def test_expressions(self):
        names = {"open": 0}
        any_, rest = (LEAF, ANY), ALL
        for source, tree in (
                ("finally({2})", (JOIN, (JOIN, (STAR, (LEAF, ANY & ~4)),
                                         (LEAF, 4)), rest)),
                ("globally(open)", (STAR, A)),
                ("next({0,1})", (JOIN, (JOIN, any_, (LEAF, 3)), rest)),
                ("empty | {2} any*", (EITHER, NOTHING,
                                      (JOIN, (LEAF, 4), rest))),
                ("none**", (STAR, (STAR, (LEAF, 0)))),
                ("not open", (LEAF, ANY & ~1)), ("{}", (LEAF, 0))):
            self.assertEqual(parse_expression(source, names), tree)
        for source in ("", "(", "{0", "{32}", "{0 1}", "a", "{0})", "* {1}",
                       "finally({0} {1})", "next {1}"):
            with self.assertRaises(ExpressionError, msg=source):
                parse_expression(source, names)

    def test_show(self):
        draws = Draws(7)
        for _ in range(300):
            tree = random_tree(draws, draws.between(1, 12), [0, 1, 2], 0.1)
            self.assertEqual(parse_expression(show(tree), {}), tree)

    def test_errors_have_lines(self):
        head = ["condition a = empty", "point p past a own a due a",
                "event e = 7"]
        for line, message in (
                ("poinr", "unknown statement 'poinr'"),
                ("condition a = any", "'a' is already defined"),
                ("condition b = x", "unknown name or sign 'x'"),
                ("point q past b own a due a", "unknown condition 'b'"),
                ("method m pre a trace a future a entry q exit p",
                 "unknown point 'q'"),
                ("primitive f pre a trace a future a",
                 "the first method is a primitive"),
                ("step p -> p event 32", "event 32 is above 31"),
                ("step p -> p call f", "unknown method 'f'"),
                ("event f = 7", "event 7 is already named 'e'"),
                ("condition deep = " + "(" * 5000 + "a" + ")" * 5000,
                 "the expression is nested more than 100 deep"),
                ("condition stars = a" + "*" * 5000,
                 "the condition has 5001 records, more than 96"),
                ("condition long = " + "any " * 32,
                 "the condition has 32 leaves, more than 31")):
            with self.assertRaises(TextError) as caught:
                assemble("\n".join(head + [line]))
            self.assertEqual((caught.exception.line, str(caught.exception)),
                             (4, message))
        with self.assertRaisesRegex(TextError, "byte order mark"):
            assemble("\ufeff" + "\n".join(head))

    def test_disassemble(self):
        lines = disassemble(M)
        self.assertEqual(lines[1], "     1  06  end of condition 0: empty")
        self.assertEqual(lines[-2:], ["    41  end", "accepted 6"])
        self.assertEqual(disassemble(b"\x02\x06\x07\x01")[-2:],
                         ["     2  07 01", "refused 3 at 2"])
        self.assertEqual(disassemble(b""), ["     0  end", "refused 9 at 0"])
        for case in reading_cases(count=20):
            if len(case.data) < 500:
                lines = disassemble(case.data)
                self.assertEqual(lines[-1], load_line(case.data))


class Programs(unittest.TestCase):
    def run_python(self, *arguments, data=b"", folder=HERE):
        result = subprocess.run([sys.executable, *arguments], cwd=folder,
                                input=data, capture_output=True, check=False)
        return result.returncode, result.stdout, result.stderr.decode()

    def run_module(self, *arguments, data=b""):
        return self.run_python("-m", *arguments, data=data)

    def test_any_folder(self):
        """The assembler and the disassembler are run as files, too."""
        programs = HERE / "sheets"
        self.assertEqual(self.run_python(
            programs / "assemble.py", "minimal.txt", folder=EXAMPLES),
            (0, M, ""))
        code, out, _ = self.run_python(
            programs / "disassemble.py", "minimal.sheet", folder=EXAMPLES)
        self.assertEqual((code, out.splitlines()[-1]), (0, b"accepted 6"))
        code, out, error = self.run_python(
            programs / "disassemble.py", "no_such_sheet", folder=EXAMPLES)
        self.assertEqual((code, out, error[:15]), (1, b"", "no_such_sheet: "))

    def test_reader_that_stops(self):
        """`disassemble | head` ends without a message."""
        lines = [sys.executable, "-m", "sheets.disassemble",
                 EXAMPLES / "gate.sheet"]
        with subprocess.Popen(lines, cwd=HERE, stdout=subprocess.PIPE,
                              stderr=subprocess.PIPE) as program:
            program.stdout.close()
            self.assertEqual((program.stderr.read(), program.wait()), (b"", 0))

    def test_programs(self):
        self.assertEqual(self.run_module("reference.loader", data=M),
                         (0, b"accepted 6\n", ""))
        name = "../examples/minimal.txt"
        self.assertEqual(self.run_module("sheets.assemble", name), (0, M, ""))
        code, out, _ = self.run_module("sheets.disassemble", data=M)
        self.assertEqual((code, out.splitlines()[-1]), (0, b"accepted 6"))
        code, out, error = self.run_module("sheets.assemble", __file__)
        self.assertEqual((code, out), (1, b""))
        self.assertIn("test_reference.py:1: unknown statement", error)
        path = str(STORED / "data" / "words")
        self.assertEqual(self.run_module("reference.wordtest", path, "0", "1"),
                         (0, b"refused 1 at 65536\n", ""))


class Examples(unittest.TestCase):
    """examples/: the texts, the sheets and the table of its README agree."""

    def test_every_file_is_listed(self):
        names = [case.label for case in listed_examples()]
        self.assertEqual(len(names), len(set(names)))
        sheets = {f"{name}.sheet" for name in names}
        texts = {f"{name}.txt" for name in names} - {"cut.txt"}
        self.assertEqual({path.name for path in EXAMPLES.iterdir()},
                         sheets | texts | {"README.md"})

    def test_texts(self):
        """Each text gives its sheet, and has the lines of the table and below it."""
        for instrument in INSTRUMENTS.values():
            listed = {case.label: case for case in listed_examples(instrument)}
            for case in examples(instrument):
                self.assertEqual(case, listed[case.label])
            self.assertEqual(listed["cut"].data, M[:-1])

    def test_lines(self):
        for instrument in INSTRUMENTS.values():
            for case in listed_examples(instrument):
                self.assertEqual(load_line(case.data, instrument), case.line,
                                 case.label)

    def test_instruments_differ(self):
        """Just the examples for the entry instrument have two lines."""
        both = zip(listed_examples(), listed_examples(ENTRY))
        self.assertEqual({large.label for large, entry in both
                          if large.line != entry.line}, ENTRY_EXAMPLES)


class Documents(unittest.TestCase):
    """What docs/SHEETS.md shows is so."""

    SHOWN = (HERE.parent / "docs" / "SHEETS.md").read_text(encoding="utf-8")
    SECTIONS = ("event", "condition", "point", "method", "primitive", "step")

    def section(self, title):
        return re.search(rf"^##+ {title}$(.*?)^##", self.SHOWN, re.M | re.S)[1]

    def test_from_nothing(self):
        """Each answer is that of the text up to it; points are replaced."""
        start_, steps = self.section("A sheet from nothing").split("\n1.  ")
        statements, answers = {}, []
        for line in (re.findall(r"^ {4}(\w.*)", start_, re.M)
                     + re.findall(r"^ {8}(\w.*)", steps, re.M)):
            words = line.split()
            if words[0] in self.SECTIONS:
                key = line if words[0] == "step" else (words[0], words[1])
                statements[key] = line
                continue
            data = assemble("\n".join(sorted(
                statements.values(),
                key=lambda one: self.SECTIONS.index(one.split()[0]))))
            self.assertEqual(load_line(data), line)
            answers.append(line)
        self.assertEqual((len(answers), answers[-1]), (8, "accepted 21"))
        self.assertEqual(data, (EXAMPLES / "one_round.sheet").read_bytes())

    def test_loop(self):
        """The lines for three choices of due in the loop with open."""
        shown = re.findall(r"^ {4}(unproved .*)$",
                           self.section("A loop that cannot be accepted"), re.M)
        source = (EXAMPLES / "close_loop_open.txt").read_text(encoding="utf-8")
        lines = []
        for top, mid in (("body", "rest"), ("all", "all"),
                         ("then_advance", "all")):
            changed = source.replace("due body", f"due {top}")
            changed = changed.replace("due rest", f"due {mid}")
            lines.append(load_line(assemble(changed)))
        self.assertEqual(lines, shown)

    def test_gate_may_fail(self):
        """The statements are the example's; the line is that of the other."""
        *shown, line = re.findall(
            r"^ {4}(\w.*)$", self.section("A gate that may fail to open"), re.M)
        source = (EXAMPLES / "gate_may_fail.txt").read_text(encoding="utf-8")
        self.assertEqual(len(shown), 6)
        for statement in shown:
            self.assertIn(statement, source.splitlines())
        owed = source.replace("failed future all", "failed future closes")
        self.assertEqual(load_line(assemble(owed)), line)
        self.assertEqual(
            assemble(owed),
            (EXAMPLES / "gate_may_fail_owed.sheet").read_bytes())

    def test_exercise_that_stops(self):
        """The statements are those of an example; the lines are those of two others;
        two methods, one for each place, are accepted."""
        *shown, owed, sites = re.findall(
            r"^ {4}(\w.*)$", self.section("An exercise that stops itself"), re.M)
        source = (EXAMPLES / "stop_inside.txt").read_text(encoding="utf-8")
        self.assertEqual(len(shown), 3)
        for statement in shown:
            self.assertIn(statement, source.splitlines())
        for name, line in (("stop_owed", owed), ("two_call_sites", sites)):
            self.assertEqual(
                load_line((EXAMPLES / f"{name}.sheet").read_bytes()), line)
        source = (EXAMPLES / "two_call_sites.txt").read_text(encoding="utf-8")
        for one, two in (
                ("point walk_start past before own nothing due from_walk",
                 "point walk_start past one_open own nothing due then_walk\n"
                 "point last_start past round own nothing due one_advance"),
                ("point walk_end past behind own one_advance due after_walk",
                 "point walk_end past further own one_advance due then_close\n"
                 "point last_end past whole own one_advance due nothing"),
                ("method walk pre before trace one_advance future after_walk"
                 " entry walk_start exit walk_end",
                 "method walk pre one_open trace one_advance future then_close"
                 " entry walk_start exit walk_end\n"
                 "method last_walk pre round trace one_advance future nothing"
                 " entry last_start exit last_end"),
                ("step outside -> done call walk",
                 "step outside -> done call last_walk\n"
                 "step last_start -> last_end event advance")):
            self.assertIn(one, source.splitlines())
            source = source.replace(one, two)
        self.assertEqual(load_line(assemble(source)), "accepted 43")

    def test_step_in_the_wrong_method(self):
        """The statements are those of an example; the line is that of another."""
        *shown, step_, line = re.findall(
            r"^ {4}(\w.*)$", self.section("A step in the wrong method"), re.M)
        source = (EXAMPLES / "owned_points.txt").read_text(encoding="utf-8")
        self.assertEqual(len(shown), 2)
        for statement in shown:
            self.assertIn(statement, source.splitlines())
        data = assemble(source + step_)
        self.assertEqual(load_line(data), line)
        self.assertEqual(data, (EXAMPLES / "pasted_step.sheet").read_bytes())

    def test_sheets_to_try(self):
        rows = re.findall(r"^\| (?!bytes|--)(.*) \| `(.*)` \|$",
                          self.section("Sheets to try"), re.M)
        entry = [row for row in rows if row[0].endswith("entry instrument")]
        self.assertEqual(len(entry), 2)
        for shown, line in entry:
            zeros = bytes(int(shown.split()[0].replace(",", "")))
            self.assertEqual(load_line(zeros, ENTRY), line)
        editions = [row for row in rows if re.fullmatch(r"1[23]( \d\d)*", row[0])]
        self.assertEqual(len(editions), 3)
        for shown, line in editions:
            self.assertEqual(load_line(bytes.fromhex(shown)), line)
        owners = [row for row in rows if row[0].startswith("M with 14, six 00, 01 00")]
        stray = bytes([0x14]) + bytes(6) + bytes([1, 0])
        self.assertEqual([line for _, line in owners],
                         [load_line(data) for data in
                          (M[:2] + stray + M[9:], M[:9] + stray + M[9:])])
        four = [row for row in rows if row[0].endswith("four-channel instrument")]
        self.assertEqual([shown[:2] for shown, _ in four], ["15", "16", "17"])
        for shown, line in four:
            self.assertEqual(load_line(bytes.fromhex(shown[:2]), FOUR_CHANNEL), line)
        unknown = [row for row in rows if row[0] == "15"]
        self.assertEqual([line for _, line in unknown], [load_line(b"\x15")])
        others = entry + editions + owners + four + unknown
        rows = [row for row in rows if row not in others]
        self.assertEqual([line for _, line in rows],
                         [case.line for case in starred()])
        for (shown, line), case in zip(rows, starred()):
            if re.fullmatch(r"[0-9A-F ]+", shown):
                self.assertEqual(bytes.fromhex(shown), case.data)
            self.assertEqual(load_line(case.data), line)

    def test_least_sheet(self):
        shown = re.findall(r"^ {4}([ a].*)$", self.section("Bytes"), re.M)
        self.assertEqual(disassemble(M), shown)


class Proofs(unittest.TestCase):
    """What the proofs say of an example is of its bytes."""

    def bytes_of(self, name, *paths):
        """The bytes of a list in files of definitions: hexadecimal, or lists."""
        source = "".join((CRATES / path).read_text(encoding="utf-8")
                         for path in paths)
        body = re.search(rf"^{name} =(.*?)^$", source, re.M | re.S)[1]
        return b"".join(bytes([int(word, 16)]) if word.startswith("0x")
                        else self.bytes_of(word, *paths)
                        for word in re.findall(r"\w+", body))

    def test_activations(self):
        sheet = (EXAMPLES / "activations.sheet").read_bytes()
        self.assertEqual(sheet, self.bytes_of(
            "sheet", "judged_sheets/proofs/Activations.antt",
            "verdict/specs/Cases.antt"))


class Vectors(unittest.TestCase):
    """The stored vectors are what the reference says."""

    FILES = {"reading": LARGE, "sheets": LARGE, "words": LARGE,
             "entry_reading": ENTRY, "entry_sheets": ENTRY, "entry_words": ENTRY,
             "four_reading": FOUR_CHANNEL, "four_sheets": FOUR_CHANNEL,
             "four_words": FOUR_CHANNEL}

    @classmethod
    def setUpClass(cls):
        """The stored lines have those of one file after those of another."""
        lines = iter((STORED / "stdout").read_text().splitlines())
        cls.lines = {name: list(islice(lines, cls.count(name)))
                     for name in cls.FILES}
        cls.left = list(lines)

    @classmethod
    def count(cls, name):
        if name.endswith("words"):
            return sum(len(words) for _, words in cls.groups(name))
        return len(list(cls.cases(name)))

    @staticmethod
    def cases(name):
        data, at = (STORED / "data" / name).read_bytes(), 0
        while at < len(data):
            size = int.from_bytes(data[at:at + 4], "little")
            yield data[at + 4:at + 4 + size]
            at += 4 + size

    @staticmethod
    def groups(name):
        """Each sheet with its conditions' numbers and words."""
        data, at = (STORED / "data" / name).read_bytes(), 0

        def number(width):
            nonlocal at
            at += width
            return int.from_bytes(data[at - width:at], "little")

        def part(size):
            nonlocal at
            at += size
            return data[at - size:at]

        while at < len(data):
            sheet = part(number(4))
            yield sheet, [(number(2), part(number(2)))
                          for _ in range(number(4))]

    def test_files(self):
        """No line is left over, and there are no other files."""
        self.assertEqual(self.left, [])
        self.assertEqual({path.name for path in (STORED / "data").iterdir()},
                         set(self.FILES))

    def test_reading(self):
        for name in ("reading", "entry_reading", "four_reading"):
            self.assertEqual([reading_line(data, self.FILES[name])
                              for data in self.cases(name)], self.lines[name])

    def test_sheets(self):
        for name in ("sheets", "entry_sheets", "four_sheets"):
            self.assertEqual([load_line(data, self.FILES[name])
                              for data in self.cases(name)], self.lines[name])

    def test_examples(self):
        """Every sheet of examples/ is a stored case, with its line."""
        for name in ("sheets", "entry_sheets", "four_sheets"):
            stored = dict(zip(self.cases(name), self.lines[name]))
            for case in listed_examples(self.FILES[name]):
                self.assertEqual(stored.get(case.data), case.line, case.label)

    def test_words(self):
        for name in ("words", "entry_words", "four_words"):
            lines, instrument = [], self.FILES[name]
            for data, words in self.groups(name):
                sheet = read_sheet(data, instrument)
                lines += [word_line_of(sheet, *one, instrument) for one in words]
            self.assertEqual(lines, self.lines[name])

    def test_refusals_agree(self):
        """The loader gives refusals 1 to 9 as reading does."""
        for name in ("reading", "entry_reading", "four_reading"):
            for data in self.cases(name):
                result = read_sheet(data, self.FILES[name])
                if isinstance(result, Refusal):
                    self.assertEqual(verdict(data, self.FILES[name]), result)

    def test_smaller_instrument(self):
        """The entry instrument's stored answer on a sheet is refusal 1 or 6, or is
        the large one's; and so is its answer on the large one's stored sheets."""
        answers = chain(
            zip(self.lines["entry_sheets"],
                (load_line(data) for data in self.cases("entry_sheets"))),
            zip((load_line(data, ENTRY) for data in self.cases("sheets")),
                self.lines["sheets"]))
        found = Counter()
        for entry, large in answers:
            self.assertTrue(entry == large or entry == "refused 1 at 8192"
                            or entry.startswith("refused 6 at "), (entry, large))
            found[entry.split(" at ")[0] if entry != large else "equal",
                  large.split()[0]] += 1
        for entry in ("refused 1", "refused 6"):
            self.assertGreater(found[entry, "accepted"], 0)
        for large in ("accepted", "unproved", "refused"):
            self.assertGreater(found["equal", large], 100)


if __name__ == "__main__":
    unittest.main()
