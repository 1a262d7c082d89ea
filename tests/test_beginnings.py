"""Tests of document 02, Ask 3: where a word went wrong."""
import re
import unittest
from collections import Counter
from functools import lru_cache
from hashlib import sha256
from itertools import chain, islice, product
from tempfile import NamedTemporaryFile
from unittest.mock import patch

import test_outcomes
import test_reference
from generate import beginnings
from generate.beginnings import (TYPED, leaf_count, near_words, parsed, typed_group,
                                 void_condition)
from generate.channels import wide_leaves
from generate.draws import Draws
from generate.special import closing_loops
from generate.trees import EMPTY_TREE, VOID, changed_leaves, random_tree
from generate.words import derived, is_light, is_void, matches, sheet_of
from reference import certificates, conditions, loader
from reference.beginnings import after_event, derived_line, has_word, longest_beginning
from reference.certificates import Fault, first_fault, moves, reachable_pairs
from reference.conditions import (ANY, EITHER, EMPTY, JOIN, LEAF, STAR, bits, holds,
                                  live_places, places_of, step, tested)
from reference.inclusion import derivatives
from reference.instruments import ENTRY, FOUR_CHANNEL, INSTRUMENTS, LARGE
from reference.loader import load_line, word_line, word_line_of
from reference.reading import read_sheet
from test_outcomes import without_number

A, B, C = (LEAF, 1), (LEAF, 2), (LEAF, 4)
NO = re.compile(r"no (0|[1-9][0-9]*)\Z")


def letters(word):
    """The events of a word of letters."""
    return tuple("abcdef".index(letter) for letter in word)


class Readings(unittest.TestCase):
    """The request, one reading after the other."""

    def lines(self, text, **words):
        """Each word's line, on every instrument; `empty` stands for the empty word."""
        data = sheet_of([parsed(text)])
        for word, line in words.items():
            word = () if word == "empty" else letters(word)
            for instrument in INSTRUMENTS.values():
                self.assertEqual(word_line(data, 0, word, instrument), line, word)
            self.assertEqual(derived_line(parsed(text), word), line)

    def test_proper_beginning(self):
        """A beginning of a word that is not held gives its whole length."""
        self.lines("a b c d", a="no 1", ab="no 2", abc="no 3", abcd="yes")
        self.lines("(a b)* c", abab="no 4", ababa="no 5", ababc="yes")

    def test_wrong_event(self):
        """The number is that of the events before the first wrong one."""
        self.lines("a b c d", b="no 0", bbcd="no 0", aa="no 1", aacd="no 1",
                   abca="no 3", abcda="no 4", abcdaaa="no 4")

    def test_held_words_have_no_number(self):
        self.lines("a*", empty="yes", a="yes", aaaa="yes")

    def test_empty_word(self):
        """0 where it is not held, with words and without."""
        self.lines("a", empty="no 0")
        self.lines("none", empty="no 0")
        self.lines("empty", empty="yes")

    def test_no_words(self):
        for text in ("none", "a none", "none a", "a none b", "any* none", "none | none",
                     "(a | b) none* none"):
            self.assertFalse(has_word(parsed(text)))
            self.lines(text, empty="no 0", a="no 0", ab="no 0", aab="no 0", abcd="no 0")

    def test_star_of_no_words(self):
        """It holds the empty word."""
        for text in ("none*", "(a none)*", "(none | none)*"):
            self.lines(text, empty="yes", a="no 0", aa="no 0")
        self.lines("a none* b", a="no 1", ab="yes", aba="no 2")

    def test_arm_without_words(self):
        """EITHER is the other arm."""
        for one, other in (("b none", "a c"), ("none", "a c"), ("a a none", "a c")):
            for text in (f"{one} | {other}", f"{other} | {one}"):
                self.lines(text, empty="no 0", a="no 1", ac="yes", b="no 0", aa="no 1",
                           acc="no 2", aca="no 2")

    def test_hopeless_set(self):
        """The set has a place, but no word can be finished."""
        places = places_of(parsed("a none"))
        self.assertEqual(step(places, 1, 0), (0b10, False))
        self.lines("a none", a="no 0")
        self.lines("(a | b none) c", b="no 0", bc="no 0", a="no 1", ac="yes",
                   acc="no 2")

    def test_hopeless_for_long(self):
        """Places for every event, and none that helps."""
        self.lines("any* none | a b c", a="no 1", ab="no 2", abc="yes", abcc="no 3",
                   abddddddddddd="no 2", ddddddddddd="no 0")

    def test_any_continuation(self):
        """A word of any length counts, however far its end: longer than the word, and
        than a word may be."""
        tree = beginnings.chain([A] * 31)
        for length in range(31):
            self.assertEqual(tested(tree, (0,) * length), (False, length))
        tree = (JOIN, (STAR, A), beginnings.chain([B] * 30))
        self.assertEqual(tested(tree, (0,) * 4096), (False, 4096))
        self.assertEqual(tested(tree, (0,) * 4095 + (2,)), (False, 4095))

    def test_starred(self):
        """The starred words of document 01."""
        data = bytes.fromhex("02 0104000000 01FFFFFFFF 05 03 04 06") + sheet_of([])
        for word, line in (((), "yes"), ((2,), "yes"), ((2, 0), "yes"), ((0,), "no 0"),
                           ((0, 2), "no 0")):
            for instrument in INSTRUMENTS.values():
                self.assertEqual(word_line(data, 0, word, instrument), line)

    def test_refusals_first(self):
        """1 to 9, then 14, 12 and 13; a word that is refused has no number."""
        data = sheet_of([parsed("a none"), parsed("a b")])
        for number, word, line in (
                (0, (0, 64), "refused 13 at 1"), (1, (1, 0, 64), "refused 13 at 2"),
                (1, (1,) * 4097, "refused 12"), (1, (1,) * 4096, "no 0"),
                (2, (0,), "refused 14"), (2, (64,) * 4097, "refused 14")):
            for instrument in INSTRUMENTS.values():
                self.assertEqual(word_line(data, number, word, instrument), line)
                self.assertEqual(word_line(b"\x03", number, word, instrument),
                                 "refused 5 at 0")
        self.assertEqual(word_line(data, 1, (0, 32)), "refused 13 at 1")
        self.assertEqual(word_line(data, 1, (0, 32), FOUR_CHANNEL), "no 1")

    def test_wide_leaves(self):
        """Kind 21, also with the set 0 and with events above 31."""
        for text, word, line in (("a none", (0,), "no 0"), ("a | none", (0, 0), "no 1"),
                                 ("(a | b none) c", (0,), "no 1")):
            data = wide_leaves(sheet_of([parsed(text)]))
            self.assertEqual(data[0], 21)
            self.assertEqual(word_line(data, 0, word, FOUR_CHANNEL), line)
        high = sheet_of([(JOIN, (LEAF, 1 << 40), (LEAF, 1 << 63)),
                         (JOIN, (LEAF, 1), (JOIN, (LEAF, 1 << 32), (LEAF, 2)))])
        for number, word, line in ((0, (40,), "no 1"), (0, (40, 63), "yes"),
                                   (0, (40, 31), "no 1"), (0, (8,), "no 0"),
                                   (1, (0,), "no 1"), (1, (0, 32), "no 2"),
                                   (1, (0, 0), "no 1"), (1, (0, 32, 1), "yes")):
            self.assertEqual(word_line(high, number, word, FOUR_CHANNEL), line)

    def test_typed(self):
        for base, events, instrument in ((0, 32, LARGE), (26, 32, ENTRY),
                                         (58, 64, FOUR_CHANNEL)):
            group = typed_group(base, events)
            sheet = read_sheet(group.sheet, instrument)
            for number, word, line in group.cases:
                self.assertEqual(word_line_of(sheet, number, word, instrument), line)
        self.assertGreater(len(TYPED), 60)

    def test_program(self):
        with NamedTemporaryFile("wb") as sheet:
            sheet.write(sheet_of([parsed("(a | b none) c")]))
            sheet.flush()
            run = test_reference.Programs().run_module
            for word, line in (("", b"no 0"), ("0", b"no 1"), ("1", b"no 0"),
                               ("0 2", b"yes"), ("0 2 2", b"no 2")):
                for name in INSTRUMENTS:
                    self.assertEqual(run("reference.wordtest", "--instrument", name,
                                         sheet.name, "0", *word.split()),
                                     (0, line + b"\n", ""))


class Stepping(unittest.TestCase):
    """The set is the old one, whatever can be finished; every user has it."""

    @staticmethod
    def plain_step(places, from_set, event):
        """All followers whose leaf holds the event, by the text of document 01."""
        return sum(1 << place for place in range(1, len(places.sets))
                   if places.sets[place] >> event & 1
                   and any(places.follow[one] >> place & 1 for one in bits(from_set)))

    def trees(self, seed, count):
        draws = Draws(seed)
        return [void_condition(draws, 4)[0] for _ in range(count)]

    def test_live(self):
        """(a | b none) c: place 2 is left by none only."""
        places = places_of(parsed("(a | b none) c"))
        self.assertEqual(places.live, 0b11011)
        self.assertEqual(places_of(parsed("a b none")).live, 0b1000)
        self.assertEqual(places_of(parsed("none")).live, 0b10)
        self.assertEqual(places_of(parsed("a none a b")).live, 0b11100)
        self.assertEqual(places_of(parsed("(a none)*")).live, 0b101)
        self.assertEqual(places_of(beginnings.chain([A] * 31)).live, (1 << 32) - 1)
        self.assertEqual(places_of(beginnings.chain([A] * 30 + [VOID])).live, 1 << 31)

    def test_set(self):
        """All sets of four leaves and less, stepped."""
        found = Counter()
        for tree in self.trees(801, 150):
            places = places_of(tree)
            for from_set, event in product(range(2 << min(places.leaves, 4)), range(4)):
                after, finishable = step(places, from_set, event)
                self.assertEqual(after, self.plain_step(places, from_set, event))
                found[after != 0, finishable] += 1
        self.assertEqual(set(found), {(True, True), (True, False), (False, False)})
        self.assertGreater(min(found.values()), 300)

    def test_moves(self):
        """Clause 4 and the reachable pairs go through hopeless sets and places."""
        trees, hopeless = self.trees(802, 300), Counter()
        for left_tree, right_tree in zip(trees[::2], trees[1::2]):
            left, right = places_of(left_tree), places_of(right_tree)
            for place, rights in islice(reachable_pairs(left_tree, right_tree), 40):
                self.assertEqual(list(moves(left, right, place, rights)), [
                    (event, follower, self.plain_step(right, rights, event))
                    for event in range(32)
                    for follower in bits(self.plain_step(left, 1 << place, event))])
                hopeless["set"] += rights != 0 and not rights & right.live
                hopeless["place"] += not left.live >> place & 1
        self.assertGreater(min(hopeless["set"], hopeless["place"]), 100)

    def test_nothing_is_left_out(self):
        """A hopeless follower needs its pair, and has it among the reachable ones."""
        stuck = (EITHER, (JOIN, A, VOID), B)
        self.assertEqual(reachable_pairs(stuck, B), [(0, 1), (1, 0), (3, 2)])
        self.assertEqual(first_fault(stuck, B, [(0, 1), (3, 2)]), Fault(4, 0, 0, 1))
        self.assertIsNone(first_fault(stuck, B, [(0, 1), (1, 0), (3, 2)]))
        self.assertEqual(reachable_pairs(B, stuck), [(0, 1), (1, 8)])
        self.assertEqual(reachable_pairs(A, stuck), [(0, 1), (1, 2)])

    def test_users(self):
        """A step that forgets its set is seen in the word test and in the loader."""
        def lost(places, following, event):
            return 0, stepped(places, following, event)[1]
        stepped, case = conditions.stepped, next(closing_loops(2, 1))
        data = sheet_of([parsed("a*")])
        accepted = (test_reference.EXAMPLES / "one_round.sheet").read_bytes()
        self.assertEqual(load_line(accepted), "accepted 21")
        with patch.object(conditions, "stepped", lost):
            self.assertEqual(word_line(data, 0, (0,)), "no 1")
        with patch.object(certificates, "stepped", lost):
            self.assertTrue(load_line(accepted).startswith("unproved"))
        self.assertTrue(load_line(case.data).startswith(case.line))


class Derivatives(unittest.TestCase):
    """Places against partial derivatives, on random words."""

    @staticmethod
    @lru_cache
    def words():
        """10,000 random words, most of conditions with leaves of the set 0, and most
        not held."""
        draws, found = Draws(803), []
        while len(found) < 10000:
            tree, alphabet = void_condition(draws, draws.pick((3, 32, 64)))
            words = near_words(draws, tree, alphabet, 8, (0, 1, 3, 6, 10, 30, 60))
            found += [(tree, word) for word in words
                      if not holds(tree, word) or draws.chance(0.2)]
        return found[:10000]

    def test_same(self):
        found = Counter()
        for tree, word in self.words():
            held, longest = tested(tree, word)
            line = "yes" if held else f"no {longest}"
            self.assertEqual(line, derived_line(tree, word), (tree, word))
            self.assertEqual(longest, longest_beginning(tree, word))
            found[self.kind_of(tree, word, held, longest)] += 1
        self.assertEqual(set(found), {"yes", "no words", "whole", "first", "later",
                                      "hopeless", "behind"})
        self.assertGreater(min(found.values()), 200, found)

    @staticmethod
    def kind_of(tree, word, held, longest):
        """What kind of answer it is."""
        if held:
            return "yes"
        if is_void(tree):
            return "no words"
        if longest == len(word):
            return "whole"
        if holds(tree, word[:longest]):
            return "behind"
        places, current = places_of(tree), 1
        for event in word[:longest + 1]:
            current, _ = step(places, current, event)
        if current:
            return "hopeless"
        return "later" if longest else "first"

    def test_has_word(self):
        """Whether a condition has words, by another function on trees, and by whether
        place 0 is live."""
        found = Counter()
        for tree, _ in self.words():
            self.assertEqual(has_word(tree), not is_void(tree))
            self.assertEqual(has_word(tree), places_of(tree).live & 1 == 1)
            found[has_word(tree)] += 1
        self.assertGreater(min(found.values()), 500)

    def test_beginnings_of_the_word(self):
        """Up to the number, every beginning is held or has its own length; a longer one
        has the number of the whole."""
        for tree, word in self.words()[::7]:
            held, longest = tested(tree, word)
            for length in range(len(word) + 1):
                part = tested(tree, word[:length])
                self.assertEqual(part[1], min(length, longest))
                self.assertFalse(part[0] and length > longest)
            self.assertTrue(longest == len(word) or not held)

    def test_continued(self):
        """The beginning goes on to a word that re finds in the condition."""
        draws, found = Draws(804), 0
        for tree, word in self.words()[::5]:
            longest, trees = tested(tree, word)[1], frozenset([tree])
            if is_void(tree):
                continue
            for event in word[:longest]:
                trees, _ = after_event(trees, event)
            rest = draws.pick(sorted(filter(has_word, trees)))
            whole = word[:longest] + derived(draws, rest, 4)
            if is_light(tree, whole, 20000):
                self.assertTrue(matches(tree, whole))
                found += 1
        self.assertGreater(found, 1000)

    def test_moved_leaves(self):
        """The number depends on which leaves hold which event, not on its number."""
        for tree, word in self.words()[::11]:
            moved = changed_leaves(tree, lambda events: events << 45)
            self.assertEqual(tested(moved, tuple(event + 45 for event in word)),
                             tested(tree, word))


@lru_cache
def all_conditions(tokens):
    """All conditions of that many tokens, of leaves with a, with b and with the set 0,
    and EMPTY."""
    if tokens == 1:
        return [A, B, VOID, EMPTY_TREE]
    trees = [(STAR, item) for item in all_conditions(tokens - 1)]
    for first in range(1, tokens - 1):
        trees += [(kind, *items) for kind in (JOIN, EITHER) for items in product(
            all_conditions(first), all_conditions(tokens - 1 - first))]
    return trees


def all_words(events, most):
    """All words of up to that many events."""
    return list(chain(*(product(range(events), repeat=length)
                        for length in range(most + 1))))


class BruteForce(unittest.TestCase):
    """All small conditions and words. Five tokens have three leaves at most, so that a
    word is finished by three events or not at all."""

    @staticmethod
    def all_beginnings(tree):
        """The beginnings of the words of up to seven events that re finds."""
        held = {word for word in all_words(2, 7) if matches(tree, word)}
        return held, {word[:length] for word in held for length in range(len(word) + 1)}

    def test_all(self):
        words, found = all_words(3, 4), Counter()
        for tree in chain(*(all_conditions(tokens) for tokens in range(1, 6))):
            held, begun = self.all_beginnings(tree)
            for word in words:
                longest = max((length for length in range(len(word) + 1)
                               if word[:length] in begun), default=0)
                self.assertEqual(tested(tree, word), (word in held, longest))
                self.assertEqual(longest_beginning(tree, word), longest)
                found[longest if word not in held else "yes"] += 1
        self.assertEqual(set(found), {"yes", 0, 1, 2, 3, 4})
        self.assertEqual(sum(found.values()), 852 * 121)


def right_live(places):
    return places.live


def live_by(enterable):
    """Live places, where a place is by that rule one that may be entered or left."""
    def live(places):
        sets = [enterable(events) for events in places.sets]
        return live_places(places.follow, sets, places.ending)
    return live


def live_by_left(places):
    """Live places, where the leaf that is left must have events, not the one that is
    entered."""
    follow = [after if events else 0
              for after, events in zip(places.follow, places.sets)]
    return live_places(follow, [1] * len(follow), places.ending)


def live_once(places):
    """Live places, each looked at once, from the first to the last."""
    live = places.ending
    for place, after in enumerate(places.follow):
        if any(places.sets[one] and live >> one & 1 for one in bits(after)):
            live |= 1 << place
    return live


def walked(live_of=right_live, number=lambda longest, tree, word: longest):
    """A word test with these live places and this number."""
    def test(tree, word):
        places, current, longest = places_of(tree), 1, 0
        live = live_of(places)
        for length, event in enumerate(word, 1):
            current, _ = step(places, current, event)
            longest = length if current & live else longest
        return current & places.ending != 0, number(longest, tree, word)
    return test


def has_word_by(leaf=bool, empty=True, join=all, either=any, star=lambda items: True):
    """Whether a tree has words, with parts of the decision changed."""
    def decide(tree):
        if tree[0] == LEAF:
            return leaf(tree[1])
        if tree[0] == EMPTY:
            return empty
        items = [decide(item) for item in tree[1:]]
        return {JOIN: join, EITHER: either, STAR: star}[tree[0]](items)
    return lru_cache(maxsize=None)(decide)


def by_trees(decide):
    """A word test by derivatives with this decision."""
    def test(tree, word):
        trees, longest = frozenset([tree]), 0
        for length, event in enumerate(word, 1):
            trees = frozenset(chain(*(derivatives(one, event) for one in trees)))
            longest = length if any(map(decide, trees)) else longest
        return holds(tree, word), longest
    return test


def longest_held(_, tree, word):
    """The longest beginning that is itself a word of the condition."""
    places, current, longest = places_of(tree), 1, 0
    for length, event in enumerate(word, 1):
        current, _ = step(places, current, event)
        longest = length if current & places.ending else longest
    return longest


def within_the_length(_, tree, word):
    """The longest beginning of a word that is not longer than the given one."""
    places, current, longest = places_of(tree), 1, 0
    near = [places.ending]
    while len(near) <= min(len(word), 32):
        near.append(near[-1] | sum(
            1 << place for place, after in enumerate(places.follow)
            if any(places.sets[one] for one in bits(after & near[-1]))))
    for length, event in enumerate(word, 1):
        current, _ = step(places, current, event)
        if current & near[min(len(word) - length, 32)]:
            longest = length
    return longest


def past_the_end(longest, tree, word):
    """The next event too."""
    return min(longest + 1, len(word))


MISTAKES = {
    "the set is not empty": walked(lambda places: -1),
    "the set of no leaf is 0": walked(live_by(lambda events: 1)),
    "the leaf that is left has events": walked(live_by_left),
    "only an end is live": walked(lambda places: places.ending),
    "each place is looked at once": walked(live_once),
    "one event too far": walked(number=past_the_end),
    "one event too few": walked(number=lambda longest, *_: max(longest - 1, 0)),
    "the place of the wrong event, from 1": walked(number=lambda one, *_: one + 1),
    "no words, the length": walked(number=lambda longest, tree, word: len(word)
                                   if is_void(tree) else longest),
    "no words, one more": walked(number=lambda longest, tree, word: len(word) + 1
                                 if is_void(tree) else longest),
    "always the length": walked(number=lambda longest, tree, word: len(word)),
    "always 0": walked(number=lambda *_: 0),
    "held words only": walked(number=longest_held),
    "words up to the length only": walked(number=within_the_length),
    "a byte": walked(number=lambda longest, *_: longest % 256),
    "at most 255": walked(number=lambda longest, *_: min(longest, 255)),
    "at most 4,094": walked(number=lambda longest, *_: min(longest, 4094)),
    "at most 4,095": walked(number=lambda longest, *_: min(longest, 4095)),
    "what is left": walked(number=lambda longest, tree, word: len(word) - longest),
    "leaves always have words": by_trees(has_word_by(leaf=lambda events: True)),
    "only leaves with event 0 have words": by_trees(has_word_by(
        leaf=lambda events: events & 1)),
    "EMPTY has no words": by_trees(has_word_by(empty=False)),
    "JOIN has words if one item has": by_trees(has_word_by(join=any)),
    "JOIN has the words of its first": by_trees(has_word_by(join=lambda two: two[0])),
    "JOIN has the words of its second": by_trees(has_word_by(join=lambda two: two[1])),
    "EITHER has words if both arms have": by_trees(has_word_by(either=all)),
    "EITHER has those of its first": by_trees(has_word_by(either=lambda two: two[0])),
    "EITHER has those of its second": by_trees(has_word_by(either=lambda two: two[1])),
    "STAR has words if its item has": by_trees(has_word_by(star=all))}
# These are seen on the four-channel instrument only.
WIDE_MISTAKES = {
    "the lower 32 events of a set": walked(live_by(lambda events: events & ANY)),
    "the lower 32 events of a leaf": by_trees(has_word_by(
        leaf=lambda events: events & ANY))}


class Mistakes(unittest.TestCase):
    """Each of these mistakes changes a line of the stored cases of this request, of
    each instrument, and no yes."""

    @classmethod
    def setUpClass(cls):
        cls.stored = test_reference.Vectors
        cls.stored.setUpClass()

    def changed(self, name, test):
        """The stored lines of this request that another word test changes."""
        instrument, lines = self.stored.FILES[name], iter(self.stored.lines[name])
        count, found = AsBefore.FORMER[name][2], []
        with patch.object(loader, "tested", test):
            for data, words in self.stored.groups(name):
                some = list(islice(lines, len(words)))
                count -= len(words)
                if count < 0:
                    sheet = read_sheet(data, instrument)
                    found += [(line, other) for one, line in zip(words, some) if line !=
                              (other := word_line_of(sheet, *one, instrument))]
        return found

    def test_right(self):
        for name in AsBefore.WORDS:
            self.assertEqual(self.changed(name, walked()), [])
            self.assertEqual(self.changed(name, walked(live_by(bool))), [])
            self.assertEqual(self.changed(name, by_trees(has_word_by())), [])

    def test_wrong(self):
        for label, test in MISTAKES.items():
            for name in AsBefore.WORDS:
                found = self.changed(name, test)
                self.assertTrue(found, (label, name))
                self.assertNotIn("yes", {line for two in found for line in two})

    def test_wide(self):
        for label, test in WIDE_MISTAKES.items():
            self.assertEqual(self.changed("words", test), [])
            self.assertTrue(self.changed("four_words", test), label)


def parts(tree):
    """The tree and all trees in it."""
    return [tree] + [one for item in tree[1:] if tree[0] != LEAF for one in parts(item)]


class Stored(unittest.TestCase):
    FILES = {"words": beginnings.word_groups,
             "entry_words": beginnings.entry_word_groups,
             "four_words": beginnings.four_word_groups}

    @classmethod
    def setUpClass(cls):
        cls.stored = test_reference.Vectors
        cls.stored.setUpClass()

    def test_stored(self):
        """The groups are the last ones of each file, with their lines."""
        for name, groups in self.FILES.items():
            made = list(groups())
            stored = list(self.stored.groups(name))[-len(made):]
            self.assertEqual(stored, [
                (sheet, [(number, bytes(word)) for number, word, _ in cases])
                for sheet, cases in made])
            lines = [line for _, cases in made for _, _, line in cases]
            self.assertEqual(self.stored.lines[name][-len(lines):], lines)
            self.assertEqual(len(lines),
                             len(self.stored.lines[name]) - AsBefore.FORMER[name][2])

    def answers(self, name):
        """Each new stored condition, word and line."""
        for data, cases in self.FILES[name]():
            sheet = read_sheet(data, self.stored.FILES[name])
            yield from ((sheet.conditions[number], word, line)
                        for number, word, line in cases)

    def test_long_words(self):
        """4,096 events: wrong at the first, at the last, a beginning, and hopeless from
        the third on."""
        for name in self.FILES:
            found = {line for _, word, line in self.answers(name) if len(word) == 4096}
            self.assertLessEqual({"no 0", "no 4095", "no 4096"}, found, name)
        found = {line for _, word, line in self.answers("words") if len(word) == 4096}
        self.assertLessEqual({"no 1", "no 2", "yes"}, found)

    def test_shapes(self):
        """Leaves with the set 0 everywhere, no words, only the empty word."""
        for name in self.FILES:
            found = Counter()
            for tree, _, _ in self.answers(name):
                sets = places_of(tree).sets[1:]
                found["first"] += sets[:1] == (0,) and len(sets) > 1
                found["middle"] += 0 in sets[1:-1]
                found["last"] += sets[-1:] == (0,) and len(sets) > 1
                found["alone"] += sets == (0,)
                found["several"] += sets.count(0) > 3
                found["31"] += leaf_count(tree) == 31 and sets.count(0) > 1
                found["no words"] += is_void(tree)
                found["empty"] += not is_void(tree) and not places_of(tree).follow[0]
                found["under a star"] += (STAR, VOID) in parts(tree)
                found["one arm"] += any(one[0] == EITHER and VOID in one[1:]
                                        for one in parts(tree))
            least = 2 if name == "entry_words" else 10
            self.assertGreaterEqual(min(found.values()), least, (name, found))

    def test_hopeless_sets(self):
        """Sets that stay without hope, and not empty, for many events."""
        for name in self.FILES:
            found = Counter()
            for tree, word, line in self.answers(name):
                places, current, hopeless = places_of(tree), 1, 0
                for event in word:
                    current, finishable = step(places, current, event)
                    hopeless += current != 0 and not finishable
                for least in (1, 2, 5, 8, 1000):
                    found[least] += line != "yes" and hopeless >= least
            self.assertGreater(found[1], 100, name)
            self.assertGreater(min(found[2], found[5], found[8]), 10, name)
            self.assertGreaterEqual(found[1000], 1, name)


class AsBefore(unittest.TestCase):
    """The former stored cases stand where they stood, and their lines are the former
    ones, but that a no has its number. For each file: the bytes of these, a digest of
    the bytes, the number of lines, and how many of them say no. DIGEST is that of all
    former lines."""
    FORMER = {
        "reading": (2592904, "4e09ee2fd1f23bb0", 14762, 0),
        "sheets": (3728790, "bc29ed36581ff148", 7381, 0),
        "words": (1324710, "800b8555dfb102ee", 23733, 11149),
        "entry_reading": (1018954, "5f98fc3fbeaa4298", 3827, 0),
        "entry_sheets": (1040006, "3965d677f7d45aa1", 1703, 0),
        "entry_words": (219831, "b35856b4e7a68185", 1654, 517),
        "four_reading": (1403504, "ff788a6c6d2385a6", 7691, 0),
        "four_sheets": (2470133, "5c55888a0a6fce5c", 5167, 0),
        "four_words": (506656, "83a89bd9bfcde009", 8919, 4223)}
    DIGEST = "0e550fd39bf600f4"
    WORDS = "words", "entry_words", "four_words"

    @classmethod
    def setUpClass(cls):
        cls.stored = test_reference.Vectors
        cls.stored.setUpClass()

    test_former_bytes = test_outcomes.AsBefore.test_former_bytes

    def test_read_and_loaded_files(self):
        """Only the files of words have more cases than before."""
        for name, (size, _, count, _) in self.FORMER.items():
            now = (test_reference.STORED / "data" / name).stat().st_size
            self.assertEqual(now > size, name in self.WORDS, name)
            self.assertEqual(len(self.stored.lines[name]) > count, name in self.WORDS)

    def test_former_lines(self):
        """Each former line is the present one; of a no, without its number."""
        former = []
        for name, (_, _, count, noes) in self.FORMER.items():
            lines = self.stored.lines[name][:count]
            self.assertEqual(sum(NO.match(line) is not None for line in lines), noes)
            former += [without_number(line) + "\n" for line in lines]
        digest = sha256("".join(former).encode()).hexdigest()
        self.assertEqual(digest[:16], self.DIGEST)

    def test_numbers(self):
        """Every yes and no of a stored case, and its number, are those by
        derivatives."""
        found = Counter()
        for name in self.WORDS:
            instrument, lines = self.stored.FILES[name], iter(self.stored.lines[name])
            for data, words in self.stored.groups(name):
                sheet = read_sheet(data, instrument)
                for (number, word), line in zip(words, islice(lines, len(words))):
                    found[without_number(line).split(" at ")[0]] += 1
                    if line.startswith(("yes", "no")):
                        self.assertEqual(
                            derived_line(sheet.conditions[number], word), line)
        self.assertGreater(found["no"], 15000)
        self.assertGreater(found["yes"], 10000)

    def test_verdicts(self):
        """Pairs and faults of conditions with leaves of the set 0 are the same where no
        place is known to be live."""
        draws, found = Draws(805), Counter()
        for _ in range(200):
            left, right = (random_tree(draws, draws.between(1, 5), [0, 1], 0.3)
                           for _ in range(2))
            pairs = reachable_pairs(left, right)
            live = places_of(left).live
            hopeless = [place for place, _ in pairs if not live >> place & 1]
            before = first_fault(left, right, pairs)
            with patch.object(conditions, "live_places", lambda *_: 0):
                places_of.cache_clear()
                self.assertEqual(reachable_pairs(left, right), pairs)
                self.assertEqual(first_fault(left, right, pairs), before)
            places_of.cache_clear()
            found[bool(hopeless), before is None] += 1
        self.assertEqual(len(found), 4)


if __name__ == "__main__":
    unittest.main()
