"""Words for the word test of document 01; yes and no come from Python's re, the number
of a no (document 02, Ask 3) from partial derivatives.

Events become the characters chr(0x100 + e). The work that re would do is
counted before it is asked, so that no case backtracks for long.
"""
import re
from functools import lru_cache
from typing import NamedTuple

from reference.beginnings import longest_beginning
from reference.conditions import (ANY, EITHER, EMPTY, JOIN, LEAF, STAR, bits,
                                  holds)
from reference.instruments import LARGE
from sheets import records as r

from .draws import Draws
from .plans import SHAPES
from .refusals import reading_cases
from .trees import EMPTY_TREE, VOID, random_leaf, random_tree, random_word
from .true_sheets import true_sheets

MAX_WORD = 4096
SHORT_WORK = 50_000
LONG_WORK = 500_000
SHORT_LENGTHS = (0, 1, 2, 3, 5, 8, 12, 20, 40, 80)
TAIL = r.point(0, 0, 0) + r.method(0, 0, 0, 0, 0)


class Group(NamedTuple):
    """A sheet and its cases: condition, word, expected line."""
    sheet: bytes
    cases: list


class TooMuchWork(Exception):
    """The expression would backtrack for too long."""


def pattern_of(tree):
    """The regular expression of a tree."""
    kind = tree[0]
    if kind == LEAF:
        inside = "".join(chr(0x100 + event) for event in bits(tree[1]))
        return f"[{inside}]" if inside else "(?!)"
    if kind == EMPTY:
        return "(?:)"
    items = [pattern_of(item) for item in tree[1:]]
    if kind == JOIN:
        return "".join(items)
    if kind == EITHER:
        return f"(?:{items[0]}|{items[1]})"
    return f"(?:{items[0]})*"


@lru_cache(maxsize=512)
def compiled(tree):
    return re.compile(pattern_of(tree), re.DOTALL)


def matches(tree, word):
    """What re says of a word."""
    text = "".join(chr(0x100 + event) for event in word)
    return compiled(tree).fullmatch(text) is not None


class Work:
    """Counts the arrivals of a backtracking matcher at the parts of a tree."""

    def __init__(self, word, limit):
        self.word = word
        self.limit = limit

    def ends(self, tree, begins):
        """Positions after the tree, with the number of ways, from those before."""
        self.limit -= sum(begins.values())
        if self.limit < 0:
            raise TooMuchWork
        kind = tree[0]
        if kind == LEAF:
            return {at + 1: ways for at, ways in begins.items()
                    if at < len(self.word) and tree[1] >> self.word[at] & 1}
        if kind == EMPTY:
            return begins
        if kind == JOIN:
            return self.ends(tree[2], self.ends(tree[1], begins))
        if kind == EITHER:
            result = dict(self.ends(tree[1], begins))
            for at, ways in self.ends(tree[2], begins).items():
                result[at] = result.get(at, 0) + ways
            return result
        return self.star_ends(tree[1], begins)

    def star_ends(self, item, begins):
        """An item repeated; a repetition without events is the last one."""
        waiting, result = dict(begins), {}
        while waiting:
            at = min(waiting)
            ways = waiting.pop(at)
            result[at] = result.get(at, 0) + ways
            for after, more in self.ends(item, {at: ways}).items():
                into = result if after == at else waiting
                into[after] = into.get(after, 0) + more
        return result


def is_light(tree, word, limit):
    """Whether re answers within the work limit."""
    try:
        Work(word, limit).ends(tree, {0: 1})
    except TooMuchWork:
        return False
    return True


def is_void(tree):
    """Whether the condition holds no word."""
    if tree[0] == LEAF:
        return tree[1] == 0
    if tree[0] == JOIN:
        return is_void(tree[1]) or is_void(tree[2])
    return tree[0] == EITHER and is_void(tree[1]) and is_void(tree[2])


def derived(draws, tree, target):
    """A word of a tree, of about the target length; None if there is none."""
    kind = tree[0]
    if is_void(tree):
        return None
    if kind == LEAF:
        return (draws.pick(list(bits(tree[1]))),)
    if kind == EMPTY:
        return ()
    if kind == JOIN:
        part = draws.between(0, target)
        return (derived(draws, tree[1], part)
                + derived(draws, tree[2], target - part))
    if kind == EITHER:
        items = [item for item in tree[1:] if not is_void(item)]
        return derived(draws, draws.pick(items), target)
    return derived_star(draws, tree[1], target)


def derived_star(draws, item, target):
    """Words of the item one after another, up to about the target length."""
    if is_void(item):
        return ()
    parts, length = [], 0
    for _ in range(target):
        if length >= target:
            break
        word = derived(draws, item, draws.between(0, min(4, target - length)))
        parts.append(word)
        length += len(word)
    return tuple(event for word in parts for event in word)


def changed(draws, word, alphabet, events):
    """A word near the given one, of that many events."""
    word = list(word)
    way = draws.below(5)
    at = draws.below(len(word) + 1)
    if way == 0 or not word:
        word.insert(at, draws.pick(alphabet))
    elif way == 1:
        word[at % len(word)] = draws.below(events)
    elif way == 2:
        del word[at % len(word)]
    elif way == 3:
        word[at % len(word)] = draws.pick(alphabet)
    else:
        return random_word(draws, alphabet, draws.between(0, 8))
    return tuple(word)


def nested_stars(draws, leaves, alphabet, any_):
    """A tree with stars in stars."""
    tree = random_leaf(draws, alphabet, any_=any_)
    for _ in range(leaves - 1):
        other = random_leaf(draws, alphabet, 0.05, any_)
        order = (tree, other) if draws.chance(0.5) else (other, tree)
        tree = (JOIN if draws.chance(0.6) else EITHER, *order)
        if draws.chance(0.6):
            tree = (STAR, tree)
    return tree


def random_condition(draws, events=LARGE.events):
    """A condition and its alphabet, among that many events."""
    alphabet = sorted(draws.some(range(events), draws.between(1, 4)))
    any_ = (1 << events) - 1
    leaves = draws.pick((1, 1, 2, 2, 3, 3, 4, 5, 6, 8, 10, 16, 31))
    way = draws.below(20)
    if way == 0:
        tree = draws.pick((VOID, EMPTY_TREE, (STAR, VOID), (STAR, EMPTY_TREE),
                           (STAR, (LEAF, any_)), (LEAF, any_)))
    elif way < 7:
        tree = nested_stars(draws, leaves, alphabet, any_)
    else:
        tree = random_tree(draws, leaves, alphabet, draws.pick((0, 0, 0.1)), any_)
    return tree, alphabet


def fits_limits(tree):
    kinds = [kind for kind, _ in r.postfix(tree)]
    return len(kinds) <= 96 and kinds.count(LEAF) <= 31


def said_of(tree, word):
    """yes or no, as re says; the automaton must say the same."""
    said = matches(tree, word)
    if said != holds(tree, word):
        raise AssertionError(f"re {said}: {pattern_of(tree)!a} {word}")
    return "yes" if said else "no"


def line_for(said, tree, word):
    """The line of a word of which that is said."""
    return said if said == "yes" else f"no {longest_beginning(tree, word)}"


def answer(tree, word):
    """The line of a word, by re and by derivatives."""
    return line_for(said_of(tree, word), tree, word)


def condition_words(draws, tree, alphabet, each, events=LARGE.events):
    """Up to that many words of the condition and as many others."""
    words = {"yes": [], "no": []}
    for _ in range(12 * each):
        word = derived(draws, tree, draws.pick(SHORT_LENGTHS))
        if word is None or len(words["yes"]) == each or draws.chance(0.3):
            word = changed(draws, word or (), alphabet, events)
        if len(word) > MAX_WORD or not is_light(tree, word, SHORT_WORK):
            continue
        said = said_of(tree, word)
        if len(words[said]) < each and word not in words[said]:
            words[said].append(word)
        if len(words["yes"]) == len(words["no"]) == each:
            break
    both = min(len(words["yes"]), len(words["no"]))
    return {said: some[:both or 2] for said, some in words.items()}


def condition_cases(draws, number, tree, alphabet, each, events=LARGE.events):
    """These words as cases of the condition of that number."""
    words = condition_words(draws, tree, alphabet, each, events)
    return [(number, word, line_for(said, tree, word))
            for said, some in words.items() for word in some]


def sheet_of(trees):
    """A sheet that reading takes, with the conditions."""
    return b"".join(r.condition(tree) for tree in trees) + TAIL


def short_groups(seed, groups, conditions=8, each=4, events=LARGE.events):
    """Groups of short words over random conditions."""
    draws = Draws(seed)
    for _ in range(groups):
        trees, cases = [], []
        while len(trees) < conditions:
            tree, alphabet = random_condition(draws, events)
            if not fits_limits(tree):
                continue
            cases += condition_cases(draws, len(trees), tree, alphabet, each, events)
            trees.append(tree)
        yield Group(sheet_of(trees), draws.shuffled(cases))


def long_trees():
    """Conditions on which re is quick for long words."""
    a, b, c = (LEAF, 1), (LEAF, 2), (LEAF, 1 << 31)
    any_ = (LEAF, ANY)
    rest = (STAR, any_)
    other = (STAR, (LEAF, ANY & ~4))
    return [
        rest, (STAR, a), (STAR, (LEAF, 7)),
        (STAR, (JOIN, a, b)),
        (STAR, (JOIN, (JOIN, a, (STAR, b)), c)),
        (JOIN, (STAR, a), (JOIN, (STAR, b), (STAR, c))),
        (JOIN, (JOIN, other, (LEAF, 4)), rest),
        (JOIN, (JOIN, any_, (LEAF, 6)), rest),
        (EITHER, EMPTY_TREE, (JOIN, (LEAF, 4), rest)),
        (STAR, (EITHER, (JOIN, a, b), (JOIN, b, c))),
        (STAR, (EITHER, VOID, (JOIN, a, (EITHER, b, c)))),
        (JOIN, (STAR, (EITHER, a, (JOIN, b, c))), (STAR, c)),
    ]


def long_random_trees(draws, count):
    """Random conditions with long words that re tests quickly."""
    trees = []
    while len(trees) < count:
        tree, _ = random_condition(draws)
        word = derived(draws, tree, 1000)
        if (word and 500 < len(word) <= MAX_WORD and fits_limits(tree)
                and tree not in trees and len(r.postfix(tree)) > 6
                and is_light(tree, word, LONG_WORK)):
            trees.append(tree)
    return trees


def long_group(draws, trees, words):
    """Long words, half of them made from the conditions."""
    cases = []
    for number, tree in enumerate(trees):
        made = tries = 0
        while made < words and tries < 20 * words:
            tries += 1
            target = draws.pick((200, 500, 1000, 2000, 4000, 4096))
            word = derived(draws, tree, draws.between(target // 2, target))
            if made % 2:
                word = changed_late(draws, word)
            if len(word) > MAX_WORD or not is_light(tree, word, LONG_WORK):
                continue
            cases.append((number, word, answer(tree, word)))
            made += 1
    return Group(sheet_of(trees), draws.shuffled(cases))


def changed_late(draws, word):
    """The word with one event changed, anywhere or near the end."""
    if not word:
        return (draws.below(32),)
    at = len(word) - 1 if draws.chance(0.3) else draws.below(len(word))
    return word[:at] + (draws.below(32),) + word[at + 1:]


def edge_group():
    """Words of 0, 1, 4,095 and 4,096 events, and events 0 and 31."""
    trees = [(STAR, (LEAF, ANY)), (STAR, (LEAF, 1 << 31)), (STAR, (LEAF, 1)),
             (STAR, (JOIN, (LEAF, 1), (LEAF, 1 << 31)))]
    words = [(), (0,), (31,), (0, 31), (31, 0), (0,) * 4095, (0,) * 4096,
             (31,) * 4096, (0,) * 4095 + (31,), (31,) + (0,) * 4095,
             (0, 31) * 2048, (0, 31) * 2047 + (0,)]
    return Group(sheet_of(trees), [(number, word, answer(tree, word))
                                   for number, tree in enumerate(trees)
                                   for word in words])


def refusal_group():
    """Refusals 12, 13 and 14, and their order: 14, 12, 13."""
    trees = [(STAR, (LEAF, ANY)), EMPTY_TREE]
    long = (1,) * 4097
    cases = [(0, long, "refused 12"), (1, (1,) * 5000, "refused 12"),
             (0, (32,) * 4097, "refused 12"), (0, (1,) * 65535, "refused 12"),
             (2, (), "refused 14"), (3, (1,), "refused 14"),
             (65535, (), "refused 14"), (256, (), "refused 14"),
             (2, long, "refused 14"), (2, (32,), "refused 14"),
             (2, (32,) * 4097, "refused 14")]
    for event in (32, 33, 64, 128, 255):
        for length, at in ((1, 0), (7, 0), (7, 3), (7, 6), (4096, 4095)):
            word = (1,) * at + (event,) + (0,) * (length - at - 1)
            cases.append((1, word, f"refused 13 at {at}"))
    cases.append((0, (0, 99, 32, 255), "refused 13 at 1"))
    cases.append((0, (31, 0, 31), "yes"))
    return Group(sheet_of(trees), cases)


def refused_sheet_groups(cases):
    """Sheets that reading refuses: 1 to 9 come before 14, 12 and 13."""
    seen = {}
    for case in cases:
        if case.line and case.line.startswith("refused"):
            # The bytes 0F and 10 stay among the kinds that give 2.
            is_kind = case.label.startswith("kind ")
            number = "2" if is_kind else case.line.split()[1]
            if len(case.data) < 200 or number == "1":
                seen.setdefault(number, []).append(case)
    for number in sorted(seen):
        for case in seen[number][:1 if number == "1" else 6]:
            cases = [(0, (), case.line), (0, (1, 2), case.line),
                     (300, (99,), case.line)]
            yield Group(case.data, cases)


def true_sheet_groups(seed, count, shapes=SHAPES, instrument=LARGE):
    """Whole sheets, also with wrong certificates: 10 and 11 are not applied."""
    draws, events = Draws(seed), instrument.events
    for _, sheet in true_sheets(seed, count, shapes=shapes, instrument=instrument):
        cases = []
        for number, tree in enumerate(sheet.conditions):
            cases += condition_cases(draws, number, tree, [0, 1, events - 1], 2,
                                     events)
        ways = (sheet.certificates, [], [[]] * len(sheet.certificates))
        certificates = draws.pick(ways)
        yield Group(r.encode(sheet._replace(certificates=certificates)), cases)


def word_groups(seed=31, groups=440, long_words=20):
    """All groups, in a fixed order."""
    yield edge_group()
    yield refusal_group()
    yield from refused_sheet_groups(reading_cases(count=0))
    draws = Draws(seed)
    yield long_group(draws, long_trees(), long_words)
    yield long_group(draws, long_random_trees(draws, 16), 8)
    yield from true_sheet_groups(seed + 1, 24)
    yield from short_groups(seed + 2, groups)
