"""Words of document 02, Ask 3: the longest beginning that begins a word.

Leaves with the set 0, `none`, stand first, in the middle and last, under stars, in one
arm of an either and alone, nested, also among 31 leaves; words are beginnings, wrong at
each event, and longer than all words. Every line comes from partial derivatives; those
of TYPED and of the long words are also typed.
"""
from itertools import islice

from reference.beginnings import derived_line
from reference.conditions import EITHER, JOIN, LEAF, STAR
from reference.instruments import FOUR_CHANNEL, LARGE
from sheets.expressions import parse_expression

from .channels import wide_groups
from .draws import Draws
from .trees import EMPTY_TREE, VOID, changed_leaves, random_tree, random_word
from .words import (MAX_WORD, Group, derived, fits_limits, nested_stars,
                    random_condition, sheet_of)

LETTERS = "abcdef"
# Conditions with their words, which are letters, and the number of each one's no; None
# is yes.
TYPED = {
    # No words: none alone, first, in the middle, last, in both arms.
    "none": {"": 0, "a": 0, "ab": 0},
    "none a": {"": 0, "a": 0, "aa": 0},
    "a none": {"": 0, "a": 0, "aa": 0, "b": 0},
    "a none b": {"": 0, "a": 0, "ab": 0, "b": 0},
    "a b none": {"": 0, "a": 0, "ab": 0, "abc": 0},
    "none | none": {"": 0, "a": 0},
    "a none | none b": {"": 0, "a": 0, "b": 0, "ab": 0},
    "a* none": {"": 0, "a": 0, "aaaa": 0},
    "any* none": {"": 0, "a": 0, "fedcba": 0},
    "none a*": {"": 0, "a": 0},
    "empty none": {"": 0, "a": 0},
    "none* none": {"": 0, "a": 0},
    "(a none)* b none": {"": 0, "a": 0, "b": 0, "bb": 0},
    # The empty word alone.
    "empty": {"": None, "a": 0, "ab": 0},
    "empty empty": {"": None, "a": 0},
    "empty*": {"": None, "a": 0},
    "empty | none": {"": None, "a": 0},
    "none*": {"": None, "a": 0, "aa": 0},
    "none* none*": {"": None, "a": 0},
    "(a none)*": {"": None, "a": 0, "aa": 0},
    "(none a)*": {"": None, "a": 0, "aa": 0},
    "(a* none)* | none": {"": None, "a": 0, "aaa": 0},
    "a none | empty": {"": None, "a": 0},
    # Words and their beginnings, without none.
    "a": {"": 0, "a": None, "aa": 1, "b": 0, "ba": 0, "ab": 1},
    "a b c": {"": 0, "a": 1, "ab": 2, "abc": None, "abca": 3, "abcab": 3, "b": 0,
              "bbc": 0, "aac": 1, "acb": 1, "abb": 2, "abab": 2},
    "a*": {"": None, "aaa": None, "b": 0, "aab": 2, "aba": 1},
    "(a b)*": {"": None, "a": 1, "ab": None, "aba": 3, "abb": 2, "ba": 0, "aab": 1},
    "a* b": {"": 0, "aaa": 3, "aab": None, "aabb": 3, "aabaa": 3, "aac": 2, "c": 0},
    "(a | b)* c": {"": 0, "abba": 4, "abbac": None, "abbaca": 5, "abd": 2},
    "a b | a c d": {"a": 1, "ab": None, "ac": 2, "acb": 2, "acd": None, "abd": 2},
    "(a b | a)* c": {"aab": 3, "aabb": 3, "aabc": None, "bab": 0, "abab": 4, "ca": 1},
    "next(b)": {"": 0, "a": 1, "ab": None, "aa": 1, "abcd": None, "aab": 1},
    "finally(c)": {"": 0, "abab": 4, "abc": None, "abcab": None},
    # One arm without words is as if it were not there.
    "a | none": {"": 0, "a": None, "b": 0, "aa": 1},
    "none | a": {"": 0, "a": None, "b": 0, "aa": 1},
    "a | b none": {"": 0, "a": None, "b": 0, "ba": 0, "ab": 1},
    "none b | a": {"": 0, "a": None, "b": 0, "ab": 1},
    "(a | none) b": {"a": 1, "ab": None, "b": 0, "abb": 2, "aa": 1},
    "(none | a) b": {"a": 1, "ab": None, "b": 0, "abb": 2, "aa": 1},
    "a (b | none)": {"a": 1, "ab": None, "aa": 1, "aba": 2},
    "a (none | b)": {"a": 1, "ab": None, "aa": 1, "aba": 2},
    "(a | b none) c": {"b": 0, "a": 1, "ac": None, "acc": 2, "bc": 0, "ab": 1},
    "(b none | a) c": {"b": 0, "a": 1, "ac": None, "acc": 2, "bc": 0, "ab": 1},
    "a (b none | c) d": {"a": 1, "ab": 1, "abd": 1, "ac": 2, "acd": None, "acb": 2},
    "a b none | a c": {"a": 1, "ab": 1, "ac": None, "aca": 2},
    "a b c none | a b": {"a": 1, "ab": None, "abc": 2, "abcd": 2},
    "a b none c | a d": {"a": 1, "ab": 1, "abc": 1, "ad": None},
    # Under a star, in front of one, behind one.
    "none* a": {"": 0, "a": None, "aa": 1, "b": 0},
    "a none*": {"": 0, "a": None, "aa": 1, "ab": 1},
    "a none* b": {"a": 1, "ab": None, "aa": 1, "aba": 2, "b": 0},
    "(a | none)*": {"": None, "aa": None, "aab": 2},
    "(a | b none)*": {"": None, "aa": None, "b": 0, "aab": 2, "aaba": 2, "aac": 2},
    "(a none | b)* c": {"": 0, "bb": 2, "bba": 2, "bbc": None, "a": 0, "bbac": 2},
    "(a none)* b": {"": 0, "b": None, "a": 0, "ab": 0, "ba": 1},
    "a (b none)* c": {"a": 1, "ab": 1, "ac": None, "abc": 1, "aca": 2},
    "a* (b none | empty)": {"": None, "aaa": None, "aab": 2, "b": 0},
    "(a (none | empty) b)*": {"": None, "a": 1, "ab": None, "aba": 3, "b": 0},
    # Nested.
    "((a none | b)* c | none)* d": {"bbcb": 4, "bbca": 3, "d": None, "bcd": None,
                                    "bd": 1, "a": 0, "cccd": None, "dc": 1},
    "a (b (c none | d)* | none)* e": {"a": 1, "ab": 2, "abd": 3, "abdc": 3, "abc": 2,
                                      "ae": None, "abdbe": None, "abed": 3},
    "((a | b none) (c | d none))*": {"": None, "a": 1, "ac": None, "ad": 1, "b": 0,
                                     "aca": 3, "acb": 2, "acac": None},
    "(a (b (c (d none | e)))) | a b f": {"ab": 2, "abc": 3, "abcd": 3, "abce": None,
                                         "abf": None, "abff": 3},
    # No word is finished any more, but there are places for every event.
    "any* none | a b c": {"": 0, "a": 1, "ab": 2, "abc": None, "abcd": 3,
                          "abddddddd": 2, "b": 0, "bbbbbbbb": 0, "acbacbacb": 1},
    "a b c | any* none": {"": 0, "a": 1, "ab": 2, "abc": None, "abcd": 3,
                          "abddddddd": 2, "b": 0, "bbbbbbbb": 0, "acbacbacb": 1},
    "(a | b)* none | a a": {"": 0, "a": 1, "aa": None, "aaa": 2, "ababab": 1, "c": 0},
    "a* | any* none any*": {"": None, "aaa": None, "aaab": 3, "aaabaaa": 3, "b": 0},
    "(a b)* | a any* none": {"": None, "a": 1, "abab": None, "abaa": 3, "aabbb": 1},
    "any any any none | empty": {"": None, "a": 0, "abc": 0, "abcd": 0},
    "(any none | a)*": {"": None, "aaa": None, "aab": 2, "b": 0, "aabb": 2}}
# Conditions without none, in which it is put at every leaf.
HOSTS = ("a", "a b c", "a | b c", "a* b", "(a b)* c", "(a | b)* c", "a (b | c) d",
         "(a b | c d)* e", "a b* c", "a* b* c*", "(a* b)* c", "a (b (c d)*)* e",
         "(a | empty) b c", "(a | b) (c | d)", "((a b)* c | d)*")
# What stands there in place of the leaf.
WAYS = (lambda leaf: VOID, lambda leaf: (JOIN, VOID, leaf),
        lambda leaf: (JOIN, leaf, VOID), lambda leaf: (EITHER, leaf, VOID),
        lambda leaf: (EITHER, VOID, leaf), lambda leaf: (JOIN, (STAR, VOID), leaf),
        lambda leaf: (STAR, (JOIN, leaf, VOID)),
        lambda leaf: (EITHER, leaf, (JOIN, (LEAF, leaf[1] << 1), VOID)))


def typed_case(number, tree, word, found):
    """A case with its typed number, None for yes; derivatives must say the same."""
    line = "yes" if found is None else f"no {found}"
    if line != derived_line(tree, word):
        raise AssertionError(f"{line}: {tree} {word}")
    return number, word, line


def derived_cases(trees, words):
    """Cases of the conditions, each with the words at its place."""
    return [(number, word, derived_line(tree, word))
            for number, (tree, some) in enumerate(zip(trees, words)) for word in some]


def parsed(text, base=0, events=LARGE.events):
    """The condition of a text; the letters are events from the base."""
    names = {letter: base + at for at, letter in enumerate(LETTERS)}
    return parse_expression(text, names, events)


def typed_group(base=0, events=LARGE.events):
    """All of TYPED."""
    trees = [parsed(text, base, events) for text in TYPED]
    cases = []
    for number, words in enumerate(TYPED.values()):
        cases += [typed_case(number, trees[number],
                             tuple(base + LETTERS.index(letter) for letter in word),
                             found) for word, found in words.items()]
    return Group(sheet_of(trees), cases)


def replaced(tree, at, way):
    """The tree with the way applied to the leaf of that number, from 0."""
    if tree[0] == LEAF:
        return way(tree) if at == 0 else tree
    items = []
    for item in tree[1:]:
        items.append(replaced(item, at, way))
        at -= leaf_count(item)
    return (tree[0], *items)


def leaf_count(tree):
    """How many leaves a tree has."""
    return 1 if tree[0] == LEAF else sum(map(leaf_count, tree[1:]))


def filled(draws, tree, alphabet, share):
    """The tree with events in that share of its leaves with the set 0."""
    return changed_leaves(tree, lambda events: draws.events(alphabet)
                          if events == 0 and draws.chance(share) else events)


def near_word(draws, word, alphabet):
    """A word or a beginning of it, also with a wrong event at its first, second or last
    place, or with events behind it."""
    way = draws.below(9)
    if way < 3:
        return word[:draws.below(len(word) + 1)]
    if way == 3:
        return word + random_word(draws, alphabet, draws.between(1, 3))
    if way == 4:
        at = draws.below(len(word) + 1)
        return word[:at] + random_word(draws, alphabet, draws.between(1, 12))
    at = {5: 0, 6: 1, 7: len(word) - 1}.get(way, -1)
    if not 0 <= at < len(word):
        return word
    return word[:at] + (draws.pick(alphabet),) + word[at + 1:]


def near_words(draws, tree, alphabet, count, lengths=(0, 2, 4, 7, 12)):
    """That many different words near those of the tree with its leaves filled, or a few
    less."""
    found = {}
    for _ in range(2 * count):
        source = filled(draws, tree, alphabet, draws.pick((0, 0.5, 1)))
        word = derived(draws, source, draws.pick(lengths)) or ()
        found[near_word(draws, word, alphabet)[:MAX_WORD]] = None
    return list(found)[:count]


def put_trees():
    """Each host with none put at each of its leaves, each way."""
    for text in HOSTS:
        host = parsed(text)
        yield from (replaced(host, at, way) for at in range(leaf_count(host))
                    for way in WAYS)


def put_groups(seed, every, count, trees=24):
    """Words near those of the hosts with none put in."""
    draws, some = Draws(seed), list(islice(put_trees(), 0, None, every))
    for at in range(0, len(some), trees):
        part = some[at:at + trees]
        words = [near_words(draws, tree, range(6), count) for tree in part]
        yield Group(sheet_of(part), derived_cases(part, words))


def grafted(draws, tree, alphabet, share):
    """The tree with arms that no word can be finished in, beside that share of its
    leaves."""
    if tree[0] != LEAF:
        return (tree[0], *(grafted(draws, item, alphabet, share) for item in tree[1:]))
    if not draws.chance(share):
        return tree
    arm = (LEAF, draws.events(alphabet, 0.3))
    arm = (JOIN, (STAR, arm) if draws.chance(0.3) else arm, VOID)
    return draws.pick(((EITHER, tree, arm), (EITHER, arm, tree),
                       (JOIN, (STAR, arm), tree)))


def void_condition(draws, events):
    """A condition with leaves of the set 0, and its alphabet."""
    tree, alphabet = random_condition(draws, events)
    way, leaves, any_ = draws.below(4), draws.between(2, 8), (1 << events) - 1
    if way == 0:
        tree = nested_stars(draws, leaves, alphabet, any_)
    if way > 1:
        alphabet = sorted(draws.some(range(events), 3))
        tree = random_tree(draws, leaves, alphabet, 0.03, any_)
        return grafted(draws, tree, alphabet, draws.pick((0.3, 0.6, 0.9))), alphabet
    share = draws.pick((0.1, 0.2, 0.4))
    tree = changed_leaves(tree, lambda held: 0 if draws.chance(share) else held)
    return tree, alphabet


def random_groups(seed, groups, conditions=8, count=6, events=LARGE.events):
    """Words near those of random conditions with leaves of the set 0."""
    draws = Draws(seed)
    for _ in range(groups):
        drawn = [one for one in (void_condition(draws, events)
                                 for _ in range(2 * conditions)) if fits_limits(one[0])]
        trees = [tree for tree, _ in drawn[:conditions]]
        words = [near_words(draws, tree, alphabet + [draws.below(events)], count)
                 for tree, alphabet in drawn[:conditions]]
        yield Group(sheet_of(trees), draws.shuffled(derived_cases(trees, words)))


def chain(items, kind=JOIN):
    """The items one after another, from the left."""
    tree = items[0]
    for item in items[1:]:
        tree = (kind, tree, item)
    return tree


def nested_chain(items):
    """The first, then none or the rest of the items."""
    tree = items[-1]
    for item in items[-2::-1]:
        tree = (JOIN, item, (EITHER, VOID, tree))
    return tree


def starred_chain(items):
    """The first, then any number of the rest of the items, or none."""
    tree = (JOIN, items[-1], (EITHER, EMPTY_TREE, VOID))
    for item in items[-2::-1]:
        tree = (JOIN, item, (STAR, tree))
    return tree


def full_trees(base):
    """Conditions of 31 leaves, several of them with the set 0; all leaves have other
    events."""
    leaves = [(LEAF, 1 << base + at) for at in range(31)]
    fifteen = chain(leaves[:15])
    return [
        chain(leaves), chain(leaves[:30] + [VOID]), chain([VOID] + leaves[1:]),
        chain(leaves[:15] + [VOID] + leaves[16:]), nested_chain(leaves[:16]),
        (STAR, nested_chain(leaves[15:31])), starred_chain(leaves[:29]),
        (EITHER, (JOIN, fifteen, VOID), chain(leaves[:7] + leaves[20:28])),
        (EITHER, chain(leaves[:7] + leaves[20:28]), (JOIN, fifteen, VOID)),
        chain([(STAR, leaf) for leaf in leaves[:15]] + [(STAR, VOID)] * 16),
        (JOIN, (STAR, (JOIN, (STAR, (LEAF, (1 << base + 31) - 1)), VOID)),
         chain(leaves[:29])),
        chain([(EITHER, (JOIN, leaf, VOID), other) for leaf, other
               in zip(leaves[:10], leaves[10:20])])]


def full_words(base):
    """The first events of the 31, and of the fifteen and others, one after another."""
    row = tuple(range(base, base + 31))
    other, later = row[:7] + row[20:28], row[15:]
    words = [row[:length] for length in (0, 1, 2, 7, 8, 14, 15, 16, 28, 29, 30, 31)]
    words += [row + row[:1], row[:9] + row[10:], row[1:], row[:1] + row[2:]]
    words += [other[:length] for length in (6, 8, 14, 15)] + [other + row[:3]]
    words += [later, later + later[:3], later * 2, row[:1] * 6, row[10:20], row[10:14]]
    return words + [row[10:19] + row[9:10], row[:2] + row[1:3]]


def full_group(base=0, every=1):
    """Conditions of 31 leaves, all or a part."""
    trees = full_trees(base)[::every]
    return Group(sheet_of(trees), derived_cases(trees, [full_words(base)] * len(trees)))


# Conditions, and words of them as letters with how often each comes, and the number:
# 4,096 events, and numbers that a byte does not hold.
LONG = (
    ("(a b)* c", (("ab", 2048),), 4096), ("(a b)* c", (("ab", 2047), ("aa", 1)), 4095),
    ("(a b)* c", (("b", 1), ("ab", 2047), ("a", 1)), 0),
    ("(a b)* c", (("c", 1), ("ab", 2047), ("c", 1)), 1),
    ("(a b)* c", (("ab", 2047), ("a", 1), ("c", 1)), 4095),
    ("a* b none | a* c", (("a", 4095), ("b", 1)), 4095),
    ("a* b none | a* c", (("b", 1), ("a", 4095)), 0),
    ("a* b none | a* c", (("a", 4096),), 4096),
    ("any* none | a b c", (("ab", 1), ("d", 4094)), 2),
    ("any* none | a b c", (("d", 1), ("ab", 2047), ("c", 1)), 0),
    ("any* none", (("abcd", 1024),), 0),
    ("(a | b none)*", (("a", 4095), ("b", 1)), 4095),
    ("(a | b none)*", (("a", 4096),), None),
    ("(a | b none)*", (("b", 1), ("a", 4095)), 0))
# These have some 300 events each.
MIDDLE = tuple(("(a | b none)* (c | any none)", (("a", count), *rest), count)
               for count in (63, 64, 127, 128, 254, 255, 256, 257, 300)
               for rest in ((), (("b", 1), ("a", 40)), (("d", 1), ("c", 1))))


def long_group(some, base=0, events=LARGE.events):
    """Some of LONG or MIDDLE."""
    texts = list(dict.fromkeys(text for text, _, _ in some))
    trees, cases = [parsed(text, base, events) for text in texts], []
    for text, parts, found in some:
        letters = "".join(part * times for part, times in parts)
        word = tuple(base + LETTERS.index(letter) for letter in letters)
        cases.append(typed_case(texts.index(text), trees[texts.index(text)], word,
                                found))
    return Group(sheet_of(trees), cases)


def word_groups():
    """Words on the large instrument."""
    yield typed_group()
    yield typed_group(26)
    yield long_group(LONG)
    yield long_group(MIDDLE)
    yield full_group()
    yield from put_groups(901, 1, 4)
    yield from random_groups(902, 23)


def entry_word_groups():
    """Words on the entry instrument."""
    yield typed_group(5)
    yield long_group(LONG[1::3])
    yield long_group(MIDDLE[1::5])
    yield full_group(1, 4)
    yield from put_groups(903, 9, 3)
    yield from random_groups(904, 3)


def four_word_groups():
    """Words on the four-channel instrument: with events of every channel, and with
    leaves of kind 21 that have the set 0."""
    wide = FOUR_CHANNEL.events
    yield typed_group(29, wide)
    yield from wide_groups([typed_group()])
    yield long_group(LONG[:3] + LONG[5:9:3], 58, wide)
    yield long_group(MIDDLE[::5], 31, wide)
    yield full_group(32)
    yield from wide_groups(put_groups(905, 7, 3))
    yield from random_groups(906, 8, events=wide)
    yield from wide_groups(random_groups(907, 3))
