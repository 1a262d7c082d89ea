"""Document 01, "Events and conditions" and the places of "Places and certificates";
document 02, Ask 3: where a word went wrong.

A condition is a tree of tuples: (LEAF, set), (EMPTY,), (JOIN, a, b),
(EITHER, a, b), (STAR, a). The tags are the kinds of the records; a leaf of kind 21
(document 02, Ask 11) is the leaf with its set. Sets of events and sets of places are
ints used as bit sets. Nothing depends on how many events an instrument has: a leaf
holds no others.
"""
from functools import lru_cache
from typing import NamedTuple

LEAF, EMPTY, JOIN, EITHER, STAR, WIDE_LEAF = 1, 2, 3, 4, 5, 21
# The set of all events of an instrument with 32, and with 64.
ANY, WIDE_ANY = (1 << 32) - 1, (1 << 64) - 1
ITEMS = {LEAF: 0, EMPTY: 0, JOIN: 2, EITHER: 2, STAR: 1, WIDE_LEAF: 0}
LEAVES = LEAF, WIDE_LEAF


class Places(NamedTuple):
    """The Glushkov automaton of one side. Place 0 is the start."""
    nullable: bool
    first: int
    last: int
    follow: tuple    # follow[k]: the places that follow place k
    sets: tuple      # sets[k]: the events of leaf k; sets[0] is 0
    ending: int      # the places that end a word
    holding: dict    # by event, ascending: the places whose leaf holds it
    live: int        # the places from which a word can still be finished

    @property
    def leaves(self):
        return len(self.sets) - 1


def bits(number):
    """The positions of the one bits, ascending."""
    while number:
        low = number & -number
        yield low.bit_length() - 1
        number ^= low


def apply_record(stack, kind, events=0):
    """Apply a record of kinds 1 to 5 or 21 to a stack of items. False: items lack."""
    needed = ITEMS[kind]
    if len(stack) < needed:
        return False
    items = stack[len(stack) - needed:]
    del stack[len(stack) - needed:]
    stack.append((LEAF, events) if kind in LEAVES else (kind, *items))
    return True


def parse_postfix(records):
    """The tree of a list of (kind, set) in postfix order, or None."""
    stack = []
    for kind, events in records:
        if not apply_record(stack, kind, events):
            return None
    return stack[0] if len(stack) == 1 else None


def postfix(tree):
    """The list of (kind, set) of a tree, in postfix order."""
    records, todo = [], [tree]
    while todo:
        kind, *items = todo.pop()
        if kind == LEAF:
            records.append((kind, items[0]))
        else:
            records.append((kind, 0))
            todo += items
    return records[::-1]


def _visit(tree, sets, follow):
    """Number the leaves of a tree; return its nullable, first and last."""
    kind = tree[0]
    if kind == LEAF:
        place = 1 << len(sets)
        sets.append(tree[1])
        follow.append(0)
        return False, place, place
    if kind == EMPTY:
        return True, 0, 0
    nullable, first, last = _visit(tree[1], sets, follow)
    if kind == STAR:
        for place in bits(last):
            follow[place] |= first
        return True, first, last
    nullable2, first2, last2 = _visit(tree[2], sets, follow)
    if kind == EITHER:
        return nullable or nullable2, first | first2, last | last2
    for place in bits(last):
        follow[place] |= first2
    return (nullable and nullable2,
            first | first2 if nullable else first,
            last | last2 if nullable2 else last2)


def live_places(follow, sets, ending):
    """The places from which a word can still be finished: those that end one, and
    those that a live leaf follows whose set is not 0. A fixed point, backward."""
    enterable = sum(1 << place for place, events in enumerate(sets) if events)
    live, found = 0, ending
    while found != live:
        live = found
        found |= sum(1 << place for place, after in enumerate(follow)
                     if after & live & enterable and not live >> place & 1)
    return live


@lru_cache(maxsize=20000)
def places_of(tree):
    """The Glushkov automaton of a tree."""
    sets, follow = [0], [0]
    nullable, first, last = _visit(tree, sets, follow)
    follow[0] = first
    holding = {}
    for place, events in enumerate(sets):
        for event in bits(events):
            holding[event] = holding.get(event, 0) | 1 << place
    ending = last | nullable
    return Places(nullable, first, last, tuple(follow), tuple(sets), ending,
                  dict(sorted(holding.items())), live_places(follow, sets, ending))


def followers(places, from_set):
    """All followers of a set of places."""
    result = 0
    for place in bits(from_set):
        result |= places.follow[place]
    return result


def stepped(places, following, event):
    """What an event makes of these followers: the set of those whose leaf holds it, and
    whether a word can still be finished from one of that set."""
    after = following & places.holding.get(event, 0)
    return after, after & places.live != 0


def step(places, from_set, event):
    """A set of places stepped by an event: the set, and whether a word can still be
    finished."""
    return stepped(places, followers(places, from_set), event)


def tested(tree, word):
    """Whether the word is in the condition, and the length of its longest beginning
    that begins a word of the condition; 0 for a condition without words."""
    places = places_of(tree)
    current, longest = 1, 0
    for length, event in enumerate(word, 1):
        current, finishable = step(places, current, event)
        longest = length if finishable else longest
    return current & places.ending != 0, longest


def holds(tree, word):
    """Whether the word is in the condition."""
    return tested(tree, word)[0]
