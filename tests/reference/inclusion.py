"""Words of one condition that another one lacks, by partial derivatives.

A partial derivative of a condition by an event is one way to go on after that
event (Antimirov); a condition has finitely many. No places, no certificates.
"""
from collections import deque
from functools import lru_cache, reduce
from operator import or_

from .conditions import EITHER, EMPTY, JOIN, LEAF, STAR, bits


def holds_empty(tree):
    """Whether the empty word is in the condition."""
    kind = tree[0]
    if kind == JOIN:
        return holds_empty(tree[1]) and holds_empty(tree[2])
    if kind == EITHER:
        return holds_empty(tree[1]) or holds_empty(tree[2])
    return kind in (EMPTY, STAR)


def joined(trees, rest):
    """Each of the trees, followed by rest."""
    return frozenset(rest if tree == (EMPTY,) else (JOIN, tree, rest)
                     for tree in trees)


@lru_cache(maxsize=200000)
def derivatives(tree, event):
    """The conditions that hold what may follow the event in the tree's words."""
    kind = tree[0]
    if kind == LEAF:
        return frozenset([(EMPTY,)] if tree[1] >> event & 1 else [])
    if kind == EMPTY:
        return frozenset()
    first = derivatives(tree[1], event)
    if kind == STAR:
        return joined(first, tree)
    if kind == EITHER:
        return first | derivatives(tree[2], event)
    more = derivatives(tree[2], event) if holds_empty(tree[1]) else frozenset()
    return joined(first, tree[2]) | more


def derived(trees, event):
    """What may follow the event in the words of any of the trees."""
    return frozenset().union(*(derivatives(tree, event) for tree in trees))


def leaf_sets(tree):
    """The sets of a tree's leaves."""
    if tree[0] == LEAF:
        return {tree[1]}
    return set().union(*map(leaf_sets, tree[1:]))


def distinct_events(trees):
    """One event of each class that no leaf of the trees tells apart; what no leaf holds
    is in no word."""
    sets = sorted(set().union(*map(leaf_sets, trees)))
    classes = {}
    for event in bits(reduce(or_, sets, 0)):
        classes.setdefault(tuple(one >> event & 1 for one in sets), event)
    return sorted(classes.values())


@lru_cache(maxsize=200000)
def missing_from(left, rights):
    """A shortest word of left that is in none of the rights, or None."""
    events = distinct_events([left, *rights])
    seen, todo = {(left, rights)}, deque([(left, rights, ())])
    while todo:
        tree, others, word = todo.popleft()
        if holds_empty(tree) and not any(map(holds_empty, others)):
            return word
        for event in events:
            following = derivatives(tree, event)
            if not following:
                continue
            after = derived(others, event)
            for one in following:
                if (one, after) not in seen:
                    seen.add((one, after))
                    todo.append((one, after, word + (event,)))
    return None


def missing_word(left, right, before=()):
    """A shortest word of left that, behind before, is not in right, or None."""
    rights = frozenset([right])
    for event in before:
        rights = derived(rights, event)
    return missing_from(left, rights)
