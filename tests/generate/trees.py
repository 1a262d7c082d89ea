"""Conditions of document 01 as languages: simplifying builders, random trees."""
from typing import NamedTuple

from reference.channels import exchanged
from reference.conditions import ANY, EITHER, EMPTY, JOIN, LEAF, STAR

VOID = (LEAF, 0)
EMPTY_TREE = (EMPTY,)
ANY_STAR = (STAR, (LEAF, ANY))


class Language(NamedTuple):
    """A tree with its number of records and of leaves."""
    tree: tuple
    records: int
    leaves: int


def measured(tree):
    """The language of a tree."""
    if tree[0] == LEAF:
        return Language(tree, 1, 1)
    items = [measured(item) for item in tree[1:]]
    return Language(tree, 1 + sum(item.records for item in items),
                    sum(item.leaves for item in items))


NOTHING = measured(VOID)
ONLY_EMPTY = measured(EMPTY_TREE)


def combine(kind, *items):
    return Language((kind, *(item.tree for item in items)),
                    1 + sum(item.records for item in items),
                    sum(item.leaves for item in items))


def either(a, b):
    """The words of both, a little simplified."""
    if a == b or b == NOTHING:
        return a
    if a == NOTHING:
        return b
    if a.tree[0] == LEAF and b.tree[0] == LEAF:
        return measured((LEAF, a.tree[1] | b.tree[1]))
    for one, other in ((a, b), (b, a)):
        if one.tree == ANY_STAR:
            return one
        if one == ONLY_EMPTY and other.tree[0] == STAR:
            return other
    return combine(EITHER, a, b)


def join(a, b):
    """Words of a followed by words of b, a little simplified."""
    if NOTHING in (a, b):
        return NOTHING
    if a == ONLY_EMPTY:
        return b
    if b == ONLY_EMPTY or a == b and a.tree[0] == STAR:
        return a
    return combine(JOIN, a, b)


def star(a):
    """Repeated words of a, a little simplified."""
    if a in (NOTHING, ONLY_EMPTY):
        return ONLY_EMPTY
    return a if a.tree[0] == STAR else combine(STAR, a)


def reverse(tree):
    """The tree of the reversed words."""
    if tree[0] == JOIN:
        return (JOIN, reverse(tree[2]), reverse(tree[1]))
    if tree[0] in (EITHER, STAR):
        return (tree[0], *(reverse(item) for item in tree[1:]))
    return tree


def on_channel(language, channel):
    """The language with the events of channel 0 and that channel exchanged."""
    return language._replace(tree=exchanged(language.tree, channel))


def changed_leaves(tree, change):
    """The tree with the set of each leaf changed."""
    if tree[0] == LEAF:
        return (LEAF, change(tree[1]))
    return (tree[0], *(changed_leaves(item, change) for item in tree[1:]))


def events_of(tree):
    """All events of the leaves of a tree, as a set."""
    if tree[0] == LEAF:
        return tree[1]
    result = 0
    for item in tree[1:]:
        result |= events_of(item)
    return result


def random_leaf(draws, alphabet, void_share=0.0, any_=ANY):
    if draws.chance(void_share):
        return VOID
    if draws.chance(0.1):
        return (LEAF, any_)
    return (LEAF, draws.events(alphabet, draws.pick((0.2, 0.5))))


def random_tree(draws, leaves, alphabet, void_share=0.0, any_=ANY):
    """A random tree with about that many leaves."""
    if leaves <= 1:
        tree = random_leaf(draws, alphabet, void_share, any_)
        if draws.chance(0.1):
            tree = EMPTY_TREE
        return (STAR, tree) if draws.chance(0.2) else tree
    part = draws.between(1, leaves - 1)
    first = random_tree(draws, part, alphabet, void_share, any_)
    second = random_tree(draws, leaves - part, alphabet, void_share, any_)
    tree = (JOIN if draws.chance(0.55) else EITHER, first, second)
    return (STAR, tree) if draws.chance(0.25) else tree


def random_word(draws, alphabet, length):
    return tuple(draws.pick(alphabet) for _ in range(length))
