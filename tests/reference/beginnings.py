"""Document 02, Ask 3, by partial derivatives: where a word went wrong.

What may follow a beginning are conditions; the beginning begins a word exactly if one
of these has words, which is decided on its tree. No places, no stepping.
"""
from functools import lru_cache

from .conditions import EITHER, JOIN, LEAF
from .inclusion import derived, holds_empty


@lru_cache(maxsize=200000)
def has_word(tree):
    """Whether the condition holds some word."""
    kind = tree[0]
    if kind == LEAF:
        return tree[1] != 0
    if kind == JOIN:
        return has_word(tree[1]) and has_word(tree[2])
    if kind == EITHER:
        return has_word(tree[1]) or has_word(tree[2])
    return True


@lru_cache(maxsize=200000)
def after_event(trees, event):
    """What may follow the event in the words of the trees, and whether there is a
    word in it."""
    after = derived(trees, event)
    return after, any(map(has_word, after))


def longest_beginning(tree, word):
    """The length of the longest beginning that begins a word of the condition; 0 for a
    condition without words, in which no word follows a first event either."""
    trees = frozenset([tree])
    for length, event in enumerate(word):
        trees, begins = after_event(trees, event)
        if not begins:
            return length
    return len(word)


def derived_line(tree, word):
    """The word test's line of a word that it takes."""
    trees = frozenset([tree])
    for event in word:
        trees, _ = after_event(trees, event)
    held = any(map(holds_empty, trees))
    return "yes" if held else f"no {longest_beginning(tree, word)}"
