"""Document 01, "Places and certificates": clauses 1 to 4, reachable pairs.

A certificate is a list of (place, set): a place of the left side and a
set of places of the right side. Sides are given as trees.
"""
from typing import NamedTuple

from .conditions import bits, followers, places_of, stepped

START = (0, 1)


class Fault(NamedTuple):
    clause: int
    pair: int = 0
    event: int = 0
    place: int = 0


class Listed:
    """The pairs of a certificate, by place."""

    def __init__(self, pairs):
        self.sets = {}
        for place, rights in pairs:
            self.sets.setdefault(place, set()).add(rights)
        self.known = {}

    def has_within(self, place, after):
        """Whether some pair has the place and a set within the stepped set."""
        answer = self.known.get((place, after))
        if answer is None:
            sets = self.sets.get(place, ())
            answer = after in sets or any(rights & ~after == 0 for rights in sets)
            self.known[place, after] = answer
        return answer


def moves(left, right, place, rights):
    """Each event, follower and stepped set of a pair, in the order of clause 4. A set
    from which no word can be finished is one like any other."""
    left_next = left.follow[place]
    right_next = followers(right, rights)
    for event in left.holding:
        after, _ = stepped(right, right_next, event)
        for follower in bits(left_next & left.holding[event]):
            yield event, follower, after


def pair_fault(left, right, listed, index, pair):
    """The first fault of one pair among clauses 2 to 4, or None."""
    place, rights = pair
    if place > left.leaves or rights >> (right.leaves + 1):
        return Fault(2, index)
    if left.ending >> place & 1 and not rights & right.ending:
        return Fault(3, index)
    for event, follower, after in moves(left, right, place, rights):
        if not listed.has_within(follower, after):
            return Fault(4, index, event, follower)
    return None


def first_fault(left_tree, right_tree, pairs):
    """The first fault of a certificate, or None."""
    if not pairs or pairs[0] != START:
        return Fault(1)
    left, right = places_of(left_tree), places_of(right_tree)
    listed = Listed(pairs)
    for index, pair in enumerate(pairs):
        fault = pair_fault(left, right, listed, index, pair)
        if fault:
            return fault
    return None


def reachable_pairs(left_tree, right_tree, limit=None):
    """All reachable pairs, breadth first; None if there are more than limit."""
    left, right = places_of(left_tree), places_of(right_tree)
    pairs, seen = [START], {START}
    for place, rights in pairs:
        for _, follower, after in moves(left, right, place, rights):
            if (follower, after) not in seen:
                seen.add((follower, after))
                pairs.append((follower, after))
        if limit is not None and len(pairs) > limit:
            return None
    return pairs


def is_included(left_tree, right_tree):
    """Whether every word of the left is in the right."""
    pairs = reachable_pairs(left_tree, right_tree)
    return first_fault(left_tree, right_tree, pairs) is None
