"""Document 02, Ask 11: the four channels, and the exchange of channel 0 and another.

Channel c has the sixteen events from 16 times c. The exchange goes both ways, and
leaves the events of the other channels as they are.
"""
from functools import lru_cache

from .conditions import LEAF

CHANNELS = 4
EACH = 16


def exchanged_event(event, channel):
    """The event that an event becomes."""
    own, place = divmod(event, EACH)
    return {0: channel, channel: 0}.get(own, own) * EACH + place


def exchanged_word(word, channel):
    """The word with its events exchanged; those of channel 0 and itself stay."""
    return (tuple(exchanged_event(event, channel) for event in word) if channel
            else word)


def exchanged_set(events, channel):
    """The set with its events exchanged."""
    changed = (events ^ events >> EACH * channel) & (1 << EACH) - 1
    return events ^ changed ^ changed << EACH * channel


@lru_cache(maxsize=20000)
def exchanged(tree, channel):
    """The condition with the events of all its leaves exchanged."""
    if tree[0] == LEAF:
        return LEAF, exchanged_set(tree[1], channel)
    return tree[0], *(exchanged(item, channel) for item in tree[1:])
