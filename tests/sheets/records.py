"""Document 01, "Records": writing them, and certificates as reachable pairs."""
from reference.certificates import reachable_pairs
from reference.conditions import LEAF, postfix
from reference.instruments import LARGE
from reference.reading import FIELD_NAMES
from reference.rules import all_rules

PAIR_BYTES = 6


def u16(*values):
    return b"".join(value.to_bytes(2, "little") for value in values)


def u32(value):
    return value.to_bytes(4, "little")


def u64(value):
    return value.to_bytes(8, "little")


def wide_leaf(events):
    """A leaf of kind 21."""
    return b"\x15" + u64(events)


def item(kind, events=0):
    """A record of kinds 1 to 5, or of kind 21: a leaf that 4 bytes do not hold."""
    if kind != LEAF:
        return bytes([kind])
    return wide_leaf(events) if events >> 32 else b"\x01" + u32(events)


def condition(tree):
    """The records of a condition with its end."""
    return b"".join(item(*record) for record in postfix(tree)) + b"\x06"


def point(past, own, due):
    return b"\x07" + u16(past, own, due)


def owned_point(past, own, due, owner):
    return b"\x14" + u16(past, own, due, owner)


def primitive(pre, trace, future):
    return b"\x08" + u16(pre, trace, future)


def method(pre, trace, future, entry, exit_):
    return b"\x09" + u16(pre, trace, future, entry, exit_)


def event_step(source, target, event):
    return b"\x0a" + u16(source, target) + bytes([event])


def call_step(source, target, called):
    return b"\x0b" + u16(source, target, called)


def pass_step(source, target):
    return b"\x0c" + u16(source, target)


def failing_primitive(pre, trace, future, failed_trace, failed_future):
    return b"\x0f" + u16(pre, trace, future, failed_trace, failed_future)


def failing_method(pre, trace, future, entry, exit_,
                   failed_trace, failed_future, failed_exit):
    return b"\x10" + u16(pre, trace, future, entry, exit_,
                         failed_trace, failed_future, failed_exit)


def failing_call(source, target, failed_target, called):
    return b"\x11" + u16(source, target, failed_target, called)


def edition():
    """The record with which a sheet of the new edition begins."""
    return b"\x12"


def stop_step(source):
    return b"\x13" + u16(source)


def channel_call(source, target, called, channel):
    return b"\x16" + u16(source, target, called) + bytes([channel])


def pair(place, rights):
    return b"\x0d" + bytes([place]) + u32(rights)


def certificate(pairs):
    """The records of a certificate with its end."""
    return b"".join(pair(*one) for one in pairs) + b"\x0e"


WRITERS = {7: point, 8: primitive, 9: method, 10: event_step, 11: call_step,
           12: pass_step, 15: failing_primitive, 16: failing_method,
           17: failing_call, 19: stop_step, 20: owned_point, 22: channel_call}


def named_record(one):
    """The record of a point, of a method or of a step."""
    return WRITERS[one.kind](*(getattr(one, name)
                               for name in FIELD_NAMES[one.kind]))


def encode(sheet):
    """The bytes of a sheet."""
    return b"".join(
        [edition()] * sheet.new
        + [condition(tree) for tree in sheet.conditions]
        + [named_record(one) for one in sheet.points + sheet.methods + sheet.steps]
        + [certificate(pairs) for pairs in sheet.certificates])


def most_pairs(instrument=LARGE):
    """A number of pairs that no sheet of the instrument is above."""
    return instrument.bytes // PAIR_BYTES


class TooManyPairs(Exception):
    """The reachable pairs up to a rule do not fit; holds the rule."""

    def __init__(self, rule):
        super().__init__(f"too many reachable pairs at rule {rule.number}")
        self.rule = rule


def with_certificates(sheet, limit=most_pairs()):
    """The sheet with all reachable pairs, breadth first, as certificates."""
    certificates, left = [], limit
    for rule in all_rules(sheet):
        if rule.has_certificate:
            pairs = reachable_pairs(rule.left, rule.right, left)
            if pairs is None:
                raise TooManyPairs(rule)
            left -= len(pairs)
            certificates.append(pairs)
    return sheet._replace(certificates=certificates)
