"""Byte strings for the reading of document 01: refusals 1 to 9 and limits.

Each case has a label, the bytes, and the line that the text of document 01
gives by construction, or None where only the reference says it.
"""
from typing import NamedTuple

from reference.conditions import EMPTY, JOIN, LEAF, STAR
from reference.instruments import LARGE
from reference.reading import BODY_LENGTHS, FIELDS, SECTIONS, is_item, width_of
from sheets import records as r

from .draws import Draws

# The kinds of document 01 with their body lengths.
FIRST_KINDS = dict(enumerate(BODY_LENGTHS[:14], 1))
# A sheet with every one of these kinds, one record an element.
BASE = [
    r.item(EMPTY), b"\x06",
    r.item(LEAF, 4), r.item(LEAF, 0xFFFFFFFF), b"\x05", b"\x03",
    r.item(EMPTY), b"\x04", b"\x06",
    r.point(0, 0, 0), r.point(1, 1, 1),
    r.method(0, 1, 0, 0, 1), r.primitive(1, 0, 1),
    r.event_step(0, 1, 2), r.call_step(1, 1, 1), r.pass_step(1, 0),
    r.pair(0, 1), b"\x0e", r.pair(0, 1), r.pair(1, 2), b"\x0e", b"\x0e",
]
# A sheet that reading takes, one record an element.
SMALL = [b"\x02", b"\x06", r.point(0, 0, 0), r.method(0, 0, 0, 0, 0)]
SMALL_BYTES = b"".join(SMALL)


class Case(NamedTuple):
    label: str
    data: bytes
    line: str | None = None


def refused(label, number, before, at_fault, after=b""):
    """A case refused at a record; the arguments are bytes."""
    return Case(label, before + at_fault + after,
                f"refused {number} at {len(before)}")


def positions(base=BASE):
    """Each place between records of a base: index, bytes before, after."""
    for index in range(len(base) + 1):
        yield index, b"".join(base[:index]), b"".join(base[index:])


def is_out_of_order(kind, before_kind):
    """Whether a kind is refused with 4 behind a record of the other."""
    return (SECTIONS[kind - 1] < SECTIONS[before_kind - 1]
            or is_item(before_kind) and kind != 6 and not is_item(kind))


def kind_cases():
    """Refusal 2 before every record and at the end; among them the bytes 0F and
    10, which are kinds since document 02, Ask 2."""
    for index, before, after in positions():
        for kind in (0, 15, 16, 128, 255):
            label = f"kind {kind} at record {index}"
            if kind not in (15, 16):
                number = 2
            elif len(after) < BODY_LENGTHS[kind - 1]:
                number = 3
            elif index and is_out_of_order(kind, BASE[index - 1][0]):
                number = 4
            else:
                number = 7  # what follows is taken for names
            yield refused(label, number, before, bytes([kind]), after)


def truncations(base=BASE):
    """Every beginning of a base; inside a body it is refusal 3."""
    for index, before, _ in positions(base):
        yield Case(f"beginning of {index} records", before)
        record = base[index] if index < len(base) else b""
        for length in range(1, len(record)):
            yield refused(f"3 record {index} cut to {length}", 3, before,
                          record[:length])


def first_record_cut(kinds=FIRST_KINDS):
    """Refusal 3 at the first record, for each kind with a body."""
    for kind, length in kinds.items():
        for body in range(length):
            yield refused(f"3 first kind {kind} body {body}", 3, b"",
                          bytes([kind]) + bytes(body))


def last_of_kind(kind, base=BASE):
    """A base up to its last record of a kind, that record included."""
    last = max(index for index, record in enumerate(base)
               if record[0] == kind)
    return b"".join(base[:last + 1])


def sample(kind, base=BASE):
    """The first record of a kind in a base."""
    return next(record for record in base if record[0] == kind)


def order_cases(base=BASE, kinds=tuple(FIRST_KINDS)):
    """Every kind after every kind: sections out of order, open conditions."""
    for kind in kinds:
        before = last_of_kind(kind, base)
        for next_kind in kinds:
            label = f"4 kind {next_kind} after {kind}"
            one = sample(next_kind, base)
            for after in (b"", b"\x0e", sample(1, base)):
                if is_out_of_order(next_kind, kind):
                    yield refused(label, 4, before, one, after)
                else:
                    yield Case(label, before + one + after)


def base_order_cases():
    """A record of an earlier section put at every place of the base."""
    for index, before, after in positions():
        for kind in FIRST_KINDS:
            label = f"4 kind {kind} put at record {index}"
            if index and is_out_of_order(kind, BASE[index - 1][0]):
                yield refused(label, 4, before, sample(kind), after)
            else:
                yield Case(label, before + sample(kind) + after)


def item_cases():
    """Refusal 5 at the first, a middle and the last record."""
    leaf, empty = r.item(LEAF, 3), b"\x02"
    short = [(b"", b"\x03"), (b"", b"\x04"), (b"", b"\x05"), (b"", b"\x06")]
    short += [(one, kind) for one in (leaf, empty, leaf + b"\x05")
              for kind in (b"\x03", b"\x04")]
    short += [(leaf + empty, b"\x06"), (leaf * 3 + b"\x03", b"\x06"),
              (leaf * 2 + b"\x03", b"\x04"), (leaf * 31, b"\x06")]
    tail = b"".join(SMALL[2:])
    for items, record in short:
        for front in (b"", b"\x02\x06", b"\x02\x06" * 9):
            for after in (b"", b"\x06" + tail, tail):
                yield refused(f"5 kind {record[0]} after {items.hex()}", 5,
                              front + items, record, after)


def name_cases(base=BASE, kinds=tuple(FIELDS), events=LARGE.events):
    """Refusal 7: each field at the count, above, and one below (no refusal)."""
    for index, record in enumerate(base):
        if record[0] not in kinds:
            continue
        before, after = b"".join(base[:index]), b"".join(base[index + 1:])
        at = 1
        for letter in FIELDS[record[0]]:
            width = width_of(letter)
            count = counts_before(base, index, events)[letter]
            for value in (count - 1, count, count + 1, 256 ** width - 1):
                if not 0 <= value < 256 ** width:
                    continue
                changed = (record[:at] + value.to_bytes(width, "little")
                           + record[at + width:])
                label = f"7 record {index} field at {at} value {value}"
                if value < count:
                    yield Case(label, before + changed + after)
                else:
                    for rest in (after, b""):
                        yield refused(label, 7, before, changed, rest)
            at += width


def counts_before(base, index, events):
    """How many of each there are before a record of a base; an owner and a channel may
    be any."""
    kinds = [record[0] for record in base[:index]]
    sections = [SECTIONS[kind - 1] for kind in kinds]
    return {"c": kinds.count(6), "p": sections.count(2),
            "m": sections.count(3), "e": events, "o": 65536, "h": 256}


def first_name_cases():
    """Refusal 7 at the first record, for each kind with names."""
    for kind, length in FIRST_KINDS.items():
        if kind in FIELDS:
            yield refused(f"7 first kind {kind}", 7, b"",
                          bytes([kind]) + bytes(length))
    for kind in (10, 11, 12):
        body = bytes(BODY_LENGTHS[kind - 1])
        yield refused(f"7 kind {kind} without points", 7, b"\x02\x06",
                      bytes([kind]) + body)
    yield refused("7 call without methods", 7, b"\x02\x06" + SMALL[2],
                  r.call_step(0, 0, 0))


def end_cases():
    """Refusals 8 and 9 at the end."""
    small, pair = SMALL_BYTES, r.pair(0, 1)
    open_ends = [b"\x02", b"\x02\x06\x02", r.item(LEAF, 1), small + pair,
                 small + b"\x0e" + pair, small + pair + b"\x0e" + pair * 2,
                 b"\x02\x06" + pair]
    no_method = [b"", b"\x02\x06", b"\x02\x06" * 256,
                 b"\x02\x06" + SMALL[2],
                 b"\x02\x06" + SMALL[2] + r.pass_step(0, 0),
                 b"\x02\x06" + SMALL[2] + r.event_step(0, 0, 31),
                 b"\x0e", b"\x0e" * 3, pair + b"\x0e",
                 b"\x02\x06" + pair * 2 + b"\x0e\x0e"]
    for data in open_ends:
        yield Case("8", data, f"refused 8 at {len(data)}")
    for data in no_method:
        yield Case("9 no method", data, f"refused 9 at {len(data)}")


def primitive_first_cases():
    """Refusal 9 at a record, with and without records after it."""
    front, primitive = b"\x02\x06", r.primitive(0, 0, 0)
    for before in (front, front * 256, front + SMALL[2], front + SMALL[2] * 9):
        for after in (b"", primitive, SMALL[3], b"\x00", b"\x0e", b"\x02"):
            yield refused("9 primitive first", 9, before, primitive, after)


def two_fault_cases(instrument):
    """Two faults at one record; the table's order holds."""
    small, point, front = SMALL_BYTES, SMALL[2], b"\x02\x06"
    full = front * 256
    yield refused("3: kind 15 last", 3, front, b"\x0f")
    yield refused("2 over 4", 2, small, b"\x00", b"\x00")
    yield refused("3 over 4: leaf cut", 3, small, b"\x01\x00")
    yield refused("3 over 4: point cut in a condition", 3, b"\x02", b"\x07\x00")
    yield refused("3 over 6: 32nd leaf cut", 3, r.item(LEAF, 1) * 31, b"\x01")
    yield refused("3 over 7: point cut", 3, front, point[:6])
    yield refused("3 over 9: primitive cut", 3, front, r.primitive(0, 0, 0)[:4])
    for kind in (b"\x03", b"\x04", b"\x05", b"\x06"):
        yield refused("4 over 5", 4, small, kind)
    yield refused("4 over 5: end of condition after points", 4,
                  full + point, b"\x06")
    yield refused(f"4 over 6: point {instrument.points}", 4,
                  front + point * instrument.points + SMALL[3], point)
    yield refused("4 over 6: 65th method", 4,
                  small + SMALL[3] * 63 + r.pass_step(0, 0), SMALL[3])
    yield refused("4 over 7: point in a condition", 4, b"\x02", point)
    yield refused("4 over 7: point after method", 4, small, r.point(1, 1, 1))
    yield refused("4 over 7: event step after certificate", 4,
                  small + b"\x0e", r.event_step(1, 1, 32))
    yield refused("4 over 9: primitive in a condition", 4, front + b"\x02",
                  r.primitive(0, 0, 0))
    yield refused("4 over 9: primitive after step", 4,
                  front + point + r.pass_step(0, 0), r.primitive(0, 0, 0))
    yield from two_fault_limit_cases(instrument)


def two_fault_limit_cases(instrument):
    """Two faults at one record, one of them a limit or at the end."""
    small, point, front = SMALL_BYTES, SMALL[2], b"\x02\x06"
    stars = b"\x02" + b"\x05" * 95
    yield refused("5 over 6: 97th record JOIN", 5, stars, b"\x03")
    yield refused("5 over 6: 97th record EITHER", 5, stars, b"\x04")
    yield refused("6 alone: 97th record STAR", 6, stars, b"\x05")
    yield refused("5 over 6: empty 257th condition", 5, front * 256, b"\x06")
    yield refused("5 over 6: 257th condition of two items", 5,
                  front * 256 + b"\x02\x02", b"\x06")
    yield refused(f"6 over 7: point {instrument.points}", 6,
                  front + point * instrument.points, r.point(1, 0, 0))
    yield refused("6 over 7: 65th method", 6, small + SMALL[3] * 63,
                  r.method(0, 0, 0, 1, 0))
    yield refused("6 over 7: 65th method, a primitive", 6,
                  small + SMALL[3] * 63, r.primitive(9, 9, 9))
    for record in (r.event_step(0, 0, 32), r.call_step(0, 0, 1),
                   r.pass_step(1, 1)):
        yield refused("6 over 7: 513th step", 6,
                      small + r.pass_step(0, 0) * 512, record)
    yield refused("7 over 9: primitive", 7, front, r.primitive(0, 1, 0))
    yield refused("7 over 9: no conditions", 7, b"", r.primitive(0, 0, 0))
    for data in (b"\x02", front + b"\x02", front + r.pair(0, 1)):
        yield Case("8 over 9", data, f"refused 8 at {len(data)}")
    yield Case("8 over 10", small + r.pair(0, 1),
               f"refused 8 at {len(small) + 6}")
    yield Case("9 over 10", front + b"\x0e", "refused 9 at 3")


def condition_limit_cases():
    """96 and 97 records, 31 and 32 leaves, 256 and 257 conditions."""
    tail, leaf = SMALL[2] + SMALL[3], r.item(LEAF, 5)
    chain = leaf + (leaf + bytes([JOIN])) * 30
    for body in (b"\x02" + b"\x05" * 95, leaf + b"\x05" * 95,
                 chain + bytes([STAR]) * 35, b"\x02" * 48 + b"\x03" * 47 + b"\x05"):
        yield Case("96 records", body + b"\x06" + tail, "read 1 1 1 0 0")
        yield refused("97 records", 6, body, b"\x05", b"\x06" + tail)
        yield refused("97 records", 6, body, leaf)
        yield refused("97 records in the third condition", 6,
                      b"\x02\x06" * 2 + body, b"\x02")
    for body in (chain, leaf * 31 + b"\x04" * 30):
        yield Case("31 leaves", body + b"\x06" + tail, "read 1 1 1 0 0")
        yield Case("31 leaves, twice", (body + b"\x06") * 2 + tail,
                   "read 2 1 1 0 0")
        yield refused("32 leaves", 6, body, leaf, b"\x03\x06" + tail)
    yield Case("256 conditions", b"\x02\x06" * 256 + tail, "read 256 1 1 0 0")
    yield refused("257 conditions", 6, b"\x02\x06" * 256 + b"\x02", b"\x06", tail)
    yield refused("257 conditions", 6, b"\x02\x06" * 256 + leaf, b"\x06")
    yield Case("257th condition open", b"\x02\x06" * 256 + b"\x02",
               "refused 8 at 513")


def count_limit_cases(instrument):
    """All points, 512 steps and 64 methods, one more, names at the edge."""
    front, point, method = b"\x02\x06", SMALL[2], SMALL[3]
    primitive, most = r.primitive(0, 0, 0), instrument.points
    edge = r.method(0, 0, 0, most - 1, most - 1)
    yield Case(f"{most} points", front + point * most + edge,
               f"read 1 {most} 1 0 0")
    yield refused(f"{most + 1} points", 6, front + point * most, point, method)
    yield refused(f"7 at point {most - 1}", 7, front + point * (most - 1), edge)
    for last in (method, primitive):
        yield Case("64 methods", SMALL_BYTES + last * 63, "read 1 1 64 0 0")
        yield refused("65 methods", 6, SMALL_BYTES + last * 63, method)
        yield refused("65 methods", 6, SMALL_BYTES + last * 63, primitive)
    yield Case("call of method 63", SMALL_BYTES + method * 63
               + r.call_step(0, 0, 63), "read 1 1 64 1 0")
    yield refused("7 method 64", 7, SMALL_BYTES + method * 63,
                  r.call_step(0, 0, 64))
    steps = [r.pass_step(0, 0), r.event_step(0, 0, 31), r.call_step(0, 0, 0)]
    for one in steps:
        yield Case("512 steps", SMALL_BYTES + one * 512, "read 1 1 1 512 0")
        for other in steps:
            yield refused("513 steps", 6, SMALL_BYTES + one * 512, other)


def byte_limit_cases(instrument):
    """All bytes, and one more."""
    small, most = SMALL_BYTES, instrument.bytes
    room, too_long = most - len(small), f"refused 1 at {most}"
    yield Case(f"{most} zeros", bytes(most), "refused 2 at 0")
    yield Case(f"{most + 1} zeros", bytes(most + 1), too_long)
    yield Case(f"{most} bytes of empty certificates", small + b"\x0e" * room,
               f"read 1 1 1 0 {room}")
    yield Case(f"{most + 1} bytes, else well read",
               small + b"\x0e" * (room + 1), too_long)
    pairs, rest = divmod(room - 1, 6)
    yield Case(f"{most} bytes, one long certificate",
               small + b"\x0e" * rest + r.pair(0, 1) * pairs + b"\x0e",
               f"read 1 1 1 0 {rest + 1}")
    yield Case(f"{most} bytes, the last record cut",
               small + b"\x0e" * (room - 1) + b"\x0d",
               f"refused 3 at {most - 1}")


def changed_records(draws, base=BASE, last_kind=14):
    """A base with some records taken out, repeated, swapped or changed."""
    records = list(base)
    for _ in range(draws.between(1, 3)):
        index, other = draws.below(len(records)), draws.below(len(records))
        way = draws.below(5)
        if way == 0 and len(records) > 1:
            del records[index]
        elif way == 1:
            records.insert(index, records[other])
        elif way == 2:
            records[index], records[other] = records[other], records[index]
        elif way == 3:
            records[index] = sample(draws.between(1, last_kind), base)
        else:
            at = draws.below(len(records[index]))
            records[index] = (records[index][:at] + draws.bytes(1)
                              + records[index][at + 1:])
    return b"".join(records)


def random_postfix(draws):
    """Records of kinds 1 to 6 with random faults, then a small tail."""
    data, depth = b"", 0
    for _ in range(draws.between(1, 40)):
        kinds = [1, 2] + ([5, 6] if depth else []) + ([3, 4] if depth > 1 else [])
        kind = draws.pick(kinds)
        if draws.chance(0.03):
            kind = draws.between(1, 6)
        depth = {1: depth + 1, 2: depth + 1, 5: depth, 6: 0}.get(kind, depth - 1)
        data += r.item(kind, 1 << draws.below(32))
    return data + (b"\x06" if draws.chance(0.7) else b"") + SMALL[2] + SMALL[3]


def random_cases(seed, count):
    """Random changes of records, random postfix, random bytes."""
    draws = Draws(seed)
    for _ in range(count):
        yield Case("records changed", changed_records(draws))
        yield Case("random postfix", random_postfix(draws))
        yield Case("random bytes", draws.bytes(draws.between(1, 30)))
        yield Case("random kinds", bytes(draws.below(16) for _ in
                                         range(draws.between(1, 60))))


def record_cases():
    """The cases that no instrument's limits touch, in a fixed order."""
    for cases in (kind_cases, truncations, first_record_cut, order_cases,
                  base_order_cases, item_cases, name_cases, first_name_cases,
                  end_cases, primitive_first_cases):
        yield from cases()


def limit_cases(instrument):
    """Two faults at one record, and every limit, in a fixed order."""
    yield from two_fault_cases(instrument)
    yield from condition_limit_cases()
    yield from count_limit_cases(instrument)
    yield from byte_limit_cases(instrument)


def reading_cases(seed=1, count=500):
    """All cases for reading on the large instrument, in a fixed order."""
    yield from record_cases()
    yield from limit_cases(LARGE)
    yield from random_cases(seed, count)


def without_repeats(cases):
    """The cases whose bytes have not come before."""
    seen = set()
    for case in cases:
        if case.data not in seen:
            seen.add(case.data)
            yield case
