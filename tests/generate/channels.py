"""Cases of document 02, Ask 11, that are read: kinds 21 and 22, events up to 63,
refusal 26; and words.

At one record 26 comes after 3, 4, 6, 7 and 24. With 2, 5, 9, 18, 19 and 20 it cannot
meet there: 2 is of no kind, the others are of other kinds.

A case's line is the one on the four-channel instrument, as in refusals.py; the
two-channel instruments give 2 for both kinds.
"""
from itertools import chain, cycle, islice, product

from reference.conditions import ANY, EMPTY, JOIN, LEAF, STAR, WIDE_ANY
from reference.instruments import FOUR_CHANNEL
from sheets import records as r

from . import kinds, owners
from .draws import Draws
from .outcomes import FOUR, FRONT, METHODS, PASS, POINT
from .owners import EDITIONS, THEN_FOUR, THREE, owned
from .plans import CHANNEL_SHAPES
from .refusals import (Case, changed_records, first_record_cut, is_out_of_order,
                       name_cases, order_cases, positions, refused, truncations)
from .stops import END, NEW, PAIR, STOP
from .true_sheets import true_sheets
from .words import (Group, answer, refused_sheet_groups, sheet_of, short_groups,
                    true_sheet_groups)

# Body lengths, typed from the documents.
LENGTHS = kinds.LENGTHS | {21: 8,  # set
                           22: 7}  # from, to, method, channel
EDGE_EVENTS = 0, 15, 16, 31, 32, 33, 47, 48, 62, 63
NO_EVENTS = 64, 65, 95, 96, 127, 128, 160, 255
NO_CHANNELS = 4, 5, 15, 16, 64, 128, 255
LEAF_1, LEAF_21 = r.item(LEAF, 5), r.wide_leaf(1 << 63 | 1 << 32 | 5)
TAIL = POINT + METHODS[9]


def call(channel, method=1, source=0, target=0):
    """A call on a channel; method 1 of FOUR is the primitive of one outcome."""
    return r.channel_call(source, target, method, channel)


def with_channels(base):
    """A base with a leaf of kind 21 and, behind the other steps, calls on channels."""
    records = [LEAF_21 if one == r.item(LEAF, 1) else one for one in base]
    steps = sum(one[0] not in (13, 14) for one in base)
    return (records[:steps] + [call(2, 2, 1, 0), call(0, 2), call(3, 2, 0, 1)]
            + records[steps:])


# A sheet of either edition with every kind of record, one record an element.
OLD_BASE, BASE = with_channels(owners.OLD_BASE), with_channels(owners.BASE)
WRONG_CALLS = [call(channel) for channel in NO_CHANNELS] + [
    call(channel, method) for channel in (0, 3, 4, 255) for method in (0, 2, 3)]


def kind_cases():
    """Each of the 256 kinds, where it may stand or behind a method."""
    for kind in range(256):
        if kind in kinds.LENGTHS:
            cases = kinds.length_cases
        elif kind in LENGTHS:
            continue
        else:
            cases = kinds.bare_cases
        for front in kinds.fronts(kind):
            yield from cases(kind, front)


def whole_cases():
    """Records of kinds 21 and 22 whole, and followed by a byte that is no kind; kinds
    21 and 22 as the first byte, with zeros behind it."""
    for edition in EDITIONS:
        for before, one, line in (
                (b"", LEAF_21, "8"), (FRONT, LEAF_21, "8"), (FOUR, call(3), None),
                (FOUR + PASS, call(1, 1), None)):
            data = edition + before + one
            if line is None:
                line = f"read 1 1 4 {1 + (PASS in before)} 0"
            else:
                line = f"refused 8 at {len(data)}"
            yield Case("whole", data, line)
            for byte in (0, 23, 255):
                yield refused(f"2 {byte} behind", 2, data, bytes([byte]))
    for count in range(12):
        number, place = (3, 0) if count < 8 else (2, 9)
        if count == 8:
            number, place = 8, 9
        yield Case(f"kind 21, {count} zeros", b"\x15" + bytes(count),
                   f"refused {number} at {place}")
        yield refused(f"kind 22, {count} zeros", 3 if count < 7 else 7, b"",
                      b"\x16" + bytes(count))


def cut_cases():
    """Kinds 21 and 22 cut at each length: 3, also where 4, 6, 7, 24 or 26 would be."""
    leaves, stars = LEAF_1 * 31, b"\x02" + b"\x05" * 95
    fronts = (b"", b"\x02", LEAF_21, FRONT, FRONT + POINT, FOUR, FOUR + PASS,
              FOUR + END, FOUR + PAIR, leaves, stars)
    for edition, before in product(EDITIONS, fronts):
        for length in range(1, 9):
            yield refused(f"3 kind 21 cut to {length}", 3, edition + before,
                          LEAF_21[:length])
        for length in range(1, 8):
            yield refused(f"3 kind 22 cut to {length}", 3, edition + before,
                          call(9)[:length])
    for length in (1, 7):
        yield refused("3 over 24 and 26", 3, THREE + THEN_FOUR,
                      call(9, 0, 1, 2)[:length])


def new_order_cases():
    """Every kind after kinds 21 and 22, and these after every kind."""
    for number, case in enumerate(order_cases(BASE, tuple(range(1, 23)))):
        if max(divmod(number // 3, 22)) >= 20:
            yield case


def place_cases():
    """A record of kinds 21 and 22 at every place of a sheet of either edition: 4 behind
    the conditions, or inside one, and 7 in front of the names."""
    for base in (OLD_BASE, BASE):
        for index, before, after in positions(base):
            kind = base[index - 1][0] if index else None
            late = index > 0 and is_out_of_order(21, kind)
            label = f"kind 21 at record {index}"
            yield (refused("4 " + label, 4, before, LEAF_21, after) if late
                   else Case(label, before + LEAF_21 + after))
            methods = sum(one[0] in (8, 9, 15, 16) for one in base[:index])
            number = 7 if methods < 3 else None
            if index and is_out_of_order(22, kind):
                number = 4
            label = f"{number} kind 22 at record {index}"
            yield (Case(label, before + call(1, 2) + after) if number is None
                   else refused(label, number, before, call(1, 2), after))


def condition_cases():
    """A leaf of kind 21 is one item: 5 where items lack or are left, 4 inside the
    condition for any other section, 8 at the end."""
    ones = LEAF_1, LEAF_21, b"\x02"
    for edition, one in product(EDITIONS, ones):
        front = edition + (b"" if one == LEAF_21 else FRONT)
        for items, record in ((LEAF_21, b"\x03"), (LEAF_21, b"\x04"),
                              (LEAF_21 + b"\x05", b"\x03"), (LEAF_21 + one, b"\x06"),
                              (one + LEAF_21, b"\x06"),
                              (LEAF_21 + one + b"\x03", b"\x04"),
                              (one + LEAF_21 + b"\x04", b"\x03")):
            for after in (b"", b"\x06" + TAIL):
                yield refused("5", 5, front + items, record, after)
        for items in (LEAF_21, LEAF_21 + b"\x05", LEAF_21 + one + b"\x03",
                      one + LEAF_21 + b"\x04", one + LEAF_21 + LEAF_21 + b"\x03\x04",
                      LEAF_21 * 3 + b"\x03\x05\x04"):
            data = front + items
            count = 1 + (FRONT in front)
            yield Case("read", data + b"\x06" + TAIL, f"read {count} 1 1 0 0")
            yield Case("8", data, f"refused 8 at {len(data)}")
            for record in (POINT, METHODS[8], PASS, PAIR, END, NEW, STOP, owned(0),
                           call(1), call(9)):
                yield refused("4 in a condition", 4, data, record, b"\x06" + TAIL)
    for before in (FRONT + POINT, FOUR, FOUR + PASS, FOUR + call(1), FOUR + END,
                   FOUR + PAIR, FRONT + owned(0)):
        for edition in EDITIONS:
            yield refused("4 behind the conditions", 4, edition + before, LEAF_21,
                          b"\x06")


def event_cases():
    """Event steps: 7 for an event above 63."""
    for edition, before in product(EDITIONS, (FOUR, FOUR + call(2))):
        steps = 1 + (before != FOUR)
        for event in EDGE_EVENTS:
            yield Case(f"event {event}", edition + before + r.event_step(0, 0, event),
                       f"read 1 1 4 {steps} 0")
        for event in NO_EVENTS:
            yield refused(f"7 event {event}", 7, edition + before,
                          r.event_step(0, 0, event), PASS)


def channel_cases():
    """Calls of methods of every kind, and of none, on channels that there are and are
    not: 26 but for the primitive of one outcome on channels 0 to 3."""
    for edition, before in product(EDITIONS, (FOUR, FOUR + PASS + call(1))):
        steps = 1 + 2 * (before != FOUR)
        for channel, method in product((*range(4), *NO_CHANNELS), range(4)):
            one, label = call(channel, method), f"method {method} on {channel}"
            if method == 1 and channel < 4:
                yield Case(label, edition + before + one, f"read 1 1 4 {steps} 0")
                yield refused(label + ", then 2", 2, edition + before + one, b"\x00")
                yield refused(label + ", then 26", 26, edition + before + one, call(4))
            else:
                for after in (b"", PASS, b"\x00", POINT):
                    yield refused("26 " + label, 26, edition + before, one, after)
        for channel, method in product((0, 3, 4, 255), (4, 5, 255, 256, 257, 65535)):
            yield refused(f"7 method {method}", 7, edition + before,
                          call(channel, method))
    for before in (FRONT, FRONT + POINT):
        yield refused("7 without methods", 7, before, call(0, 0))


def two_fault_cases():
    """Two refusals at one record, the later one 26 or 24; a leaf of kind 21 with 4 and
    6."""
    full = FOUR + PASS * 512
    for edition, one in product(EDITIONS, WRONG_CALLS):
        for before in (END, PAIR, PASS + END):
            yield refused("4 over 26", 4, edition + FOUR + before, one)
        yield refused("6 over 26", 6, edition + full, one)
        yield refused("26 at the 512th step", 26, edition + full[:-5], one, PASS)
    for edition, channel, method in product(EDITIONS, (0, 4, 255), (0, 1, 3)):
        for ends in ((1, 0), (0, 1), (65535, 0), (256, 256)):
            yield refused("7 over 26", 7, edition + FOUR, call(channel, method, *ends))
            yield refused("6 over 7 and 26", 6, edition + full,
                          call(channel, method, *ends))
        for before in (b"\x02", LEAF_21, FRONT + LEAF_1):
            yield refused("4 over 7 and 26", 4, edition + before,
                          call(channel, method))
    leaves, joined = LEAF_1 * 31, LEAF_21 * 31 + b"\x04" * 30
    yield refused("5 before 6", 5, leaves, b"\x06", LEAF_21)
    yield refused("4 before 6", 4, joined + b"\x06" + POINT, LEAF_21)
    yield from owner_cases()


def owner_cases():
    """Owners are compared as for kind 11: 24 comes before 26 at one record."""
    four = THREE + THEN_FOUR
    for edition, ends in product(EDITIONS, product(range(3), repeat=2)):
        differ = {1, 2} <= set(ends)
        for channel, method in ((1, 1), (3, 1), (4, 1), (255, 1), (0, 0), (2, 2),
                                (3, 3), (4, 0)):
            right = method == 1 and channel < 4
            one = call(channel, method, *ends)
            if right and not differ:
                yield Case("owners agree", edition + four + one, "read 1 3 4 1 0")
            else:
                yield refused(f"{ends} {channel} {method}", 24 if differ else 26,
                              edition + four, one, PASS)


def two_record_cases():
    """26 before another fault, and behind one: the earliest record counts. At the end
    26 has come before 8, 10 and 25."""
    other = {2: b"\x00", 4: POINT, 7: r.pass_step(0, 3), 18: r.call_step(0, 0, 2),
             24: r.pass_step(1, 2), 20: STOP}
    four, wrong = THREE + THEN_FOUR, (call(4), call(0, 0), call(1, 3))
    for edition, bad in product(EDITIONS, wrong):
        for number, one in islice(other.items(), 5 if edition else 6):
            yield refused(f"26, then {number}", 26, edition + four, bad, one)
            yield refused(f"{number}, then 26", number, edition + four, one, bad)
        for after in (PAIR, END, END * 3, b"\x0a", LEAF_21):
            yield refused("26, then the end", 26, edition + four, bad, after)
        yield refused("26, then 25", 26, edition + THREE + owned(9) + THEN_FOUR, bad)
        yield refused("9, then 26", 9, edition + THREE, METHODS[8],
                      METHODS[9] + bad)
        yield refused("5, then 26", 5, edition + LEAF_21, b"\x03", four + bad)
    for edition in EDITIONS:
        right = call(2)
        yield Case("8 behind a call", edition + four + right + PAIR,
                   f"refused 8 at {len(edition + four + right + PAIR)}")
        yield Case("25 behind a call", edition + THREE + owned(9) + THEN_FOUR + right,
                   f"refused 25 at {len(edition + THREE)}")
    yield refused("19 behind a leaf", 19, LEAF_21 + b"\x06", NEW, TAIL)


def in_bodies():
    """Bytes 21 and 22 in bodies are no records."""
    many = FRONT * 23 + POINT * 23 + METHODS[9] + METHODS[8] * 22
    steps = (r.event_step(21, 22, 21) + r.pass_step(22, 21) + call(2, 22, 21, 22)
             + r.call_step(21, 22, 21))
    for edition in EDITIONS:
        data = edition + many + steps
        yield Case("21 and 22 in bodies", data, "read 23 23 23 4 0")
        yield Case("21 and 22 in bodies", data + r.pair(21, 0x16151615) + END,
                   "read 23 23 23 4 1")
        yield Case("21 and 22 in a set", edition + r.item(LEAF, 0x15161516) + b"\x06"
                   + r.wide_leaf(0x1516151615161516) + b"\x06" + TAIL,
                   "read 2 1 1 0 0")


def leaf_rows():
    """Rows of 31 leaves of both kinds."""
    one, wide = LEAF_1, LEAF_21
    yield [wide] * 31
    yield [one] * 30 + [wide]
    yield [wide] * 30 + [one]
    yield [one, wide] * 15 + [one]
    yield [wide, one] * 15 + [wide]
    yield [one] * 16 + [wide] * 15


def leaf_limit_cases():
    """30, 31 and 32 leaves, 96 and 97 records, leaves of both kinds mixed."""
    for row, edition in product(leaf_rows(), EDITIONS):
        for count in (30, 31):
            joined = row[0] + b"".join(one + b"\x03" for one in row[1:count])
            for items in (joined, b"".join(row[:count]) + b"\x04" * (count - 1)):
                yield Case(f"{count} leaves", edition + items + b"\x06" + TAIL,
                           "read 1 1 1 0 0")
                yield Case(f"{count} leaves, twice", edition + (items + b"\x06") * 2
                           + TAIL, "read 2 1 1 0 0")
                for last in (LEAF_1, LEAF_21):
                    if count == 31:
                        yield refused("6 32 leaves", 6, edition + items, last,
                                      b"\x03\x06" + TAIL)
                    else:
                        yield Case("31 leaves", edition + items + last + b"\x03\x06"
                                   + TAIL, "read 1 1 1 0 0")
                for length in (1, 8):
                    yield refused("3 over 6", 3, edition + items, LEAF_21[:length])


def record_limit_cases():
    """96 and 97 records, with leaves of kind 21."""
    for edition in EDITIONS:
        for items in (LEAF_21 + b"\x05" * 95,
                      b"\x02" + b"\x05" * 93 + LEAF_21 + b"\x03",
                      LEAF_1 + b"\x05" * 93 + LEAF_21 + b"\x04",
                      LEAF_21 * 31 + b"\x03" * 30 + b"\x05" * 35):
            yield Case("96 records", edition + items + b"\x06" + TAIL, "read 1 1 1 0 0")
            for last in (LEAF_1, LEAF_21, b"\x02", b"\x05"):
                yield refused("97 records", 6, edition + items, last, b"\x06")
            yield refused("5 over 6", 5, edition + items, b"\x03")
        items = b"\x02" + b"\x05" * 94
        yield refused("5 after 96 records", 5, edition + items + LEAF_21, b"\x06")
        yield refused("97th record a leaf", 6, edition + items + b"\x05", LEAF_21)
        leaf = LEAF_21 + b"\x06"
        yield Case("256 conditions", edition + leaf * 256 + TAIL, "read 256 1 1 0 0")
        yield refused("257 conditions", 6, edition + leaf * 256 + LEAF_21, b"\x06")


def step_limit_cases():
    """512 and 513 steps, calls on channels among them; methods 62 and 63."""
    steps = [call(0), call(3), PASS, r.event_step(0, 0, 63), r.call_step(0, 0, 1)]
    for edition, shift in product(EDITIONS, range(5)):
        full = edition + FOUR + b"".join(islice(cycle(steps), shift, 512 + shift))
        yield Case("512 steps", full, "read 1 1 4 512 0")
        for last in (call(1), call(4), call(0, 9), call(0, 0)):
            yield refused("513 steps", 6, full, last)
    full = FOUR + call(2) * 512
    yield Case("512 calls", full, "read 1 1 4 512 0")
    yield Case("511 calls", full[:-8], "read 1 1 4 511 0")
    yield refused("513 calls", 6, full, call(2), PASS)
    for length in (1, 7):
        yield refused("3 over 6", 3, full, call(2)[:length])
    methods = FRONT + POINT + METHODS[9] + METHODS[8] * 61
    for last in METHODS.values():
        both = methods + METHODS[8] + last
        yield Case("call of method 62", both + call(1, 62), "read 1 1 64 1 0")
        yield (refused("26 method 63", 26, both, call(1, 63)) if last != METHODS[8]
               else Case("call of method 63", both + call(1, 63), "read 1 1 64 1 0"))
        yield refused("7 method 64", 7, both, call(1, 64))


def limit_cases(instrument):
    """What limits touch: points, bytes, and those that all instruments share."""
    yield from leaf_limit_cases()
    yield from record_limit_cases()
    yield from step_limit_cases()
    most = instrument.points
    for points in (most - 1, most):
        before, last = FRONT + POINT * points + METHODS[9] + METHODS[8], points - 1
        for ends in ((last, 0), (0, last), (last, last)):
            yield Case(f"{points} points", before + call(2, 1, *ends),
                       f"read 1 {points} 2 1 0")
            yield refused("26 at the last point", 26, before, call(4, 1, *ends))
        for ends in ((points, 0), (0, points)):
            yield refused("7 at the next point", 7, before, call(2, 1, *ends))
    front = LEAF_21 + b"\x06" + POINT + METHODS[9] + METHODS[8] + call(3)
    for size in (instrument.bytes, instrument.bytes + 1):
        ends = size - len(front)
        yield Case(f"{size} bytes", front + END * ends,
                   f"read 1 1 2 1 {ends}" if size == instrument.bytes
                   else f"refused 1 at {instrument.bytes}")


def record_cases():
    """What no instrument's limits touch."""
    yield from whole_cases()
    yield from first_record_cut({21: 8, 22: 7})
    yield from truncations(BASE)
    yield from name_cases(BASE, (10, 22), FOUR_CHANNEL.events)
    yield from new_order_cases()
    yield from place_cases()
    yield from cut_cases()
    yield from condition_cases()
    yield from event_cases()
    yield from channel_cases()
    yield from two_fault_cases()
    yield from two_record_cases()
    yield from in_bodies()


def random_postfix(draws):
    """Leaves of both kinds and other records of conditions, with random faults."""
    data, depth = b"", 0
    for _ in range(draws.between(1, 50)):
        some = [1, 2, 21, 21] + [5, 6] * (depth > 0) + [3, 4] * (depth > 1)
        kind = draws.pick((*range(1, 7), 21) if draws.chance(0.03) else some)
        depth = {1: depth + 1, 2: depth + 1, 21: depth + 1, 5: depth, 6: 0}.get(
            kind, depth - 1)
        data += (r.wide_leaf(1 << draws.below(64)) if kind == 21
                 else r.item(kind, 1 << draws.below(32)))
    return data + (b"\x06" if draws.chance(0.7) else b"") + TAIL


def random_cases(seed, count):
    """Random changes of records, random kinds, random postfix."""
    draws = Draws(seed)
    for _ in range(count):
        yield Case("records changed", changed_records(draws, BASE, 22))
        yield Case("random kinds", bytes(draws.below(25) for _ in
                                         range(draws.between(1, 60))))
        yield Case("random postfix", random_postfix(draws))


def channel_sheets(seed, count, max_pairs=100, shapes=CHANNEL_SHAPES):
    """True sheets with calls on channels, of every shape in turn."""
    return [sheet for _, sheet in true_sheets(seed, count, max_pairs, shapes,
                                              FOUR_CHANNEL)]


def read_cases(seed, count):
    """True sheets that reading takes."""
    for sheet in channel_sheets(seed, count):
        counts = " ".join(map(str, sheet.counts))
        yield Case("true sheet on channels", r.encode(sheet), f"read {counts}")


def first_later(data):
    """The number and the offset of the first record that the two-channel instruments
    refuse: 2 for kinds 21 and 22, 7 for an event step with an event above 31; None if
    there is none as far as records go."""
    offset = 0
    while offset < len(data) and data[offset] in LENGTHS:
        kind, end = data[offset], offset + 1 + LENGTHS[data[offset]]
        if kind > 20:
            return 2, offset
        if kind == 10 and end <= len(data) and data[end - 1] > 31:
            return 7, offset
        offset = end
    return None


def two_channel(case):
    """The case with its line on the large instrument: a refusal before the first such
    record stands, and so does one at it that comes before."""
    later = first_later(case.data)
    if later is None or case.line is None or case.line.startswith("refused 1 at"):
        return Case(case.label, case.data, case.line if later is None else None)
    number, offset = later
    words = case.line.split()
    if words[0] == "refused" and words[1] != "25":
        if int(words[3]) < offset or (number == 7 and int(words[3]) == offset
                                      and words[1] != "24"):
            return case
    return Case(case.label, case.data, f"refused {number} at {offset}")


def unknown_cases():
    """Kinds 21 and 22 at every place of a sheet without them: 2, whatever follows."""
    for base in (owners.OLD_BASE, owners.BASE):
        for index, before, after in positions(base):
            for one in (LEAF_21, call(1), call(9)):
                yield refused(f"2 kind {one[0]} at record {index}", 2, before, one,
                              after)
            for kind in (21, 22):
                yield refused(f"2 kind {kind} alone at record {index}", 2, before,
                              bytes([kind]))


def reading_cases():
    """Everything that is read, on the large instrument."""
    yield from unknown_cases()
    yield from map(two_channel, islice(record_cases(), 0, None, 3))
    yield from map(two_channel, islice(leaf_limit_cases(), 0, None, 9))
    yield from random_cases(610, 30)
    yield from map(two_channel, read_cases(611, 18))


def entry_reading_cases():
    """Everything that is read, on the entry instrument."""
    yield from islice(unknown_cases(), 0, None, 3)
    yield from map(two_channel, islice(record_cases(), 1, None, 12))
    yield from random_cases(612, 10)
    yield from map(two_channel, islice(read_cases(613, 9), 0, None, 2))


def four_reading_cases():
    """Everything that is read, on the four-channel instrument."""
    yield from kind_cases()
    yield from record_cases()
    yield from limit_cases(FOUR_CHANNEL)
    yield from random_cases(614, 120)
    yield from read_cases(615, 36)


def edge_group():
    """Words of 0, 1, 4,095 and 4,096 events, and events 31, 32 and 63; all events of
    kind 1, of which 32 is none, and of kind 21."""
    trees = [(STAR, (LEAF, WIDE_ANY)), (STAR, (LEAF, ANY)), (STAR, (LEAF, 1 << 63)),
             (STAR, (JOIN, (LEAF, 1 << 31), (LEAF, 1 << 32))), (LEAF, WIDE_ANY ^ ANY)]
    words = [(), (0,), (31,), (32,), (63,), (31, 32), (32, 31), (63, 0), (0,) * 4095,
             (63,) * 4096, (31,) * 4095 + (32,), (63,) * 4095 + (62,),
             (31, 32) * 2048, (31, 32) * 2047 + (31,)]
    return Group(sheet_of(trees), [(number, word, answer(tree, word))
                                   for number, tree in enumerate(trees)
                                   for word in words])


def event_group():
    """Each of the 64 events, on leaves of both kinds that hold it and that do not."""
    trees = [(LEAF, 0x5555555555555555), (LEAF, 0xCCCCCCCC), (LEAF, 1 << 32),
             (LEAF, 0xFFFF0000FFFF0000)]
    return Group(sheet_of(trees), [(number, (event,), answer(tree, (event,)))
                                   for number, tree in enumerate(trees)
                                   for event in range(64)])


def refusal_group():
    """Refusals 12, 13 and 14, and their order: 14, 12, 13."""
    trees = [(STAR, (LEAF, WIDE_ANY)), (EMPTY,)]
    cases = [(0, (1,) * 4097, "refused 12"), (0, (64,) * 4097, "refused 12"),
             (2, (64,), "refused 14"), (2, (64,) * 4097, "refused 14"),
             (0, (63, 32, 31), "yes"), (1, (63,), "no 0")]
    for event in NO_EVENTS:
        for length, at in ((1, 0), (7, 0), (7, 3), (7, 6), (4096, 4095)):
            word = (63,) * at + (event,) + (0,) * (length - at - 1)
            cases.append((at % 2, word, f"refused 13 at {at}"))
    cases.append((0, (63, 99, 64, 255), "refused 13 at 1"))
    return Group(sheet_of(trees), cases)


def wide_leaves(data, change=lambda number: True):
    """The bytes with leaves of kind 21 for those of kind 1, all or some by number."""
    parts, offset, leaves = [], 0, 0
    while offset < len(data):
        end = offset + 1 + LENGTHS[data[offset]]
        one = data[offset:end]
        if one[0] == 1:
            leaves += 1
            one = b"\x15" + one[1:] + bytes(4) if change(leaves) else one
        parts.append(one)
        offset = end
    return b"".join(parts)


def wide_groups(groups):
    """The groups with leaves of kind 21 in their sheets, all of them or every second:
    the answers are the same."""
    for number, group in enumerate(groups):
        yield Group(wide_leaves(group.sheet, lambda leaf, number=number:
                                (leaf + number) % (1 + number % 2) == 0), group.cases)


def refused_groups():
    """Words on sheets that reading refuses with 26, or otherwise: they come before 14,
    12 and 13."""
    for group in refused_sheet_groups(chain(
            channel_cases(), cut_cases(), condition_cases(), event_cases(),
            two_fault_cases(), two_record_cases(), leaf_limit_cases())):
        line = group.cases[0][2]
        long = ([(0, (1,) * 4097, line), (0, (64,), line), (1, (), line)]
                if line.startswith("refused 26") else [])
        yield Group(group.sheet, group.cases + long)


def four_word_groups():
    """Words on the four-channel instrument."""
    yield edge_group()
    yield event_group()
    yield refusal_group()
    yield from refused_groups()
    yield from short_groups(660, 60, events=FOUR_CHANNEL.events)
    yield from wide_groups(short_groups(661, 12))
    yield from true_sheet_groups(662, 36, CHANNEL_SHAPES, FOUR_CHANNEL)


def refused_2(groups):
    """The groups whose sheets have kinds 21 or 22, on a two-channel instrument: 2 comes
    before 14, 12 and 13."""
    for group in groups:
        later = first_later(group.sheet)
        if later is not None and later[0] == 2:
            line = f"refused 2 at {later[1]}"
            some = group.cases[:3] + [(99, (63,), None), (0, (64,), None)]
            yield Group(group.sheet, [(number, word, line) for number, word, _ in some])


def plain_words():
    """Words with events above 31 on a sheet without them: 13."""
    trees = [(STAR, (LEAF, ANY))]
    return Group(sheet_of(trees), [(0, (31,) * at + (event,), f"refused 13 at {at}")
                                   for event in (32, 47, 48, 63, 64) for at in (0, 3)])


def word_groups():
    """Words on the large instrument."""
    yield plain_words()
    yield from refused_2([edge_group(), event_group()])
    yield from refused_2(short_groups(663, 3, events=FOUR_CHANNEL.events))
    yield from refused_2(true_sheet_groups(664, 9, CHANNEL_SHAPES, FOUR_CHANNEL))


def entry_word_groups():
    """Words on the entry instrument."""
    yield plain_words()
    yield from refused_2([event_group()])
    yield from refused_2(true_sheet_groups(665, 5, CHANNEL_SHAPES, FOUR_CHANNEL))
