"""Cases of document 02, Ask 9: kind 20, refusals 24 and 25.

At one record 24 comes after 3, 4, 6, 7 and 18. With 2, 5, 9, 19 and 20 it cannot meet
there: 2 is of no kind, 5 and 19 are in the first section, 9 is of a primitive, which
has no points, and 20 is of a stop, which joins nothing.

A case's line is as in refusals.py and faults.py.
"""
from functools import lru_cache, partial
from itertools import chain, cycle, islice, product

from reference.conditions import LEAF
from reference.instruments import ENTRY, LARGE
from reference.reading import (CALL_STEP, CHANNEL_CALL, EVENT_STEP, FAILING_CALL,
                               PASS_STEP, STOP_STEP, Method, Point, Sheet, Step,
                               read_sheet)
from reference.rules import rule_count
from sheets import records as r
from sheets.assemble import assemble

from . import entry, faults, kinds, outcomes, special, stops
from .draws import Draws
from .outcomes import FOUR, FRONT, METHODS, PASS, POINT, call
from .plans import FAILING_SHAPES, SHAPES, STOPPING_SHAPES
from .refusals import (Case, changed_records, first_record_cut, is_out_of_order,
                       name_cases, order_cases, positions, refused)
from .stops import END, NEW, PAIR, STOP
from .true_sheets import true_sheets
from .words import Group, refused_sheet_groups, true_sheet_groups

EDITIONS = b"", NEW
# Owners of which no sheet has a method.
NO_METHODS = 64, 255, 256, 0xFF00, 65535
ALL_SHAPES = SHAPES + FAILING_SHAPES + STOPPING_SHAPES


def owned(owner, past=0, own=0, due=0):
    return r.owned_point(past, own, due, owner)


def with_points(base):
    """A base with two points that have owners, behind the others, and steps there."""
    points = sum(one[0] <= 7 or one[0] == 18 for one in base)
    steps = sum(one[0] not in (13, 14) for one in base)
    return (base[:points] + [owned(0), owned(3, 1, 0, 1)] + base[points:steps]
            + [r.pass_step(2, 1), r.event_step(3, 3, 9), r.call_step(0, 3, 3)]
            + base[steps:])


# A sheet of either edition with every kind of record, one record an element.
OLD_BASE, BASE = with_points(stops.OLD_BASE), with_points(stops.BASE)
# The least sheet with an owner.
M20 = special.M[:2] + owned(0) + special.M[9:]
# A method that a call may name, among four of all kinds.
CALLED = {11: 0, 17: 2}


def new_order_cases():
    """Every kind after kind 20, and this after every kind."""
    for number, case in enumerate(order_cases(BASE, tuple(range(1, 21)))):
        if 19 in divmod(number // 3, 20):
            yield case


def place_cases():
    """A point with an owner at every place of a sheet of either edition: 7 in front of
    the first condition, 4 inside one and behind the points."""
    for base in (OLD_BASE, BASE):
        for index, before, after in positions(base):
            if 6 not in (one[0] for one in base[:index]):
                number = 4 if index and base[index - 1][0] < 6 else 7
            else:
                number = 4 if is_out_of_order(20, base[index - 1][0]) else None
            label, one = f"{number} kind 20 at record {index}", owned(index % 5)
            if number is None:
                yield Case(label, before + one + after)
            else:
                yield refused(label, number, before, one, after)


def field_cases():
    """A point with an owner, cut, or with a name that does not exist; its owner is not
    judged there."""
    fronts = b"\x02", FRONT, FRONT + POINT + owned(0), FOUR
    for edition, before in product(EDITIONS, fronts):
        for length in range(1, 9):
            yield refused(f"3 kind 20 cut to {length}", 3, edition + before,
                          owned(65535)[:length])
    for edition, owner in product(EDITIONS, (0, 1, 65535)):
        for names in ((1, 0, 0), (0, 1, 0), (0, 0, 1), (256, 0, 0), (0, 0, 65535)):
            yield refused("7 kind 20", 7, edition + FRONT, owned(owner, *names),
                          METHODS[9])
    many = FRONT * 20 + owned(0, 19, 18, 17) + owned(1, 0, 1, 19) + METHODS[9]
    yield Case("fields", many + r.method(0, 0, 0, 1, 1), "read 20 2 2 0 0")


def body(kind, *points):
    """A method with body: its entry, exit and, for kind 16, failed exit."""
    if kind == 9:
        return r.method(0, 0, 0, *points)
    return r.failing_method(0, 0, 0, *points[:2], 0, 0, points[2])


def bodies():
    """Methods with body by kind and number, in either edition: a point without an owner
    and one of the method, the methods before it, its kind and number."""
    for edition, number in (b"", 0), (NEW, 0), (b"", 1), (NEW, 3):
        for kind in (9, 16):
            yield (edition + FRONT + POINT + owned(number), some_methods(number), kind,
                   number)


def other_owners(number):
    """Owners that a method of that number does not have: one lower, higher ones, one
    with the same low byte, one with the bytes exchanged."""
    return [owner for owner in (number - 1, number + 1, number + 256,
                                number << 8, 65535) if 0 <= owner != number]


def method_cases():
    """Refusal 24 at a method: one of its points has another owner, the others its own
    number, or none, or that owner too."""
    for points, methods, kind, number in bodies():
        ends = 2 + (kind == 16)
        afters = cycle((b"", METHODS[8], r.pass_step(0, 1), b"\x00", PAIR))
        for owner, wrong, other in product(other_owners(number), range(ends),
                                           range(3)):
            named = [other] * wrong + [2] + [other] * (ends - wrong - 1)
            yield refused(f"24 method {number} of kind {kind}", 24,
                          points + owned(owner) + methods, body(kind, *named),
                          next(afters))


def agreeing_method_cases():
    """Methods whose points have their number or no owner; owner 0 is not none."""
    for points, methods, kind, number in bodies():
        for named in product(range(2), repeat=2 + (kind == 16)):
            yield Case("method agrees", points + methods + body(kind, *named),
                       f"read 1 2 {number + 1} 0 0")


def step(kind, ends):
    """A step that joins points, in a sheet of four methods."""
    if kind == 10:
        return r.event_step(*ends, 5)
    return r.pass_step(*ends) if kind == 12 else call(kind, CALLED[kind], *ends)


def step_cases():
    """Refusal 24 at a step: each two of its points, of two owners, of one and without,
    in a sheet of four methods."""
    for edition, one, other in ((b"", 0, 1), (NEW, 0, 1), (b"", 1, 0), (NEW, 3, 4),
                                (b"", 1, 257)):
        front = edition + FRONT + POINT + owned(one)
        before = front + owned(other) + some_methods(4)
        for kind in (10, 11, 12, 17):
            for ends in product(range(3), repeat=2 + (kind == 17)):
                label = f"kind {kind} joins {ends} of owners {one} and {other}"
                if {1, 2} <= set(ends):
                    yield refused("24 " + label, 24, before, step(kind, ends))
                elif other > 3:
                    yield Case("25 " + label, before + step(kind, ends),
                               f"refused 25 at {len(front)}")
                else:
                    yield Case(label, before + step(kind, ends), "read 1 3 4 1 0")


def joined_cases():
    """Calls of methods that have other owners' points, and stops, join nothing of
    them; two points of one owner agree, and an unowned one joins any two."""
    front = FRONT + owned(0) * 2 + owned(1) * 2 + POINT
    methods = body(9, 0, 1) + body(16, 2, 3, 3) + METHODS[8]
    for edition in EDITIONS:
        before = edition + front + methods
        for steps in (r.call_step(0, 1, 0) + r.failing_call(0, 1, 1, 1),
                      r.call_step(2, 3, 0) + r.failing_call(2, 3, 2, 1),
                      r.call_step(4, 2, 2) + r.call_step(4, 0, 2),
                      r.failing_call(4, 3, 4, 1) + r.failing_call(1, 4, 4, 1),
                      r.pass_step(0, 4) + r.pass_step(4, 2)):
            yield Case("joined", before + steps, "read 1 5 3 2 0")
        yield refused("24 behind others", 24, before + r.pass_step(0, 1)
                      + r.pass_step(0, 4), r.pass_step(1, 2), PASS)
        yield refused("24, the first of two", 24, before, r.event_step(3, 0, 0),
                      r.pass_step(0, 2))
        yield refused("24, the failed target", 24, before,
                      r.failing_call(0, 1, 2, 1))
        for point in range(5):
            yield (Case("stop at an owned point", before + r.stop_step(point),
                        "read 1 5 3 1 0") if edition
                   else refused("20 stop", 20, before, r.stop_step(point)))


def some_methods(count):
    """That many methods of every kind at point 0, the first with body."""
    return b"".join(islice(cycle(METHODS.values()), count))


def points_of(owners):
    """Points with these owners, or with none."""
    return b"".join(POINT if owner is None else owned(owner) for owner in owners)


def owners_case(front, owners, count):
    """Points with these owners behind one without: read, or 25 at the first whose owner
    is none of that many methods."""
    data = front + points_of((None, *owners)) + some_methods(count)
    line = f"read 1 {1 + len(owners)} {count} 0 0"
    wrong = [index for index, owner in enumerate(owners)
             if owner is not None and owner >= count]
    if wrong:
        before = front + points_of((None, *owners[:wrong[0]]))
        line = f"refused 25 at {len(before)}"
    return Case(f"owners {owners} of {count} methods", data, line)


def unknown_cases():
    """Refusal 25: owners below the number of methods, which may come later and be
    primitives, and above; behind and in front of other points."""
    for edition, count in product(EDITIONS, (1, 2, 3, 4, 64)):
        owners = {0, count - 1, count, count + 1, count + 255, count + 256,
                  count << 8, *NO_METHODS}
        around = cycle((((), ()), ((None,), (0,)), ((0,), (None,)),
                        ((None,) * 3, (65535,)), ((count - 1,), (count,))))
        for owner, (front, after) in zip(sorted(owners), around):
            yield owners_case(edition + FRONT, (*front, owner, *after), count)


def first_unknown_cases():
    """The first such point counts, of several and among others; the place is its
    offset, also in a long sheet."""
    for edition, owners in product(EDITIONS, product((None, 1, 2), repeat=3)):
        yield owners_case(edition + FRONT, owners, 2)
    for size in (253, 254, 255, 256, 1000, 7000):
        before = NEW + entry.conditions(size)
        yield Case("25 behind many bytes", before + POINT + owned(1) + METHODS[9],
                   f"refused 25 at {len(before + POINT)}")


# Points without an owner, of method 0 and of method 1; and what joins the last two.
THREE = FRONT + POINT + owned(0) + owned(1)
JOINING = r.pass_step(1, 2)
THEN_FOUR = some_methods(4)
WRONG_METHODS = {9: body(9, 1, 2), 16: body(16, 2, 1, 0)}
WRONG_STEPS = {kind: step(kind, (1, 2, 0)[:2 + (kind == 17)])
               for kind in (10, 11, 12, 17)}


def cut_cases():
    """3 over 24: methods and steps cut."""
    for edition in EDITIONS:
        for before, wrong in ((THREE, WRONG_METHODS), (THREE + THEN_FOUR, WRONG_STEPS)):
            for one in wrong.values():
                for length in range(1, len(one), 2):
                    yield refused("3 over 24", 3, edition + before, one[:length])


def names_at_fault():
    """Methods and steps whose points have other owners, and of which one name does not
    exist: what stands before them, and the record."""
    for place, name in product(range(3), (1, 65535)):
        names = [0] * place + [name] + [0] * (2 - place)
        yield b"", r.method(*names, 1, 2)
        yield b"", r.failing_method(*names, 1, 2, 0, 0, 2)
    for ends in ((3, 2), (2, 3)):
        yield b"", r.method(0, 0, 0, *ends)
    for names in ((1, 0, 0), (0, 1, 0), (0, 0, 3)):
        yield b"", r.failing_method(0, 0, 0, 2, 1, *names)
    for one in (r.event_step(1, 2, 32), r.event_step(1, 2, 255), r.call_step(1, 2, 4),
                r.failing_call(1, 2, 0, 4), r.failing_call(3, 1, 2, 2),
                r.failing_call(1, 3, 2, 2), r.failing_call(1, 2, 3, 2)):
        yield THEN_FOUR, one


def two_fault_cases():
    """Two refusals at one record, the later one 24."""
    yield from cut_cases()
    late = [*product((PASS, END, PAIR), WRONG_METHODS.values()),
            *product((END, PAIR), WRONG_STEPS.values())]
    for edition in EDITIONS:
        four = edition + THREE + THEN_FOUR
        for before, one in late:
            yield refused("4 over 24", 4, four + before, one, END)
        for before, one in names_at_fault():
            yield refused("7 over 24", 7, edition + THREE + before, one)
        for kind, ends, method in product((11, 17), ((1, 2, 0), (1, 1, 1)), range(4)):
            if not outcomes.may_call(kind, list(METHODS)[method]):
                yield refused("18 over 24", 18, four, call(kind, method, *ends),
                              JOINING)


def two_record_cases():
    """24 before another fault, and behind one: the earliest record counts. At the end
    24 has come before 8, 9 and 25."""
    four = THREE + THEN_FOUR
    other = {2: b"\x00", 4: POINT, 7: r.pass_step(0, 3), 18: call(17, 0), 20: STOP}
    for edition in EDITIONS:
        for number, one in islice(other.items(), 4 if edition else 5):
            yield refused(f"24, then {number}", 24, edition + four, JOINING, one)
            yield refused(f"{number}, then 24", number, edition + four, one, JOINING)
        yield refused("24, then 3", 24, edition + four, JOINING, b"\x0a")
        yield refused("9, then 24", 9, edition + THREE, METHODS[8],
                      WRONG_METHODS[9] + JOINING)
        yield refused("24, then 9 and 25", 24, edition + THREE, JOINING, END)
        yield refused("24, then 8", 24, edition + four, JOINING, PAIR)
        yield refused("24, then 25", 24, edition + THREE + owned(9) + THEN_FOUR,
                      JOINING)
        yield refused("24 at a method, then 24", 24, edition + THREE,
                      WRONG_METHODS[16], JOINING)
        yield refused("5, then 24", 5, edition + FRONT, b"\x06", THREE[2:] + JOINING)
    yield refused("19, then 24", 19, FRONT, NEW, THREE[2:] + JOINING)


def last_cases():
    """Every other refusal while reading comes before 25. A point cannot stand in front
    of what 5 and 19 are for."""
    bad = FRONT + POINT + owned(65535)
    four = bad + THREE[2:] + THEN_FOUR
    for edition in EDITIONS:
        for number, before, one in (
                (2, four, b"\x00"), (2, bad, b"\xff"), (3, four, b"\x0d"),
                (3, bad, b"\x14"), (4, four, POINT), (4, bad, b"\x02"),
                (4, bad, NEW), (7, four, r.pass_step(9, 0)), (7, bad, owned(0, 1)),
                (7, bad, body(9, 2, 0)), (9, bad, METHODS[8]), (9, bad, METHODS[15]),
                (18, four, call(11, 3)), (24, bad, body(9, 1, 0)),
                (24, four, r.pass_step(3, 4)), (24, four, r.pass_step(1, 3))):
            yield refused(f"{number} over 25", number, edition + before, one)
        for data, line in ((four + PAIR, 8), (four + END + PAIR, 8), (bad + PAIR, 8),
                           (bad, 9), (bad + END, 9), (bad + owned(0), 9),
                           (bad + r.pass_step(0, 1), 9)):
            yield Case(f"{line} over 25", edition + data,
                       f"refused {line} at {len(edition + data)}")
        yield refused("5, then 25", 5, edition + FRONT, b"\x06", four[2:])
        yield Case("25 behind all", edition + four + PASS + END,
                   f"refused 25 at {len(edition + FRONT + POINT)}")
    yield refused("20 over 25", 20, four, STOP)
    yield refused("19, then 25", 19, FRONT, NEW, four[2:])


def mixed(count, first=0):
    """That many points of kinds 7 and 20 in turn; those with an owner have method 0."""
    return b"".join(islice(cycle((POINT, owned(0))), first, first + count))


def point_limit_cases(instrument):
    """All points, and one more, of kinds 7 and 20 in turn and of kind 20 alone."""
    most = instrument.points
    for first, edition in product(range(2), EDITIONS):
        full = edition + FRONT + mixed(most, first)
        for points in (most - 1, most):
            data = edition + FRONT + mixed(points, first)
            yield Case(f"{points} points", data + body(9, points - 1, 0),
                       f"read 1 {points} 1 0 0")
            yield refused("7 at the next point", 7, data, body(9, points, 0))
        for one in (POINT, owned(0), owned(65535), owned(0, 1), owned(9, 0, 0, 9),
                    r.point(0, 9, 0)):
            yield refused(f"6 point {most}", 6, full, one, METHODS[9])
        for length in (1, 8):
            yield refused(f"3 over 6 point {most}", 3, full, owned(0)[:length])
        yield refused("7 at the last point", 7, edition + FRONT
                      + mixed(most - 1, first), owned(0, 0, 1), owned(0))
    full = FRONT + owned(0) * (most - 1)
    for owner in (0, 1, 65535):
        yield Case(f"the last of {most} owners", full + owned(owner) + body(9, 0, 0),
                   f"refused 25 at {len(full)}" if owner else f"read 1 {most} 1 0 0")
    yield refused("24 at the last point", 24, full + owned(1), body(9, 0, most - 1))
    yield refused("6 over 25", 6, FRONT + owned(7) + mixed(most - 1), owned(0))


def count_limit_cases(instrument):
    """64 methods, of which the last owns a point, 512 steps, all bytes."""
    points = FRONT + POINT + owned(62) + owned(63)
    before = points + some_methods(63)
    for kind, others in ((9, (0,)), (16, (0, 0))):
        yield Case("method 63", before + body(kind, *others, 2), "read 1 3 64 0 0")
        yield refused("24 at method 63", 24, before, body(kind, 1, *others))
        yield refused("6 over 24 at method 64", 6, before + METHODS[9],
                      body(kind, 1, *others))
        yield Case("25 owner 64", points + owned(64) + some_methods(63)
                   + body(kind, 0, *others), f"refused 25 at {len(points)}")
    four = THREE + THEN_FOUR
    for steps in (r.pass_step(1, 1), r.pass_step(0, 2) + r.pass_step(1, 0)):
        full = four + steps * (512 * 5 // len(steps))
        yield Case("512 steps", full, "read 1 3 4 512 0")
        for one in WRONG_STEPS.values():
            yield refused("6 over 24 at step 512", 6, full, one)
            yield refused("24 at step 511", 24, full[:-5], one, PASS)
    for owner, size in product((3, 4), (instrument.bytes, instrument.bytes + 1)):
        front = FRONT + POINT + owned(owner) + THEN_FOUR
        ends = size - len(front)
        line = f"read 1 2 4 0 {ends}" if owner == 3 else "refused 25 at 9"
        if size > instrument.bytes:
            line = f"refused 1 at {instrument.bytes}"
        yield Case(f"{size} bytes", front + END * ends, line)


def record_cases():
    """What no instrument's limits touch."""
    yield from kinds.later_cases()
    yield from first_record_cut({20: 8})
    yield from (Case("beginning of a base", before) for _, before, _ in positions(BASE))
    yield from name_cases(BASE, (20,))
    yield from new_order_cases()
    yield from place_cases()
    yield from field_cases()
    yield from method_cases()
    yield from agreeing_method_cases()
    yield from step_cases()
    yield from joined_cases()
    yield from unknown_cases()
    yield from first_unknown_cases()
    yield from two_fault_cases()
    yield from two_record_cases()
    yield from last_cases()


def limit_cases(instrument):
    """What the limits of an instrument touch."""
    yield from point_limit_cases(instrument)
    yield from count_limit_cases(instrument)


def random_cases(seed, count):
    """Random changes of records, random kinds."""
    draws = Draws(seed)
    for _ in range(count):
        yield Case("records changed", changed_records(draws, BASE, 20))
        yield Case("random kinds", bytes(draws.below(23) for _ in
                                         range(draws.between(1, 60))))


def joined_points(sheet):
    """For each point the first one that steps join it with."""
    first = list(range(len(sheet.points)))
    for one in sheet.steps:
        ends = {first[point] for point in (one.source, one.target, one.failed_target)
                if point is not None}
        first = [min(ends) if point in ends else point for point in first]
    return first


def owners_of(sheet):
    """For each point the method whose points steps join it with: None where there are
    several, the last method where there is none."""
    first, methods = joined_points(sheet), {}
    for number, one in enumerate(sheet.methods):
        for point in (one.entry, one.exit, one.failed_exit):
            if point is not None:
                methods.setdefault(first[point], set()).add(number)
    last = {len(sheet.methods) - 1}
    found = [methods.get(one, last) for one in first]
    return [min(some) if len(some) == 1 else None for some in found]


def with_owners(sheet, owners):
    """The sheet with these owners of its points."""
    return sheet._replace(points=[point._replace(owner=owner) for point, owner
                                  in zip(sheet.points, owners)])


def owned_sheet(sheet):
    """The sheet with an owner at each point that can have one; certificates and all
    else are as they were."""
    return with_owners(sheet, owners_of(sheet))


def some_owned(draws, sheet):
    """The sheet with an owner at some of the points."""
    return with_owners(sheet, [owner if draws.chance(0.6) else None
                               for owner in owners_of(sheet)])


def owned_data(data):
    """The bytes of a sheet that reading takes, with owners."""
    return r.encode(owned_sheet(read_sheet(data)))


def true_owned(seed, count, max_pairs=100, shapes=ALL_SHAPES):
    """True sheets with owners, of every shape in turn."""
    return [owned_sheet(sheet) for _, sheet in true_sheets(seed, count, max_pairs,
                                                           shapes)]


@lru_cache
def same_sheets(share):
    """The first ones, a share of those that there are, of the stored true sheets of
    document 01 and of Asks 2 and 4."""
    return ([sheet for _, sheet in true_sheets(51, int(480 * share), 100)]
            + outcomes.failing_sheets(120, int(135 * share))
            + stops.stopping_sheets(220, int(120 * share)))


def read_cases(seed, count):
    """True sheets that reading takes."""
    for sheet in true_owned(seed, count):
        counts = " ".join(map(str, sheet.counts))
        yield Case("true sheet with owners", r.encode(sheet), f"read {counts}")


def reading_cases():
    """Everything that is read, on the large instrument."""
    yield from record_cases()
    yield from limit_cases(LARGE)
    yield from random_cases(410, 40)
    yield from read_cases(411, 27)


def entry_reading_cases():
    """Everything that is read, on the entry instrument."""
    yield from kinds.later_cases()
    yield from islice(record_cases(), 0, None, 7)
    yield from limit_cases(ENTRY)
    yield from random_cases(412, 15)
    yield from read_cases(413, 9)


def accepted_texts():
    """The single sheets of other requests and the examples that are accepted."""
    for text, count in chain(outcomes.ACCEPTED.values(), stops.ACCEPTED.values()):
        yield assemble(text), f"accepted {count}"
    for case in special.former_examples(ENTRY):
        if case.line.startswith("accepted"):
            yield case.data, case.line
    yield from ((data, "accepted 6") for data in (special.M, stops.M18))
    yield from ((stops.M19, "accepted 7"), (outcomes.M16, "accepted 9"))


def accepted_cases():
    """Sheets that are accepted, with owners: the count is that without them."""
    yield Case("least sheet with an owner", M20, "accepted 6")
    for data, line in accepted_texts():
        yield Case("accepted with owners", owned_data(data), line)


def full_limits(instrument):
    """64 methods with body, each with its points, which are all there may be, and as
    many steps as fit."""
    most = instrument.points
    each, steps = most // 64, 512 if instrument == LARGE else 192
    methods = [Method(0, 0, 0, each * number, each * number + each - 1)
               for number in range(64)]
    points = [Point(0, 0, 0, number // each) for number in range(most)]
    steps = [Step(PASS_STEP, number % most, number % most // each * each)
             for number in range(steps)]
    return special.accepted("full limits", Sheet([special.EMPTY_TREE], points, methods,
                                                 steps, []))


def owner_changes(seed, sheets, each):
    """Sheets with owners of which one is changed, taken away or given."""
    draws = Draws(seed)
    for sheet in sheets:
        count = len(sheet.methods)
        for _ in range(each):
            owners = [point.owner for point in sheet.points]
            owners[draws.below(len(owners))] = draws.pick(
                (None, 0, draws.below(count), draws.below(count), count, 65535))
            yield Case("owner changed", r.encode(with_owners(sheet, owners)))


def pasted_steps(seed, sheets, each):
    """Sheets with owners and one more step, a copy of another with one point changed:
    24 at it, where it then joins points of different owners, else 10."""
    draws = Draws(seed)
    for sheet in (sheet for sheet in sheets if sheet.steps):
        for _ in range(each):
            one = draws.pick(sheet.steps)
            ends = [end for end in ("source", "target", "failed_target")
                    if getattr(one, end) is not None]
            one = one._replace(**{draws.pick(ends): draws.below(len(sheet.points))})
            owners = {sheet.points[getattr(one, end)].owner for end in ends} - {None}
            pasted = sheet._replace(steps=sheet.steps + [one])
            data = r.encode(pasted)
            at = len(r.encode(sheet._replace(certificates=[])))
            # A stop needs no certificate.
            line = f"refused 10 at {len(data)}" if one.kind != STOP_STEP else None
            yield Case("step pasted", data,
                       f"refused 24 at {at}" if len(owners) > 1 else line)


def unknown_owner_sheets(seed, sheets):
    """Sheets with one more point, which nothing names, whose owner is no method: 25,
    whatever is wrong with certificates and rules."""
    draws = Draws(seed)
    for sheet in sheets:
        count = len(sheet.methods)
        point = draws.pick(sheet.points)._replace(
            owner=draws.pick((count, count, count + 256, 65535)))
        more = sheet._replace(points=sheet.points + [point])
        place = len(r.encode(Sheet(sheet.conditions, sheet.points, [], [], [],
                                   sheet.new)))
        for certificates in (more.certificates, more.certificates[1:], [],
                             more.certificates + [[]], [[]] * len(more.certificates)):
            yield Case("25 over 10 and 11", r.encode(
                more._replace(certificates=certificates)), f"refused 25 at {place}")


def loaded(cases):
    """Cases of reading: where it refuses, the loader's line is the same."""
    for case in cases:
        is_refused = (case.line or "").startswith("refused")
        yield case if is_refused else Case(case.label, case.data)


def same_lines(cases):
    """Sheets that reading takes, with owners: the line is that without them."""
    for case in cases:
        yield Case(case.label + ", with owners", owned_data(case.data), case.line)


def random_sheet_cases(seed, sheets):
    """True sheets with owners, and what is made of them."""
    some, draws = sheets[::3], Draws(seed)
    yield from (Case("true", r.encode(sheet), f"accepted {rule_count(sheet)}")
                for sheet in sheets)
    yield from (Case("true, some owners", r.encode(some_owned(draws, sheet)),
                     f"accepted {rule_count(sheet)}") for sheet in some)
    yield from owner_changes(seed + 1, sheets, 2)
    yield from pasted_steps(seed + 2, sheets, 1)
    yield from unknown_owner_sheets(seed + 3, some[::5])
    yield from faults.certificate_counts(seed + 4, some[:2])
    yield from faults.changed_certificates(seed + 5, some[::5])
    yield from faults.changed_conditions(seed + 6, some[::4])
    yield from faults.changed_bytes(seed + 7, some)
    yield from faults.changed_records(seed + 8, some[::2])
    yield from faults.near_record_changes(seed + 9, some[::2])


def sheet_cases():
    """Everything that is loaded, on the large instrument."""
    yield from accepted_cases()
    yield full_limits(LARGE)
    yield full_limits(ENTRY)
    yield from loaded(islice(record_cases(), 2, None, 12))
    yield from random_sheet_cases(420, list(map(owned_sheet, same_sheets(0.1))))
    yield from same_lines(faults.certificate_faults(431, same_sheets(0.1), 1))
    yield from same_lines(faults.broken_rules(432, 1, range(1, 27), STOPPING_SHAPES))
    yield from special.listed_among(special.OWNER_EXAMPLES)


def entry_sheet_cases():
    """Everything that is loaded, on the entry instrument."""
    yield from islice(accepted_cases(), 0, None, 2)
    yield full_limits(ENTRY)
    yield from loaded(islice(record_cases(), 5, None, 36))
    sheets = true_owned(440, 27)
    yield from random_sheet_cases(441, sheets)
    yield from entry.point_sheets(451, sheets[:4], ENTRY)
    yield from special.listed_among(special.OWNER_EXAMPLES, ENTRY)


def refused_groups():
    """Words on sheets that reading refuses with 24 or 25, or otherwise: they come
    before 14, 12 and 13."""
    for group in refused_sheet_groups(chain(
            unknown_cases(), last_cases(), two_fault_cases(), two_record_cases())):
        line = group.cases[0][2]
        long = ([(0, (1,) * 4097, line), (0, (32,), line), (1, (), line)]
                if line.startswith(("refused 24", "refused 25")) else [])
        yield Group(group.sheet, group.cases + long)


def owned_groups(groups):
    """The groups with owners in each sheet."""
    for group in groups:
        yield Group(owned_data(group.sheet), group.cases)


def word_groups():
    """Words on the large instrument."""
    yield from refused_groups()
    yield from owned_groups(true_sheet_groups(460, 4, ALL_SHAPES[::9]))


def entry_word_groups():
    """Words on the entry instrument."""
    yield from islice(refused_groups(), 0, None, 2)
    yield from owned_groups(true_sheet_groups(461, 3, ALL_SHAPES[1::9]))


def random_sheet(draws, astray=0.0, on_channels=False):
    """A sheet with owners at all points and random methods and steps, whose conditions
    are any. The points of methods and steps are those of the method, or, in the share
    that goes astray, any. Calls of primitives may be on channels. It has no
    certificates."""
    bodies = [True] + [draws.chance(0.7) for _ in range(draws.below(4))]
    owners = draws.shuffled([number for number, has_body in enumerate(bodies)
                             for _ in range(draws.between(1, 3) * has_body)])

    def point(owner):
        if draws.chance(astray):
            return draws.below(len(owners))
        return draws.pick([number for number, one in enumerate(owners)
                           if one == owner])

    def name():
        return draws.below(3)

    points = [Point(name(), name(), name(), owner) for owner in owners]
    methods = []
    for number, has_body in enumerate(bodies):
        ends = [point(number) if has_body else None for _ in range(3)]
        one = Method(name(), name(), name(), *ends[:2])
        methods.append(one._replace(
            failed_trace=name(), failed_future=name(), failed_exit=ends[2])
            if draws.chance(0.5) else one)
    new = draws.chance(0.6)
    steps = [random_step(draws, methods, partial(point, draws.pick(owners)), new)
             for _ in range(draws.between(2, 14))]
    if on_channels:
        steps = [step._replace(kind=CHANNEL_CALL, channel=draws.below(4))
                 if step.kind == CALL_STEP and not methods[step.operand].has_body
                 else step for step in steps]
    return Sheet([special.EMPTY_TREE, special.ANY_STAR, (LEAF, 3)], points, methods,
                 steps, [], new)


def random_step(draws, methods, point, new):
    """A step among the points that are given; a stop in a new sheet alone."""
    source, way = point(), draws.below(8)
    if way == 0 and new:
        return Step(STOP_STEP, source)
    if way < 2:
        return Step(EVENT_STEP, source, point(), draws.below(32))
    if way < 4:
        return Step(PASS_STEP, source, point())
    called = draws.below(len(methods))
    if methods[called].may_fail:
        return Step(FAILING_CALL, source, point(), called, point())
    return Step(CALL_STEP, source, point(), called)
