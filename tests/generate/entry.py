"""Cases for the entry instrument (document 02, Ask 8): its limits, each refusal, and
sheets that it accepts or leaves unproved. A case's line is the one on the entry
instrument; the limits are taken from the instrument that is given.
"""
from itertools import islice

from reference.conditions import ANY, EMPTY, LEAF, STAR
from reference.instruments import ENTRY, LARGE
from reference.loader import load_line
from reference.reading import (CALL_STEP, EVENT_STEP, PASS_STEP, Method, Point,
                               Sheet, Step, read_sheet)
from reference.rules import rule_count
from sheets import records as r

from . import faults, special
from .draws import Draws
from .plans import SHAPES
from .refusals import (SMALL, SMALL_BYTES, Case, limit_cases, random_cases,
                       record_cases, refused)
from .true_sheets import renamed, true_sheets
from .words import (Group, answer, refusal_group, refused_sheet_groups,
                    sheet_of, short_groups, true_sheet_groups)

FRONT, POINT, METHOD = SMALL[0] + SMALL[1], SMALL[2], SMALL[3]
PRIMITIVE, PASS, PAIR = r.primitive(0, 0, 0), r.pass_step(0, 0), r.pair(0, 1)


def conditions(size):
    """Conditions of one word, the empty one, that take the given bytes, 2 or more."""
    full, rest = divmod(size, 97)
    sizes = [97] * full + [rest]
    if rest < 2:
        sizes[-2:] = [95, rest + 2]
    return b"".join(b"\x02" + b"\x05" * (one - 2) + b"\x06" for one in sizes)


def point_count_cases(instrument):
    """One point fewer than there may be, all, and more; names at the edge."""
    most = instrument.points
    for points in (most - 1, most):
        for entry, exit_ in ((points - 1, 0), (0, points - 1)):
            yield Case(f"{points} points", FRONT + POINT * points
                       + r.method(0, 0, 0, entry, exit_), f"read 1 {points} 1 0 0")
        for entry, exit_ in ((points, 0), (0, points), (65535, 0)):
            yield refused(f"7 {points} points, method {entry} {exit_}", 7,
                          FRONT + POINT * points,
                          r.method(0, 0, 0, entry, exit_), PASS)
        sheet, last = FRONT + POINT * points + METHOD, points - 1
        for step in (r.pass_step(last, 0), r.event_step(0, last, 31),
                     r.call_step(last, last, 0)):
            yield Case(f"{points} points, step at the last", sheet + step,
                       f"read 1 {points} 1 1 0")
        for step in (r.pass_step(points, 0), r.pass_step(0, points),
                     r.event_step(points, 0, 0), r.event_step(0, points, 0),
                     r.call_step(points, 0, 0), r.call_step(0, points, 0)):
            yield refused(f"7 {points} points, step at the next", 7, sheet, step)
    for points in (most + 1, most + 2, 2 * most, LARGE.points, LARGE.points + 1):
        for after in (b"", METHOD, METHOD + PASS):
            yield refused(f"6 {points} points", 6, FRONT + POINT * most,
                          POINT * (points - most), after)


def point_order_cases(instrument):
    """One point too many, with another fault before it, at it and after it."""
    most = instrument.points
    full = FRONT + POINT * most
    for name in (1, 255, 65535):
        for names in ((name, 0, 0), (0, name, 0), (0, 0, name)):
            yield refused("6 over 7", 6, full, r.point(*names), METHOD)
            yield refused("7 at the last point, then 6", 7, full[:-7],
                          r.point(*names), POINT * 2 + METHOD)
    for length in range(1, 7):
        yield refused(f"3 over 6: point cut to {length}", 3, full, POINT[:length])
    for kind in (0, 15, 255):
        # The body of kind 15 is longer than what follows.
        yield refused("2 or 3 before 6", 3 if kind == 15 else 2, full,
                      bytes([kind]), POINT)
        yield refused("2 after 6", 6, full, POINT, bytes([kind]) + METHOD)
    for record in (b"\x02", b"\x03", b"\x06", r.item(LEAF, 1)):
        yield refused("4 before 6", 4, full, record, POINT)
        yield refused("4 after 6", 6, full, POINT, record + METHOD)
    for record in (METHOD, METHOD + PASS, METHOD + PAIR, METHOD + b"\x0e"):
        yield refused("4 over 6", 4, full + record, POINT, METHOD)
    yield refused("5 before 6", 5, FRONT, b"\x06", full)
    yield refused("6 of a condition before 6", 6, r.item(LEAF, 1) * 31,
                  r.item(LEAF, 1), b"\x06" + POINT * (most + 1))
    yield refused("7 at the first point, then 6", 7, FRONT, r.point(0, 1, 0),
                  POINT * (most + 1))
    yield refused("9 before 10", 9, full, PRIMITIVE, METHOD + b"\x0e")
    for after in (PRIMITIVE, METHOD + PAIR, METHOD + r.pass_step(99, 99),
                  METHOD + POINT, METHOD[:4], b"\x0e"):
        yield refused("a fault after 6", 6, full, POINT, after)
    yield Case("9 at the end", full, f"refused 9 at {len(full)}")
    yield Case("8 at the end", full + METHOD + PAIR,
               f"refused 8 at {len(full) + 17}")


def sized_cases(size):
    """For each refusal from 2 to 9, a sheet of that size whose last record it is
    for, or that ends with it; and a sheet of that size that reading takes."""
    last = {2: b"\x00", 3: b"\x0d\x00", 4: POINT, 8: PAIR}
    for number, record in last.items():
        room = size - len(SMALL_BYTES) - len(record)
        data = SMALL_BYTES + b"\x0e" * room + record
        at = size if number == 8 else size - len(record)
        yield Case(f"{number} in {size} bytes", data, f"refused {number} at {at}")
    early = {5: b"\x03", 6: r.item(LEAF, 1), 7: r.point(0, 999, 0), 9: PRIMITIVE}
    for number, record in early.items():
        before = r.item(LEAF, 1) * 31 if number == 6 else b""
        data = conditions(size - len(before + record)) + before + record
        yield Case(f"{number} in {size} bytes", data,
                   f"refused {number} at {size - len(record)}")
    tail = POINT + METHOD
    yield Case(f"9 at the end of {size} bytes", conditions(size - 7) + POINT,
               f"refused 9 at {size}")
    yield Case(f"{size} bytes, else well read", conditions(size - 18) + tail)


def too_long(cases, instrument):
    """The cases, which are too long, with the line that they then have."""
    for case in cases:
        yield Case(case.label, case.data, f"refused 1 at {instrument.bytes}")


def size_cases(instrument):
    """One byte fewer than there may be, all bytes, and more, with each fault."""
    most = instrument.bytes
    yield from islice(sized_cases(most - 1), 3, None, 6)
    yield from sized_cases(most)
    yield from too_long(islice(sized_cases(most + 1), 1, None, 2), instrument)
    points = FRONT + POINT * (instrument.points + 1) + METHOD
    place = len(points) - len(POINT + METHOD)
    for size, line in ((most, f"6 at {place}"), (most + 1, f"1 at {most}")):
        yield Case(f"6 in {size} bytes", points + b"\x0e" * (size - len(points)),
                   f"refused {line}")


def differing_reading_cases(instrument):
    """The limits of the large instrument that the given one refuses with 6."""
    full = FRONT + POINT * instrument.points
    for case in limit_cases(LARGE):
        if (case.data.startswith(full + POINT)
                and len(case.data) <= instrument.bytes):
            yield Case(case.label, case.data, f"refused 6 at {len(full)}")


def reading_cases():
    """Everything that is read."""
    yield from limit_cases(ENTRY)
    yield from point_count_cases(ENTRY)
    yield from point_order_cases(ENTRY)
    yield from size_cases(ENTRY)
    yield from differing_reading_cases(ENTRY)
    yield from islice(record_cases(), 0, None, 3)
    yield from random_cases(81, 20)
    for _, sheet in true_sheets(82, 24, 40):
        counts = " ".join(map(str, sheet.counts))
        yield Case("true sheet", r.encode(sheet), f"read {counts}")


def with_points(draws, sheet, count):
    """The sheet with more points, up to the count, that no run reaches; they stand
    among the others anywhere."""
    places = sorted(draws.some(range(count), len(sheet.points)))
    points = [draws.pick(sheet.points) for _ in range(count)]
    for place, point in zip(places, sheet.points):
        points[place] = point
    methods = [renamed(one, "p", places.__getitem__) for one in sheet.methods]
    steps = [renamed(one, "p", places.__getitem__) for one in sheet.steps]
    return sheet._replace(points=points, methods=methods, steps=steps)


def filled(draws, sheet, size):
    """The sheet with that size in bytes: one more condition, which nothing names, and
    the pair (0, 1) repeated at the end of a certificate."""
    pairs, rest = divmod(size - len(r.encode(sheet)) - 2, r.PAIR_BYTES)
    more = [special.nested((EMPTY,), rest)]
    certificates = list(sheet.certificates)
    index = draws.below(len(certificates))
    certificates[index] = certificates[index] + [(0, 1)] * pairs
    return sheet._replace(conditions=sheet.conditions + more,
                          certificates=certificates)


def refused_6(label, sheet, instrument):
    """The case of a sheet with too many points."""
    first = sheet._replace(points=sheet.points[:instrument.points], methods=[],
                           steps=[], certificates=[])
    return Case(label, r.encode(sheet), f"refused 6 at {len(r.encode(first))}")


def accepted(label, sheet):
    return Case(label, r.encode(sheet), f"accepted {rule_count(sheet)}")


def point_sheets(seed, sheets, instrument):
    """True sheets with one point fewer than there may be, all, and one more."""
    draws, most = Draws(seed), instrument.points
    for sheet in sheets:
        for points in (most - 1, most):
            yield accepted(f"true, {points} points",
                           with_points(draws, sheet, points))
        yield refused_6(f"true, {most + 1} points",
                        with_points(draws, sheet, most + 1), instrument)


def walk(points, step=EVENT_STEP):
    """A method that goes through all points, one after another."""
    everything = (STAR, (LEAF, ANY))
    operand = {EVENT_STEP: 31, CALL_STEP: 1, PASS_STEP: None}[step]
    return r.with_certificates(Sheet(
        [(EMPTY,), everything], [Point(1, 1, 1)] * points,
        [Method(0, 1, 0, 0, points - 1), Method(1, 1, 1)],
        [Step(step, number, number + 1, operand) for number in range(points - 1)],
        []))


def walks(instrument):
    """Methods that go through as many points as there may be, and one more."""
    most = instrument.points
    for kind in (EVENT_STEP, CALL_STEP, PASS_STEP):
        for points in (most, most + 1):
            sheet, label = walk(points, kind), f"walk of {points} points"
            yield (accepted(label, sheet) if points == most
                   else refused_6(label, sheet, instrument))
            if points == most:
                last = len(sheet.certificates) - 1
                yield Case("walk, last certificate empty", r.encode(
                    faults.with_certificate(sheet, last, [])),
                    faults.unproved(faults.certified(sheet)[last], 1, 0))


def size_sheets(seed, sheets, instrument):
    """True sheets of one byte fewer than there may be, all, and one more."""
    draws, most = Draws(seed), instrument.bytes
    for sheet in sheets:
        for size in (most - 1, most):
            yield accepted(f"true, {size} bytes", filled(draws, sheet, size))
        yield from too_long([accepted("true, too long", filled(
            draws, sheet, most + 1))], instrument)


def last_pair_fault(draws, sheet, clause, size):
    """A sheet of that size whose last pair fails the clause; None if it cannot."""
    rule = faults.certified(sheet)[-1]
    found = faults.FAILURES[clause](draws, rule, [(0, 1)])
    if found is None:
        return None
    room = size - len(r.encode(sheet)) - 2 - r.PAIR_BYTES
    pairs, rest = divmod(room, r.PAIR_BYTES)
    long = sheet.certificates[-1] + [(0, 1)] * pairs + [found[0][1]]
    data = r.encode(sheet._replace(
        conditions=sheet.conditions + [special.nested((EMPTY,), rest)],
        certificates=sheet.certificates[:-1] + [long]))
    line = faults.unproved(rule, clause) + f"pair {len(long) - 1} "
    # Clause 4: the place may have no followers.
    if clause == 4 and not load_line(data).startswith(line):
        return None
    return Case(f"{size} bytes, clause {clause}", data, line)


def long_faults(seed, sheets, instrument):
    """Sheets of all bytes whose last pair fails clause 2, 3 or 4, that have one
    certificate more, or whose last certificate is not ended."""
    draws, most = Draws(seed), instrument.bytes
    for sheet in sheets:
        for clause in (2, 3, 4):
            case = last_pair_fault(draws, sheet, clause, most)
            if case is not None:
                yield case
        data = r.encode(filled(draws, sheet, most - 1)) + b"\x0e"
        yield Case("10: one more", data, f"refused 10 at {most}")
        data = r.encode(filled(draws, sheet, most + 1))[:-1]
        yield Case("8: not ended", data, f"refused 8 at {most}")


def large_only(instrument):
    """Sheets that the large instrument accepts, and the given one refuses."""
    yield from too_long([special.large_certificate()], instrument)
    for points in (instrument.points + 1, 2 * instrument.points):
        yield refused_6(f"{points} points", walk(points, PASS_STEP), instrument)


def long_certificates(instrument):
    """Certificates of hundreds of reachable pairs, whole and without one."""
    draws = Draws(83)
    sheet = read_sheet(special.large_certificate(6).data)
    yield accepted("large certificate", filled(draws, sheet, instrument.bytes))
    yield from islice(special.long_certificates(), 0, None, 7)
    pairs = sheet.certificates[0]
    for index in (1, len(pairs) // 2, len(pairs) - 1):
        yield Case("large certificate without a pair", r.encode(
            faults.with_certificate(sheet, 0, pairs[:index] + pairs[index + 1:])))


def sheet_cases():
    """Everything that is loaded."""
    yield from special.starred()[:-2]
    yield from special.former_examples(ENTRY)
    yield from special.longest(ENTRY)
    yield from walks(ENTRY)
    sheets = [sheet for _, sheet in true_sheets(84, 10 * len(SHAPES), 40)]
    wide = [with_points(Draws(85), sheet, ENTRY.points) for sheet in sheets[:32]]
    yield from point_sheets(86, sheets[:16], ENTRY)
    yield from size_sheets(87, sheets[24:26], ENTRY)
    yield from long_faults(88, sheets[26:28], ENTRY)
    yield from long_certificates(ENTRY)
    yield from large_only(ENTRY)
    yield from (accepted("true", sheet) for sheet in sheets)
    yield from faults.certificate_faults(89, sheets, 1)
    yield from faults.certificate_faults(90, wide, 1)
    yield from faults.broken_rules(91, 2)
    yield from faults.kept_certificates(92, sheets[:16])
    yield from faults.certificate_counts(93, sheets[:4])
    yield from faults.two_faults(94, sheets[:16])
    yield from faults.changed_conditions(95, sheets[:16])
    yield from faults.changed_bytes(96, sheets[16:48] + wide[:8])
    yield from faults.changed_records(97, sheets[16:32] + wide[8:16])


def limit_groups(instrument):
    """Words on sheets at the limits and above: 1 and 6 come before 14, 12 and 13."""
    tree = (STAR, (LEAF, 6))
    front = r.condition(tree)
    words = [(), (1,), (2, 1), (0,), (1, 3), (32,), (1,) * 4097]
    lines = ["yes", "yes", "yes", "no 0", "no 1", "refused 13 at 0", "refused 12"]
    cases = ([(0, word, line) for word, line in zip(words, lines)]
             + [(99, word, "refused 14") for word in words[-3:-1]])
    most = instrument.points
    for points in (most, most + 1):
        line = f"refused 6 at {len(front) + 7 * most}"
        yield Group(front + POINT * points + METHOD,
                    cases if points == most else with_line(cases, line))
    for size in (instrument.bytes - 1, instrument.bytes, instrument.bytes + 1):
        line = f"refused 1 at {instrument.bytes}"
        data = front + POINT + METHOD
        data += b"\x0e" * (size - len(data))
        yield Group(data, cases if size <= instrument.bytes
                    else with_line(cases, line))


def with_line(cases, line):
    """The cases, with the sheet's refusal as each one's line."""
    return [(number, word, line) for number, word, _ in cases]


def last_condition_group(instrument):
    """256 conditions in a sheet of all bytes; words of the first and the last."""
    trees = [(EMPTY,)] * 255 + [(STAR, (LEAF, 1 << 31))]
    data = sheet_of(trees)
    data += b"\x0e" * (instrument.bytes - len(data))
    cases = [(number, word, answer(trees[number], word))
             for number in (0, 254, 255) for word in ((), (31,), (30,))]
    cases += [(255, word, answer(trees[255], word))
              for word in ((31,) * 4096, (31,) * 4095 + (0,))]
    return Group(data, cases + [(256, (), "refused 14")])


def short_refusals():
    """Refusals 12, 13 and 14, without the longest words."""
    group = refusal_group()
    return Group(group.sheet, [case for case in group.cases
                               if len(case[1]) <= 4097])


def word_groups():
    """All groups of words."""
    yield from limit_groups(ENTRY)
    yield last_condition_group(ENTRY)
    yield short_refusals()
    yield from refused_sheet_groups(
        case for cases in (record_cases(), limit_cases(ENTRY)) for case in cases)
    yield from true_sheet_groups(98, 8)
    yield from short_groups(99, 8)
