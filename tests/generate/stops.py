"""Cases of document 02, Ask 4: kinds 18 and 19, refusals 19 and 20, rules 25 and 26.

A case's line is as in refusals.py and faults.py.
"""
from itertools import chain, islice

from reference.conditions import EITHER, LEAF, STAR
from reference.instruments import ENTRY, LARGE
from reference.reading import (BODY_LENGTHS, CALL_STEP, OWNED_POINT, STOP_STEP,
                               Method, Point, Sheet, Step, read_sheet)
from reference.rules import rule_count, subject_kind
from reference.runs import Move
from sheets import records as r
from sheets.assemble import assemble

from . import entry, faults, outcomes, special
from .draws import Draws
from .outcomes import (FOUR, FRONT, METHODS, PASS, POINT, WORDS, Alone, call,
                       changed_text, failing)
from .plans import STOPPING_SHAPES
from .refusals import (Case, changed_records, first_record_cut, is_out_of_order,
                       name_cases, order_cases, positions, refused, truncations)
from .trees import VOID
from .true_sheets import true_sheets
from .words import (Group, refused_sheet_groups, short_groups, true_sheet_groups)

NEW, STOP = r.edition(), r.stop_step(0)
PAIR, END = r.pair(0, 1), b"\x0e"
# A sheet of either edition with every kind of record, one record an element.
OLD_BASE = outcomes.BASE
BASE = ([NEW] + OLD_BASE[:16] + [r.stop_step(1)] + OLD_BASE[16:20] + [STOP]
        + OLD_BASE[20:])
# The least sheet of the new edition, and the least that stops.
M18 = NEW + special.M
M19 = M18[:21] + STOP + M18[21:]


def kind_cases():
    """Refusal 2 in a sheet of the new edition; and the byte 14, which is a kind since
    document 02, Ask 9, anywhere in it."""
    for kind in (0, *range(20, 26), 255):
        yield refused(f"kind {kind} behind the edition", 3 if kind == 20 else 2, NEW,
                      bytes([kind]))
    for index, before, after in positions(BASE):
        number = 7  # what follows is taken for names
        if len(after) < BODY_LENGTHS[OWNED_POINT - 1]:
            number = 3
        elif index and is_out_of_order(OWNED_POINT, BASE[index - 1][0]):
            number = 4
        yield refused(f"kind 20 at record {index}", number, before, b"\x14", after)


def new_order_cases():
    """Every kind after kinds 18 and 19, and these after every kind."""
    pairs = order_cases(BASE, tuple(range(1, 20)))
    for number, case in enumerate(pairs):
        kind, after = divmod(number // 3, 19)
        if max(kind, after) >= 17:
            yield case


def edition_places():
    """An edition at every place of a sheet: 19 where the conditions are and none is
    open, 4 elsewhere; in front it is no fault, but where one follows."""
    yield Case("edition in front", NEW + b"".join(OLD_BASE), "read 2 2 4 5 2")
    for base in (OLD_BASE, BASE):
        for index, before, after in islice(positions(base), 1, None):
            number = 19 if base[index - 1][0] in (6, 18) else 4
            for rest in (after, NEW):
                yield refused(f"{number} edition at record {index}", number,
                              before, NEW, rest)


def edition_cases():
    """Editions alone, twice, and in front of what is not finished; the edition is no
    condition, and no byte of a body is one."""
    leaf = r.item(LEAF, 1)
    for data, line in (
            (NEW, "9 at 1"), (NEW + FRONT, "9 at 3"), (NEW + FRONT + POINT, "9 at 10"),
            (NEW + END, "9 at 2"), (NEW + FRONT + POINT + STOP, "9 at 13"),
            (NEW + b"\x02", "8 at 2"), (NEW + leaf, "8 at 6"), (NEW + PAIR, "8 at 7"),
            (NEW + FRONT + b"\x02", "8 at 4"), (NEW + b"\x02\x05", "8 at 3"),
            (NEW + FOUR + STOP + PAIR, f"8 at {len(FOUR) + 10}")):
        yield Case("edition, then the end", data, f"refused {line}")
    for times in (2, 3, 256):
        for after in (b"", FRONT, FOUR, STOP, b"\x00"):
            yield refused(f"19 edition {times} times", 19, NEW, NEW * (times - 1),
                          after)
    for before in (FRONT, FRONT * 2, NEW + FRONT, FRONT * 256, NEW + FRONT * 256):
        for after in (b"", FRONT, POINT, STOP, NEW, b"\x00"):
            yield refused("19 behind a condition", 19, before, NEW, after)
    for record, number in ((b"\x03", 5), (b"\x04", 5), (b"\x05", 5), (b"\x06", 5),
                           (POINT, 7), (METHODS[8], 7), (METHODS[9], 7), (PASS, 7),
                           (STOP, 7), (call(11, 0), 7), (STOP[:2], 3),
                           (leaf[:3], 3)):
        yield refused(f"{number} behind the edition", number, NEW, record)
        if number != 3:
            yield refused(f"{number}, then 19 or 4", number, NEW, record, NEW)
    yield refused("5 behind an edition and an item", 5, NEW + leaf, b"\x03")
    many = FRONT * 20 + POINT * 20 + METHODS[9]
    inside = (r.point(18, 19, 18), r.method(18, 18, 19, 19, 18), r.pass_step(18, 19),
              r.event_step(18, 18, 18), r.event_step(19, 19, 19),
              r.pair(18, 0x12131213))
    for edition in (b"", NEW):
        data = edition + r.item(LEAF, 0x12131213) + b"\x06" + FRONT * 19
        data += inside[0] * 20 + b"".join(inside[1:5])
        yield Case("18 and 19 in bodies", data, "read 20 20 1 3 0")
        yield Case("18 and 19 in bodies", data + inside[5] + END, "read 20 20 1 3 1")
        yield refused("4 edition behind such bodies", 4, data, NEW)
    yield Case("stops at points 18 and 19", NEW + many + r.stop_step(18)
               + r.stop_step(19), "read 20 20 1 2 0")


def stop_places():
    """A stop at every place of a sheet of either edition."""
    for base in (OLD_BASE, BASE):
        for index, before, after in positions(base):
            for point in (1, 2):
                number = stop_number(base, index, point)
                label, one = f"{number} stop at record {index}", r.stop_step(point)
                if number is None:
                    yield Case(label, before + one + after)
                else:
                    yield refused(label, number, before, one, after)


def stop_number(base, index, point):
    """The refusal of a stop at a place of a base, or None."""
    if index and is_out_of_order(STOP_STEP, base[index - 1][0]):
        return 4
    if base is OLD_BASE or index == 0:
        return 20
    return 7 if point >= sum(one[0] == 7 for one in base[:index]) else None


def stop_cases():
    """Stops in both editions: whole, cut, at a point that there is and is not."""
    for point in (0, 1, 255, 256, 65535):
        one = r.stop_step(point)
        for before in (b"", FRONT, FRONT + POINT, FOUR, FOUR + call(17, 2)):
            for after in (b"", PASS):
                yield refused("20 stop in an old sheet", 20, before, one, after)
            if point == 0 and POINT in before:
                continue
            yield refused("7 stop in a new sheet", 7, NEW + before, one)
    for steps in (STOP, STOP * 2, PASS + STOP, STOP + PASS,
                  call(11, 0) + STOP + call(17, 2) + STOP):
        count = 2 if len(steps) > 3 else 1
        count = 4 if len(steps) > 10 else count
        yield Case("stops", NEW + FOUR + steps, f"read 1 1 4 {count} 0")
        yield Case("stops", NEW + FOUR + steps + END, f"read 1 1 4 {count} 1")
        yield refused("2 behind stops", 2, NEW + FOUR + steps, b"\x00")
        yield refused("4 behind stops", 4, NEW + FOUR + steps, POINT)
        yield refused("18 behind stops", 18, NEW + FOUR + steps, call(17, 0))


def two_fault_cases():
    """Two refusals at one record: the order is 2, 3, 4, 19, 20, 5, 6, 7, 9, 18."""
    full = FOUR + PASS * 512
    for edition in (b"", NEW):
        inside = [edition + b"\x02", edition + FRONT + b"\x02\x05",
                  edition + r.item(LEAF, 1)]
        behind = [edition + one + last for one in (FOUR, full)
                  for last in (END, PAIR)]
        steps = [edition + one for one in (b"", FRONT, FRONT + POINT, FOUR, full)]
        for before in inside + behind + steps:
            for length in (1, 2):
                yield refused("3 over the others: a stop", 3, before, STOP[:length])
        for before in inside + behind:
            for point in (0, 9):
                yield refused("4 over 20, 6, 7: a stop", 4, before,
                              r.stop_step(point), END)
        for before in inside + behind + [edition + FRONT + POINT, edition + FOUR,
                                         edition + FOUR + PASS, edition + full]:
            yield refused("4 over 19: an edition", 4, before, NEW, FRONT)
    yield refused("4 over 19: an edition behind a stop", 4, NEW + FOUR + STOP, NEW)
    for point in (0, 1, 65535):
        one = r.stop_step(point)
        for before in (full, full[:-5], FRONT + POINT + PASS * 512):
            yield refused("20 over 6 and 7", 20, before, one, PASS)
        yield refused("6 over 7: the 513th step", 6, NEW + full, one, PASS)
        if point:
            yield refused("7 at the 512th step", 7, NEW + full[:-5], one, PASS)
    yield Case("the 512th step", NEW + full[:-5] + STOP, "read 1 1 4 512 0")


def two_record_cases():
    """The earliest record at fault counts."""
    other = {2: b"\x00", 4: POINT, 7: r.pass_step(0, 9), 18: call(17, 0)}
    for number, record in other.items():
        yield refused(f"20, then {number}", 20, FOUR, STOP, record)
        yield refused(f"{number}, then 20", number, FOUR, record, STOP)
        yield refused(f"{number}, then a stop", number, NEW + FOUR, record, STOP)
        yield refused(f"{number} behind a stop", number, NEW + FOUR + STOP, record)
    for number, record in {2: b"\x00", 5: b"\x06", 7: r.point(0, 0, 9)}.items():
        yield refused(f"19, then {number}", 19, FRONT, NEW, record)
        yield refused(f"{number}, then an edition", number, FRONT, record, NEW)
    yield refused("9, then 20", 9, FRONT + POINT, METHODS[8], STOP)
    yield refused("19, then a stop", 19, FRONT, NEW, POINT + METHODS[9] + STOP)
    yield refused("20, then an edition", 20, FOUR, STOP, NEW)
    yield refused("20, then 3", 20, FOUR, STOP, STOP[:1])
    yield refused("20, then 8", 20, FOUR, STOP, PAIR)


def limit_cases(instrument):
    """512 and 513 steps with stops, the last point, 256 conditions behind an edition,
    all bytes."""
    steps = [STOP, PASS, r.event_step(0, 0, 31), call(11, 0), call(17, 2)]
    for shift in range(5):
        full = FOUR + b"".join(steps[(shift + one) % 5] for one in range(512))
        yield Case("512 steps", NEW + full, "read 1 1 4 512 0")
        yield refused("513 steps", 6, NEW + full, STOP, PASS)
        yield refused("513 steps", 6, NEW + full, steps[shift])
    full = NEW + FOUR + STOP * 512
    yield Case("512 stops", full, "read 1 1 4 512 0")
    yield Case("511 stops", full[:-3], "read 1 1 4 511 0")
    yield refused("513 stops", 6, full, STOP)
    yield refused("20 at the first of 512 stops", 20, FOUR, STOP * 512)
    for points in sorted({1, 2, instrument.points - 1, instrument.points,
                          min(257, instrument.points)}):
        before = NEW + FRONT + POINT * points + METHODS[9]
        yield Case("stop at the last point", before + r.stop_step(points - 1),
                   f"read 1 {points} 1 1 0")
        for point in (points, points + 256, 65535):
            yield refused("7 stop at no point", 7, before, r.stop_step(point), PASS)
    tail, chain_ = POINT + METHODS[9], r.condition(special.chain(31))
    yield Case("256 conditions", NEW + FRONT * 256 + tail, "read 256 1 1 0 0")
    yield refused("257 conditions", 6, NEW + FRONT * 256 + b"\x02", b"\x06", tail)
    yield Case("31 leaves", NEW + chain_ + tail, "read 1 1 1 0 0")
    yield refused("32 leaves", 6, NEW + chain_[:-1], r.item(LEAF, 1))
    yield Case("96 records", NEW + b"\x02" + b"\x05" * 95 + b"\x06" + tail,
               "read 1 1 1 0 0")
    yield refused("97 records", 6, NEW + b"\x02" + b"\x05" * 95, b"\x05")
    front = NEW + FRONT + tail + STOP
    for size in (instrument.bytes, instrument.bytes + 1):
        ends = size - len(front)
        yield Case(f"{size} bytes", front + END * ends,
                   f"read 1 1 1 1 {ends}" if size == instrument.bytes
                   else f"refused 1 at {instrument.bytes}")


def record_cases():
    """What no instrument's limits touch."""
    yield from kind_cases()
    yield from first_record_cut({STOP_STEP: 2})
    yield from truncations(BASE)
    yield from name_cases(BASE, (STOP_STEP,))
    yield from new_order_cases()
    yield from edition_places()
    yield from edition_cases()
    yield from stop_places()
    yield from stop_cases()
    yield from two_fault_cases()
    yield from two_record_cases()


def random_cases(seed, count):
    """Random changes of records, random kinds."""
    draws = Draws(seed)
    for _ in range(count):
        yield Case("records changed", changed_records(draws, BASE, 19))
        kinds = bytes(draws.below(22) for _ in range(draws.between(1, 60)))
        yield Case("random kinds", NEW * draws.below(2) + kinds)


def read_cases(seed, count):
    """True sheets that reading takes."""
    for sheet in stopping_sheets(seed, count):
        counts = " ".join(map(str, sheet.counts))
        yield Case("true new sheet", r.encode(sheet), f"read {counts}")


def reading_cases():
    """Everything that is read, on the large instrument."""
    yield from record_cases()
    yield from limit_cases(LARGE)
    yield from random_cases(210, 40)
    yield from read_cases(211, 20)


def entry_reading_cases():
    """Everything that is read, on the entry instrument."""
    yield from islice(record_cases(), 0, None, 4)
    yield from limit_cases(ENTRY)
    yield from random_cases(213, 20)
    yield from read_cases(212, 10)


EDITION = "edition new\n"
CLOSING = EDITION + WORDS + """condition closing = {1}
condition ends = any* {1}
"""
# Main opens a gate, whose future asks for a closing, and calls a method.
OPENED = """point start past all own all due all
point opened past all own all due ends
point after past all own all due closing
point end past all own all due nothing
"""
# The method raises an event and stops, or returns.
INNER = """point inner_start past all own nothing due all
point inner_stop past all own all due nothing
point inner_end past all own nothing due closing
"""
# Sheets on which one rule alone is false: its number and subject.
ALONE = {
    "25": (25, 2, Alone(EDITION + WORDS + """point start past all own all due all
point middle past all own all due one
point end past all own all due nothing
method main pre nothing trace all future nothing entry start exit end
primitive probe pre all trace nothing future one
step start -> middle call probe
step middle -> end event 0
step middle stop
""", (Move(0, ()), Move(2)), 1, "future")),
    "25 in a called method": (25, 0, Alone(EDITION + WORDS + """
point start past all own all due all
point middle past all own all due one
point after past all own all due one
point end past all own all due nothing
point inner past all own nothing due one
method main pre nothing trace all future nothing entry start exit end
method visit pre all trace nothing future one entry inner exit inner
primitive probe pre all trace nothing future one
step inner stop
step start -> middle call probe
step middle -> after call visit
step after -> end event 0
""", (Move(1, ()), Move(2), Move(0)), 2, "future")),
    "26": (26, 1, Alone(CLOSING + OPENED + INNER + """
method main pre nothing trace all future nothing entry start exit end
method inner pre all trace nothing future closing entry inner_start exit inner_end
primitive open_gate pre all trace nothing future ends
step start -> opened call open_gate
step opened -> after call inner
step after -> end event 1
step inner_start -> inner_stop event 0
step inner_stop stop
step inner_start -> inner_end pass
""", (Move(0, ()), Move(1), Move(3), Move(4)), 2, "future")),
    "26 of a call that may fail": (26, 1, Alone(CLOSING + OPENED + INNER + """
method main pre nothing trace all future nothing entry start exit end
method inner pre all trace nothing future closing entry inner_start exit inner_end failed trace nothing failed future closing failed exit inner_end
primitive open_gate pre all trace nothing future all failed trace nothing failed future ends
step start -> end call open_gate failing to opened
step opened -> after call inner failing to after
step after -> end event 1
step inner_start -> inner_stop event 0
step inner_stop stop
step inner_start -> inner_end pass
""", (failing(0), Move(1), Move(3), Move(4)), 2, "future")),
    "26 of the inner of two calls": (26, 3, Alone(CLOSING + OPENED + """
point middle past all own nothing due closing
point middle_end past all own nothing due closing
point inner_start past all own nothing due all
point inner_end past all own nothing due closing
method main pre nothing trace all future nothing entry start exit end
method outer pre all trace nothing future closing entry middle exit middle_end
method inner pre all trace nothing future closing entry inner_start exit inner_end
primitive open_gate pre all trace nothing future ends
step start -> opened call open_gate
step opened -> after call outer
step after -> end event 1
step middle -> middle_end call inner
step inner_start -> inner_end pass
step inner_start stop
""", (Move(0, ()), Move(1), Move(3), Move(5)), 3, "future")),
    "26 of a method that calls itself": (26, 1, Alone(CLOSING + """
condition closings = {1}*
condition some = {1} {1}*
point start past all own all due all
point opened past all own all due ends
point after past all own all due some
point end past all own all due closings
method main pre all trace all future closings entry start exit end
primitive open_gate pre all trace nothing future ends
step start -> opened call open_gate
step opened -> after call main
step after -> end event 1
step start stop
""", (Move(0, ()), Move(1), Move(3)), 1, "future")),
}


def alone_cases():
    """Sheets on which rule 25, or 26, alone is false."""
    for label, (number, step, one) in ALONE.items():
        clause = 5 if number == 25 else 3
        yield Case(f"rule {label} alone", assemble(one.text),
                   f"unproved rule {number} step {step} clause {clause} ")


# Every condition holds every word, so every rule holds; each change breaks one rule or
# more.
ORDER = EDITION + WORDS + """condition void = none
point m0 past all own all due all
point m1 past all own all due all
point m2 past all own all due all
point m3 past all own all due all
point m4 past all own all due all
point mf past all own all due all
point mg past all own all due all
point i0 past all own all due all
point i1 past all own all due all
point ix past all own all due all
point j0 past all own all due all
point j1 past all own all due all
method main pre all trace all future all entry m0 exit m4
method inner pre all trace all future all entry i0 exit i1 failed trace all failed future all failed exit ix
method plain pre all trace all future all entry j0 exit j1
primitive try pre all trace all future all failed trace all failed future all
step m0 -> m1 call inner failing to mf
step m1 -> m2 call plain
step m2 stop
step m2 -> m3 call try failing to mg
step m3 -> m4 event 0
step m4 stop
"""
# The rules of that text in the order of testing, as (rule, subject).
ORDER_RULES = (
    [(number, 0) for number in (1, 2, 3, 4, 5, 6)]
    + [(number, 1) for number in (3, 4, 5, 6, 22, 23)]
    + [(number, 2) for number in (3, 4, 5, 6)]
    + [(number, 0) for number in (10, 11, 12, 13, 14, 18, 19, 20, 21, 26)]
    + [(number, 1) for number in (10, 11, 12, 13, 14, 26)] + [(25, 2)]
    + [(number, 3) for number in (10, 11, 12, 13, 14, 18, 19, 20, 21)]
    + [(number, 4) for number in (7, 8, 9)] + [(25, 5)])
# Of step 0: rule 26 is false; 21 and 26; 14 and 26; 14, 21 and 26.
NO_RETURN = [("method inner", "trace void"), ("point i1", "own void")]
NO_FAILING = [("method inner", "failed trace void"), ("point ix", "own void")]
NO_14_21_26 = [("point m0", "due nothing")]
NO_21_26, NO_14_26 = NO_RETURN + NO_14_21_26, NO_FAILING + NO_14_21_26
NO_26 = NO_FAILING + NO_21_26
# Of step 1: rule 26 is false; 14 and 26.
LATER_14_26 = [("point m1", "due nothing")]
LATER_26 = [("method plain", "trace void"), ("point j1", "own void")] + LATER_14_26
# Rule 25 of step 2 is false. That of step 5 cannot be the first: m4 is main's exit.
NO_25 = [("point m2", "due one"), ("primitive try", "trace void"),
         ("primitive try", "failed trace void")]
# The first fault of the text with the changes: rule, subject.
FIRST_FAULTS = (
    ([], None), (NO_26, (26, 0)), (NO_21_26, (21, 0)), (NO_14_26, (14, 0)),
    (NO_14_21_26, (14, 0)), (NO_26 + [("point mf", "past nothing")], (26, 0)),
    (NO_14_26 + [("point mf", "own nothing")], (14, 0)),
    (NO_21_26 + [("point mf", "past nothing")], (18, 0)),
    (NO_21_26 + [("point mf", "own nothing")], (19, 0)),
    (NO_26 + [("method inner", "failed future nothing")], (20, 0)),
    (NO_26 + [("method inner", "future nothing")], (13, 0)),
    (NO_26 + [("method inner", "pre nothing")], (10, 0)),
    (NO_26 + [("method plain", "pre nothing")], (26, 0)),
    (NO_26 + LATER_26, (26, 0)), (NO_26 + NO_25, (26, 0)), (LATER_26, (26, 1)),
    (LATER_14_26, (14, 1)), (LATER_26 + NO_25, (26, 1)),
    (LATER_26 + [("primitive try", "pre nothing")], (26, 1)),
    (LATER_26 + [("point m2", "past nothing")], (26, 1)),
    (NO_25, (25, 2)), (NO_25 + [("primitive try", "pre nothing")], (25, 2)),
    (NO_25 + [("point m4", "past nothing")], (25, 2)),
    (NO_25 + [("point m2", "past nothing")], (11, 1)),
    (NO_26 + [("point j0", "past nothing")], (3, 2)),
    (NO_25 + [("point ix", "due nothing")], (23, 1)),
    (NO_26 + [("method main", "trace nothing")], (5, 0)),
    ([("method main", "future void"), ("point m4", "due one")], (2, 0)),
    ([("point m4", "due one")], (6, 0)),
    ([("primitive try", "pre nothing"), ("point m4", "past nothing")], (10, 3)),
)


def first_fault_cases():
    """Two rules false or more; the first in the order of testing is named."""
    for changes, first in FIRST_FAULTS:
        line = f"accepted {len(ORDER_RULES)}"
        if first is not None:
            line = f"unproved rule {first[0]} {subject_kind(first[0])} {first[1]} "
        yield Case("first fault", assemble(changed_text(ORDER, changes)), line)


def certificate_order_cases():
    """Certificates of steps that are empty, one or all from it on, with rule 25 false
    and true: what is named."""
    certified = [one for one in ORDER_RULES if one[0] not in faults.UNCERTIFIED]
    for text, false in ((ORDER, None), (changed_text(ORDER, NO_25), (25, 2))):
        sheet = read_sheet(assemble(text))
        for index, one in islice(enumerate(certified), 11, None):
            first = min(filter(None, (one, false)), key=ORDER_RULES.index)
            line = (f"unproved rule {first[0]} step {first[1]} clause "
                    f"{1 if first == one else 5} pair 0 event 0 place 0")
            for last in (index + 1, len(certified)):
                certificates = [[] if index <= number < last else pairs for
                                number, pairs in enumerate(sheet.certificates)]
                yield Case("empty certificates", r.encode(
                    sheet._replace(certificates=certificates)), line)


# Calls of methods with body and of primitives, by kinds 11 and 17: the rules of each
# in an old sheet, and in a new one.
CALLS = {"step m0 -> m1 call plain": (5, 6),
         "step m1 -> m0 call either failing to m1": (9, 10),
         "step m0 -> m1 call probe": (5, 5),
         "step m1 -> m0 call try failing to m1": (9, 9)}
CALLING = WORDS + """point m0 past all own all due all
point m1 past all own all due all
method main pre all trace all future all entry m0 exit m1
method plain pre all trace all future all entry m0 exit m1
method either pre all trace all future all entry m0 exit m1 failed trace all failed future all failed exit m0
primitive probe pre all trace all future all
primitive try pre all trace all future all failed trace all failed future all
"""


def both_editions():
    """The same sheet in both editions, by text and count."""
    steps = list(CALLS)
    for used in ([], *([one] for one in steps), steps[:2], steps[2:], steps,
                 steps[::-1], steps[:1] * 3, steps[1:2] * 3):
        for new in (False, True):
            text = EDITION * new + CALLING + "\n".join(used)
            yield assemble(text), 16 + sum(CALLS[one][new] for one in used)


def edition_number_cases():
    """The same sheet in both editions, with the certificates that it needs, one more
    and one less, and with those of the other edition."""
    for data, count in both_editions():
        sheet = read_sheet(data)
        yield Case("both editions", data, f"accepted {count}")
        other = r.with_certificates(sheet._replace(new=not sheet.new)).certificates
        for certificates in (sheet.certificates[:-1], sheet.certificates[1:],
                             sheet.certificates + [[(0, 1)]],
                             [[(0, 1)]] + sheet.certificates,
                             sheet.certificates + [[]], other):
            data = r.encode(sheet._replace(certificates=certificates))
            if len(certificates) != len(sheet.certificates):
                yield Case("number of certificates", data,
                           f"refused 10 at {len(data)}")


def certificate_number_cases():
    """Certificates that are more or fewer by what Ask 4 adds: refusal 10."""
    for text in (ORDER, *(one.text for _, _, one in ALONE.values())):
        sheet = read_sheet(assemble(text))
        numbers = [rule.number for rule in faults.certified(sheet)]
        without = [pairs for number, pairs in zip(numbers, sheet.certificates)
                   if number != 26]
        stops = sum(step.kind == STOP_STEP for step in sheet.steps)
        for certificates in (without, sheet.certificates + [[(0, 1)]] * stops,
                             sheet.certificates[:-1], sheet.certificates + [[]]):
            data = r.encode(sheet._replace(certificates=certificates))
            if len(certificates) != len(numbers):
                yield Case("number of certificates", data,
                           f"refused 10 at {len(data)}")


# A method is called from two places and may stop in either.
TWO_SITES = EDITION + WORDS + """point start past all own all due all
point middle past all own all due all
point end past all own all due nothing
point inner past all own all due all
method main pre nothing trace all future nothing entry start exit end
method visit pre all trace all future all entry inner exit inner
step start -> middle call visit
step middle -> end call visit
step inner -> inner event 0
step inner stop
"""
# Each activation may stop: where it begins, returns or fails.
UNWINDING = EDITION + outcomes.UNWINDING + """step entry stop
step exit stop
step lost stop
"""
# What the caller owes is met by the called method's event, behind which it stops.
MET = CLOSING + """point start past all own all due all
point opened past all own all due ends
point met past all own all due ends
point again past all own all due ends
point end past all own all due nothing
point inner past all own nothing due ends
point stopping past all own closing due nothing
method main pre nothing trace all future nothing entry start exit end
method inner pre all trace closing future nothing entry inner exit stopping
primitive open_gate pre all trace nothing future ends
step start -> opened call open_gate
step opened -> met event 1
step met -> again call open_gate
step again -> end call inner
step inner -> stopping event 1
step stopping stop
"""
# Stops that no run comes to, two at one point, and beside other steps.
BESIDE = EDITION + WORDS + """point start past all own all due all
point end past all own all due all
point apart past all own all due all
method main pre nothing trace all future all entry start exit end
primitive probe pre all trace all future all
step apart stop
step start stop
step start stop
step start -> end call probe
step end stop
step end -> start pass
step apart -> apart event 31
"""
ACCEPTED = {"two call sites": (TWO_SITES, 26), "unwinding": (UNWINDING, 34),
            "met": (MET, 33), "beside": (BESIDE, 21)}


def accepted_cases():
    """Single sheets that are accepted, and the least ones."""
    yield Case("least new sheet", M18, "accepted 6")
    yield Case("least sheet that stops", M19, "accepted 7")
    for label, (text, count) in ACCEPTED.items():
        yield Case(label, assemble(text), f"accepted {count}")


def full_limits():
    """512 stops, 512 calls of a method with body, 64 methods that call each other."""
    trees, empty = [special.EMPTY_TREE, special.ANY_STAR], Method(0, 0, 0, 0, 0)
    one, point = Step(STOP_STEP, 0), [Point(0, 0, 0)]
    yield special.accepted("512 stops", Sheet(trees, point, [empty], [one] * 512, [],
                                              True))
    calls = [Step(CALL_STEP, 0, 0, 0)] * 512
    yield special.accepted("512 calls of a body", Sheet(trees, point, [empty], calls,
                                                        [], True))
    calls = [Step(CALL_STEP, 0, 0, number) for number in range(64)]
    yield special.accepted("64 methods called", Sheet(
        trees, point, [empty] * 64, calls + [one], [], True))


def wide_sides():
    """Sides with the most places in rule 26, true and false."""
    word, many = special.chain(31), (LEAF, 0xFFFFFFFF)
    for _ in range(30):
        many = (EITHER, many, (LEAF, 0xFFFFFFFF))
    stars = special.nested(word, 35)
    trees = [special.EMPTY_TREE, special.ANY_STAR, VOID, word, (STAR, many), stars,
             special.chain(31, 1)]
    for left, right in ((3, 4), (4, 4), (5, 4), (5, 5), (3, 3), (3, 5), (4, 1),
                        (4, 5), (6, 3), (5, 3)):
        points = [Point(1, 1, right), Point(1, 1, 1), Point(1, 1, left),
                  Point(2, 2, 1)]
        methods = [Method(1, 1, 1, 0, 1), Method(1, 2, 1, 2, 3)]
        sheet = r.with_certificates(Sheet(trees, points, methods,
                                          [Step(CALL_STEP, 0, 1, 1)], [], True))
        true = right in (left, 1) or (left, right) in ((3, 4), (5, 4), (3, 5))
        yield Case("wide sides", r.encode(sheet), f"accepted {rule_count(sheet)}"
                   if true else "unproved rule 26 step 0 clause 3 ")


def beginnings():
    """Every beginning of the least sheet that stops, and some of another."""
    for data, every in ((M19, 1), (assemble(TWO_SITES), 5)):
        for length in range(0, len(data), every):
            yield Case(f"beginning of {length} bytes", data[:length])


def other_editions(sheet):
    """The sheet in the other edition, with its certificates and with new ones; a stop
    in an old sheet gives 20."""
    other = sheet._replace(new=not sheet.new)
    yield other
    yield r.with_certificates(other)
    rest = [one for one in sheet.steps if one.kind != STOP_STEP]
    yield sheet._replace(steps=rest)
    yield r.with_certificates(other._replace(steps=rest))


def records_put_in(seed, sheets):
    """New sheets with one more edition, in front, behind the conditions and anywhere,
    and one more stop anywhere."""
    draws = Draws(seed)
    for sheet in sheets:
        data = r.encode(sheet)
        yield refused("19 edition twice", 19, NEW, data)
        late = 1 + len(b"".join(map(r.condition, sheet.conditions)))
        yield refused("19 behind the conditions", 19, data[:late], NEW, data[late:])
        for one in (NEW, STOP):
            records = faults.records_of(data)
            records.insert(draws.between(1, len(records)), one)
            yield Case("record put in", b"".join(records))


def single_cases():
    """All single sheets."""
    yield from accepted_cases()
    yield from alone_cases()
    yield from first_fault_cases()
    yield from certificate_order_cases()
    yield from edition_number_cases()
    yield from certificate_number_cases()


def stopping_sheets(seed, count, max_pairs=120):
    """True sheets of the new edition in every shape."""
    return [sheet for _, sheet in true_sheets(seed, count, max_pairs,
                                              STOPPING_SHAPES)]


def random_sheet_cases(seed, sheets):
    """True new sheets, and what is made of them."""
    some = sheets[:len(sheets) // 3]
    yield from (Case("true", r.encode(sheet), f"accepted {rule_count(sheet)}")
                for sheet in sheets)
    yield from faults.kept_certificates(seed + 1, some[::4])
    yield from faults.changed_certificates(seed + 2, some[::2])
    yield from faults.certificate_counts(seed + 3, some[:2])
    yield from faults.two_faults(seed + 4, some[::2])
    yield from faults.changed_conditions(seed + 5, some[::2])
    yield from faults.changed_bytes(seed + 6, some)
    yield from faults.changed_records(seed + 7, some[::2])
    yield from faults.near_record_changes(seed + 8, some[::2])
    yield from records_put_in(seed + 9, some[::3])
    for sheet in some[::3]:
        yield from (Case("other edition", r.encode(one))
                    for one in other_editions(sheet))


def sheet_cases():
    """Everything that is loaded, on the large instrument."""
    yield from single_cases()
    yield from full_limits()
    yield from wide_sides()
    yield from beginnings()
    sheets = stopping_sheets(220, 120)
    yield from random_sheet_cases(221, sheets)
    yield from faults.certificate_faults(231, sheets, 12, (26,))
    yield from faults.certificate_faults(232, sheets, 1, range(1, 25))
    yield from faults.broken_rules(233, 16, (25, 26), STOPPING_SHAPES)
    yield from faults.broken_rules(234, 1, range(1, 25), STOPPING_SHAPES)
    yield from special.listed_among(special.STOP_EXAMPLES)


def entry_sheet_cases():
    """Everything that is loaded, on the entry instrument."""
    yield from islice(single_cases(), 0, None, 4)
    sheets = stopping_sheets(240, 40)
    yield from random_sheet_cases(241, sheets)
    yield from faults.certificate_faults(251, sheets, 3, (26,))
    yield from faults.broken_rules(252, 4, (25, 26), STOPPING_SHAPES)
    yield from entry.point_sheets(253, sheets[:6], ENTRY)
    yield from special.listed_among(special.STOP_EXAMPLES, ENTRY)


def refused_groups():
    """Words on sheets that reading refuses with 19 or 20, or otherwise: they come
    before 14, 12 and 13."""
    for group in refused_sheet_groups(
            chain(edition_cases(), stop_cases(), two_fault_cases(),
                  two_record_cases())):
        line = group.cases[0][2]
        long = ([(0, (1,) * 4097, line)]
                if line.startswith(("refused 19", "refused 20")) else [])
        yield Group(group.sheet, group.cases + long)


def new_groups(groups):
    """The groups with each sheet in the new edition: conditions start at 1."""
    for group in groups:
        yield Group(NEW + group.sheet, group.cases)


def word_groups():
    """Words on the large instrument."""
    yield from refused_groups()
    yield from new_groups([entry.short_refusals()])
    yield from new_groups(short_groups(260, 3))
    yield from true_sheet_groups(261, 14, STOPPING_SHAPES)


def entry_word_groups():
    """Words on the entry instrument."""
    yield from islice(refused_groups(), 0, None, 2)
    yield from new_groups(short_groups(262, 1))
    yield from true_sheet_groups(263, 5, STOPPING_SHAPES)
