"""Cases of document 02, Ask 2: kinds 15 to 17, refusal 18, rules 18 to 24.

A case's line is as in refusals.py and faults.py.
"""
from itertools import chain, islice
from typing import NamedTuple

from reference.conditions import EMPTY, LEAF
from reference.instruments import ENTRY, LARGE
from reference.reading import (BODY_LENGTHS, CALL_STEP, FAILING_CALL, Method, Point,
                               Sheet, Step, read_sheet)
from reference.rules import all_rules, rule_count
from reference.runs import FAIL, RETURN, Move
from sheets import records as r
from sheets.assemble import assemble

from . import entry, faults, special
from .draws import Draws
from .plans import FAILING_SHAPES
from .refusals import (Case, SMALL, changed_records, first_record_cut, name_cases,
                       order_cases, positions, refused, truncations)
from .true_sheets import true_sheets
from .words import Group, refused_sheet_groups, true_sheet_groups

NEW_KINDS = {kind: BODY_LENGTHS[kind - 1] for kind in (15, 16, 17)}
# The least sheet whose method may fail.
M16 = (special.M[:9] + r.failing_method(*[0] * 8) + special.M[20:27] * 5)
# A sheet with every kind of record, one record an element.
BASE = [
    r.item(EMPTY), b"\x06",
    r.item(LEAF, 4), r.item(LEAF, 1), b"\x05", b"\x03",
    r.item(EMPTY), b"\x04", b"\x06",
    r.point(0, 0, 0), r.point(1, 1, 1),
    r.failing_method(0, 1, 0, 0, 1, 1, 0, 1), r.failing_primitive(0, 1, 0, 1, 1),
    r.primitive(1, 0, 1), r.method(1, 1, 1, 1, 0),
    r.event_step(0, 1, 2), r.failing_call(0, 1, 0, 1), r.call_step(1, 1, 2),
    r.failing_call(1, 0, 1, 0), r.pass_step(1, 0),
    r.pair(0, 1), b"\x0e", b"\x0e",
]
FRONT, POINT = SMALL[0] + SMALL[1], SMALL[2]
# A method of each kind; the first has a body.
METHODS = {9: r.method(0, 0, 0, 0, 0), 8: r.primitive(0, 0, 0),
           15: r.failing_primitive(*[0] * 5), 16: r.failing_method(*[0] * 8)}
FOUR = FRONT + POINT + b"".join(METHODS.values())
NUMBERS = {kind: number for number, kind in enumerate(METHODS)}
PASS = r.pass_step(0, 0)


def call(kind, method, source=0, target=0, failed_target=0):
    """A call step of either kind."""
    if kind == 11:
        return r.call_step(source, target, method)
    return r.failing_call(source, target, failed_target, method)


def may_call(kind, method_kind):
    """Whether a call step may name a method of the kind."""
    return (kind == 17) == (method_kind > 9)


def kind_cases():
    """Refusal 2: every kind above 17 alone, and some of them anywhere; among them the
    bytes 12, 13 and 14, which are kinds since document 02, Asks 4 and 9."""
    yield Case("kind 18", b"\x12", "refused 9 at 1")
    yield refused("3 kind 19", 3, b"", b"\x13")
    yield refused("3 kind 20", 3, b"", b"\x14")
    for kind in range(21, 256):
        yield refused(f"2 kind {kind}", 2, b"", bytes([kind]))
    for kind in (18, 19, 20, 21, 22, 23, 255):
        one, many = bytes([kind]), bytes(16)
        # Behind the first record, kinds 18 and 20 are out of order here; kind 19 stands
        # in an old sheet.
        if kind == 18:
            yield refused("2 behind kind 18", 2, one, many)
        else:
            yield refused(f"kind {kind}, long", {19: 20, 20: 7}.get(kind, 2), b"",
                          one + many)
        yield refused(f"kind {kind} last", {18: 4, 19: 3, 20: 3}.get(kind, 2), FOUR,
                      one)
        yield refused(f"kind {kind} among methods",
                      {18: 4, 19: 20, 20: 4}.get(kind, 2),
                      FRONT + POINT + METHODS[16], one, METHODS[15])
    for index, before, after in positions(BASE):
        yield refused(f"2 kind 0 at record {index}", 2, before, b"\x00", after)
        yield edition_at(index, before, after)
        yield refused(f"2 kind 255 at record {index}", 2, before, b"\xff", after)


def edition_at(index, before, after):
    """A record of kind 18 at a place of the base: 4 inside a condition and behind the
    conditions, 19 between them, none in front."""
    label = f"kind 18 at record {index}"
    if index == 0:
        return Case(label, b"\x12" + after)
    late = BASE[index - 1][0] == 6
    return refused(label, 19 if late else 4, before, b"\x12", after)


def whole_records():
    """The records of kinds 15 to 17 whole, with nothing behind them."""
    for kind, length in NEW_KINDS.items():
        yield refused(f"7 first kind {kind}", 7, b"", bytes([kind]) + bytes(length))
    yield refused("7 kind 16 without points", 7, FRONT, METHODS[16])
    yield refused("7 kind 17 without points", 7, FRONT, call(17, 0))
    yield refused("7 kind 17 without methods", 7, FRONT + POINT, call(17, 0))
    yield Case("kind 16 first", FRONT + POINT + METHODS[16], "read 1 1 1 0 0")
    yield Case("one of each", FOUR, "read 1 1 4 0 0")
    yield Case("two of each", FOUR + b"".join(METHODS.values()),
               "read 1 1 8 0 0")


def new_order_cases():
    """Every kind after each of kinds 15 to 17, and these after every kind."""
    pairs = order_cases(BASE, tuple(range(1, 18)))
    for number, case in enumerate(pairs):
        kind, after = divmod(number // 3, 17)
        if max(kind, after) >= 14:
            yield case


def primitive_first_cases():
    """Refusal 9 at a method of kind 15, and what comes before it."""
    fields = (0, 0, 0, 0, 0)
    one = METHODS[15]
    for before in (FRONT, FRONT + POINT, FRONT * 256 + POINT):
        for after in (b"", one, METHODS[16], b"\x00", b"\x0e"):
            yield refused("9 kind 15 first", 9, before, one, after)
    for index in range(5):
        names = fields[:index] + (1,) + fields[index + 1:]
        yield refused(f"7 over 9: field {index}", 7, FRONT,
                      r.failing_primitive(*names), METHODS[16])
    yield refused("4 over 9: kind 15 in a condition", 4, FRONT + b"\x02", one)
    yield refused("4 over 9: kind 15 after a step", 4, FRONT + POINT + PASS, one)
    for length in range(1, 11):
        yield refused("3 over 9: kind 15 cut", 3, FRONT, one[:length])
    yield refused("9, then 18", 9, FRONT + POINT, one,
                  METHODS[9] + call(17, 1) + call(11, 0))


def outcome_cases():
    """Refusal 18: each kind of call that names a method of each kind."""
    for kind in (11, 17):
        for method_kind, number in NUMBERS.items():
            record, label = call(kind, number), f"{kind} names {method_kind}"
            for before in (FOUR, FOUR + PASS, FOUR + call(11, 0) + call(17, 2)):
                if not may_call(kind, method_kind):
                    for after in (b"", PASS, b"\x0e", b"\x00", record, POINT):
                        yield refused("18 " + label, 18, before, record, after)
                else:
                    yield Case(label, before + record)
                    yield refused(label + ", then 2", 2, before + record, b"\x00")
                    yield refused(label + ", then 18", 18, before + record,
                                  call(28 - kind, number), record)
        for number in (4, 5, 255, 256, 65535):
            yield refused(f"7 kind {kind} names method {number}", 7, FOUR,
                          call(kind, number))


def outcome_order_cases():
    """Other refusals at a record of which 18 would hold, or before and after."""
    for kind, method_kinds in ((11, (15, 16)), (17, (8, 9))):
        ends = ("source", "target", "failed_target")[:2 + (kind == 17)]
        for number in map(NUMBERS.get, method_kinds):
            record = call(kind, number)
            for end in ends:
                for value in (1, 65535):
                    yield refused(f"7 over 18: {end}", 7, FOUR,
                                  call(kind, number, **{end: value}))
            for length in range(1, len(record)):
                yield refused("3 over 18", 3, FOUR, record[:length])
            for before in (b"\x0e", r.pair(0, 1), PASS + b"\x0e"):
                yield refused("4 over 18", 4, FOUR + before, record)
            yield refused("6 over 18", 6, FOUR + PASS * 512, record)
            yield refused("18 at the 512th step", 18, FOUR + PASS * 511, record,
                          PASS)
            yield refused("18, then 8", 18, FOUR, record, r.pair(0, 1))
            yield refused("7, then 18", 7, FOUR, r.pass_step(0, 1), record)
            yield refused("18, then 7", 18, FOUR, record, r.pass_step(0, 1))
            yield refused("18, then 4", 18, FOUR, record, b"\x02")
            yield refused("18, then 3", 18, FOUR, record, b"\x0a")
    yield refused("4 over 18: in a condition", 4, b"\x02", call(17, 0))


def limit_cases(instrument):
    """64 and 65 methods, 512 and 513 steps, all points, with kinds 15 to 17."""
    front, kinds = FRONT + POINT, list(METHODS.values())
    for first in (9, 16):
        for shift in range(4):
            more = b"".join(kinds[(shift + one) % 4] for one in range(63))
            full = front + METHODS[first] + more
            yield Case("64 methods", full, "read 1 1 64 0 0")
            for last in kinds:
                yield refused("65 methods", 6, full, last)
            yield refused("6 over 7: 65th method", 6, full,
                          r.failing_method(*[9] * 8))
            yield refused("6 over 7: 65th method", 6, full,
                          r.failing_primitive(*[9] * 5))
            fitting = 17 if (shift + 62) % 4 > 1 else 11
            yield Case("call of method 63", full + call(fitting, 63),
                       "read 1 1 64 1 0")
            yield refused("18 at method 63", 18, full, call(28 - fitting, 63))
            yield refused("7 at method 64", 7, full, call(17, 64))
    steps = [call(17, 2), r.event_step(0, 0, 31), call(17, 3), call(11, 1), PASS]
    for shift in range(5):
        full = FOUR + b"".join(steps[(shift + one) % 5] for one in range(512))
        yield Case("512 steps", full, "read 1 1 4 512 0")
        for last in steps:
            yield refused("513 steps", 6, full, last)
        yield refused("6 over 7: 513th step", 6, full, call(17, 9))
    yield Case("512 calls that may fail", FOUR + call(17, 2) * 512,
               "read 1 1 4 512 0")
    yield from point_cases(instrument)


def point_cases(instrument):
    """The last point, and the one after it, as failed exit and failed target."""
    most = instrument.points
    for points in (most - 1, most):
        before, last = FRONT + POINT * points, points - 1
        for entry, exit_, failed in ((last, 0, 0), (0, last, 0), (0, 0, last)):
            yield Case(f"{points} points, method at the last", before
                       + r.failing_method(0, 0, 0, entry, exit_, 0, 0, failed),
                       f"read 1 {points} 1 0 0")
        for entry, exit_, failed in ((points, 0, 0), (0, points, 0),
                                     (0, 0, points)):
            yield refused("7 method at the next point", 7, before,
                          r.failing_method(0, 0, 0, entry, exit_, 0, 0, failed))
        before += METHODS[16]
        for ends in ((last, 0, 0), (0, last, 0), (0, 0, last)):
            yield Case(f"{points} points, call at the last",
                       before + call(17, 0, *ends), f"read 1 {points} 1 1 0")
        for ends in ((points, 0, 0), (0, points, 0), (0, 0, points)):
            yield refused("7 call at the next point", 7, before,
                          call(17, 0, *ends))
    yield refused("6 at a point, then 18", 6, FRONT + POINT * most, POINT,
                  METHODS[16] + call(11, 0))


def record_cases():
    """What no instrument's limits touch."""
    yield from kind_cases()
    yield from first_record_cut(NEW_KINDS)
    yield from whole_records()
    yield from truncations(BASE)
    yield from name_cases(BASE, tuple(NEW_KINDS))
    yield from new_order_cases()
    yield from primitive_first_cases()
    yield from outcome_cases()
    yield from outcome_order_cases()


def random_cases(seed, count):
    """Random changes of records, random kinds."""
    draws = Draws(seed)
    for _ in range(count):
        yield Case("records changed", changed_records(draws, BASE, 17))
        yield Case("random kinds", bytes(draws.below(20) for _ in
                                         range(draws.between(1, 60))))


def read_cases(seed, count):
    """True sheets that reading takes."""
    for _, sheet in true_sheets(seed, count, 60, FAILING_SHAPES):
        counts = " ".join(map(str, sheet.counts))
        yield Case("true sheet that may fail", r.encode(sheet), f"read {counts}")


def reading_cases():
    """Everything that is read, on the large instrument."""
    yield from record_cases()
    yield from limit_cases(LARGE)
    yield from random_cases(110, 120)
    yield from read_cases(111, 18)


def entry_reading_cases():
    """Everything that is read, on the entry instrument."""
    yield from islice(record_cases(), 0, None, 5)
    yield from limit_cases(ENTRY)
    yield from random_cases(113, 30)
    yield from read_cases(112, 9)


class Alone(NamedTuple):
    """A sheet on which one rule is false, and a run that breaks demand 3: the
    method of the call that breaks it, and by what."""
    text: str
    moves: tuple
    method: int
    broken: str


def failing(step, *word):
    return Move(step, word, True)


WORDS = """condition nothing = empty
condition one = {0}
condition all = any*
"""
ALONE = {
    18: Alone(WORDS + """point start past nothing own all due all
point failed past nothing own all due all
point end past all own all due all
method main pre nothing trace all future all entry start exit end
primitive try pre all trace nothing future all failed trace one failed future all
primitive probe pre nothing trace nothing future all
step start -> end call try failing to failed
step failed -> end call probe
""", (failing(0, 0), Move(1, ())), 2, "pre"),
    19: Alone(WORDS + """point start past all own nothing due all
point failed past all own nothing due all
point end past all own nothing due all
method main pre nothing trace nothing future all entry start exit end
primitive try pre all trace nothing future all failed trace one failed future all
step start -> end call try failing to failed
step failed -> end pass
""", (failing(0, 0), Move(1), RETURN), 0, "trace"),
    20: Alone(WORDS + """point start past all own all due all
point failed past all own all due one
point end past all own all due nothing
method main pre nothing trace all future nothing entry start exit end
primitive try pre all trace nothing future all failed trace nothing failed future nothing
step start -> end call try failing to failed
step failed -> end event 0
""", (failing(0), Move(1), RETURN), 1, "future"),
    21: Alone(WORDS + """point start past all own all due all
point middle past all own all due nothing
point failed past all own all due nothing
point end past all own all due nothing
method main pre nothing trace all future nothing entry start exit end
primitive probe pre all trace nothing future nothing
primitive try pre all trace nothing future all failed trace one failed future all
step start -> middle call probe
step middle -> end call try failing to failed
step failed -> end pass
""", (Move(0, ()), failing(1, 0), Move(2), RETURN), 1, "future"),
    22: Alone(WORDS + """point start past all own nothing due all
point failed past all own one due all
point end past all own nothing due all
method main pre nothing trace nothing future all entry start exit end failed trace nothing failed future all failed exit failed
step start -> end pass
step start -> failed event 0
""", (Move(1), FAIL), 0, "trace"),
    23: Alone(WORDS + """point start past all own all due all
point failed past all own all due one
point end past all own all due nothing
point inner_start past all own all due nothing
point inner_end past all own all due nothing
method main pre nothing trace all future nothing entry start exit end
method inner pre all trace all future nothing entry inner_start exit inner_end failed trace all failed future one failed exit inner_end
primitive probe pre all trace nothing future nothing
step start -> end call inner failing to failed
step failed -> end event 0
step inner_start -> inner_end call probe
""", (Move(0), Move(2, ()), FAIL, Move(1), RETURN), 2, "future"),
    24: Alone(WORDS + """point start past all own all due all
method main pre nothing trace all future nothing entry start exit start failed trace all failed future one failed exit start
""", (FAIL,), 0, "future"),
}


def alone_cases():
    """For each of rules 18 to 24 a sheet on which it alone is false."""
    for number, one in ALONE.items():
        data = assemble(one.text)
        rule, = (rule for rule in all_rules(read_sheet(data))
                 if rule.number == number)
        clause = 5 if number in faults.UNCERTIFIED else 3
        yield Case(f"rule {number} alone", data, faults.unproved(rule, clause))


# Every condition holds every word, so every rule holds; each change breaks one
# rule or more.
ORDER = WORDS + """point m0 past all own all due all
point m1 past all own all due all
point m2 past all own all due all
point m3 past all own all due all
point mf past all own all due all
point mg past all own all due all
point mx past all own all due all
point i0 past all own all due all
point i1 past all own all due all
point ix past all own all due all
method main pre all trace all future all entry m0 exit m2 failed trace all failed future all failed exit mx
method inner pre all trace all future all entry i0 exit i1 failed trace all failed future all failed exit ix
primitive try pre all trace all future all failed trace all failed future all
step m0 -> m1 call inner failing to mf
step m1 -> m2 call try failing to mg
step mg -> m3 event 0
"""
MAIN, INNER, TRY = "method main", "method inner", "primitive try"
NO_24 = (MAIN, "failed future one")
NO_23 = ("point mx", "due nothing")
NO_22 = (MAIN, "failed trace nothing")
# Of step 1: rule 21 is false, 20 and 21, 19 to 21, 18 to 21.
NO_21 = [("point m1", "due nothing"), ("point m2", "due nothing"),
         (MAIN, "future nothing"), (TRY, "trace nothing"),
         (TRY, "failed trace one")]
NO_20 = NO_21 + [(TRY, "failed future nothing")]
NO_19 = NO_20 + [("point mg", "own nothing")]
NO_18 = NO_19 + [("point mg", "past nothing")]
NO_7 = [("point m3", "past nothing")]
# The first fault of the text with the changes: rule, subject.
FIRST_FAULTS = (
    ([("point m0", "past nothing"), NO_24], (3, 0)),
    ([("point m0", "own one"), NO_24], (4, 0)),
    ([(MAIN, "trace nothing"), NO_24], (5, 0)),
    ([("point m2", "due nothing"), NO_24], (6, 0)),
    ([("point m2", "due nothing"), NO_22], (6, 0)),
    ([NO_22, NO_23, NO_24], (22, 0)), ([NO_23, NO_24], (23, 0)),
    ([NO_24], (24, 0)), ([(MAIN, "future one"), NO_24], (2, 0)),
    ([(MAIN, "pre one"), NO_24], (1, 0)),
    ([NO_24, ("point i0", "past nothing")], (24, 0)),
    ([NO_24, ("point i0", "own one")], (24, 0)),
    ([NO_23, ("point i0", "past nothing")], (23, 0)),
    ([NO_22, ("point i0", "past nothing")], (22, 0)),
    ([("point i0", "past nothing")], (3, 1)),
    ([(INNER, "failed future one")], (20, 0)),
    ([(INNER, "failed trace nothing"), ("point ix", "due nothing")], (22, 1)),
    ([("point ix", "due nothing")], (23, 1)),
    ([("point ix", "due nothing"), ("point m0", "due nothing")], (23, 1)),
    ([NO_24, ("point m0", "due nothing")], (24, 0)),
    ([("point m0", "due nothing"), ("point mf", "past nothing")], (14, 0)),
    ([("point mf", "past nothing")], (18, 0)),
    ([("point mf", "past nothing"), ("point m1", "due nothing")], (18, 0)),
    (NO_18, (18, 1)), (NO_19, (19, 1)), (NO_20, (20, 1)), (NO_21, (21, 1)),
    (NO_21 + NO_7, (21, 1)), (NO_7, (7, 2)), ([], None),
)


def changed_text(text, changes):
    """The text with values changed: the first words of a line, and the key with
    its new value."""
    lines = text.splitlines()
    for start, change in changes:
        at, = (number for number, line in enumerate(lines)
               if line.startswith(start + " "))
        key, value = change.rsplit(" ", 1)
        words = lines[at].split(f" {key} ", 1)
        words[1:] = [value, *words[1].split()[1:]]
        lines[at] = words[0] + f" {key} " + " ".join(words[1:])
    return "\n".join(lines)


def first_fault_cases():
    """Two rules false or more; the first in the order of testing is named."""
    for changes, first in FIRST_FAULTS:
        line = f"accepted {len(ORDER_RULES)}"
        if first is not None:
            kind = "step" if 6 < first[0] < 22 else "method"
            line = f"unproved rule {first[0]} {kind} {first[1]} "
        yield Case("first fault", assemble(changed_text(ORDER, changes)), line)


# The rules of that text in the order of testing, as (rule, subject).
ORDER_RULES = (
    [(number, 0) for number in (1, 2, 3, 4, 5, 6, 22, 23, 24)]
    + [(number, 1) for number in (3, 4, 5, 6, 22, 23)]
    + [(number, step) for step in (0, 1)
       for number in (10, 11, 12, 13, 14, 18, 19, 20, 21)]
    + [(number, 2) for number in (7, 8, 9)])


def certificate_order_cases():
    """Certificates that are empty from one on, or one of them, with rule 24 false
    and true: what is named."""
    certified = [one for one in ORDER_RULES if one[0] not in faults.UNCERTIFIED]
    for text, false in ((ORDER, None), (changed_text(ORDER, [NO_24]), (24, 0))):
        sheet = read_sheet(assemble(text))
        for index, one in enumerate(certified):
            first = min(filter(None, (one, false)), key=ORDER_RULES.index)
            kind = "step" if 6 < first[0] < 22 else "method"
            line = (f"unproved rule {first[0]} {kind} {first[1]} clause "
                    f"{1 if first == one else 5} pair 0 event 0 place 0")
            for last in (index + 1, len(certified)):
                certificates = [[] if index <= number < last else pairs for
                                number, pairs in enumerate(sheet.certificates)]
                yield Case("empty certificates", r.encode(
                    sheet._replace(certificates=certificates)), line)


def certificate_number_cases():
    """Certificates that are more or fewer by what outcomes add: refusal 10."""
    texts = [ORDER] + [one.text for one in ALONE.values()]
    for text in texts:
        sheet = read_sheet(assemble(text))
        numbers = [rule.number for rule in faults.certified(sheet)]
        ways = [lambda number: number < 18, lambda number: number < 22,
                lambda number: not 18 <= number < 22]
        ways += [lambda number, lost=lost: number != lost for lost in range(18, 24)]
        changed = [[pairs for number, pairs in zip(numbers, sheet.certificates)
                    if way(number)] for way in ways]
        changed += [sheet.certificates[:-1], sheet.certificates + [[(0, 1)]],
                    sheet.certificates + [[]], [[(0, 1)]] + sheet.certificates]
        for certificates in changed:
            data = r.encode(sheet._replace(certificates=certificates))
            if len(certificates) != len(numbers):
                yield Case("number of certificates", data,
                           f"refused 10 at {len(data)}")


# Exit and failed exit are one point, and both traces are one word.
ONE_EXIT = """condition nothing = empty
condition one = {0}
condition closes = {1}
condition advances = {2}
condition either = closes | advances
condition all = any*
point start past nothing own nothing due all
point done past one own one due closes
point failed past one own one due advances
point end past all own all due nothing
point inner_start past nothing own nothing due all
point inner_end past one own one due either
method main pre nothing trace all future nothing entry start exit end
method inner pre nothing trace one future closes entry inner_start exit inner_end failed trace one failed future advances failed exit inner_end
step start -> done call inner failing to failed
step done -> end event 1
step failed -> end event 2
step inner_start -> inner_end event 0
"""
# Both traces of a primitive have the word 1.
SHARED_WORD = """condition nothing = empty
condition some = {0,1}
condition others = {1,2}
condition closes = {3}
condition all = any*
point start past nothing own nothing due all
point done past some own some due closes
point failed past others own others due nothing
point end past all own all due nothing
method main pre nothing trace all future nothing entry start exit end
primitive try pre nothing trace some future closes failed trace others failed future nothing
step start -> done call try failing to failed
step done -> end event 3
step failed -> end pass
"""
# A method that calls itself; failing leads to the failed exit of the caller.
UNWINDING = """condition nothing = empty
condition downs = {3}*
condition ups = {4}*
condition both = downs ups
condition one_down = {3}
condition down_before = {3} downs
condition returned = {3} both
condition up_first = {4} ups
point entry past downs own nothing due both
point below past down_before own one_down due both
point back past both own returned due up_first
point exit past both own both due ups
point lost past downs own downs due nothing
method visit pre downs trace both future ups entry entry exit exit failed trace downs failed future nothing failed exit lost
step entry -> below event 3
step below -> back call visit failing to lost
step back -> exit event 4
step entry -> exit pass
step entry -> lost pass
"""
# Failing leads where returning leads, and a failed exit has a step out of it.
ONE_TARGET = WORDS + """point start past all own all due all
point end past all own all due all
method main pre all trace all future all entry start exit end failed trace all failed future all failed exit end
primitive try pre all trace nothing future all failed trace one failed future all
step start -> end call try failing to end
step end -> start call main failing to start
"""
ACCEPTED = {"one exit": (ONE_EXIT, 30), "shared word": (SHARED_WORD, 21),
            "unwinding": (UNWINDING, 30), "one target": (ONE_TARGET, 27)}


def accepted_cases():
    """Single sheets that are accepted, and the least one."""
    yield Case("least sheet that may fail", M16, "accepted 9")
    for label, (text, count) in ACCEPTED.items():
        yield Case(label, assemble(text), f"accepted {count}")


def full_limits():
    """64 methods, half of them with body, that may fail; 512 such calls."""
    trees = [special.EMPTY_TREE, special.ANY_STAR]
    body, primitive = Method(1, 1, 1, 0, 1, 1, 1, 1), Method(1, 1, 1, None, None, 1, 1)
    methods = [body if number % 2 == 0 else primitive for number in range(64)]
    points = [Point(1, 1, 1)] * 2
    yield special.accepted("64 methods that may fail",
                           Sheet(trees, points, methods, [], []))
    empty = Method(0, 0, 0, None, None, 0, 0)
    steps = [Step(FAILING_CALL, 0, 0, 1, 0)] * 512
    yield special.accepted("512 calls that may fail", Sheet(
        trees, [Point(0, 0, 0)], [Method(0, 0, 0, 0, 0), empty], steps, []))


def wide_sides():
    """Sides with the most places in the rules of the failed side."""
    for case in special.wide_sides():
        sheet = read_sheet(case.data)
        main, called = sheet.methods
        called = called._replace(trace=0, failed_trace=called.trace,
                                 failed_future=called.future)
        step, = sheet.steps
        steps = [step._replace(kind=FAILING_CALL, target=1, failed_target=3)]
        points = list(sheet.points)
        points[1] = Point(1, 1, 1)
        yield special.accepted("wide failed sides", Sheet(
            sheet.conditions, points, [main, called], steps, []))


def beginnings():
    """Every beginning of the least sheet and of another."""
    for data in (M16, assemble(SHARED_WORD)):
        for length in range(len(data)):
            yield Case(f"beginning of {length} bytes", data[:length])


def as_one_outcome(sheet):
    """The sheet with the records of kinds 8, 9 and 11 for 15, 16 and 17, all of
    them or of one sort: 18 where only one of methods and calls changes."""
    methods = [one._replace(failed_trace=None, failed_future=None,
                            failed_exit=None) for one in sheet.methods]
    steps = [one._replace(kind=CALL_STEP, failed_target=None) if one.is_call else one
             for one in sheet.steps]
    yield sheet._replace(methods=methods, steps=steps)
    yield sheet._replace(methods=methods)
    yield sheet._replace(steps=steps)


def single_cases():
    """All single sheets."""
    yield from accepted_cases()
    yield from alone_cases()
    yield from first_fault_cases()
    yield from certificate_order_cases()
    yield from certificate_number_cases()


def random_sheet_cases(seed, sheets):
    """True sheets that may fail, and what is made of them."""
    some = sheets[:len(sheets) // 3]
    yield from (Case("true", r.encode(sheet), f"accepted {rule_count(sheet)}")
                for sheet in sheets)
    yield from faults.kept_certificates(seed + 1, some[::2])
    yield from faults.changed_certificates(seed + 2, some)
    yield from faults.certificate_counts(seed + 3, some[:4])
    yield from faults.two_faults(seed + 4, some)
    yield from faults.changed_conditions(seed + 5, some)
    yield from faults.changed_bytes(seed + 6, sheets)
    yield from faults.changed_records(seed + 7, some)
    yield from faults.near_record_changes(seed + 8, some)
    for sheet in some:
        yield from (Case("one outcome", r.encode(one))
                    for one in as_one_outcome(sheet))


def failing_sheets(seed, count, max_pairs=60):
    """True sheets of every shape in which something may fail."""
    return [sheet for _, sheet in true_sheets(seed, count, max_pairs,
                                              FAILING_SHAPES)]


NEW_RULES = range(18, 25)


def sheet_cases():
    """Everything that is loaded, on the large instrument."""
    yield from single_cases()
    yield from full_limits()
    yield from wide_sides()
    yield from beginnings()
    sheets = failing_sheets(120, 135)
    yield from random_sheet_cases(121, sheets)
    yield from faults.certificate_faults(131, sheets, 6, NEW_RULES)
    yield from faults.certificate_faults(132, sheets, 2, range(1, 18))
    yield from faults.broken_rules(133, 8, NEW_RULES, FAILING_SHAPES)
    yield from faults.broken_rules(134, 2, range(1, 18), FAILING_SHAPES)
    yield from special.listed_among(special.OUTCOME_EXAMPLES)


def entry_sheet_cases():
    """Everything that is loaded, on the entry instrument."""
    yield from islice(single_cases(), 0, None, 2)
    sheets = failing_sheets(140, 36)
    yield from random_sheet_cases(141, sheets)
    yield from faults.certificate_faults(151, sheets, 2, NEW_RULES)
    yield from faults.broken_rules(152, 2, NEW_RULES, FAILING_SHAPES)
    yield from entry.point_sheets(153, sheets[:9], ENTRY)
    yield from special.listed_among(special.OUTCOME_EXAMPLES, ENTRY)


def refused_groups(instrument):
    """Words on sheets that reading refuses with 18, or with others of kinds 15 to
    17: they come before 14, 12 and 13."""
    for group in refused_sheet_groups(
            case for case in chain(outcome_cases(), outcome_order_cases(),
                                   limit_cases(instrument))):
        line = group.cases[0][2]
        long = [(0, (1,) * 4097, line)] if line.startswith("refused 18") else []
        yield Group(group.sheet, group.cases + long)


def word_groups():
    """Words on the large instrument."""
    yield from refused_groups(LARGE)
    yield from true_sheet_groups(161, 18, FAILING_SHAPES)


def entry_word_groups():
    """Words on the entry instrument."""
    yield from refused_groups(ENTRY)
    yield from true_sheet_groups(162, 9, FAILING_SHAPES)
