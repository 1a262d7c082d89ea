"""Cases of document 02, Ask 7: the length of each kind's body, or that there is none.

Every body is of zeros, and so every name in it is the first one. A record whose body
is whole is followed by the end of the sheet, and by a byte that is no kind, which is
refused right behind the body. A body that lacks a byte is refused 3; where a body is
empty there is no shorter one, and the sheet that ends just before the record stands
for it. A kind without a length is refused 2, whatever follows.

A case's line is as in refusals.py. All lines come from the tables here, which are
typed from the documents and share nothing with the reference.
"""
from .refusals import Case, refused

# Document 01, "Records"; document 02, Asks 2 (15 to 17), 4 (18 and 19) and 9 (20).
LENGTHS = {
    1: 4, 2: 0, 3: 0, 4: 0, 5: 0, 6: 0, 7: 6, 8: 6, 9: 10, 10: 5, 11: 6, 12: 4,
    13: 5, 14: 0,
    15: 10,  # pre, trace, future, failed trace, failed future
    16: 16,  # these, entry, exit, failed exit
    17: 8,   # from, to, failed target, method
    18: 0,   # no body
    19: 2,   # from
    20: 8}   # past, own, due, owner
# The kinds of the records in front of one of the kind, in a sheet of the old edition;
# of the new one where there is no other.
SMALL, FAILING = (2, 6, 7, 9), (2, 6, 7, 16)
FRONTS = {
    1: (), 2: (), 3: (2, 2), 4: (2, 2), 5: (2,), 6: (2,), 7: (2, 6), 8: SMALL,
    9: (2, 6, 7), 10: SMALL, 11: SMALL, 12: SMALL, 13: SMALL, 14: SMALL, 15: FAILING,
    16: (2, 6, 7), 17: FAILING, 18: (), 19: (18, *SMALL), 20: (2, 6)}
# What is counted: conditions, points, methods, steps, certificates.
COUNTED = (6,), (7, 20), (8, 9, 15, 16), (10, 11, 12, 17, 19), (14,)
# The refusal of a whole record that is the first of a sheet.
FIRST_REFUSALS = {3: 5, 4: 5, 5: 5, 6: 5, 7: 7, 8: 7, 9: 7, 10: 7, 11: 7, 12: 7,
                  15: 7, 16: 7, 17: 7, 19: 20, 20: 7}
NO_KINDS = 0, 255
# A kind with a length that record_cases has behind a method, as it has those without
# one; later_cases has it where it may stand.
LATE = 20


def record(kind):
    """A record with a body of zeros."""
    return bytes([kind]) + bytes(LENGTHS[kind])


def sheet(kinds):
    """Records of these kinds."""
    return b"".join(map(record, kinds))


def end_line(kinds):
    """The line of a sheet of whole records, none of which is refused."""
    if kinds and kinds[-1] in (1, 2, 3, 4, 5, 13):
        return f"refused 8 at {len(sheet(kinds))}"
    counts = [sum(kind in counted for kind in kinds) for counted in COUNTED]
    if counts[2] == 0:
        return f"refused 9 at {len(sheet(kinds))}"
    return "read " + " ".join(map(str, counts))


def fronts(kind):
    """What may stand in front of a record of the kind, in each edition; of a kind
    without a length, a sheet."""
    front = FRONTS.get(kind, SMALL)
    return [front] if kind in (18, 19) else [front, (18, *front)]


def length_cases(kind, front):
    """The record of a kind behind others: whole, short by a byte, and followed by a
    byte that is no kind."""
    before, one = sheet(front), record(kind)
    yield Case(f"kind {kind} whole", before + one, end_line((*front, kind)))
    if LENGTHS[kind]:
        yield refused(f"3 kind {kind} short by a byte", 3, before, one[:-1])
    else:
        yield Case(f"before kind {kind}", before, end_line(front))
    for byte in NO_KINDS:
        yield refused(f"2 {byte} behind kind {kind}", 2, before + one, bytes([byte]))


def bare_cases(kind, front):
    """A kind behind records that it may not stand behind: last, and with bytes behind
    it. Without a length it is refused 2, else 3 or 4."""
    for count in (0, 1, 16):
        number = 2
        if kind in LENGTHS:
            number = 3 if count < LENGTHS[kind] else 4
        yield refused(f"{number} kind {kind}, {count} bytes behind it", number,
                      sheet(front), bytes([kind]), bytes(count))


def record_cases():
    """Each of the 256 kinds where it may stand; behind a method if it has no length or
    is the late one."""
    for kind in range(256):
        is_bare = kind not in LENGTHS or kind == LATE
        cases = bare_cases if is_bare else length_cases
        for front in (SMALL, (18, *SMALL)) if is_bare else fronts(kind):
            yield from cases(kind, front)


def later_cases():
    """The late kind where it may stand."""
    for front in fronts(LATE):
        yield from length_cases(LATE, front)


def first_line(kind, count):
    """The line of a sheet that is a kind and a number of zeros."""
    if kind not in LENGTHS:
        return "refused 2 at 0"
    if count < LENGTHS[kind]:
        return "refused 3 at 0"
    if kind in FIRST_REFUSALS:
        return f"refused {FIRST_REFUSALS[kind]} at 0"
    if count > LENGTHS[kind]:
        return f"refused 2 at {1 + LENGTHS[kind]}"
    return end_line((kind,))


def first_cases():
    """Each of the 256 kinds as the first byte, with 0 to 17 zeros behind it: 3 for
    fewer than the length, and for no others."""
    for kind in range(256):
        for count in range(18):
            yield Case(f"kind {kind}, {count} zeros", bytes([kind]) + bytes(count),
                       first_line(kind, count))


def reading_cases():
    """Everything that is read, on the large instrument."""
    yield from record_cases()
    yield from first_cases()


def entry_reading_cases():
    """Everything that is read, on the entry instrument."""
    yield from record_cases()
