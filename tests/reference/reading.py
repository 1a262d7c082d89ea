"""Document 01, "Records" and refusals 1 to 9 of "What the loader returns", on an
instrument (document 02, Ask 8); calls that may fail and refusal 18 (Ask 2); sheets of
the new edition, stops, refusals 19 and 20 (Ask 4); points with an owner, refusals 24
and 25 (Ask 9); the four-channel instrument, refusal 26 (Ask 11).

A method of kinds 8 and 9 has one outcome, a method of kinds 15 and 16 two: the
normal one and the failed one. In code an outcome is `failed`, False or True.
"""
from typing import NamedTuple

from .channels import CHANNELS
from .conditions import EITHER, ITEMS, JOIN, LEAVES, STAR, apply_record
from .instruments import LARGE

END_CONDITION, POINT, PRIMITIVE, METHOD = 6, 7, 8, 9
EVENT_STEP, CALL_STEP, PASS_STEP, PAIR, END_CERTIFICATE = 10, 11, 12, 13, 14
FAILING_PRIMITIVE, FAILING_METHOD, FAILING_CALL = 15, 16, 17
EDITION, STOP_STEP, OWNED_POINT, CHANNEL_CALL = 18, 19, 20, 22

BODY_LENGTHS = (4, 0, 0, 0, 0, 0, 6, 6, 10, 5, 6, 4, 5, 0, 10, 16, 8, 0, 2, 8, 8, 7)
CONDITIONS, POINTS, METHODS, STEPS, CERTIFICATES = range(1, 6)
SECTIONS = (1, 1, 1, 1, 1, 1, 2, 3, 3, 4, 4, 4, 5, 5, 3, 3, 4, 1, 4, 2, 1, 4)
# Fields of a body: c condition, p point, m method, o owner (2 bytes each), e event, h
# channel (1 each).
FIELDS = {POINT: "ccc", PRIMITIVE: "ccc", METHOD: "cccpp",
          EVENT_STEP: "ppe", CALL_STEP: "ppm", PASS_STEP: "pp",
          FAILING_PRIMITIVE: "ccccc", FAILING_METHOD: "cccppccp",
          FAILING_CALL: "pppm", STOP_STEP: "p", OWNED_POINT: "ccco",
          CHANNEL_CALL: "ppmh"}
# Their names in Point, Method and Step.
FIELD_NAMES = {
    POINT: ("past", "own", "due"),
    PRIMITIVE: ("pre", "trace", "future"),
    METHOD: ("pre", "trace", "future", "entry", "exit"),
    EVENT_STEP: ("source", "target", "operand"),
    CALL_STEP: ("source", "target", "operand"),
    PASS_STEP: ("source", "target"),
    FAILING_PRIMITIVE: ("pre", "trace", "future", "failed_trace", "failed_future"),
    FAILING_METHOD: ("pre", "trace", "future", "entry", "exit",
                     "failed_trace", "failed_future", "failed_exit"),
    FAILING_CALL: ("source", "target", "failed_target", "operand"),
    STOP_STEP: ("source",),
    OWNED_POINT: ("past", "own", "due", "owner"),
    CHANNEL_CALL: ("source", "target", "operand", "channel")}

MAX_CONDITIONS = 256
MAX_RECORDS = 96
MAX_LEAVES = 31
MAX_METHODS = 64
MAX_STEPS = 512


class Refusal(NamedTuple):
    number: int
    place: int


class Record(NamedTuple):
    offset: int
    kind: int
    body: bytes

    @property
    def end(self):
        return self.offset + 1 + len(self.body)


class Point(NamedTuple):
    """A point; the owner is a method's number, or None where there is none."""
    past: int
    own: int
    due: int
    owner: int | None = None

    @property
    def kind(self):
        return POINT if self.owner is None else OWNED_POINT


class Outcome(NamedTuple):
    """What a call is held to that returns this way, and the point from which a
    body returns so."""
    trace: int
    future: int
    exit: int | None


class Method(NamedTuple):
    """A method with body, or a primitive, whose entry and exits are None. What is
    failed is None where there is one outcome."""
    pre: int
    trace: int
    future: int
    entry: int | None = None
    exit: int | None = None
    failed_trace: int | None = None
    failed_future: int | None = None
    failed_exit: int | None = None

    @property
    def has_body(self):
        return self.entry is not None

    @property
    def may_fail(self):
        return self.failed_trace is not None

    @property
    def kind(self):
        if self.may_fail:
            return FAILING_METHOD if self.has_body else FAILING_PRIMITIVE
        return METHOD if self.has_body else PRIMITIVE

    @property
    def outcomes(self):
        return (False, True) if self.may_fail else (False,)

    def outcome(self, failed):
        """The outcome, or None if the method does not have it."""
        if not failed:
            return Outcome(self.trace, self.future, self.exit)
        if not self.may_fail:
            return None
        return Outcome(self.failed_trace, self.failed_future, self.failed_exit)


class Step(NamedTuple):
    """A step; operand is the event or the called method, None for a pass. Just a
    call of a method with two outcomes has a failed target, and just a call of kind 22
    a channel; a stop has no target."""
    kind: int
    source: int
    target: int | None = None
    operand: int | None = None
    failed_target: int | None = None
    channel: int | None = None

    @property
    def is_call(self):
        return self.kind in (CALL_STEP, FAILING_CALL, CHANNEL_CALL)

    @property
    def outcomes(self):
        if self.kind == STOP_STEP:
            return ()
        return (False, True) if self.kind == FAILING_CALL else (False,)

    def leads_to(self, failed):
        """The target of an outcome, or None if the step does not have it."""
        return self.failed_target if failed else self.target


class Sheet(NamedTuple):
    conditions: list    # trees
    points: list
    methods: list
    steps: list
    certificates: list  # lists of (place, set)
    new: bool = False   # whether it is of the new edition

    @property
    def counts(self):
        """How many conditions, points, methods, steps and certificates there are."""
        return [len(part) for part in self[:5]]


def read_record(data, offset, kinds=LARGE.kinds):
    """The record at the offset, or the refusal that ends reading."""
    kind = data[offset]
    if not 1 <= kind <= kinds:
        return Refusal(2, offset)
    end = offset + 1 + BODY_LENGTHS[kind - 1]
    if end > len(data):
        return Refusal(3, offset)
    return Record(offset, kind, data[offset + 1:end])


def is_item(kind):
    """Whether a record of the kind is a part of a condition: kinds 1 to 5 and 21."""
    return kind in ITEMS


def width_of(letter):
    """How many bytes a field has."""
    return 1 if letter in "eh" else 2


def fields_of(record):
    """The fields of a record that has names, as a list of (letter, value)."""
    result, at = [], 0
    for letter in FIELDS[record.kind]:
        width = width_of(letter)
        value = int.from_bytes(record.body[at:at + width], "little")
        result.append((letter, value))
        at += width
    return result


def named_fields(record):
    """The fields of a record that has names, by name."""
    return dict(zip(FIELD_NAMES[record.kind],
                    (value for _, value in fields_of(record))))


def pair_of(record):
    """The left place and the right set of a pair record."""
    return record.body[0], int.from_bytes(record.body[1:], "little")


class Reader:
    """What has been read so far, record by record."""

    def __init__(self, instrument=LARGE):
        self.instrument = instrument
        self.sheet = Sheet([], [], [], [], [])
        self.section = 1
        self.items = []           # items of the open condition
        self.records = 0          # its records of kinds 1 to 5 and 21
        self.leaves = 0
        self.pairs = None         # pairs of the open certificate
        self.owners = []          # each owner with the offset of its point

    @property
    def condition_open(self):
        return self.records > 0

    @property
    def certificate_open(self):
        return self.pairs is not None

    def is_out_of_order(self, record):
        return (SECTIONS[record.kind - 1] < self.section
                or self.condition_open and record.kind != END_CONDITION
                and not is_item(record.kind))

    def is_late_edition(self, record):
        return record.kind == EDITION and record.offset > 0

    def is_stop_in_old_sheet(self, record):
        return record.kind == STOP_STEP and not self.sheet.new

    def lacks_items(self, record):
        kind = record.kind
        if kind == END_CONDITION:
            return len(self.items) != 1
        return kind in (JOIN, EITHER, STAR) and len(self.items) < ITEMS[kind]

    def is_over_limit(self, record):
        kind, sheet = record.kind, self.sheet
        section = SECTIONS[kind - 1]
        if is_item(kind):
            return (self.records == MAX_RECORDS
                    or kind in LEAVES and self.leaves == MAX_LEAVES)
        if kind == END_CONDITION:
            return len(sheet.conditions) == MAX_CONDITIONS
        if section == POINTS:
            return len(sheet.points) == self.instrument.points
        if section == METHODS:
            return len(sheet.methods) == MAX_METHODS
        return section == STEPS and len(sheet.steps) == MAX_STEPS

    def has_bad_name(self, record):
        """An owner may point forward, and is no name here; nor is a channel."""
        if record.kind not in FIELDS:
            return False
        counts = {"c": len(self.sheet.conditions), "p": len(self.sheet.points),
                  "m": len(self.sheet.methods), "e": self.instrument.events}
        return any(value >= counts[letter]
                   for letter, value in fields_of(record) if letter in counts)

    def is_primitive_first(self, record):
        return (record.kind in (PRIMITIVE, FAILING_PRIMITIVE)
                and not self.sheet.methods)

    def is_call_of_other_outcomes(self, record):
        if record.kind not in (CALL_STEP, FAILING_CALL):
            return False
        called = self.sheet.methods[named_fields(record)["operand"]]
        return called.may_fail != (record.kind == FAILING_CALL)

    def has_other_owner(self, record):
        """Whether a step joins points of different owners, or a method's entry, exit
        or failed exit has another owner. Points without an owner agree with any."""
        section = SECTIONS[record.kind - 1]
        if section not in (METHODS, STEPS):
            return False
        owners = {self.sheet.points[value].owner
                  for letter, value in fields_of(record) if letter == "p"}
        if section == METHODS:
            owners.add(len(self.sheet.methods))
        return len(owners - {None}) > 1

    def is_wrong_channel_call(self, record):
        """Whether a call of kind 22 names a method with body or of two outcomes, or
        there is no such channel."""
        if record.kind != CHANNEL_CALL:
            return False
        fields = named_fields(record)
        called = self.sheet.methods[fields["operand"]]
        return called.kind != PRIMITIVE or fields["channel"] >= CHANNELS

    def refusal_at(self, record):
        """Refusals 4, 19, 20, 5, 6, 7, 9, 18, 24 and 26 at one record, in this
        order."""
        for number, applies in ((4, self.is_out_of_order),
                                (19, self.is_late_edition),
                                (20, self.is_stop_in_old_sheet),
                                (5, self.lacks_items),
                                (6, self.is_over_limit),
                                (7, self.has_bad_name),
                                (9, self.is_primitive_first),
                                (18, self.is_call_of_other_outcomes),
                                (24, self.has_other_owner),
                                (26, self.is_wrong_channel_call)):
            if applies(record):
                return Refusal(number, record.offset)
        return None

    def refusal_at_end(self, length):
        """Refusals 8, 9 and 25 at the end."""
        if self.condition_open or self.certificate_open:
            return Refusal(8, length)
        if not self.sheet.methods:
            return Refusal(9, length)
        for owner, offset in self.owners:
            if owner >= len(self.sheet.methods):
                return Refusal(25, offset)
        return None

    def add(self, record):
        """Add a record to which no refusal applies."""
        self.section = SECTIONS[record.kind - 1]
        if is_item(record.kind):
            self._add_item(record)
        elif record.kind == END_CONDITION:
            self.sheet.conditions.append(self.items[0])
            self.items, self.records, self.leaves = [], 0, 0
        elif record.kind == EDITION:
            self.sheet = self.sheet._replace(new=True)
        elif record.kind == PAIR:
            if self.pairs is None:
                self.pairs = []
            self.pairs.append(pair_of(record))
        elif record.kind == END_CERTIFICATE:
            self.sheet.certificates.append(self.pairs or [])
            self.pairs = None
        else:
            self._add_named(record)

    def _add_item(self, record):
        apply_record(self.items, record.kind,
                     int.from_bytes(record.body, "little"))
        self.records += 1
        self.leaves += record.kind in LEAVES

    def _add_named(self, record):
        fields = named_fields(record)
        if self.section == POINTS:
            self.sheet.points.append(Point(**fields))
            if record.kind == OWNED_POINT:
                self.owners.append((fields["owner"], record.offset))
        elif self.section == METHODS:
            self.sheet.methods.append(Method(**fields))
        else:
            self.sheet.steps.append(Step(record.kind, **fields))


def read_sheet(data, instrument=LARGE):
    """The sheet that the bytes stand for, or the first of refusals 1 to 9, 18 to 20
    and 24 to 26."""
    if len(data) > instrument.bytes:
        return Refusal(1, instrument.bytes)
    reader, offset = Reader(instrument), 0
    while offset < len(data):
        record = read_record(data, offset, instrument.kinds)
        if isinstance(record, Refusal):
            return record
        refusal = reader.refusal_at(record)
        if refusal:
            return refusal
        reader.add(record)
        offset = record.end
    return reader.refusal_at_end(len(data)) or reader.sheet


def reading_line(data, instrument=LARGE):
    """One line: the refusal that ends reading, or the five counts."""
    result = read_sheet(data, instrument)
    if isinstance(result, Refusal):
        return f"refused {result.number} at {result.place}"
    return "read " + " ".join(map(str, result.counts))
