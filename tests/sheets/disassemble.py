"""Disassembler for the sheets of document 01: python3 sheets/disassemble.py SHEET

Without SHEET, standard input is read. `--instrument entry` in front is for the
entry instrument, `--instrument four` for the four-channel instrument.
Prints a sheet record by record: offset, kind, what it is. The last line is
the loader's. A sheet that reading refuses is printed up to the refusal.
"""
import os
import sys
from pathlib import Path

if not __package__:  # run as a file, from any folder
    sys.path[0] = str(Path(__file__).resolve().parent.parent)

from reference.instruments import CHOICE, LARGE, chosen_instrument
from reference.loader import load_line
from reference.reading import (BODY_LENGTHS, CALL_STEP, CHANNEL_CALL, EDITION,
                               END_CERTIFICATE, END_CONDITION, EVENT_STEP,
                               FAILING_CALL, FAILING_METHOD, FAILING_PRIMITIVE,
                               FIELD_NAMES, METHOD, METHODS, OWNED_POINT, PAIR,
                               PASS_STEP, POINT, POINTS, PRIMITIVE, SECTIONS,
                               STOP_STEP, Reader, Refusal, fields_of, pair_of,
                               read_record)
from reference.conditions import LEAVES
from reference.rules import all_rules

from sheets.expressions import show, show_set

ITEM_NAMES = ("leaf", "EMPTY", "JOIN", "EITHER", "STAR")
STEP_KEYS = {EVENT_STEP: ("from", "to", "event"),
             CALL_STEP: ("from", "to", "method"), PASS_STEP: ("from", "to"),
             FAILING_CALL: ("from", "to", "failing to", "method"),
             STOP_STEP: ("from",),
             CHANNEL_CALL: ("from", "to", "method", "channel")}
KEYS = {kind: [name.replace("_", " ") for name in names]
        for kind, names in FIELD_NAMES.items()} | STEP_KEYS
NAMES = {POINT: "point", PRIMITIVE: "primitive", METHOD: "method",
         EVENT_STEP: "event step", CALL_STEP: "call step",
         PASS_STEP: "pass step", FAILING_PRIMITIVE: "primitive",
         FAILING_METHOD: "method", FAILING_CALL: "call step",
         STOP_STEP: "stop step", OWNED_POINT: "point", CHANNEL_CALL: "call step"}
LONGEST = 1 + max(BODY_LENGTHS)


def certified_rules(sheet):
    """What each certificate is for, in order."""
    return [f"rule {rule.number} {rule.subject_kind} {rule.subject}"
            for rule in all_rules(sheet) if rule.has_certificate]


class Printer:
    """The lines of a sheet, record by record."""

    def __init__(self, instrument=LARGE):
        self.reader = Reader(instrument)
        self.rules = None

    def rule(self):
        """What the certificate that is read is for."""
        if self.rules is None:
            sheet = self.reader.sheet
            self.rules = certified_rules(sheet) if sheet.methods else []
        number = len(self.reader.sheet.certificates)
        return self.rules[number] if number < len(self.rules) else "no rule"

    def numbered(self, record):
        """A record that is counted by itself: of a point, a method or a step."""
        sheet, section = self.reader.sheet, SECTIONS[record.kind - 1]
        part = {POINTS: sheet.points, METHODS: sheet.methods}.get(section,
                                                                  sheet.steps)
        fields = " ".join(f"{key} {value}" for key, (_, value)
                          in zip(KEYS[record.kind], fields_of(record)))
        return f"{NAMES[record.kind]} {len(part)}: {fields}"

    def describe(self, record):
        """What a record is, before it is added."""
        kind, reader = record.kind, self.reader
        events = reader.instrument.events
        if kind in LEAVES:
            return "  leaf " + show_set(int.from_bytes(record.body, "little"), events)
        if kind < END_CONDITION:
            return "  " + ITEM_NAMES[kind - 1]
        if kind == END_CONDITION:
            return (f"end of condition {len(reader.sheet.conditions)}: "
                    + show(reader.items[0], events))
        if kind == PAIR:
            place, rights = pair_of(record)
            return (f"  pair {len(reader.pairs or [])}: place {place} "
                    f"set {{{show_places(rights)}}}")
        if kind == END_CERTIFICATE:
            number = len(reader.sheet.certificates)
            return f"end of certificate {number}: {self.rule()}"
        if kind == EDITION:
            return "edition new"
        return self.numbered(record)

    def lines(self, data):
        """Every line before the loader's."""
        offset = 0
        while offset < len(data) <= self.reader.instrument.bytes:
            record = read_record(data, offset, self.reader.instrument.kinds)
            if isinstance(record, Refusal) or self.reader.refusal_at(record):
                yield f"{offset:6}  {data[offset:offset + LONGEST].hex(' ')}"
                return
            yield f"{offset:6}  {record.kind:02X}  {self.describe(record)}"
            self.reader.add(record)
            offset = record.end
        yield f"{len(data):6}  end"


def show_places(places):
    return ",".join(str(place) for place in range(32) if places >> place & 1)


def disassemble(data, instrument=LARGE):
    """All lines for the bytes of a sheet."""
    return (list(Printer(instrument).lines(data))
            + [load_line(data, instrument)])


def main(arguments):
    try:
        instrument, arguments = chosen_instrument(arguments)
    except ValueError as error:
        return str(error)
    if len(arguments) > 1:
        return f"usage: disassemble.py [--instrument {CHOICE}] [SHEET]"
    try:
        if arguments:
            data = Path(arguments[0]).read_bytes()
        else:
            data = sys.stdin.buffer.read()
    except OSError as error:
        return f"{arguments[0] if arguments else 'standard input'}: {error}"
    try:
        print("\n".join(disassemble(data, instrument)), flush=True)
    except BrokenPipeError:
        # Who reads has enough; what is left to write goes nowhere.
        os.dup2(os.open(os.devnull, os.O_WRONLY), sys.stdout.fileno())
    return None


if __name__ == "__main__":
    sys.exit(main(sys.argv[1:]))
