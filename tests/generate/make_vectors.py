"""Writes the stored vectors: python3 -m generate.make_vectors [FOLDER]

What the program stored_cases reads (data/reading, data/sheets, data/words for the
large instrument, data/entry_reading, data/entry_sheets, data/entry_words for the
entry instrument, data/four_reading, data/four_sheets, data/four_words for the
four-channel instrument) and what it must print (stdout), below FOLDER, its crate. The
files are the same byte for byte each time. A case whose line the documents give by
construction must get that line from the reference. The cases of document 02, Ask 2,
stand behind those of document 01 and Ask 8 in each file, those of Ask 4 behind these,
then those of Ask 7, which are only read, those of Ask 9, those of Ask 11, and those of
Ask 3, which are words, last. The files for the four-channel instrument have the cases of
Ask 11, behind them a part of the others, whose line is that of the large instrument
where they use nothing of Ask 11, and then those of Ask 3.
"""
import sys
import time
from functools import lru_cache, partial
from itertools import islice
from pathlib import Path

from reference.instruments import ENTRY, FOUR_CHANNEL, LARGE
from reference.loader import load_line, word_line_of
from reference.reading import read_sheet, reading_line
from reference.rules import rule_count
from sheets.records import encode

from . import (beginnings, channels, entry, exchanges, faults, kinds, outcomes, owners,
               stops)
from .refusals import Case, reading_cases, without_repeats
from .special import last_cases, special_cases, wide_sides
from .true_sheets import large_true_sheets, true_sheets
from .words import Group, word_groups

FOLDER = Path(__file__).resolve().parent.parent.parent / "crates" / "stored_cases"


def u32(number):
    return number.to_bytes(4, "little")


def all_reading_cases():
    """Everything that is read."""
    yield from reading_cases()
    for _, sheet in true_sheets(41, 64, 60):
        counts = " ".join(map(str, sheet.counts))
        yield Case("true sheet", encode(sheet), f"read {counts}")


def true_cases(sheets):
    for shape, sheet in sheets:
        yield Case(f"true {shape}", encode(sheet),
                   f"accepted {rule_count(sheet)}")


def all_sheet_cases():
    """Everything that is loaded."""
    yield from special_cases()
    yield from true_cases(true_sheets(51, 480, 100))
    yield from true_cases(large_true_sheets(52, 24))
    sheets = [sheet for _, sheet in true_sheets(53, 160, 80)]
    yield from faults.certificate_faults(54, sheets, 6)
    wide = [read_sheet(case.data) for case in wide_sides()]
    yield from faults.certificate_faults(65, wide, 1)
    yield from faults.broken_rules(55, 8)
    yield from faults.kept_certificates(56, sheets[:80])
    yield from faults.changed_certificates(57, sheets[:96])
    yield from faults.certificate_counts(58, sheets[:16])
    yield from faults.two_faults(59, sheets[:48])
    yield from faults.changed_conditions(60, sheets[40:])
    yield from faults.changed_bytes(61, sheets)
    yield from faults.changed_records(62, sheets[:80])
    yield from faults.near_record_changes(63, sheets[:80])
    yield from faults.random_bytes(64, 60)
    yield from last_cases()


def write_cases(path, cases, line_of, instrument):
    """Write the cases; return their lines."""
    parts, lines = [], []
    for case in without_repeats(cases):
        line = line_of(case.data, instrument)
        if not faults.agrees(case, line):
            raise AssertionError(f"{case.label}: {case.line!r}, found {line!r}")
        parts += [u32(len(case.data)), case.data]
        lines.append(line + "\n")
    path.write_bytes(b"".join(parts))
    return lines


def write_words(path, groups, instrument):
    """Write the cases of words; return their lines."""
    parts, lines = [], []
    for group in groups:
        sheet = read_sheet(group.sheet, instrument)
        parts += [u32(len(group.sheet)), group.sheet, u32(len(group.cases))]
        for condition, word, expected in group.cases:
            line = word_line_of(sheet, condition, word, instrument)
            if expected not in (None, line):
                raise AssertionError(f"{word}: {expected}, found {line}")
            parts += [condition.to_bytes(2, "little"),
                      len(word).to_bytes(2, "little"), bytes(word)]
            lines.append(line + "\n")
    path.write_bytes(b"".join(parts))
    return lines


# The cases of the large instrument without those of Asks 11 and 3.
FORMER = {
    "reading": (all_reading_cases, outcomes.reading_cases, stops.reading_cases,
                kinds.reading_cases, owners.reading_cases),
    "sheets": (all_sheet_cases, outcomes.sheet_cases, stops.sheet_cases,
               owners.sheet_cases),
    "words": (word_groups, outcomes.word_groups, stops.word_groups,
              owners.word_groups)}
# Of these, the longest that are read by the four-channel instrument too.
MOST_BYTES = 3000


@lru_cache(maxsize=None)
def former(name):
    """The cases of a file without those of Asks 11 and 3."""
    return [case for part in FORMER[name] for case in part()]


def same_cases(name, line_of, every):
    """A part of these, with the line of the large instrument if they use nothing of Ask
    11."""
    for case in islice(former(name), 0, None, every):
        if len(case.data) <= MOST_BYTES:
            uses = channels.first_later(case.data) is not None
            yield Case(case.label, case.data,
                       None if uses else line_of(case.data, LARGE))


def same_groups(every):
    """A part of the groups of words, likewise; a word may have an event above 31."""
    for group in islice(former("words"), 0, None, every):
        if len(group.sheet) <= MOST_BYTES:
            uses = channels.first_later(group.sheet) is not None
            yield Group(group.sheet, [
                (number, word, None if uses or any(31 < event < 64 for event in word)
                 else line) for number, word, line in group.cases])


# The files in the order of their lines: what writes one, and from what.
FILES = {
    "reading": (write_cases, (partial(former, "reading"), channels.reading_cases),
                reading_line, LARGE),
    "sheets": (write_cases, (partial(former, "sheets"), exchanges.sheet_cases),
               load_line, LARGE),
    "words": (write_words, (partial(former, "words"), channels.word_groups,
                            beginnings.word_groups), LARGE),
    "entry_reading": (write_cases, (entry.reading_cases,
                                    outcomes.entry_reading_cases,
                                    stops.entry_reading_cases,
                                    kinds.entry_reading_cases,
                                    owners.entry_reading_cases,
                                    channels.entry_reading_cases),
                      reading_line, ENTRY),
    "entry_sheets": (write_cases, (entry.sheet_cases, outcomes.entry_sheet_cases,
                                   stops.entry_sheet_cases, owners.entry_sheet_cases,
                                   exchanges.entry_sheet_cases), load_line, ENTRY),
    "entry_words": (write_words, (entry.word_groups, outcomes.entry_word_groups,
                                  stops.entry_word_groups, owners.entry_word_groups,
                                  channels.entry_word_groups,
                                  beginnings.entry_word_groups), ENTRY),
    "four_reading": (write_cases, (channels.four_reading_cases,
                                   partial(same_cases, "reading", reading_line, 5)),
                     reading_line, FOUR_CHANNEL),
    "four_sheets": (write_cases, (exchanges.four_sheet_cases,
                                  partial(same_cases, "sheets", load_line, 4)),
                    load_line, FOUR_CHANNEL),
    "four_words": (write_words, (channels.four_word_groups, partial(same_groups, 6),
                                 beginnings.four_word_groups), FOUR_CHANNEL),
}


def main(arguments):
    folder = Path(arguments[0]) if arguments else FOLDER
    (folder / "data").mkdir(parents=True, exist_ok=True)
    start, lines = time.monotonic(), []
    for name, (write, parts, *rest) in FILES.items():
        path = folder / "data" / name
        cases = (case for part in parts for case in part())
        found = write(path, cases, *rest)
        lines += found
        print(f"{name}: {len(found)} cases, {path.stat().st_size} bytes, "
              f"{time.monotonic() - start:.1f} s")
    (folder / "stdout").write_bytes("".join(lines).encode("ascii"))


if __name__ == "__main__":
    main(sys.argv[1:])
