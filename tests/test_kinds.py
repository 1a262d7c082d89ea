"""Tests of document 02, Ask 7: the length of each kind's body is a decision."""
import re
import struct
import unittest
from itertools import chain
from unittest.mock import patch

import test_outcomes
import test_reference
from generate import channels, kinds, owners
from generate.kinds import LENGTHS
from generate.refusals import positions
from reference import reading
from reference.instruments import FOUR_CHANNEL, INSTRUMENTS, LARGE
from reference.reading import BODY_LENGTHS, Refusal, read_sheet, reading_line
from test_reference import CRATES

# More bytes than any body has.
MOST = 40


def line_with(data, lengths):
    """The reference's line if the bodies had these lengths; None if it cannot go on
    with a body that is too short."""
    with patch.object(reading, "BODY_LENGTHS", lengths):
        try:
            return reading_line(data)
        except IndexError:
            return None


class Lengths(unittest.TestCase):
    def found(self, before, kind, instrument):
        """The length of a kind's body by the answers alone, to the kind behind other
        bytes and each number of zeros behind it: as many as give 3 at the kind. None
        if each gives 2 at it."""
        answers = [read_sheet(before + bytes([kind]) + bytes(count), instrument)
                   for count in range(MOST)]
        unknown = [answer == Refusal(2, len(before)) for answer in answers]
        if any(unknown):
            self.assertTrue(all(unknown), kind)
            return None
        short = [answer == Refusal(3, len(before)) for answer in answers]
        self.assertEqual(short, sorted(short, reverse=True), kind)
        return sum(short)

    def test_first_byte(self):
        """Each of the 256 kinds, on instruments of 14, 17, 19, 20 and 22 kinds."""
        self.assertEqual(sorted(LENGTHS), list(range(1, 21)))
        self.assertEqual(sorted(channels.LENGTHS), list(range(1, 23)))
        for instrument in INSTRUMENTS.values():
            for last in (14, 17, 19, 20, 22):
                on = instrument._replace(kinds=last)
                for kind in range(256):
                    length = channels.LENGTHS[kind] if 1 <= kind <= last else None
                    self.assertEqual(self.found(b"", kind, on), length, (kind, last))

    def test_every_place(self):
        """The same behind every record of a sheet of each edition, since 2 and 3 come
        before all that depends on the records in front."""
        for instrument, lengths, bases in (
                (LARGE, LENGTHS, (owners.OLD_BASE, owners.BASE)),
                (FOUR_CHANNEL, channels.LENGTHS, (channels.OLD_BASE, channels.BASE))):
            for _, before, _ in chain.from_iterable(map(positions, bases)):
                for kind in (0, *range(1, 24), 128, 255):
                    self.assertEqual(self.found(before, kind, instrument),
                                     lengths.get(kind), (kind, before.hex()))


class Cases(unittest.TestCase):
    FILES = {"reading": (kinds.reading_cases, kinds.later_cases),
             "entry_reading": (kinds.entry_reading_cases, kinds.later_cases)}

    @classmethod
    def setUpClass(cls):
        cls.stored = test_reference.Vectors
        cls.stored.setUpClass()

    def cases(self, name):
        return chain.from_iterable(part() for part in self.FILES[name])

    def test_lines(self):
        """The tables and the reference agree, also on a case that another file of
        generate/ has too."""
        for name in self.FILES:
            for case in self.cases(name):
                line = reading_line(case.data, self.stored.FILES[name])
                self.assertEqual(line, case.line, case.label)

    def test_stored(self):
        """Each case is stored, with its line."""
        for name in self.FILES:
            stored = dict(zip(self.stored.cases(name), self.stored.lines[name]))
            for case in self.cases(name):
                self.assertEqual(stored.get(case.data), case.line, case.label)

    def test_every_kind(self):
        """Each of the 256 kinds is refused 2 behind records of each edition, or is
        read there whole."""
        for name in self.FILES:
            lines = {case.data: case.line for case in self.cases(name)}
            for kind in range(256):
                for front in kinds.fronts(kind):
                    before = kinds.sheet(front)
                    one = bytes([kind]) + bytes(LENGTHS.get(kind, 0))
                    refusals = [f"refused {number} at {len(before)}"
                                for number in (2, 3)]
                    found = lines[before + one] in refusals
                    self.assertEqual(found, kind not in LENGTHS, (name, kind))

    def test_wrong_lengths(self):
        """Any other length of a kind changes a line, of the cases behind records and
        of those as the first byte."""
        first = {}
        for case in kinds.first_cases():
            first.setdefault(case.data[0], []).append(case)
        for kind, length in LENGTHS.items():
            behind = [case for front in kinds.fronts(kind)
                      for case in kinds.length_cases(kind, front)]
            for wrong in range(MOST):
                lengths = BODY_LENGTHS[:kind - 1] + (wrong,) + BODY_LENGTHS[kind:]
                for cases in (behind, first[kind]):
                    changed = any(line_with(case.data, lengths) != case.line
                                  for case in cases)
                    self.assertEqual(changed, wrong != length, (kind, wrong))


class AsBefore(test_outcomes.AsBefore):
    """Every refusal is as it was with 19 kinds."""
    KINDS = 19
    FORMER = {
        "reading": (1504667, "646d034e111929b0", 5991, 39),
        "sheets": (3341616, "ebabf36302823fe5", 6482, 1),
        "words": (1263062, "a59fc2a67755835c", 23367, 0),
        "entry_reading": (760153, "b4c0b3167be6071c", 1565, 8),
        "entry_sheets": (903013, "5db7d217104aeb6d", 1413, 0),
        "entry_words": (188517, "6b60ebff0c70b7fa", 1469, 0)}
    DIGEST = "e607080081e95bf7"
    test_what_differs = None   # test_owners has it, with as many kinds


class Source(unittest.TestCase):
    """No array stands in the code of kinds and records: each bracket is behind what it
    is an index of, or is that of a slice's type or of an attribute, as #[derive(Copy)];
    and there is no string of bytes."""
    ARRAY = re.compile(r'(?<![\w)\]])\[(?![a-z]\w*\])|b"')
    ATTRIBUTE = re.compile(r"^ *#!?\[\w+\(\w+(, \w+)*\)\]")

    def arrays(self, text):
        """The lines of code with an array."""
        code = (self.ATTRIBUTE.sub("", line.split("//")[0]) for line in text.splitlines())
        return [line for line in code if self.ARRAY.search(line)]

    def test_arrays_are_found(self):
        for line in ("const BODY_LENGTHS: [u8; 19] = [4, 0, 0, 0];",
                     "const LENGTHS: &[u8] = &[4, 0, 0];", "let t = [0u8; 19];",
                     "    [4, 0][index(kind) - 1]", 'let t = b"\\x04\\x00";',
                     "fn of(t: &[u8; 19]) -> u8"):
            self.assertEqual(self.arrays(line), [line])
        for line in ("pub fn record_at(s: &[u8], kinds: u8, at: usize) -> Option<Record>",
                     "fn fill(t: &mut [usize])", "place: index(s[at + 1]),",
                     "// by a table [4, 0, 0]", "#[derive(Clone, Copy)]",
                     "#![tactic(auto)]"):
            self.assertEqual(self.arrays(line), [])
        self.assertTrue(self.arrays("#[derive(Copy)] const LENGTHS: [u8; 1] = [4];"))

    def test_no_array(self):
        files = [path for crate in ("kinds", "format", "values")
                 for path in sorted((CRATES / crate / "src").rglob("*.rt"))]
        self.assertIn("lengths.rt", [path.name for path in files])
        for path in files:
            self.assertEqual(self.arrays(path.read_text()), [], path.name)


def members(data):
    """The files of an archive, or the one file."""
    if not data.startswith(b"!<arch>\n"):
        yield data
        return
    at = 8
    while at < len(data):
        size = int(data[at + 48:at + 58])
        yield data[at + 60:at + 60 + size]
        at += 60 + size + size % 2


def loaded(data):
    """Code and data of an ELF file: the bytes of each section that is loaded."""
    if not data.startswith(b"\x7fELF"):
        return
    table, = struct.unpack_from("<Q", data, 40)
    size, count = struct.unpack_from("<HH", data, 58)
    for at in range(table, table + size * count, size):
        kind, flags, _, start, length = struct.unpack_from("<LQQQQ", data, at + 4)
        if kind == 1 and flags & 2:
            yield data[start:start + length]


class Built(unittest.TestCase):
    """Nor does the compiler make an array of the decision: what is built holds no
    lengths in a row, of numbers of 1, 2, 4 or 8 bytes, in code or in data. So that none
    is found by chance, single bytes are looked for in rows of four, and numbers of 2
    and of 4 bytes, which wider ones hold, in rows without 0.

    Of how many rules a call has (crates/needs) the compiler makes tables, with a number
    for each kind of the called method. The end of the one and the beginning of the other
    make a row, 10, 5, 6, which is none of lengths: so rows are looked for in front of
    these tables and behind them."""
    FILES = ("bin/load", "bin/word_test", "staticlib/libsheet_loader.a")
    COUNTS = [b"".join(number.to_bytes(8, "little") for number in row)
              for row in ((9, 10, 9, 10), (5, 6, 5, 6))]

    @staticmethod
    def rows():
        """Each row of lengths, with the size of its numbers."""
        for size, count, zeros in ((1, 4, 1), (2, 3, 0), (4, 3, 0), (8, 3, 1)):
            for first in range(1, len(LENGTHS) - count + 2):
                row = [LENGTHS[first + index] for index in range(count)]
                if row.count(0) <= zeros:
                    yield size, row

    def found(self, data):
        """The rows that stand in the bytes."""
        pieces = [data]
        for table in self.COUNTS:
            pieces = [part for piece in pieces for part in piece.split(table)]
        return [(size, row) for size, row in self.rows()
                if any(b"".join(number.to_bytes(size, "little") for number in row) in piece
                       for piece in pieces)]

    def test_rows_are_found(self):
        """An array of all lengths, as data and as a constant of an instruction, and
        the least that a compiler makes."""
        for size in (1, 2, 4, 8):
            data = b"".join(LENGTHS[kind].to_bytes(size, "little")
                            for kind in sorted(LENGTHS))
            self.assertEqual(self.found(data),
                             [row for row in self.rows() if row[0] == size])
        self.assertTrue(self.found((0x50406050A0606).to_bytes(8, "little")))
        self.assertTrue(self.found(b"".join(n.to_bytes(8, "little") for n in (8, 0, 2))))
        self.assertEqual(self.found(bytes(range(256)) + bytes(64)), [])

    def test_counts_hide_nothing(self):
        """No array of lengths holds a table of the numbers of rules; lengths in front of
        such tables, between them and behind them are found."""
        first, second = self.COUNTS
        for size in (1, 2, 4, 8):
            data = b"".join(LENGTHS[kind].to_bytes(size, "little")
                            for kind in sorted(LENGTHS))
            for table in self.COUNTS:
                self.assertNotIn(table, data)
            found = self.found(data)
            for more in (data + first + second, first + data + second,
                         first + second + data):
                self.assertEqual(self.found(more), found)
        self.assertEqual(self.found(first + second), [])

    def test_no_row(self):
        files = [CRATES.parent / "target" / name for name in self.FILES]
        files = [path for path in files if path.is_file()]
        if not files:
            self.skipTest("not built")
        for path in files:
            sections = [section for member in members(path.read_bytes())
                        for section in loaded(member)]
            self.assertGreater(sum(map(len, sections)), 10_000, path.name)
            for section in sections:
                self.assertEqual(self.found(section), [], path.name)


if __name__ == "__main__":
    unittest.main()
