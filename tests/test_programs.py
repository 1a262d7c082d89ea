"""The programs at their edges: what they read, what they say on standard error, and that no answer is printed then.
Skipped where the programs are not built (`tools/build`, at the top)."""
import os
import subprocess
import tempfile
import unittest

from generate import exchanges
from generate.beginnings import parsed
from generate.words import sheet_of
from reference.instruments import FOUR_CHANNEL
from sheets.assemble import assemble
from sheets.records import channel_call, method, point

ROOT = os.path.dirname(os.path.dirname(os.path.abspath(__file__)))
LOAD = os.path.join(ROOT, 'target', 'bin', 'load')
WORD_TEST = os.path.join(ROOT, 'target', 'bin', 'word_test')
MINIMAL = os.path.join(ROOT, 'examples', 'minimal.sheet')
LONG_WALK = os.path.join(ROOT, 'examples', 'long_walk.sheet')
CONDITION = os.path.join(ROOT, 'crates', 'word_test', 'data', 'condition.sheet')
FULL = '/dev/full'
OPTION = '--instrument'
LOAD_USAGE = 'usage: load [--instrument large|entry|four] [FILE]'
WORD_USAGE = 'usage: word_test [--instrument large|entry|four] SHEET CONDITION EVENT...'
NO_INSTRUMENTS = ['small', '', 'Entry', 'LARGE', 'entry ', 'entr', 'entryy', 'Four', 'four ', 'fou', 'fourr', '1', '2', '3', '4',
                  '--help', MINIMAL]
INSTRUMENTS = ['large', 'entry', 'four']
OPTIONS = [[], *([OPTION, name] for name in INSTRUMENTS)]


def run(program, *arguments, input=b'', **kinds):
    """Standard output and standard error of a program, as text."""
    if 'stdin' not in kinds:
        kinds['input'] = input
    kinds.setdefault('stdout', subprocess.PIPE)
    done = subprocess.run([program, *arguments], stderr=subprocess.PIPE, timeout=60, **kinds)
    return (done.stdout or b'').decode(), done.stderr.decode()


class Programs(unittest.TestCase):
    def prints(self, line, program, *arguments, **kinds):
        self.assertEqual(run(program, *arguments, **kinds), (line + '\n', ''))

    def says(self, message, program, *arguments, **kinds):
        self.assertEqual(run(program, *arguments, **kinds), ('', message + '\n'))

    def wants_an_instrument(self, name, program, *rest):
        """A word behind the option that names none, or no word, gets a line on standard error only."""
        expected = 'expected an instrument, large, entry or four'
        for word in NO_INSTRUMENTS:
            self.says(f'{name}: argument 2 is `{word}`: {expected}', program, OPTION, word)
            self.says(f'{name}: argument 2 is `{word}`: {expected}', program, OPTION, word, *rest)
        self.says(f'{name}: argument 2 is too long: {expected}', program, OPTION, 'x' * 5000, *rest)
        self.says(f'{name}: argument 2 is missing: {expected}', program, OPTION)

    def wants_utf_8(self, name, program, *rest):
        """A file is named in UTF-8; another name is told as it is, and no file is opened."""
        with tempfile.TemporaryDirectory() as folder, open(MINIMAL, 'rb') as sheet:
            minimal = sheet.read()
            for file, reads in [('\u00e9'.encode(), True), (b'\xe9', False), (b'x\xff', False), (b'\xed\xa0\x80', False)]:
                path = os.fsencode(folder) + b'/' + file
                with open(path, 'wb') as copy:
                    copy.write(minimal)
                done = subprocess.run([program, path, *rest], capture_output=True, timeout=60)
                told = name.encode() + b': cannot read ' + path + b': File name is not UTF-8\n'
                self.assertEqual(done.stderr, b'' if reads else told)
                self.assertEqual(done.stdout != b'', reads)

    def written_to_full(self, name, program, *arguments, **kinds):
        with open(FULL, 'wb') as full:
            self.says(f'{name}: cannot write the answer: No space left on device', program, *arguments, stdout=full, **kinds)


@unittest.skipUnless(os.path.exists(LOAD), 'load is not built')
class Load(Programs):
    def test_sheets(self):
        with open(MINIMAL, 'rb') as sheet:
            self.prints('accepted 6', LOAD, input=sheet.read())
        self.prints('accepted 6', LOAD, MINIMAL)
        self.prints('refused 9 at 0', LOAD)
        self.prints('refused 9 at 0', LOAD, '/dev/null')

    def test_lengths(self):
        for input, line in [(65536, 'refused 2 at 0'), (65537, 'refused 1 at 65536'), (1 << 20, 'refused 1 at 65536')]:
            self.prints(line, LOAD, input=bytes(input))
            with tempfile.NamedTemporaryFile() as file:
                file.write(bytes(input))
                file.flush()
                self.prints(line, LOAD, file.name)

    def test_instruments(self):
        for words in OPTIONS:
            self.prints('accepted 6', LOAD, *words, MINIMAL)
            self.prints('refused 9 at 0', LOAD, *words)
            with open(MINIMAL, 'rb') as sheet:
                self.prints('accepted 6', LOAD, *words, input=sheet.read())
            line = 'refused 6 at 457' if 'entry' in words else 'accepted 198'
            self.prints(line, LOAD, *words, LONG_WALK)
            with open(LONG_WALK, 'rb') as sheet:
                self.prints(line, LOAD, *words, input=sheet.read())

    def test_lengths_on_the_entry_instrument(self):
        for size, line in [(8191, 'refused 2 at 0'), (8192, 'refused 2 at 0'), (8193, 'refused 1 at 8192'),
                           (65536, 'refused 1 at 8192'), (65537, 'refused 1 at 8192'), (1 << 20, 'refused 1 at 8192')]:
            self.prints(line, LOAD, OPTION, 'entry', input=bytes(size))
            for name in ['large', 'four']:
                self.prints('refused 1 at 65536' if size > 65536 else 'refused 2 at 0', LOAD, OPTION, name, input=bytes(size))
            with tempfile.NamedTemporaryFile() as file:
                file.write(bytes(size))
                file.flush()
                self.prints(line, LOAD, OPTION, 'entry', file.name)

    def test_channels(self):
        """Kinds 21 and 22, and refusal 26, on the four-channel instrument; the others give 2."""
        for channel, line in [(2, 'accepted 21'), (4, 'refused 26 at {}')]:
            text = exchanges.whole_text(2).replace('channel 2', f'channel {channel}')
            sheet = assemble(text, FOUR_CHANNEL)
            at, leaf = sheet.index(channel_call(1, 2, 2, channel)), sheet.index(b'\x15')
            self.prints(line.format(at), LOAD, OPTION, 'four', input=sheet)
            for words in OPTIONS[:3]:
                self.prints(f'refused 2 at {leaf}', LOAD, *words, input=sheet)

    def test_no_instrument(self):
        self.wants_an_instrument('load', LOAD, MINIMAL)

    def test_option_elsewhere(self):
        """Behind another argument, `--instrument` is no option; a file may have its name."""
        self.says('load: more than one argument\n' + LOAD_USAGE, LOAD, MINIMAL, OPTION, 'entry')
        self.says('load: cannot read entry: No such file or directory', LOAD, 'entry')
        self.says(f'load: cannot read {OPTION}: No such file or directory', LOAD, OPTION, 'entry', OPTION)

    def test_input_in_pieces(self):
        with open(MINIMAL, 'rb') as file:
            sheet = file.read()
        load = subprocess.Popen([LOAD], stdin=subprocess.PIPE, stdout=subprocess.PIPE)
        for byte in sheet:
            load.stdin.write(bytes([byte]))
            load.stdin.flush()
        self.assertEqual(load.communicate()[0], b'accepted 6\n')

    def test_help(self):
        for words in OPTIONS:
            out, err = run(LOAD, *words, '--help')
            self.assertTrue(out.startswith(LOAD_USAGE + '\n'))
            self.assertEqual(err, '')

    def test_what_cannot_be_read(self):
        with tempfile.TemporaryDirectory() as folder:
            self.says(f'load: cannot read {folder}: Is a directory', LOAD, folder)
            self.says(f'load: cannot read {folder}/x: No such file or directory', LOAD, folder + '/x')
            descriptor = os.open(folder, os.O_RDONLY)
            self.says('load: cannot read standard input: Is a directory', LOAD, stdin=descriptor)
            os.close(descriptor)
        self.says('load: cannot read : No such file or directory', LOAD, '')
        self.says('load: cannot read the file: File name too long', LOAD, 'x' * 5000)
        self.says('load: cannot read standard input: Bad file descriptor', LOAD, stdin=None, preexec_fn=lambda: os.close(0))

    def test_names(self):
        self.wants_utf_8('load', LOAD)

    def test_too_many_arguments(self):
        for words in OPTIONS:
            for rest in [(MINIMAL, MINIMAL), (MINIMAL, '--help'), ('--help', MINIMAL)]:
                self.says('load: more than one argument\n' + LOAD_USAGE, LOAD, *words, *rest)

    @unittest.skipUnless(os.path.exists(FULL), 'no ' + FULL)
    def test_what_cannot_be_written(self):
        self.written_to_full('load', LOAD, MINIMAL)
        self.written_to_full('load', LOAD, '--help')


@unittest.skipUnless(os.path.exists(WORD_TEST), 'word_test is not built')
class WordTest(Programs):
    def test_words(self):
        for condition, word, line in [
                (0, [], 'yes'), (0, [2, 0], 'yes'), (0, [0, 2], 'no 0'), (1, [2], 'refused 14'),
                (0, [2, 32], 'refused 13 at 1'), (0, [2, 256], 'refused 13 at 1'), (0, [2, 65538], 'refused 13 at 1'),
                (2 ** 16, [2], 'refused 14'), (2 ** 64, [2], 'refused 14'),
                (0, [2] + 4095 * [0], 'yes'), (0, [2] + 4096 * [0], 'refused 12'), (0, [2] + 5000 * [0], 'refused 12')]:
            self.prints(line, WORD_TEST, CONDITION, str(condition), *map(str, word))
        self.prints('refused 9 at 0', WORD_TEST, '/dev/null', '0')

    def test_instruments(self):
        for words in OPTIONS:
            for condition, word, line in [
                    (0, [], 'yes'), (0, [2, 0], 'yes'), (0, [0, 2], 'no 0'), (1, [2], 'refused 14'), (0, [2, 64], 'refused 13 at 1'),
                    (0, [2] + 4095 * [0], 'yes'), (0, [2] + 4096 * [0], 'refused 12')]:
                self.prints(line, WORD_TEST, *words, CONDITION, str(condition), *map(str, word))
            for condition, word, line in [
                    (1, [], 'yes'), (1, [2, 2], 'yes'), (1, [2, 0], 'no 1'), (2, [2], 'refused 14'), (1, [2, 64], 'refused 13 at 1'),
                    (1, 4097 * [2], 'refused 12')]:
                self.prints('refused 6 at 457' if 'entry' in words else line,
                            WORD_TEST, *words, LONG_WALK, str(condition), *map(str, word))

    def test_beginnings(self):
        """A no has the length of the longest beginning that begins a word of the condition, on each instrument."""
        texts = ['(a | b none) c', 'any* none | a b c', 'a none', '(a b)* c', '(a | b none)*']
        with tempfile.NamedTemporaryFile() as file:
            file.write(sheet_of(map(parsed, texts)))
            file.flush()
            for condition, word, line in [
                    (0, [], 'no 0'), (0, [1], 'no 0'), (0, [0], 'no 1'), (0, [0, 2], 'yes'), (0, [0, 2, 2], 'no 2'),
                    (1, [0, 1] + 20 * [3], 'no 2'), (1, 20 * [3], 'no 0'), (2, [], 'no 0'), (2, [0], 'no 0'), (2, [0, 0], 'no 0'),
                    (3, 2048 * [0, 1], 'no 4096'), (3, 2047 * [0, 1] + [0, 0], 'no 4095'), (3, [1] + 4095 * [0], 'no 0'),
                    (3, 2048 * [0, 1] + [2], 'refused 12'), (4, 4095 * [0] + [1], 'no 4095'), (4, 4096 * [0], 'yes'),
                    (4, 255 * [0] + [1], 'no 255'), (4, 256 * [0] + [1, 0], 'no 256'), (4, [0, 1, 64], 'refused 13 at 2'),
                    (5, [0], 'refused 14')]:
                for words in OPTIONS:
                    self.prints(line, WORD_TEST, *words, file.name, str(condition), *map(str, word))

    def test_lengths_on_the_entry_instrument(self):
        with open(MINIMAL, 'rb') as sheet:
            minimal = sheet.read()
        for size in [8191, 8192, 8193, 65536, 65537]:
            with tempfile.NamedTemporaryFile() as file:
                file.write(minimal + b'\x0e' * (size - len(minimal)))
                file.flush()
                self.prints('refused 1 at 8192' if size > 8192 else 'yes', WORD_TEST, OPTION, 'entry', file.name, '0')
                self.prints('refused 1 at 65536' if size > 65536 else 'yes', WORD_TEST, OPTION, 'large', file.name, '0')

    def test_channels(self):
        """Events up to 63 on the four-channel instrument; a leaf of kind 1 has none above 31, and one of kind 21 any."""
        tail = b'\x06' + point(0, 0, 0) + method(0, 0, 0, 0, 0)
        both = b'\x01\xff\xff\xff\xff\x05\x06\x15' + b'\xff' * 8 + b'\x05' + tail
        with tempfile.NamedTemporaryFile() as file, tempfile.NamedTemporaryFile() as small:
            file.write(both)
            small.write(both[:6] + tail)
            file.flush()
            small.flush()
            for condition, word, line in [
                    (0, [31], 'yes'), (0, [32], 'no 0'), (0, [31, 63], 'no 1'), (1, [0, 31, 32, 63], 'yes'), (1, [63, 64], 'refused 13 at 1'),
                    (1, [255], 'refused 13 at 0'), (1, [256], 'refused 13 at 0'), (1, 4096 * [63], 'yes'), (1, 4097 * [64], 'refused 12'),
                    (2, [64], 'refused 14')]:
                self.prints(line, WORD_TEST, OPTION, 'four', file.name, str(condition), *map(str, word))
                for words in OPTIONS[:3]:
                    self.prints('refused 2 at 7', WORD_TEST, *words, file.name, str(condition), *map(str, word))
            self.prints('no 0', WORD_TEST, OPTION, 'four', small.name, '0', '32')
            for words in OPTIONS[:3]:
                self.prints('refused 13 at 0', WORD_TEST, *words, small.name, '0', '32')

    def test_no_instrument(self):
        self.wants_an_instrument('word_test', WORD_TEST, CONDITION, '0', '2')

    def test_help(self):
        for words in OPTIONS:
            out, err = run(WORD_TEST, *words, '--help')
            self.assertTrue(out.startswith(WORD_USAGE + '\n'))
            self.assertEqual(err, '')

    def test_wrong_arguments_behind_the_option(self):
        """The numbers of the arguments go on from the option's."""
        for word in INSTRUMENTS:
            self.says("word_test: argument 3 is missing: expected the sheet's file\n" + WORD_USAGE, WORD_TEST, OPTION, word)
            self.says("word_test: argument 4 is missing: expected the condition's number\n" + WORD_USAGE, WORD_TEST, OPTION, word, CONDITION)
            self.says("word_test: argument 4 is `x`: expected the condition's number", WORD_TEST, OPTION, word, CONDITION, 'x', '2')
            events = 63 if word == 'four' else 31
            self.says(f'word_test: argument 6 is `x`: expected an event, a number from 0 to {events}',
                      WORD_TEST, OPTION, word, CONDITION, '0', '2', 'x')
            self.says(f"word_test: argument 2 is `{OPTION}`: expected the condition's number", WORD_TEST, CONDITION, OPTION, word)

    def test_wrong_arguments(self):
        usage = '\n' + WORD_USAGE
        self.says("word_test: argument 1 is missing: expected the sheet's file" + usage, WORD_TEST)
        self.says("word_test: argument 2 is missing: expected the condition's number" + usage, WORD_TEST, CONDITION)
        for text in ['x', '', '-1', '1 ', '0x1']:
            self.says(f"word_test: argument 2 is `{text}`: expected the condition's number", WORD_TEST, CONDITION, text, '2')
            self.says(f'word_test: argument 4 is `{text}`: expected an event, a number from 0 to 31',
                      WORD_TEST, CONDITION, '0', '2', text, '0')
        self.says("word_test: argument 2 is too long: expected the condition's number", WORD_TEST, CONDITION, '1' * 5000)

    def test_what_cannot_be_read(self):
        with tempfile.TemporaryDirectory() as folder:
            self.says(f'word_test: cannot read {folder}: Is a directory', WORD_TEST, folder, '0')
            self.says(f'word_test: cannot read {folder}/x: No such file or directory', WORD_TEST, folder + '/x', '0')

    def test_names(self):
        self.wants_utf_8('word_test', WORD_TEST, '0')

    @unittest.skipUnless(os.path.exists(FULL), 'no ' + FULL)
    def test_what_cannot_be_written(self):
        self.written_to_full('word_test', WORD_TEST, CONDITION, '0', '2')


if __name__ == '__main__':
    unittest.main()
