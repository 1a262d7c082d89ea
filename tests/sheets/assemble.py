"""Assembler for the sheets of document 01: python3 sheets/assemble.py FILE > sheet

One statement a line; # starts a comment; names are defined before use, but for an
owner's.
docs/SHEETS.md has the whole form. `--instrument entry` in front of FILE holds the
sheet to the limits of the entry instrument, and `--instrument four` is for the
four-channel instrument.

    event NAME = NUMBER
    condition NAME = EXPRESSION
    point NAME past CONDITION own CONDITION due CONDITION
    primitive NAME pre CONDITION trace CONDITION future CONDITION
    method NAME pre .. trace .. future .. entry POINT exit POINT
    step POINT -> POINT event EVENT
    step POINT -> POINT call METHOD
    step POINT -> POINT pass

What may fail (document 02, Ask 2) says more:

    primitive NAME pre .. trace .. future .. failed trace .. failed future ..
    method NAME pre .. trace .. future .. entry .. exit ..
        failed trace .. failed future .. failed exit POINT    (all in one line)
    step POINT -> POINT call METHOD failing to POINT

A sheet of the new edition (document 02, Ask 4) has a line, anywhere, that says so. It
may have stops:

    edition new
    step POINT stop

A point with an owner (document 02, Ask 9) says the method, which may come later:

    point NAME past CONDITION own CONDITION due CONDITION owner METHOD

On the four-channel instrument (document 02, Ask 11) events go to 63, and a call may be
on a channel. A leaf with an event above 31 is of kind 21, any other of kind 1.

    step POINT -> POINT call METHOD channel NUMBER

The certificates are all reachable pairs, breadth first.
"""
import sys
from pathlib import Path

if not __package__:  # run as a file, from any folder
    sys.path[0] = str(Path(__file__).resolve().parent.parent)

from reference.conditions import LEAF, postfix
from reference.instruments import CHOICE, LARGE, chosen_instrument
from reference.reading import (CALL_STEP, CHANNEL_CALL, EVENT_STEP, FAILING_CALL,
                               MAX_CONDITIONS, MAX_LEAVES, MAX_METHODS,
                               MAX_RECORDS, MAX_STEPS, PASS_STEP, STOP_STEP,
                               Method, Point, Sheet, Step)

from sheets.expressions import (NAME, RESERVED, ExpressionError, event_number,
                                parse_expression)
from sheets.records import (TooManyPairs, encode, most_pairs,
                            with_certificates)


class TextError(Exception):
    """A fault in the text, with its line."""

    def __init__(self, line, message):
        super().__init__(message)
        self.line = line


def keyed(words):
    """The values by key of key value key value ..., where a key is one word, or
    failed and one more; None if the words are not so."""
    found, words = {}, iter(words)
    for key in words:
        if key == "failed":
            key += " " + next(words, "")
        value = next(words, None)
        if value is None or key in found:
            return None
        found[key] = value
    return found


def shown(keys):
    return " ".join(f"{key} .." for key in keys)


class Assembler:
    """The sheet that the lines so far stand for."""

    def __init__(self, instrument=LARGE):
        self.instrument = instrument
        self.sheet = Sheet([], [], [], [], [])
        self.words = {}       # names in expressions: events, conditions' trees
        self.conditions = {}  # numbers by name
        self.points = {}
        self.owners = []      # by point: the line and the name, or None
        self.methods = {}
        self.method_lines = []
        self.step_lines = []
        self.line = 0

    def fail(self, message):
        raise TextError(self.line, message)

    def new_name(self, name, known):
        if not NAME.match(name):
            self.fail(f"'{name}' is not a name")
        if name in RESERVED:
            self.fail(f"'{name}' is a word of the expressions")
        if name in known:
            self.fail(f"'{name}' is already defined")
        return name

    def room(self, part, limit, what):
        if len(part) == limit:
            self.fail(f"more than {limit} {what}")

    def find(self, name, known, what):
        if name not in known:
            self.fail(f"unknown {what} '{name}'")
        return known[name]

    def statement(self, number, text):
        """Take one line of the text."""
        self.line = number
        words = text.split("#", 1)[0].split()
        if not words:
            return
        takers = {"edition": self.edition, "event": self.event,
                  "condition": self.condition, "point": self.point,
                  "primitive": self.primitive, "method": self.method,
                  "step": self.step}
        if words[0] not in takers:
            self.fail(f"unknown statement '{words[0]}'")
        try:
            takers[words[0]](words[1:])
        except ExpressionError as error:
            self.fail(str(error))

    def edition(self, words):
        if words != ["new"]:
            self.fail("expected: edition new")
        if self.sheet.new:
            self.fail("the edition is already given")
        self.sheet = self.sheet._replace(new=True)

    def event(self, words):
        if len(words) != 3 or words[1] != "=":
            self.fail("expected: event NAME = NUMBER")
        if not words[2].isdecimal():
            self.fail(f"'{words[2]}' is not a number")
        name = self.new_name(words[0], self.words)
        number = event_number(words[2], {}, self.instrument.events)
        for other, value in self.words.items():
            if value == number:
                self.fail(f"event {number} is already named '{other}'")
        self.words[name] = number

    def condition(self, words):
        if len(words) < 3 or words[1] != "=":
            self.fail("expected: condition NAME = EXPRESSION")
        self.room(self.sheet.conditions, MAX_CONDITIONS, "conditions")
        name = self.new_name(words[0], self.words)
        tree = parse_expression(" ".join(words[2:]), self.words,
                                self.instrument.events)
        records = postfix(tree)
        if len(records) > MAX_RECORDS:
            self.fail(f"the condition has {len(records)} records, "
                      f"more than {MAX_RECORDS}")
        leaves = sum(kind == LEAF for kind, _ in records)
        if leaves > MAX_LEAVES:
            self.fail(f"the condition has {leaves} leaves, "
                      f"more than {MAX_LEAVES}")
        self.words[name] = tree
        self.conditions[name] = len(self.sheet.conditions)
        self.sheet.conditions.append(tree)

    def named(self, words, keys, statement, more=()):
        """The name and the values, by key, of NAME key value key value ...; the keys
        of more come all or not at all. An owner's value is its name."""
        found = keyed(words[1:])
        if list(found or ()) not in (list(keys), list(keys + more)):
            form = f"expected: {statement} NAME {shown(keys)}"
            if more:
                form += f", then all or none of {shown(more)}"
            self.fail(form)
        for key, word in found.items():
            if key.split()[-1] in ("entry", "exit"):
                found[key] = self.find(word, self.points, "point")
            elif key != "owner":
                found[key] = self.find(word, self.conditions, "condition")
        return words[0], {key.replace(" ", "_"): value
                          for key, value in found.items()}

    def point(self, words):
        name, values = self.named(words, ("past", "own", "due"), "point", ("owner",))
        self.room(self.sheet.points, self.instrument.points, "points")
        self.points[self.new_name(name, self.points)] = len(self.sheet.points)
        owner = values.pop("owner", None)
        self.owners.append(None if owner is None else (self.line, owner))
        self.sheet.points.append(Point(**values))

    def primitive(self, words):
        self.add_method(*self.named(
            words, ("pre", "trace", "future"), "primitive",
            ("failed trace", "failed future")))

    def method(self, words):
        self.add_method(*self.named(
            words, ("pre", "trace", "future", "entry", "exit"), "method",
            ("failed trace", "failed future", "failed exit")))

    def add_method(self, name, values):
        self.room(self.sheet.methods, MAX_METHODS, "methods")
        method = Method(**values)
        if not self.sheet.methods and not method.has_body:
            self.fail("the first method is a primitive")
        self.methods[self.new_name(name, self.methods)] = len(self.sheet.methods)
        self.sheet.methods.append(method)
        self.method_lines.append(self.line)

    def step(self, words):
        if words[1:] == ["stop"]:
            step = Step(STOP_STEP, self.find(words[0], self.points, "point"))
        elif len(words) > 3 and words[1] == "->":
            step = self.leading_step(words)
        else:
            self.fail("expected: step POINT -> POINT event|call|pass .., "
                      "or step POINT stop")
        self.room(self.sheet.steps, MAX_STEPS, "steps")
        self.sheet.steps.append(step)
        self.step_lines.append(self.line)

    def leading_step(self, words):
        """The step of POINT -> POINT and what it does."""
        source = self.find(words[0], self.points, "point")
        target = self.find(words[2], self.points, "point")
        kind, rest = words[3], words[4:]
        if kind == "pass" and not rest:
            return Step(PASS_STEP, source, target)
        if kind == "event" and len(rest) == 1:
            return Step(EVENT_STEP, source, target, event_number(
                rest[0], self.words, self.instrument.events))
        if kind == "call" and (len(rest) == 1 or rest[1:3] == ["failing", "to"]
                               and len(rest) == 4):
            return self.call(source, target, rest[0], rest[3:])
        if kind == "call" and rest[1:2] == ["channel"] and len(rest) == 3:
            return self.channel_call(source, target, rest[0], rest[2])
        self.fail("a step ends with: event EVENT, call METHOD, "
                  "call METHOD failing to POINT, call METHOD channel NUMBER, or pass")

    def call(self, source, target, name, failed_target):
        """The call step; the failed target is a list of no name or one."""
        number = self.find(name, self.methods, "method")
        may_fail = self.sheet.methods[number].may_fail
        if may_fail and not failed_target:
            self.fail(f"'{name}' may fail: call {name} failing to POINT")
        if failed_target and not may_fail:
            self.fail(f"'{name}' cannot fail: call {name}")
        if not may_fail:
            return Step(CALL_STEP, source, target, number)
        return Step(FAILING_CALL, source, target, number,
                    self.find(failed_target[0], self.points, "point"))

    def channel_call(self, source, target, name, channel):
        """The call step on a channel."""
        number = self.find(name, self.methods, "method")
        if self.instrument.kinds < CHANNEL_CALL:
            self.fail("a call on a channel is for the four-channel instrument")
        if not channel.isdecimal() or int(channel) > 255:
            self.fail(f"'{channel}' is not a number from 0 to 255")
        return Step(CHANNEL_CALL, source, target, number, channel=int(channel))

    def owned(self, point, owner):
        """A point with its owner, if it has one."""
        if owner is None:
            return point
        line, name = owner
        if name not in self.methods:
            raise TextError(line, f"unknown method '{name}'")
        return point._replace(owner=self.methods[name])

    def finish(self):
        """The whole sheet with its certificates."""
        if not self.sheet.methods:
            self.fail("there is no method")
        sheet = self.sheet._replace(points=list(map(self.owned, self.sheet.points,
                                                    self.owners)))
        try:
            return with_certificates(sheet, most_pairs(self.instrument))
        except TooManyPairs as error:
            rule = error.rule
            lines = (self.method_lines if rule.subject_kind == "method"
                     else self.step_lines)
            raise TextError(lines[rule.subject], f"the reachable pairs up to "
                            f"rule {rule.number} do not fit in a sheet") from None


def assemble(text, instrument=LARGE):
    """The bytes of the sheet that the text stands for."""
    if text.startswith("\ufeff"):
        raise TextError(1, "the text starts with a byte order mark (BOM); "
                        "save it without one")
    assembler = Assembler(instrument)
    for number, line in enumerate(text.splitlines(), 1):
        assembler.statement(number, line)
    data = encode(assembler.finish())
    if len(data) > instrument.bytes:
        assembler.fail(f"the sheet takes {len(data)} bytes, "
                       f"more than {instrument.bytes}")
    return data


def main(arguments):
    try:
        instrument, arguments = chosen_instrument(arguments)
    except ValueError as error:
        return str(error)
    if len(arguments) != 1:
        return f"usage: assemble.py [--instrument {CHOICE}] FILE > sheet"
    try:
        with open(arguments[0], encoding="utf-8") as file:
            data = assemble(file.read(), instrument)
    except TextError as error:
        return f"{arguments[0]}:{error.line}: {error}"
    except (OSError, UnicodeDecodeError) as error:
        return f"{arguments[0]}: {error}"
    sys.stdout.buffer.write(data)
    return None


if __name__ == "__main__":
    sys.exit(main(sys.argv[1:]))
