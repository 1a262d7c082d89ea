"""Single sheets of document 01 that no random choice is likely to make."""
import re
from pathlib import Path

from reference.conditions import ANY, EITHER, EMPTY, JOIN, LEAF, STAR
from reference.instruments import ENTRY, FOUR_CHANNEL, LARGE
from reference.reading import (CALL_STEP, EVENT_STEP, PASS_STEP, Method, Point,
                               Sheet, Step, read_sheet)
from reference.rules import rule_count
from sheets.assemble import assemble
from sheets.records import encode, with_certificates

from .draws import Draws
from .faults import clauses_2_and_3
from .refusals import Case
from .trees import random_tree

EXAMPLES = Path(__file__).resolve().parent.parent.parent / "examples"
# Examples that stand behind the other stored cases for the large instrument: those
# that came later, and those on which the entry instrument has another line.
LATER_EXAMPLES = {"one_round"}
ENTRY_EXAMPLES = {"long_walk"}
# Examples of document 02, Asks 2, 4 and 9, which stand with the cases of these.
OUTCOME_EXAMPLES = {"gate_may_fail", "gate_may_fail_owed", "method_may_fail"}
STOP_EXAMPLES = {"stop_inside", "stop_owed", "two_call_sites"}
OWNER_EXAMPLES = {"owned_points", "pasted_step"}
REQUESTED_EXAMPLES = OUTCOME_EXAMPLES | STOP_EXAMPLES | OWNER_EXAMPLES
ANY_STAR = (STAR, (LEAF, ANY))
EMPTY_TREE = (EMPTY,)
M = bytes.fromhex("0206" "07000000000000" "0900000000000000000000"
                  + "0d00010000000e" * 3)


def header_lines(path):
    """The answers that a text of examples/ begins with: the first line has the loader's,
    the next ones those of the other instruments where they are others. A text for the
    four-channel instrument has its answer."""
    text = path.read_text(encoding="utf-8")
    return dict(re.findall(
        r"^# (loader|entry instrument|four-channel instrument): (.*)$", text, re.M))


def channel_examples():
    """The examples for the four-channel instrument, which document 02, Ask 11, has."""
    return {path.stem for path in EXAMPLES.glob("*.txt")
            if "four-channel instrument" in header_lines(path)}


def examples(instrument=LARGE):
    """The texts of examples/, with the answer of the instrument."""
    keys = {ENTRY: "entry instrument", FOUR_CHANNEL: "four-channel instrument"}
    for path in sorted(EXAMPLES.glob("*.txt")):
        found = header_lines(path)
        of = FOUR_CHANNEL if path.stem in channel_examples() else LARGE
        yield Case(path.stem, assemble(path.read_text(encoding="utf-8"), of),
                   found.get(keys.get(instrument), found["loader"]))


def listed_examples(instrument=LARGE):
    """The sheets that the table of examples/README.md lists, with its lines; below it
    stand the lines of the entry instrument that are others, and then those of the
    four-channel instrument."""
    readme = (EXAMPLES / "README.md").read_text(encoding="utf-8")
    lines = dict(re.findall(r"^\| (\w+) \|.*\| `(.*)` \|$", readme, re.M))
    entry, _, four = readme.partition("\nThe four-channel instrument")
    other = {ENTRY: entry, FOUR_CHANNEL: four}.get(instrument, "")
    lines |= dict(re.findall(r"^- (\w+): `(.*)`$", other, re.M))
    for name, line in lines.items():
        yield Case(name, (EXAMPLES / f"{name}.sheet").read_bytes(), line)


def former_examples(instrument=LARGE):
    """The listed ones but those of document 02, Asks 2, 4, 9 and 11."""
    later = REQUESTED_EXAMPLES | channel_examples()
    return (case for case in listed_examples(instrument) if case.label not in later)


def listed_among(names, instrument=LARGE):
    """The listed ones with these names."""
    return (case for case in listed_examples(instrument) if case.label in names)


def starred():
    """The cases of "Sheets to try" that are sheets."""
    trace_1 = M[:2] + bytes.fromhex("010100000006") + M[2:]
    trace_1 = trace_1[:18] + b"\x01" + trace_1[19:]
    return [Case("no bytes", b"", "refused 9 at 0"),
            Case("0F", b"\x0f", "refused 3 at 0"),
            Case("01", b"\x01", "refused 3 at 0"),
            Case("03", b"\x03", "refused 5 at 0"),
            Case("a name", bytes.fromhex("020607010000000000"),
                 "refused 7 at 2"),
            Case("M", M, "accepted 6"),
            Case("M cut", M[:-1], "refused 8 at 40"),
            Case("M with trace 1", trace_1, "unproved rule 5 method 0 clause 3"
                 " pair 0 event 0 place 0"),
            Case("65,536 zeros", bytes(LARGE.bytes), "refused 2 at 0"),
            Case("65,537 zeros", bytes(LARGE.bytes + 1), "refused 1 at 65536")]


def accepted(label, sheet):
    """A true sheet as a case; it gets its certificates here."""
    return Case(label, encode(with_certificates(sheet)),
                f"accepted {rule_count(sheet)}")


def one_method(trees, points, steps, primitives=()):
    """A sheet with one method from point 0 to the last; trees[0] is EMPTY."""
    methods = [Method(0, 1, 0, 0, len(points) - 1)] + list(primitives)
    return Sheet(trees, points, methods, steps, [])


def full_limits():
    """256 conditions, 512 points, 64 methods and 512 steps, accepted."""
    conditions = [EMPTY_TREE] + [ANY_STAR] * 255
    points = [Point(255, 254, 253)] * 512
    methods = [Method(255, 1, 255, number * 8, 511) for number in range(64)]
    methods[0] = Method(0, 1, 0, 0, 511)
    steps = [Step(PASS_STEP, number, (number + 1) % 512)
             for number in range(512)]
    return accepted("full limits",
                    Sheet(conditions, points, methods, steps, []))


def many_calls():
    """512 calls of a primitive."""
    points = [Point(1, 1, 1)] * 2
    steps = [Step(CALL_STEP, number % 2, 1, 1) for number in range(512)]
    return accepted("512 calls", one_method(
        [EMPTY_TREE, ANY_STAR], points, steps, [Method(1, 1, 1)]))


def chain(leaves, first=0):
    """A condition with one word, of that many events."""
    tree = (LEAF, 1 << first)
    for event in range(first + 1, first + leaves):
        tree = (JOIN, tree, (LEAF, 1 << event % 32))
    return tree


def nested(tree, stars):
    for _ in range(stars):
        tree = (STAR, tree)
    return tree


def wide_sides():
    """Sides with the most places: 62 on the left, 31 on the right."""
    word, other = chain(31), chain(31, 1)
    many = (LEAF, ANY)
    for _ in range(30):
        many = (EITHER, many, (LEAF, ANY))
    trees = [EMPTY_TREE, ANY_STAR, word, other, (STAR, many), nested(word, 35)]
    for past, trace, after in ((2, 3, 1), (2, 3, 4), (4, 3, 4), (5, 5, 4),
                               (4, 4, 4), (5, 2, 5)):
        points = [Point(4, 1, 4), Point(4, 1, 4), Point(past, 1, 4),
                  Point(after, 1, 1)]
        calls = [Step(CALL_STEP, 2, 3, 1)]
        sheet = one_method(trees, points, calls, [Method(past, trace, 1)])
        yield accepted("wide sides", sheet)


def longest(instrument=LARGE):
    """M with one pair repeated up to the instrument's bytes, and one byte more."""
    room = instrument.bytes - len(M)
    pairs, rest = divmod(room, 6)
    unused = b"\x02" + b"\x05" * (rest - 2) + b"\x06"
    data = M[:2] + unused + M[2:20] + M[20:26] * pairs + M[20:]
    yield Case(f"{instrument.bytes} bytes, accepted", data, "accepted 6")
    yield Case(f"{instrument.bytes + 1} bytes", data + b"\x0e",
               f"refused 1 at {instrument.bytes}")


def large_certificate(joins=8):
    """A condition with many reachable pairs, against itself and its like."""
    both = (LEAF, 3)
    tree = (JOIN, (STAR, both), (LEAF, 1))
    for _ in range(joins):
        tree = (JOIN, tree, both)
    trees = [EMPTY_TREE, ANY_STAR, (EITHER, EMPTY_TREE, tree),
             (EITHER, tree, EMPTY_TREE)]
    points = [Point(3, 0, 0)]
    sheet = Sheet(trees, points, [Method(2, 1, 0, 0, 0)], [], [])
    return accepted("large certificate", sheet)


def truncations():
    """Every beginning of M and of one example, as the loader sees it."""
    example = next(case for case in examples() if case.label == "close_loop")
    for data in (M, example.data):
        for length in range(len(data)):
            yield Case(f"beginning of {length} bytes", data[:length])


def event_edges(events=(0, 1, 30, 31)):
    """Event steps of these events, with exact conditions."""
    for event in events:
        word = (LEAF, 1 << event)
        trees = [EMPTY_TREE, word, (STAR, word), ANY_STAR]
        points = [Point(0, 0, 1), Point(1, 1, 0)]
        yield accepted("event edge", one_method(
            trees, points, [Step(EVENT_STEP, 0, 1, event)]))
        points = [Point(2, 2, 2)]
        sheet = Sheet(trees, points, [Method(0, 2, 0, 0, 0)],
                      [Step(EVENT_STEP, 0, 0, event)], [])
        yield accepted("event loop", sheet)


def closing_loops(seed, count):
    """The loop with close last and open first, with random point conditions
    and all reachable pairs: never accepted."""
    text = (EXAMPLES / "close_loop_open.txt").read_text(encoding="utf-8")
    sheet, draws = read_sheet(assemble(text)), Draws(seed)
    for _ in range(count):
        trees = [random_tree(draws, draws.between(1, 4), [0, 1, 2])
                 for _ in range(4)] + [ANY_STAR, EMPTY_TREE]
        conditions = sheet.conditions + trees
        points = [Point(*(draws.below(len(conditions)) for _ in range(3)))
                  for _ in sheet.points]
        methods = [sheet.methods[0]._replace(trace=1), sheet.methods[1]]
        tried = with_certificates(
            Sheet(conditions, points, methods, sheet.steps, []))
        yield Case("closing loop", encode(tried), "unproved ")


def long_certificates():
    """Certificates of 384 pairs and one more or fewer, among which one pair
    serves each of 31 events at each of two left places; whole, and without the
    pairs of one event. The other pairs serve nothing."""
    draws = Draws(67)
    leaves = [(LEAF, 1 << event) for event in range(31)]
    right = leaves[0]
    for leaf in leaves[1:]:
        right = (EITHER, right, leaf)
    some = (LEAF, 2 ** 31 - 1)
    trees = [EMPTY_TREE, (STAR, (EITHER, some, some)), (STAR, right)]
    points = [Point(2, 0, 0)]
    sheet = with_certificates(
        Sheet(trees, points, [Method(1, 0, 0, 0, 0)], [], []))
    first, *serving = sheet.certificates[0]
    for count in (383, 384, 385, 386):
        for lost in (None, 0, 4, 5, 6, 11, 16, 17, 23, 28, 29, 30):
            pairs = [pair for pair in serving
                     if lost is None or pair[1] != 2 << lost]
            while len(pairs) + 1 < count:
                one, other = draws.below(31), draws.below(30)
                other += other >= one
                pairs.append((1 + draws.below(2), 2 << one | 2 << other))
            pairs = [first] + draws.shuffled(pairs)
            line = f"accepted {rule_count(sheet)}" if lost is None else (
                f"unproved rule 3 method 0 clause 4 pair 0 event {lost} place 1")
            yield Case(f"{count} pairs", encode(Sheet(
                *sheet[:4], [pairs] + sheet.certificates[1:])), line)


def special_cases():
    """All single sheets but those of last_cases."""
    yield from starred()
    yield from (case for case in examples()
                if case.label not in (LATER_EXAMPLES | ENTRY_EXAMPLES
                                      | REQUESTED_EXAMPLES | channel_examples()))
    yield full_limits()
    yield many_calls()
    yield from wide_sides()
    yield from longest()
    yield large_certificate()
    yield from truncations()
    yield from event_edges()
    yield from closing_loops(66, 60)


def last_cases():
    """What came later: the stored cases before it stay as they are."""
    yield from (case for case in former_examples()
                if case.label not in ENTRY_EXAMPLES)
    for data in (M, (EXAMPLES / "close_loop.sheet").read_bytes()):
        yield from clauses_2_and_3(read_sheet(data))
    yield from long_certificates()
    yield from (case for case in former_examples()
                if case.label in ENTRY_EXAMPLES)
