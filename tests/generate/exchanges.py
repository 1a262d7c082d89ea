"""Cases of document 02, Ask 11, that are loaded: calls on channels, whose conditions
are read with the events of channel 0 and the channel exchanged.

A case's line is the one on the four-channel instrument, as in faults.py.
"""
import re
from itertools import cycle, islice

from reference.channels import exchanged, exchanged_set
from reference.conditions import (ANY, EITHER, EMPTY, JOIN, LEAF, STAR, WIDE_ANY, bits)
from reference.inclusion import missing_word
from reference.instruments import ENTRY, FOUR_CHANNEL
from reference.loader import load_line
from reference.reading import (CALL_STEP, CHANNEL_CALL, EVENT_STEP, Method, Point,
                               Sheet, Step, read_sheet)
from reference.rules import rule_count
from reference.runs import RETURN, Move
from sheets import records as r
from sheets.assemble import assemble
from sheets.expressions import show

from . import channels, faults, outcomes, special, stops
from .channels import channel_sheets, two_channel, wide_leaves
from .draws import Draws
from .outcomes import Alone
from .plans import CHANNEL_SHAPES, FAILING_SHAPES, SHAPES, STOPPING_SHAPES
from .refusals import Case
from .trees import changed_leaves
from .true_sheets import true_sheets

EVENTS = FOUR_CHANNEL.events
LOW = 0xFFFF   # the events of channel 0


def not_made(events, _):
    """The set as it is."""
    return events


def up_only(events, channel):
    """The set with the events of channel 0 changed to the channel's alone."""
    return events & ~LOW | (events & LOW) << 16 * channel


def down_only(events, channel):
    """The set with the events of the channel changed to those of channel 0 alone."""
    own = events >> 16 * channel & LOW
    return events & ~(LOW << 16 * channel) | own


# Ways to read a set that are wrong, but where they come to the exchange.
WRONG_WAYS = {"not made": not_made, "up only": up_only, "down only": down_only}


def read_by(way, tree, channel):
    """The condition with its sets read by a way."""
    return changed_leaves(tree, lambda events: way(events, channel))


HEAD = """condition nothing = empty
condition all = any*
condition a = {a}
condition u = {u}
"""
ENDS = """point start past {start} own all due all
point middle past {middle} own all due {due}
point end past all own all due {end}
method main pre nothing trace all future {end} entry start exit end
"""
PASTS = ENDS.format(start="nothing", middle="u", due="all", end="all")
DUES = ENDS.format(start="all", middle="all", due="u", end="nothing")
# For each of rules 10 to 14, a sheet on which it alone may be false: the step on a
# channel, whose primitive has the condition a, and the text. The points have the
# condition u, where rules 10 and 13 ask for u in the exchanged a, the others for the
# exchanged a in u.
SITES = {
    10: (1, HEAD + PASTS + """primitive say pre all trace u future all
primitive probe pre a trace nothing future all
step start -> middle call say
step middle -> end call probe channel {channel}
"""),
    11: (0, HEAD + PASTS + """primitive say pre all trace a future all
primitive probe pre u trace nothing future all
step start -> middle call say channel {channel}
step middle -> end call probe
"""),
    12: (0, HEAD + """point start past all own nothing due all
point end past all own u due all
method main pre nothing trace u future all entry start exit end
primitive say pre all trace a future all
step start -> end call say channel {channel}
"""),
    13: (0, HEAD + DUES + """primitive probe pre all trace nothing future a
primitive say pre all trace u future all
step start -> middle call probe channel {channel}
step middle -> end call say
"""),
    14: (1, HEAD + DUES + """primitive probe pre all trace nothing future u
primitive say pre all trace a future all
step start -> middle call probe
step middle -> end call say channel {channel}
""")}
# The part of the primitive that has the condition a.
PARTS = {10: "pre", 11: "trace", 12: "trace", 13: "future", 14: "trace"}
EDITION = "edition new\n"


def site_text(rule, channel, a, u):
    """The text of a site with the conditions a and u."""
    return SITES[rule][1].format(channel=channel, a=show(a, EVENTS), u=show(u, EVENTS))


def site_alone(rule, channel, event, right):
    """The site with one event in a, and in u the exchanged event, so that all rules are
    true, or the event itself; and a run, which then breaks demand 3."""
    tree = (LEAF, 1 << event)
    other = exchanged(tree, channel)
    u = other if right else tree
    said = tuple(bits((u if rule in (10, 13) else other)[1]))
    moves, method, broken = {
        10: ((Move(0, said), Move(1, ())), 2, "pre"),
        11: ((Move(0, said), Move(1, ())), 2, "pre"),
        12: ((Move(0, said), RETURN), 0, "trace"),
        13: ((Move(0, ()), Move(1, said), RETURN), 1, "future"),
        14: ((Move(0, ()), Move(1, said), RETURN), 1, "future")}[rule]
    return Alone(site_text(rule, channel, tree, u), moves, method, broken)


def some_conditions(channel):
    """Conditions with events of channel 0, of the channel and of a third one, in leaves
    of kinds 1 and 21; with all events, and with all that kind 1 has."""
    third = 16 * (1 if channel != 1 else 2) + 3
    x, y, x2, y2, t = ((LEAF, 1 << event) for event in (
        3, 16 * channel + 3, 5, 16 * channel + 5, third))
    both = (LEAF, x[1] | y2[1] | t[1])
    yield from (x, y, both, (JOIN, x, (STAR, t)), (JOIN, (STAR, (JOIN, y, x2)), t),
                (STAR, (EITHER, both, (JOIN, x, y))), (JOIN, (LEAF, WIDE_ANY), x),
                (JOIN, (EITHER, (EMPTY,), y), (LEAF, ANY)))
    for events in (ANY, WIDE_ANY, WIDE_ANY ^ ANY, WIDE_ANY ^ x[1], ANY ^ LOW):
        yield (STAR, (LEAF, events))


def site_conditions(channel):
    """Each such condition with others: the exchanged one, and what the wrong ways make
    of it."""
    for a in some_conditions(channel):
        others = [exchanged(a, channel)]
        others += [read_by(way, a, channel) for way in WRONG_WAYS.values()]
        yield from ((a, u) for u in dict.fromkeys(others))


def site_line(rule, channel, a, u, data):
    """The line of a site: the rule by partial derivatives, all others are true."""
    left, right = exchanged(a, channel), u
    if rule in (10, 13):
        left, right = right, left
    if missing_word(left, right) is None:
        return f"accepted {rule_count(read_sheet(data, FOUR_CHANNEL))}"
    return f"unproved rule {rule} step {SITES[rule][0]} clause 3 "


def site_cases():
    """Each of rules 10 to 14, true and false alone, on each channel, in both editions,
    with leaves of kind 21 where those of kind 1 would do, too."""
    number = 0
    for channel in range(4):
        for a, u in site_conditions(channel):
            for rule in SITES:
                number += 1
                text = EDITION * (number % 3 == 0) + site_text(rule, channel, a, u)
                data = assemble(text, FOUR_CHANNEL)
                line = site_line(rule, channel, a, u, data)
                yield Case(f"rule {rule} on channel {channel}", data, line)
                if number % 4 == 0:
                    yield Case(f"rule {rule}, kind 21", wide_leaves(data), line)


def read_wrongly(sheet, way, parts=("pre", "trace", "future")):
    """The sheet with calls of kind 11 for those of kind 22, each of a primitive of its
    own whose conditions, of these parts, are read by the way; the others are
    exchanged."""
    conditions, methods, steps = list(sheet.conditions), list(sheet.methods), []
    for step in sheet.steps:
        if step.channel is None:
            steps.append(step)
            continue
        called = sheet.methods[step.operand]
        for part in ("pre", "trace", "future"):
            read = way if part in parts else exchanged_set
            conditions.append(read_by(read, sheet.conditions[getattr(called, part)],
                                      step.channel))
            called = called._replace(**{part: len(conditions) - 1})
        steps.append(step._replace(kind=CALL_STEP, operand=len(methods), channel=None))
        methods.append(called)
    return sheet._replace(conditions=conditions, methods=methods, steps=steps)


def wrongly_certified(sheet, way, parts=("pre", "trace", "future")):
    """The sheet with the certificates that are exact if calls on channels are read
    wrongly: the rules and their order are the same."""
    wrong = r.with_certificates(read_wrongly(sheet, way, parts))
    return sheet._replace(certificates=wrong.certificates)


def wrong_way_cases():
    """Sites that are true where the exchange of one part is made wrongly, with the
    certificates that show it: the rule is unproved, but where it is true all the
    same."""
    for channel in range(1, 4):
        for a, rule, way in ((a, rule, way) for a in some_conditions(channel)
                             for rule in SITES for way in WRONG_WAYS.values()):
            u = read_by(way, a, channel)
            data = assemble(site_text(rule, channel, a, u), FOUR_CHANNEL)
            line = site_line(rule, channel, a, u, data)
            if line.startswith("accepted"):
                continue
            sheet = wrongly_certified(read_sheet(data, FOUR_CHANNEL), way,
                                      (PARTS[rule],))
            yield Case("read wrongly", r.encode(sheet), line[:-len("3 ")])


# Every part of the primitive is needed: each has an event of each of two channels.
WHOLE = """condition nothing = empty
condition before = {before}
condition raised = {raised}
condition later = {later}
condition said = {said}
condition made = {made}
condition owed = {owed}
condition own = said made
condition whole = said made owed
condition ahead = made owed
condition rest = said made owed
point start past nothing own nothing due rest
point middle past said own said due ahead
point after past own own own due owed
point end past whole own whole due nothing
method main pre nothing trace whole future nothing entry start exit end
primitive say pre nothing trace said future ahead
primitive go pre before trace raised future later
primitive owe pre own trace owed future nothing
step start -> middle call say
step middle -> after call go channel {channel}
step after -> end call owe
"""


def whole_text(channel, ways=(exchanged_set,) * 3):
    """A sheet on which rules 10 to 14 of one call all count: the conditions of its
    primitive, and what they come to if they are read by these ways."""
    parts = [(LEAF, 1 << 3 | 1 << 16 * channel + 4), (LEAF, 1 << 5 | 1 << 16 * channel),
             (JOIN, (LEAF, 1 << 16 * channel + 9), (LEAF, 1 << 8 | 1 << 16 * channel))]
    read = [read_by(way, tree, channel) for way, tree in zip(ways, parts)]
    names = ("before", "raised", "later"), ("said", "made", "owed")
    return WHOLE.format(channel=channel, **{
        name: show(tree, EVENTS) for some, trees in zip(names, (parts, read))
        for name, tree in zip(some, trees)})


def whole_cases():
    """That sheet on each channel: accepted where all three conditions are exchanged,
    and unproved where one of them is read otherwise: rule 10, 11 or 13."""
    for channel in range(1, 4):
        yield Case("all exchanged", assemble(whole_text(channel), FOUR_CHANNEL),
                   "accepted 21")
        for part, rule in enumerate((10, 11, 13)):
            for way in WRONG_WAYS.values():
                ways = [exchanged_set] * 3
                ways[part] = way
                yield Case("one is read otherwise", assemble(
                    whole_text(channel, ways), FOUR_CHANNEL),
                    f"unproved rule {rule} step 1 clause 3 ")
    for channel in channels.NO_CHANNELS:
        data = assemble(whole_text(1).replace("channel 1", f"channel {channel}"),
                        FOUR_CHANNEL)
        at = data.index(r.channel_call(1, 2, 2, channel))
        yield Case("26", data, f"refused 26 at {at}")


def event_cases():
    """Clause 4 with each event, in a leaf of kind 21 and, up to 31, of kind 1; event
    steps at the edges of the channels."""
    for event in range(EVENTS):
        tree = (EITHER, (EMPTY,), (LEAF, 1 << event))
        sheet = r.with_certificates(Sheet(
            [(EMPTY,), (STAR, (LEAF, WIDE_ANY)), tree], [Point(1, 1, 1)],
            [Method(2, 1, 0, 0, 0)], [], []))
        data = r.encode(faults.with_certificate(sheet, 0, [(0, 1)]))
        line = f"unproved rule 3 method 0 clause 4 pair 0 event {event} place 1"
        yield Case(f"clause 4, event {event}", data, line)
        if event % 8 == 0:
            yield Case(f"clause 4, event {event}", wide_leaves(data), line)
            yield Case("clause 4 met", r.encode(sheet), "accepted 6")
    yield from special.event_edges(channels.EDGE_EVENTS)


def event_order_cases():
    """Events ascending in clause 4: certificates that lack the pairs of some events, of
    which the first is named."""
    events = 2, 31, 32, 47, 48, 63
    right = (LEAF, 1 << events[0])
    for event in events[1:]:
        right = (EITHER, right, (LEAF, 1 << event))
    some = (LEAF, sum(1 << event for event in events))
    trees = [(EMPTY,), (STAR, (EITHER, some, some)), (STAR, right)]
    sheet = r.with_certificates(Sheet(trees, [Point(2, 0, 0)],
                                      [Method(1, 0, 0, 0, 0)], [], []))
    yield Case("all pairs", r.encode(sheet), "accepted 6")
    pairs = sheet.certificates[0]
    for index, event in enumerate(events):
        for lost in ({index}, set(range(index, 6)), {index, 5}):
            kept = [pair for pair in pairs if pair[1].bit_length() - 2 not in lost]
            yield Case("pairs of events lost", r.encode(
                faults.with_certificate(sheet, 0, kept)),
                f"unproved rule 3 method 0 clause 4 pair 0 event {event} place 1")


def least_cases():
    """The least sheets with calls on channels, accepted; they have no leaf."""
    for steps in ((0,), (1,), (2,), (3,), (0, 1, 2, 3), (3, 3)):
        for new in (False, True):
            yield special.accepted("least sheet on channels", Sheet(
                [special.EMPTY_TREE], [Point(0, 0, 0)],
                [Method(0, 0, 0, 0, 0), Method(0, 0, 0)],
                [Step(CHANNEL_CALL, 0, 0, 1, channel=channel) for channel in steps],
                [], new))


def full_limits():
    """512 calls on channels, 63 primitives called, accepted."""
    trees = [special.EMPTY_TREE, (STAR, (LEAF, WIDE_ANY))]
    points = [Point(1, 1, 1)] * 2
    yield special.accepted("512 calls on channels", Sheet(
        trees, points, [Method(0, 1, 0, 0, 1), Method(1, 1, 1)],
        [Step(CHANNEL_CALL, number % 2, 1, 1, channel=number % 4)
         for number in range(512)], []))
    yield special.accepted("63 primitives called", Sheet(
        trees, points, [Method(0, 1, 0, 0, 1)] + [Method(1, 1, 1)] * 63,
        [Step(CHANNEL_CALL, 0, 1, 1 + number % 63, channel=number % 4)
         for number in range(126)], []))


def on_channels(draws, sheet):
    """The sheet with calls on channels for those of kind 11 that are of primitives, and
    the exchanged conditions for theirs: its rules are the same. None if there are no
    such calls, or too many conditions."""
    conditions, methods, on = list(sheet.conditions), list(sheet.methods), {}
    for number, method in enumerate(methods):
        if method.kind == 8:
            channel = on[number] = draws.below(4)
            new = {}
            for part in ("pre", "trace", "future"):
                tree = exchanged(sheet.conditions[getattr(method, part)], channel)
                if tree not in conditions:
                    conditions.append(tree)
                new[part] = conditions.index(tree)
            methods[number] = method._replace(**new)
    steps = [step._replace(kind=CHANNEL_CALL, channel=on[step.operand])
             if step.kind == CALL_STEP and step.operand in on else step
             for step in sheet.steps]
    if steps == sheet.steps or len(conditions) > 256:
        return None
    return sheet._replace(conditions=conditions, methods=methods, steps=steps)


def same_lines(seed, cases):
    """Sheets of the large instrument that reading takes, with calls on channels: the
    line is the same."""
    draws = Draws(seed)
    for case in cases:
        sheet = on_channels(draws, read_sheet(case.data))
        if sheet is not None:
            yield Case(case.label + ", on channels", r.encode(sheet),
                       load_line(case.data))


MOVES = {"32 up": lambda event: event + 32, "apart": lambda event: 2 * event,
         "apart, odd": lambda event: 2 * event + 1}


def moved(sheet, move):
    """The sheet with every event moved."""
    def moved_set(events):
        return sum(1 << move(event) for event in bits(events))
    return sheet._replace(
        conditions=[changed_leaves(tree, moved_set) for tree in sheet.conditions],
        steps=[step._replace(operand=move(step.operand)) if step.kind == EVENT_STEP
               else step for step in sheet.steps])


def moved_cases(cases):
    """Sheets of the large instrument that reading takes, with their events moved to
    others in the same order: the line is the same but for the event of clause 4."""
    for case, (label, move) in zip(cases, cycle(MOVES.items())):
        line = load_line(case.data)
        if " clause 4 " in line:
            line = re.sub(r"event (\d+)", lambda found: "event "
                          f"{move(int(found[1]))}", line)
        yield Case(f"{case.label}, {label}",
                   r.encode(moved(read_sheet(case.data), move)), line)


def former_cases(seed, share):
    """Sheets of the large instrument that reading takes: single ones, true ones of
    every shape, and such with faults."""
    sheets = [sheet for _, sheet in true_sheets(
        seed, int(74 * share), 80, SHAPES + FAILING_SHAPES + STOPPING_SHAPES)]
    yield from outcomes.first_fault_cases()
    yield from stops.first_fault_cases()
    yield from (Case("true", r.encode(sheet)) for sheet in sheets)
    yield from faults.certificate_faults(seed + 1, sheets, 1)
    yield from faults.broken_rules(seed + 2, 1, range(1, 27), STOPPING_SHAPES)
    yield from special.wide_sides()


def channel_changes(seed, sheets, each):
    """True sheets with the channel of one call changed, or its kind: 26 for a channel
    that there is not."""
    draws = Draws(seed)
    for sheet in sheets:
        calls = [number for number, step in enumerate(sheet.steps)
                 if step.channel is not None]
        for _ in range(each):
            number, steps = draws.pick(calls), list(sheet.steps)
            channel = draws.pick((0, 1, 2, 3, 4, 255))
            steps[number] = steps[number]._replace(channel=channel)
            at = len(r.encode(sheet._replace(steps=steps[:number], certificates=[])))
            changed = sheet._replace(steps=steps)
            yield Case("channel changed", r.encode(changed),
                       f"refused 26 at {at}" if channel > 3 else None)
            if channel < 4:
                yield Case("channel changed, new certificates", r.encode(
                    r.with_certificates(changed)))
        steps = [step._replace(kind=CALL_STEP, channel=None) if step.channel is not None
                 else step for step in sheet.steps]
        yield Case("kind 11 for kind 22", r.encode(sheet._replace(steps=steps)))


def wrong_readings(seed, sheets):
    """True sheets with the certificates that a wrong reading needs, of all parts or of
    one."""
    draws = Draws(seed)
    for sheet in sheets:
        way = draws.pick(list(WRONG_WAYS.values()))
        parts = draws.pick((("pre", "trace", "future"), ("pre",), ("trace",),
                            ("future",)))
        try:
            yield Case("certificates of a wrong reading",
                       r.encode(wrongly_certified(sheet, way, parts)))
        except r.TooManyPairs:
            pass


def random_sheet_cases(seed, sheets):
    """True sheets with calls on channels, and what is made of them."""
    some, draws = sheets[::3], Draws(seed)
    yield from (Case("true", r.encode(sheet), f"accepted {rule_count(sheet)}")
                for sheet in sheets)
    yield from (Case("true, kind 21", wide_leaves(
        r.encode(sheet), lambda _: draws.chance(0.7)), f"accepted {rule_count(sheet)}")
                for sheet in some)
    yield from channel_changes(seed + 1, some, 2)
    yield from wrong_readings(seed + 2, sheets)
    yield from faults.kept_certificates(seed + 3, some[::2])
    yield from faults.changed_certificates(seed + 4, some)
    yield from faults.certificate_counts(seed + 5, some[:3])
    yield from faults.two_faults(seed + 6, some)
    yield from faults.changed_conditions(seed + 7, some)
    yield from faults.changed_bytes(seed + 8, sheets)
    yield from faults.changed_records(seed + 9, some)
    yield from faults.near_record_changes(seed + 10, some)


def loaded(cases):
    """Cases of reading: where it refuses, the loader's line is the same."""
    for case in cases:
        is_refused = (case.line or "").startswith("refused")
        yield case if is_refused else Case(case.label, case.data)


def single_cases():
    """All single sheets."""
    yield from least_cases()
    yield from whole_cases()
    yield from site_cases()
    yield from wrong_way_cases()
    yield from event_cases()
    yield from event_order_cases()


def four_sheet_cases():
    """Everything that is loaded, on the four-channel instrument."""
    yield from single_cases()
    yield from special.listed_examples(FOUR_CHANNEL)
    yield from full_limits()
    yield from loaded(islice(channels.record_cases(), 2, None, 12))
    yield from same_lines(620, former_cases(621, 1))
    yield from moved_cases(former_cases(631, 0.5))
    sheets = channel_sheets(640, 144)
    yield from random_sheet_cases(641, sheets)
    yield from faults.certificate_faults(652, sheets, 3, range(10, 15), FOUR_CHANNEL)
    yield from faults.certificate_faults(653, sheets, 1, range(1, 27), FOUR_CHANNEL)
    yield from faults.broken_rules(654, 8, range(10, 15), CHANNEL_SHAPES, FOUR_CHANNEL,
                                   (CHANNEL_CALL,))
    yield from faults.broken_rules(655, 1, range(1, 27), CHANNEL_SHAPES, FOUR_CHANNEL)


def sheet_cases():
    """Everything that is loaded, on the large instrument."""
    yield from map(two_channel, least_cases())
    yield from map(two_channel, islice(single_cases(), 0, None, 12))
    yield from loaded(map(two_channel, islice(channels.record_cases(), 5, None, 40)))
    yield from map(two_channel, (Case("true", r.encode(sheet),
                                      f"accepted {rule_count(sheet)}")
                                 for sheet in channel_sheets(656, 36)))
    yield from special.listed_among(special.channel_examples())


def entry_sheet_cases():
    """Everything that is loaded, on the entry instrument."""
    yield from map(two_channel, least_cases())
    yield from map(two_channel, islice(single_cases(), 5, None, 36))
    yield from map(two_channel, (Case("true", r.encode(sheet),
                                      f"accepted {rule_count(sheet)}")
                                 for sheet in channel_sheets(657, 12)))
    yield from special.listed_among(special.channel_examples(), ENTRY)
