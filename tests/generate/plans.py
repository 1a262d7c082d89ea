"""Control graphs for sheets of document 01: points, methods and steps; with
methods that may fail, of document 02, Ask 2; of the new edition, with stops, Ask 4;
with calls on channels, Ask 11."""
from typing import NamedTuple

from reference.conditions import ANY, WIDE_ANY
from reference.reading import (CALL_STEP, CHANNEL_CALL, EVENT_STEP, FAILING_CALL,
                               PASS_STEP, STOP_STEP, Step)

from .trees import Language, changed_leaves, measured, random_tree


class Body(NamedTuple):
    """A method with body; it may fail if it has a failed exit."""
    entry: int
    exit: int
    failed_exit: int | None = None

    @property
    def may_fail(self):
        return self.failed_exit is not None

    def exit_of(self, failed):
        return self.failed_exit if failed else self.exit


class Traces(NamedTuple):
    """A primitive that may fail."""
    trace: Language
    failed_trace: Language


def outcomes(method):
    """The outcomes of a method of a plan."""
    return (False, True) if (isinstance(method, Traces) or isinstance(method, Body)
                             and method.may_fail) else (False,)


def given_trace(primitive, failed):
    """The trace of a primitive of a plan."""
    return primitive[failed] if isinstance(primitive, Traces) else primitive


class Plan:
    """A control graph; methods are Body or, for a primitive, Traces or its one
    trace."""

    def __init__(self, alphabet):
        self.alphabet = alphabet
        self.points = 0
        self.methods = []
        self.steps = []
        self.new = False    # the edition
        self.any = ANY      # all events

    def point(self):
        self.points += 1
        return self.points - 1

    def event(self, source, target, event):
        self.steps.append(Step(EVENT_STEP, source, target, event))

    def call(self, source, target, method):
        self.steps.append(Step(CALL_STEP, source, target, method))

    def pass_(self, source, target):
        self.steps.append(Step(PASS_STEP, source, target))

    def bodies(self):
        return [(number, method) for number, method in enumerate(self.methods)
                if isinstance(method, Body)]


def add_primitives(draws, plan, count):
    """Primitives with small random traces."""
    for _ in range(count):
        tree = random_tree(draws, draws.between(1, 3), plan.alphabet)
        plan.methods.append(measured(tree))


def add_block(draws, plan, source, target, depth):
    """A structured block of steps from source to target."""
    way = draws.below(10)
    if depth == 0 or way < 2:
        add_step(draws, plan, source, target)
    elif way < 6:
        middle = plan.point()
        add_block(draws, plan, source, middle, depth - 1)
        add_block(draws, plan, middle, target, depth - 1)
    elif way < 8:
        add_block(draws, plan, source, target, depth - 1)
        add_block(draws, plan, source, target, depth - 1)
    else:
        add_block(draws, plan, source, source, depth - 1)
        add_step(draws, plan, source, target)


def add_step(draws, plan, source, target, callees=None):
    """One random step."""
    callees = range(len(plan.methods)) if callees is None else callees
    way = draws.below(10)
    if way < 3 and callees:
        plan.call(source, target, draws.pick(callees))
    elif way < 8 and plan.alphabet:
        plan.event(source, target, draws.pick(plan.alphabet))
    else:
        plan.pass_(source, target)


def declare(draws, plan, bodies, primitives):
    """Methods with their points; the first has a body."""
    first = Body(plan.point(), plan.point())
    rest = [Body(plan.point(), plan.point()) for _ in range(bodies - 1)]
    add_primitives(draws, plan, primitives)
    made, plan.methods = plan.methods, []
    plan.methods = [first] + draws.shuffled(rest + made)


def structured(draws, alphabet):
    """Methods that are structured blocks; any may call any."""
    plan = Plan(alphabet)
    declare(draws, plan, draws.between(1, 3), draws.below(3))
    for _, body in plan.bodies():
        add_block(draws, plan, body.entry, body.exit, draws.between(1, 2))
    return plan


def line(draws, alphabet):
    """One method, one step after another."""
    plan = Plan(alphabet)
    last = plan.point()
    plan.methods.append(Body(0, 0))
    add_primitives(draws, plan, draws.below(2))
    for _ in range(draws.between(0, 4)):
        following = plan.point()
        add_step(draws, plan, last, following, range(1, len(plan.methods)))
        last = following
    plan.methods[0] = Body(0, last)
    return plan


def loop(draws, alphabet):
    """A loop with its step back; the exit is on the loop or after it."""
    plan = Plan(alphabet)
    top = last = plan.point()
    plan.methods.append(Body(top, top))
    add_primitives(draws, plan, draws.between(0, 2))
    for _ in range(draws.between(0, 2)):
        following = plan.point()
        add_step(draws, plan, last, following, range(1, len(plan.methods)))
        last = following
    add_step(draws, plan, last, top, range(1, len(plan.methods)))
    if draws.chance(0.5):
        out = plan.point()
        add_step(draws, plan, top, out, range(1, len(plan.methods)))
        plan.methods[0] = Body(top, out)
    return plan


def nested_calls(draws, alphabet):
    """Each method calls the next, the last calls a primitive."""
    plan = Plan(alphabet)
    depth = draws.between(2, 4)
    plan.methods = [Body(plan.point(), plan.point()) for _ in range(depth)]
    add_primitives(draws, plan, 1)
    for number, body in list(plan.bodies()):
        middle = plan.point()
        add_step(draws, plan, body.entry, middle, [])
        plan.call(middle, body.exit, number + 1)
        if draws.chance(0.4):
            plan.pass_(body.exit, body.entry)
    return plan


def recursion(draws, alphabet):
    """Direct or mutual recursion with a way out."""
    plan = Plan(alphabet)
    depth = draws.between(1, 2)
    plan.methods = [Body(plan.point(), plan.point()) for _ in range(depth)]
    add_primitives(draws, plan, draws.below(2))
    for number, body in list(plan.bodies()):
        before, after = plan.point(), plan.point()
        add_step(draws, plan, body.entry, before, [])
        plan.call(before, after, (number + 1) % depth)
        add_step(draws, plan, after, body.exit)
        add_step(draws, plan, body.entry, body.exit, [])
    return plan


def shared_points(draws, alphabet):
    """Methods that share entry, exit or inner points."""
    plan = Plan(alphabet)
    points = [plan.point() for _ in range(draws.between(2, 4))]
    for _ in range(draws.between(2, 3)):
        plan.methods.append(Body(draws.pick(points), draws.pick(points)))
    add_primitives(draws, plan, draws.below(2))
    for source, target in zip(points, points[1:]):
        add_step(draws, plan, source, target)
    for _ in range(draws.below(3)):
        add_step(draws, plan, draws.pick(points), draws.pick(points))
    return plan


def tangled(draws, alphabet):
    """Any steps between any points; some points are never reached."""
    plan = Plan(alphabet)
    points = [plan.point() for _ in range(draws.between(1, 5))]
    for _ in range(draws.between(1, 3)):
        plan.methods.append(Body(draws.pick(points), draws.pick(points)))
    add_primitives(draws, plan, draws.below(3))
    for _ in range(draws.between(0, 7)):
        add_step(draws, plan, draws.pick(points), draws.pick(points))
    return plan


def exit_steps(draws, alphabet):
    """Steps out of the exit point, back and onward."""
    shape = structured if draws.chance(0.4) else line
    plan = shape(draws, alphabet)
    for _, body in plan.bodies():
        add_step(draws, plan, body.exit, draws.below(plan.points))
        if draws.chance(0.3):
            add_step(draws, plan, body.exit, plan.point())
    return plan


def repeated_calls(draws, alphabet):
    """A method that calls a primitive, then itself by one step in a loop: its
    activations often begin with equal histories."""
    plan = Plan(alphabet)
    entry, middle, out = plan.point(), plan.point(), plan.point()
    plan.methods.append(Body(entry, out))
    add_primitives(draws, plan, draws.between(1, 2))
    primitives = range(1, len(plan.methods))
    plan.call(entry, middle, draws.pick(primitives))
    plan.call(middle, middle, 0)
    plan.pass_(middle, out)
    add_step(draws, plan, middle, out, primitives)
    return plan


SHAPES = (line, loop, structured, nested_calls, recursion, shared_points,
          tangled, exit_steps)


def any_point(draws, plan, same):
    """A point where failing leads: the one that is given, another, or a new one
    with a step from it or to it."""
    way = draws.below(10)
    if way < 2:
        return same
    other = draws.below(plan.points)
    if way < 6:
        return other
    new = plan.point()
    add_step(draws, plan, *((other, new) if way < 8 else (new, other)), [])
    return new


def add_failing(draws, plan):
    """Some methods that may fail, and the failed targets of their calls."""
    numbers = draws.some(range(len(plan.methods)),
                         draws.between(1, len(plan.methods)))
    for number in numbers:
        method = plan.methods[number]
        if isinstance(method, Body):
            plan.methods[number] = method._replace(
                failed_exit=any_point(draws, plan, method.exit))
        else:
            tree = random_tree(draws, draws.between(1, 2), plan.alphabet)
            failed = method if draws.chance(0.2) else measured(tree)
            plan.methods[number] = Traces(method, failed)
    for index, step in enumerate(plan.steps):
        if step.kind == CALL_STEP and step.operand in numbers:
            plan.steps[index] = step._replace(
                kind=FAILING_CALL,
                failed_target=any_point(draws, plan, step.target))


def failing(shape):
    """The shape with methods that may fail."""
    def changed(draws, alphabet):
        plan = shape(draws, alphabet)
        add_failing(draws, plan)
        return plan
    changed.__name__ = f"{shape.__name__} that may fail"
    return changed


FAILING_SHAPES = tuple(map(failing, SHAPES + (repeated_calls,)))


def two_call_sites(draws, alphabet):
    """A method that is called from two places, or from one of them by itself."""
    plan = Plan(alphabet)
    entry, first, middle, second, out = (plan.point() for _ in range(5))
    inner = Body(plan.point(), plan.point())
    plan.methods = [Body(entry, out), inner]
    add_primitives(draws, plan, draws.between(1, 2))
    primitives = range(2, len(plan.methods))
    plan.call(entry, first, draws.pick(primitives))
    plan.call(first, middle, 1)
    add_step(draws, plan, middle, second, primitives)
    plan.call(second, out, draws.pick((1, 1, 0)))
    add_block(draws, plan, inner.entry, inner.exit, 1)
    return plan


def add_stops(draws, plan):
    """Stops at some points, among the other steps anywhere: where methods begin or
    return, elsewhere, behind an event, and where no run comes."""
    for _ in range(draws.pick((0, 1, 1, 1, 2, 2, 3))):
        way, source = draws.below(10), draws.below(plan.points)
        if way < 3:
            _, body = draws.pick(plan.bodies())
            source = draws.pick((body.entry, body.exit))
        elif way < 6:
            before, source = source, plan.point()
            plan.event(before, source, draws.pick(plan.alphabet))
        elif way < 7:
            source = plan.point()
        plan.steps.insert(draws.between(0, len(plan.steps)),
                          Step(STOP_STEP, source))


def stopping(shape):
    """The shape in the new edition, with stops or without."""
    def changed(draws, alphabet):
        plan = shape(draws, alphabet)
        plan.new = True
        add_stops(draws, plan)
        return plan
    changed.__name__ = f"{shape.__name__} that stops"
    return changed


STOPPING_SHAPES = tuple(map(stopping, SHAPES + (repeated_calls, two_call_sites)
                            + FAILING_SHAPES + (failing(two_call_sites),)))


def channel_alphabet(draws):
    """A few events, some of which have the same place on several channels."""
    places = draws.some(range(16), draws.pick((1, 1, 2)))
    channels = draws.some(range(4), draws.pick((1, 2, 2, 3)))
    return sorted(16 * channel + place for channel in channels for place in places)


def wider(draws, language):
    """A language that may have the leaf any, mostly with all 64 events for it."""
    any_ = WIDE_ANY if draws.chance(0.7) else ANY
    return measured(changed_leaves(language.tree,
                                   lambda held: any_ if held == ANY else held))


def add_channel_calls(draws, plan):
    """Calls on channels, at least one: some of those of primitives of one outcome, and
    others among the steps anywhere."""
    single = [number for number, method in enumerate(plan.methods)
              if isinstance(method, Language)]
    if not single:
        single = [len(plan.methods)]
        plan.methods.append(measured(random_tree(draws, draws.between(1, 3),
                                                 plan.alphabet)))
    for number in single:
        plan.methods[number] = wider(draws, plan.methods[number])
    more = draws.pick((0, 1, 1, 2))
    for index, step in enumerate(plan.steps):
        if step.kind == CALL_STEP and step.operand in single and draws.chance(0.7):
            plan.steps[index] = step._replace(kind=CHANNEL_CALL,
                                              channel=draws.below(4))
            more -= 1
    for _ in range(max(more, all(step.channel is None for step in plan.steps))):
        target = plan.point() if draws.chance(0.4) else draws.below(plan.points)
        plan.steps.insert(draws.between(0, len(plan.steps)), Step(
            CHANNEL_CALL, draws.below(plan.points), target, draws.pick(single),
            channel=draws.below(4)))


def on_channels(shape):
    """The shape with calls on channels, over events of several channels."""
    def changed(draws, _):
        plan = shape(draws, channel_alphabet(draws))
        plan.any = WIDE_ANY
        for number, method in enumerate(plan.methods):
            if isinstance(method, Traces):
                plan.methods[number] = Traces(*(wider(draws, one) for one in method))
        add_channel_calls(draws, plan)
        return plan
    changed.__name__ = f"{shape.__name__} on channels"
    return changed


CHANNEL_SHAPES = tuple(map(on_channels, SHAPES + (repeated_calls, two_call_sites)
                           + FAILING_SHAPES[::3] + STOPPING_SHAPES[1::4]))


def random_plan(draws, shape):
    """A plan of a shape over a few events."""
    count = draws.pick((1, 2, 2, 3, 4))
    return shape(draws, sorted(draws.some(range(32), count)))
