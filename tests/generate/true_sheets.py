"""True sheets of document 01 in many shapes, with all reachable pairs.

A control graph is drawn first; then conditions are computed for which the
rules hold, exact ones or wider ones.
"""
from reference.certificates import first_fault, reachable_pairs
from reference.conditions import LEAF, STAR
from reference.instruments import LARGE
from reference.loader import Accepted, verdict
from reference.reading import (EVENT_STEP, FIELD_NAMES, FIELDS, PASS_STEP,
                               STOP_STEP, Method, Point, Sheet)
from reference.rules import END_RULE, EXIT_RULES, RETURN_RULES
from sheets.records import TooManyPairs, encode, with_certificates

from .draws import Draws
from .equations import (TooLarge, fits, least_solution, reversed_edges,
                        reversed_solution, widened_solution)
from .plans import SHAPES, Body, given_trace, outcomes, random_plan
from .trees import (EMPTY_TREE, NOTHING, ONLY_EMPTY, either, events_of, measured,
                    on_channel, random_tree, star)


PAST_RULES = {EVENT_STEP: 7, PASS_STEP: 15}
# Unknowns beside the points: a method's pre, or its future by `failed`.
OUTER = {False: "outer", True: "failed"}


class Solver:
    """Finds conditions for a plan.

    A rule may be left out, given as (rule, subject): the conditions then
    keep every other rule, and mostly break that one.
    """

    def __init__(self, draws, plan, left_out=None):
        self.draws = draws
        self.plan = plan
        self.left_out = left_out
        self.leaves = draws.pick((3, 5, 8, 12, 24))
        self.wide_share = draws.pick((0, 0, 0.1, 0.3, 1))
        self.extra_share = draws.pick((0, 0, 0.2))
        self.traces = {}
        self.used = self.used_events()
        self.everything = measured((STAR, (LEAF, plan.any)))
        few = star(measured((1, self.used)))
        fitting = few if self.used and not self.uses_any() else self.everything
        self.wide = fitting if draws.chance(0.6) else self.everything
        self.own_extras = self.extras(range(plan.points))

    def uses_any(self):
        return self.used == self.plan.any

    def used_events(self):
        """All events of the plan."""
        used = 0
        for event in self.plan.alphabet:
            used |= 1 << event
        for method in self.plan.methods:
            if not isinstance(method, Body):
                for failed in outcomes(method):
                    used |= events_of(given_trace(method, failed).tree)
        for step in self.channel_calls().values():
            used |= events_of(on_channel(self.plan.methods[step.operand],
                                         step.channel).tree)
        return used

    def channel_calls(self):
        """The calls on channels, by number."""
        return {number: step for number, step in enumerate(self.plan.steps)
                if step.channel is not None}

    def extras(self, unknowns):
        """Random small languages that some unknowns hold beside the least."""
        result = {}
        for one in unknowns:
            if self.draws.chance(self.extra_share):
                tree = random_tree(self.draws, self.draws.between(1, 2),
                                   self.plan.alphabet)
                if events_of(tree) & ~self.used == 0:
                    result[one] = measured(tree)
        return result

    def label(self, step, failed):
        """What a step raises."""
        if step.kind == EVENT_STEP:
            return measured((1, 1 << step.operand))
        if step.is_call:
            return on_channel(self.trace(step.operand, failed), step.channel or 0)
        return ONLY_EMPTY

    def edges(self, steps, later):
        """An edge for each step and outcome; later is 0 for past, 1 for own, 2
        for due."""
        result = []
        for step in steps:
            for failed in step.outcomes:
                if step.is_call:
                    rule = RETURN_RULES[failed][(0, 1, 3)[later]]
                else:
                    rule = PAST_RULES[step.kind] + later
                if (rule, self.plan.steps.index(step)) != self.left_out:
                    result.append((step.source, self.label(step, failed),
                                   step.leads_to(failed)))
        return result

    def own_sources(self):
        """The empty word at each entry, and the extras."""
        sources = dict(self.own_extras)
        for number, body in self.plan.bodies():
            if (4, number) != self.left_out:
                sources[body.entry] = either(sources.get(body.entry, NOTHING),
                                             ONLY_EMPTY)
        return sources

    def steps_before(self, point):
        """The steps on the ways to a point."""
        reached, steps = {point}, []
        while True:
            more = [step for step in self.plan.steps
                    if {step.target, step.failed_target} & reached
                    and step not in steps]
            if not more:
                return steps
            steps += more
            reached |= {step.source for step in more}

    def trace(self, number, failed=False):
        """The trace of a method; a recursive one gets a wide trace."""
        key = number, failed
        if key not in self.traces:
            method = self.plan.methods[number]
            if (EXIT_RULES[failed][0], number) == self.left_out:
                self.traces[key] = self.random_trace()
            elif isinstance(method, Body):
                self.traces[key] = self.wide
                self.traces[key] = self.body_trace(number, method, failed)
            else:
                self.traces[key] = given_trace(method, failed)
        return self.traces[key]

    def random_trace(self):
        """A trace that may break rule 5 or 22, of events in use."""
        while True:
            tree = random_tree(self.draws, 2, self.plan.alphabet)
            if events_of(tree) & ~self.used == 0:
                return measured(tree)

    def is_recursive(self, number):
        """Whether the trace of a method depends on itself."""
        seen, todo = set(), [number]
        while todo:
            body = self.plan.methods[todo.pop()]
            for step in (one for failed in outcomes(body)
                         for one in self.steps_before(body.exit_of(failed))):
                if not step.is_call or step.operand in seen:
                    continue
                seen.add(step.operand)
                if isinstance(self.plan.methods[step.operand], Body):
                    todo.append(step.operand)
        return number in seen

    def body_trace(self, number, body, failed):
        if self.is_recursive(number) or self.draws.chance(self.wide_share):
            return self.wide
        exit_ = body.exit_of(failed)
        edges = self.edges(self.steps_before(exit_), 1)
        try:
            solution = least_solution(self.draws.shuffled(
                range(self.plan.points)), self.own_sources(), edges)
        except TooLarge:
            return self.wide
        result = solution[exit_]
        return result if fits(result, self.leaves) else self.wide

    def solve(self, unknowns, sources, edges):
        widened = [one for one in unknowns if self.draws.chance(self.wide_share)]
        return widened_solution(self.draws, unknowns, sources, edges,
                                self.wide, self.leaves, widened)

    def owns(self):
        """own by point; a trace that does not hold its own(exit) is widened."""
        for number, method in enumerate(self.plan.methods):
            for failed in outcomes(method):
                self.trace(number, failed)
        while True:
            owns = self.solve(list(range(self.plan.points)), self.own_sources(),
                              self.edges(self.plan.steps, 1))
            short = [(number, failed) for number, body in self.plan.bodies()
                     for failed in outcomes(body)
                     if (EXIT_RULES[failed][0], number) != self.left_out
                     and not is_plainly_included(
                         owns[body.exit_of(failed)].tree,
                         self.traces[number, failed].tree)]
            if not short:
                return owns
            self.traces.update((key, self.wide) for key in short)

    def kept(self, ruled_edges):
        """The edges whose rule and subject are not left out."""
        return [edge for rule, subject, edge in ruled_edges
                if (rule, subject) != self.left_out]

    def entry_edges(self):
        """From each method's pre to its entry, and from each call to the pre."""
        return self.kept(
            [(3, number, (("outer", number), ONLY_EMPTY, body.entry))
             for number, body in self.plan.bodies()]
            + [(10, number, (step.source, ONLY_EMPTY, ("outer", step.operand)))
               for number, step in enumerate(self.plan.steps)
               if step.is_call and step.channel is None])

    def return_edges(self):
        """From each method's futures to its exits, and from the targets of each
        call to the futures."""
        return self.kept(
            [(EXIT_RULES[failed][1], number,
              ((OUTER[failed], number), ONLY_EMPTY, body.exit_of(failed)))
             for number, body in self.plan.bodies() for failed in outcomes(body)]
            + [(RETURN_RULES[failed][2], number,
                (step.leads_to(failed), ONLY_EMPTY, (OUTER[failed], step.operand)))
               for number, step in enumerate(self.plan.steps)
               if step.is_call and step.channel is None
               for failed in step.outcomes])

    def entered_edges(self):
        """In a new sheet, from the entry of each called body to the calling point."""
        if not self.plan.new:
            return []
        bodies = dict(self.plan.bodies())
        return self.kept(
            [(26, number, (bodies[step.operand].entry, ONLY_EMPTY, step.source))
             for number, step in enumerate(self.plan.steps)
             if step.is_call and step.operand in bodies])

    def stop_points(self):
        """The points at which the run may stop."""
        return [step.source for number, step in enumerate(self.plan.steps)
                if step.kind == STOP_STEP and (25, number) != self.left_out]

    def pasts(self):
        """past by point, and pre by ("outer", method)."""
        edges = self.edges(self.plan.steps, 0) + self.entry_edges()
        return self.with_channel_calls(10, self.outer_solution(edges, {False: 1}))

    def dues(self):
        """due by point, and the futures by ("outer", method) and, where a method
        may fail, ("failed", method)."""
        edges = (reversed_edges(self.edges(self.plan.steps, 2))
                 + self.return_edges() + self.entered_edges())
        return self.with_channel_calls(13, reversed_solution(
            self.outer_solution(edges, END_RULE, self.stop_points())))

    def with_channel_calls(self, rule, solution):
        """The solution, with the past of each call on a channel, or the due of its
        target, exchanged, in the primitive's pre, or future; a primitive's pre and
        future are in nothing else."""
        for number, step in self.channel_calls().items():
            if (rule, number) != self.left_out:
                point = step.source if rule == 10 else step.target
                both = either(solution["outer", step.operand],
                              on_channel(solution[point], step.channel))
                solution["outer", step.operand] = (
                    both if fits(both, self.leaves) else self.everything)
        return solution

    def outer_solution(self, edges, rules, ends=()):
        """Solve for the points and one more unknown for each method and outcome;
        the rules say of each outcome of method 0 that it has the empty word, and the
        ends have it too."""
        unknowns = list(range(self.plan.points))
        unknowns += [(OUTER[failed], number) for failed in rules
                     for number, method in enumerate(self.plan.methods)
                     if failed in outcomes(method)]
        sources = self.extras(unknowns)
        for failed, rule in rules.items():
            one = OUTER[failed], 0
            if one in unknowns and (rule, 0) != self.left_out:
                sources[one] = either(sources.get(one, NOTHING), ONLY_EMPTY)
        for point in ends:
            sources[point] = either(sources.get(point, NOTHING), ONLY_EMPTY)
        return self.solve(unknowns, sources, edges)

    def sheet(self):
        """The sheet, without certificates."""
        owns, pasts, dues = self.owns(), self.pasts(), self.dues()
        numbering = Numbering(self.draws)
        points = [Point(numbering(pasts[one].tree), numbering(owns[one].tree),
                        numbering(dues[one].tree))
                  for one in range(self.plan.points)]
        methods = []
        for number, method in enumerate(self.plan.methods):
            one = Method(numbering(pasts["outer", number].tree),
                         numbering(self.trace(number).tree),
                         numbering(dues["outer", number].tree))
            if isinstance(method, Body):
                one = one._replace(**method._asdict())
            if True in outcomes(method):
                one = one._replace(
                    failed_trace=numbering(self.trace(number, True).tree),
                    failed_future=numbering(dues["failed", number].tree))
            methods.append(one)
        sheet = Sheet(numbering.trees, points, methods, self.plan.steps, [],
                      self.plan.new)
        return shuffled_conditions(self.draws, sheet)


def is_plainly_included(left, right, limit=500):
    """Whether left is in right, with no more than that many reachable pairs."""
    pairs = reachable_pairs(left, right, limit)
    return pairs is not None and first_fault(left, right, pairs) is None


class Numbering:
    """Numbers conditions; equal ones mostly share a number."""

    def __init__(self, draws):
        self.draws = draws
        self.trees = [EMPTY_TREE] if draws.chance(0.2) else []

    def __call__(self, tree):
        if tree in self.trees and self.draws.chance(0.9):
            return self.trees.index(tree)
        self.trees.append(tree)
        return len(self.trees) - 1


def renamed(one, letter, new):
    """A point, method or step with new names of one sort: c conditions, p points."""
    fields = zip(FIELDS[one.kind], FIELD_NAMES[one.kind])
    return one._replace(**{name: new(getattr(one, name))
                           for sort, name in fields if sort == letter})


def shuffled_conditions(draws, sheet):
    """The same sheet with its conditions in another order."""
    order = draws.shuffled(range(len(sheet.conditions)))
    new = {old: number for number, old in enumerate(order)}
    points = [renamed(one, "c", new.__getitem__) for one in sheet.points]
    methods = [renamed(one, "c", new.__getitem__) for one in sheet.methods]
    return sheet._replace(conditions=[sheet.conditions[old] for old in order],
                          points=points, methods=methods, certificates=[])


def true_sheet(draws, shape, max_pairs=150):
    """A true sheet of a shape, or None if it has too many pairs."""
    sheet = Solver(draws, random_plan(draws, shape)).sheet()
    if len(sheet.conditions) > 256:
        return None
    try:
        return with_certificates(sheet, max_pairs)
    except TooManyPairs:
        return None


def true_sheets(seed, count, max_pairs=150, shapes=SHAPES, instrument=LARGE):
    """That many true sheets, of every shape in turn."""
    draws, made = Draws(seed), 0
    while made < count:
        shape = shapes[made % len(shapes)]
        sheet = true_sheet(draws, shape, max_pairs)
        if sheet is not None:
            yield shape.__name__, checked(sheet, instrument)
            made += 1


def large_true_sheets(seed, count, min_pairs=200, max_pairs=900):
    """True sheets with long certificates, of any shape."""
    draws, made = Draws(seed), 0
    while made < count:
        shape = draws.pick(SHAPES)
        sheet = true_sheet(draws, shape, max_pairs)
        if sheet and sum(map(len, sheet.certificates)) >= min_pairs:
            yield shape.__name__, checked(sheet)
            made += 1


def checked(sheet, instrument=LARGE):
    """The sheet, which must be accepted."""
    result = verdict(encode(sheet), instrument)
    if not isinstance(result, Accepted):
        raise AssertionError(f"not accepted: {result}")
    return sheet
