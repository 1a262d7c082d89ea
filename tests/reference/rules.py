"""Document 01, "Seventeen rules", rules 18 to 24 of document 02, Ask 2, and rules 25
and 26 of Ask 4: what is tested, and in which order; calls of kind 22, of Ask 11, which
have the rules of kind 11."""
from typing import NamedTuple

from .channels import exchanged
from .conditions import JOIN, LEAF
from .reading import (CALL_STEP, CHANNEL_CALL, EVENT_STEP, FAILING_CALL,
                      FAILING_METHOD, METHOD, PASS_STEP, STOP_STEP)

# How many rules a method with body and a step have, by kind; rules 1, 2, 24 and 26
# are not among them. Rules 4 and 25 have no certificate.
METHOD_RULES = {METHOD: 4, FAILING_METHOD: 6}
STEP_RULES = {EVENT_STEP: 3, CALL_STEP: 5, PASS_STEP: 3, FAILING_CALL: 9,
              STOP_STEP: 1, CHANNEL_CALL: 5}

# Rules that are for an outcome, by `failed`: of a call's return past, own, future
# and due, of an exit own and due, and of the end of the outermost call.
RETURN_RULES = {False: (11, 12, 13, 14), True: (18, 19, 20, 21)}
EXIT_RULES = {False: (5, 6), True: (22, 23)}
END_RULE = {False: 2, True: 24}


class Rule(NamedTuple):
    """Rule `number` for a method or step: every word of left is in right.

    Rules 1, 2, 4, 24 and 25 have no right: left must hold the empty word.
    """
    number: int
    subject: int
    left: tuple
    right: tuple | None = None

    @property
    def has_certificate(self):
        return self.right is not None

    @property
    def subject_kind(self):
        return subject_kind(self.number)


def subject_kind(number):
    """What the rule of that number is about."""
    return "method" if number < 7 or 22 <= number <= 24 else "step"


def join(first, second):
    return (JOIN, first, second)


def end_rule(sheet, failed):
    """Rule 2, or 24: what follows the return of the outermost call."""
    future = sheet.methods[0].outcome(failed).future
    return Rule(END_RULE[failed], 0, sheet.conditions[future])


def exit_rules(sheet, number, failed):
    """Rules 5 and 6, or 22 and 23, of a method with body."""
    outcome, conditions = sheet.methods[number].outcome(failed), sheet.conditions
    exit_ = sheet.points[outcome.exit]
    own, due = EXIT_RULES[failed]
    yield Rule(own, number, conditions[exit_.own], conditions[outcome.trace])
    yield Rule(due, number, conditions[outcome.future], conditions[exit_.due])


def method_rules(sheet, number):
    """Rules 3 to 6, 22 and 23 of a method with body, and 24 of method 0."""
    method, conditions = sheet.methods[number], sheet.conditions
    entry = sheet.points[method.entry]
    yield Rule(3, number, conditions[method.pre], conditions[entry.past])
    yield Rule(4, number, conditions[entry.own])
    for failed in method.outcomes:
        yield from exit_rules(sheet, number, failed)
    if number == 0 and method.may_fail:
        yield end_rule(sheet, True)


def event_rules(number, event, p, q):
    """Rules 7 to 9; p and q are triples of trees (past, own, due)."""
    a = (LEAF, 1 << event)
    yield Rule(7, number, join(p[0], a), q[0])
    yield Rule(8, number, join(p[1], a), q[1])
    yield Rule(9, number, join(a, q[2]), p[2])


def return_rules(number, failed, trace, future, p, q):
    """Rules 11 to 14, or 18 to 21; q is the target of the outcome."""
    past, own, after, due = RETURN_RULES[failed]
    yield Rule(past, number, join(p[0], trace), q[0])
    yield Rule(own, number, join(p[1], trace), q[1])
    yield Rule(after, number, q[2], future)
    yield Rule(due, number, join(trace, q[2]), p[2])


def called_condition(sheet, step, part, failed=False):
    """The pre, or the trace or future of an outcome, of the method that a step calls,
    as the call reads it."""
    method = sheet.methods[step.operand]
    declared = method if part == "pre" else method.outcome(failed)
    tree = sheet.conditions[getattr(declared, part)]
    return tree if step.channel is None else exchanged(tree, step.channel)


def call_rules(sheet, number, p):
    """Rules 10 to 14, 18 to 21 of a call that may fail, and 26."""
    step = sheet.steps[number]
    yield Rule(10, number, p[0], called_condition(sheet, step, "pre"))
    for failed in step.outcomes:
        yield from return_rules(
            number, failed, called_condition(sheet, step, "trace", failed),
            called_condition(sheet, step, "future", failed),
            p, point_conditions(sheet, step.leads_to(failed)))
    if has_entry_rule(sheet, step):
        entry = sheet.points[sheet.methods[step.operand].entry]
        yield Rule(26, number, sheet.conditions[entry.due], p[2])


def has_entry_rule(sheet, step):
    """Whether a step has rule 26: the call of a method with body in a new sheet."""
    return sheet.new and step.is_call and sheet.methods[step.operand].has_body


def pass_rules(number, p, q):
    """Rules 15 to 17."""
    yield Rule(15, number, p[0], q[0])
    yield Rule(16, number, p[1], q[1])
    yield Rule(17, number, q[2], p[2])


def point_conditions(sheet, number):
    """The trees of a point's past, own and due."""
    past, own, due, _ = sheet.points[number]
    return [sheet.conditions[name] for name in (past, own, due)]


def step_rules(sheet, number):
    """The rules of one step."""
    step = sheet.steps[number]
    p = point_conditions(sheet, step.source)
    if step.is_call:
        return call_rules(sheet, number, p)
    if step.kind == STOP_STEP:
        return [Rule(25, number, p[2])]
    q = point_conditions(sheet, step.target)
    if step.kind == EVENT_STEP:
        return event_rules(number, step.operand, p, q)
    return pass_rules(number, p, q)


def all_rules(sheet):
    """Every rule of a sheet in the order of testing."""
    yield Rule(1, 0, sheet.conditions[sheet.methods[0].pre])
    yield end_rule(sheet, False)
    for number, method in enumerate(sheet.methods):
        if method.has_body:
            yield from method_rules(sheet, number)
    for number in range(len(sheet.steps)):
        yield from step_rules(sheet, number)


def bodies(sheet):
    """The methods with body."""
    return [method for method in sheet.methods if method.has_body]


def certificates_needed(sheet):
    """How many certificates the rules need."""
    return (sum(METHOD_RULES[method.kind] - 1 for method in bodies(sheet))
            + sum(STEP_RULES[step.kind] - (step.kind == STOP_STEP)
                  + has_entry_rule(sheet, step) for step in sheet.steps))


def rule_count(sheet):
    """The count that an accepted sheet is given."""
    return (2 + sum(METHOD_RULES[method.kind] for method in bodies(sheet))
            + sheet.methods[0].may_fail
            + sum(STEP_RULES[step.kind] + has_entry_rule(sheet, step)
                  for step in sheet.steps))
