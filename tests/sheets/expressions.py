"""Text form of the conditions of document 01, "Events and conditions", for any number
of events (document 02, Ask 11).

    expression   sequence | sequence | ...
    sequence     items side by side
    item         (expression), {0,2}, {open}, any, none, empty, not ITEM,
                 finally(A), globally(A), next(A), a name; after it any
                 number of *
"""
import re

from reference.conditions import EITHER, EMPTY, JOIN, LEAF, STAR, bits
from reference.instruments import LARGE

TOKEN = re.compile(r"\s*([A-Za-z_][A-Za-z0-9_]*|[0-9]+|.)")
NAME = re.compile(r"[A-Za-z_][A-Za-z0-9_]*\Z")
RESERVED = {"any", "none", "empty", "not", "finally", "globally", "next"}
MAX_DEPTH = 100


class ExpressionError(Exception):
    """A fault in an expression."""


def tokens_of(text):
    return [match.group(1) for match in TOKEN.finditer(text.rstrip())]


def any_of(events):
    """The leaf with all of that many events."""
    return (LEAF, (1 << events) - 1)


def complement(tree, any_, word):
    if tree[0] != LEAF:
        raise ExpressionError(f"'{word}' needs a set of events")
    return (LEAF, any_[1] & ~tree[1])


def finally_(tree, any_):
    """(not A)* A any*"""
    other = (STAR, complement(tree, any_, "finally"))
    return (JOIN, (JOIN, other, tree), (STAR, any_))


def globally_(tree, _):
    """A*"""
    return (STAR, tree)


def next_(tree, any_):
    """any A any*"""
    return (JOIN, (JOIN, any_, tree), (STAR, any_))


FUNCTIONS = {"finally": finally_, "globally": globally_, "next": next_}


class Parser:
    """Recursive descent; names are known events (ints) and conditions (trees)."""

    def __init__(self, text, names, events):
        self.tokens = tokens_of(text)
        self.at = 0
        self.depth = 0
        self.names = names
        self.events = events
        self.any = any_of(events)

    def peek(self):
        return self.tokens[self.at] if self.at < len(self.tokens) else None

    def take(self):
        token = self.peek()
        if token is None:
            raise ExpressionError("the expression ends too early")
        self.at += 1
        return token

    def expect(self, wanted):
        token = self.take()
        if token != wanted:
            raise ExpressionError(f"expected '{wanted}', found '{token}'")

    def whole(self):
        tree = self.either()
        if self.peek() is not None:
            raise ExpressionError(f"unexpected '{self.peek()}'")
        return tree

    def either(self):
        tree = self.sequence()
        while self.peek() == "|":
            self.take()
            tree = (EITHER, tree, self.sequence())
        return tree

    def sequence(self):
        tree = self.repeated()
        while self.peek() not in (None, "|", ")"):
            tree = (JOIN, tree, self.repeated())
        return tree

    def repeated(self):
        tree = self.item()
        while self.peek() == "*":
            self.take()
            tree = (STAR, tree)
        return tree

    def item(self):
        self.depth += 1
        if self.depth > MAX_DEPTH:
            raise ExpressionError(f"the expression is nested more than "
                                  f"{MAX_DEPTH} deep")
        tree = self.item_inside()
        self.depth -= 1
        return tree

    def item_inside(self):
        token = self.take()
        if token == "(":
            tree = self.either()
            self.expect(")")
            return tree
        if token == "{":
            return (LEAF, self.event_set())
        if token == "not":
            return complement(self.item(), self.any, "not")
        if token in FUNCTIONS:
            self.expect("(")
            tree = self.either()
            self.expect(")")
            return FUNCTIONS[token](tree, self.any)
        return self.simple(token)

    def simple(self, token):
        constants = {"any": self.any, "none": (LEAF, 0), "empty": (EMPTY,)}
        if token in constants:
            return constants[token]
        if token not in self.names:
            raise ExpressionError(f"unknown name or sign '{token}'")
        value = self.names[token]
        return (LEAF, 1 << value) if isinstance(value, int) else value

    def event_set(self):
        events = 0
        if self.peek() == "}":
            self.take()
            return events
        while True:
            events |= 1 << event_number(self.take(), self.names, self.events)
            token = self.take()
            if token == "}":
                return events
            if token != ",":
                raise ExpressionError(f"expected ',' or '}}', found '{token}'")


def event_number(token, names, events=LARGE.events):
    """The event that a number or a name of an event stands for."""
    if token.isdecimal():
        if int(token) >= events:
            raise ExpressionError(f"event {token} is above {events - 1}")
        return int(token)
    if not isinstance(names.get(token), int):
        raise ExpressionError(f"unknown event '{token}'")
    return names[token]


def parse_expression(text, names, events=LARGE.events):
    """The tree of an expression, for that many events."""
    return Parser(text, names, events).whole()


def show_set(held, events=LARGE.events):
    _, any_ = any_of(events)
    if held == any_:
        return "any"
    if held.bit_count() > events // 2:
        return "not " + show_set(any_ & ~held, events)
    return "{" + ",".join(str(event) for event in bits(held)) + "}"


def show(tree, events=LARGE.events, strength=0):
    """The expression of a tree; parse_expression gives the tree back."""
    kind = tree[0]
    if kind == LEAF:
        text = show_set(tree[1], events)
        return f"({text})" if strength == 2 and " " in text else text
    if kind == EMPTY:
        return "empty"
    if kind == STAR:
        return show(tree[1], events, 2) + "*"
    if kind == JOIN:
        own, text = 1, f"{show(tree[1], events, 1)} {show(tree[2], events, 2)}"
    else:
        own, text = 0, f"{show(tree[1], events, 0)} | {show(tree[2], events, 1)}"
    return text if own >= strength else f"({text})"
