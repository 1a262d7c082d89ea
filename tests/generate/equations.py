"""Languages that make the rules of document 01 hold, as least solutions.

The rules for past and own ask for inclusions of the form X L in Y, those
for due L Y in X; with traces given, the least solution is regular and is
found by eliminating one unknown after another.
"""
from .trees import NOTHING, either, join, measured, reverse, star

MAX_RECORDS = 400


class TooLarge(Exception):
    """An expression has grown beyond use."""


class Equation:
    """X = constant | Y term | ... with one term for each unknown Y."""

    def __init__(self, constant):
        self.constant = constant
        self.terms = {}

    def add(self, unknown, label):
        self.terms[unknown] = either(self.terms.get(unknown, NOTHING), label)

    def append(self, label):
        """Join the label to the right of everything."""
        self.constant = join(self.constant, label)
        self.terms = {unknown: join(term, label)
                      for unknown, term in self.terms.items()}

    def replace(self, unknown, equation):
        """Put the equation of an unknown in place of the unknown."""
        label = self.terms.pop(unknown)
        self.constant = either(self.constant, join(equation.constant, label))
        for other, term in equation.terms.items():
            self.add(other, join(term, label))

    def check_size(self):
        sizes = [term.records for term in self.terms.values()]
        if max(sizes + [self.constant.records]) > MAX_RECORDS:
            raise TooLarge


def least_solution(unknowns, sources, edges):
    """The least languages with sources[x] in x and x L in y for an edge (x, L, y).

    The unknowns are eliminated in the given order.
    """
    equations = {one: Equation(sources.get(one, NOTHING)) for one in unknowns}
    for source, label, target in edges:
        equations[target].add(source, label)
    for one in unknowns:
        equation = equations[one]
        loop = equation.terms.pop(one, None)
        if loop is not None:
            equation.append(star(loop))
        equation.check_size()
        for other in unknowns:
            if other != one and one in equations[other].terms:
                equations[other].replace(one, equation)
                equations[other].check_size()
    return {one: equations[one].constant for one in unknowns}


def fits(language, leaves):
    return language.leaves <= leaves and language.records <= 3 * leaves + 3


def widened_solution(draws, unknowns, sources, edges, wide, leaves, widened=()):
    """A solution, not always the least, whose languages have few leaves.

    Some unknowns are set to the wide language, which holds all words in use.
    """
    widened = set(widened)
    while True:
        given = {**sources, **{one: wide for one in widened}}
        kept = [edge for edge in edges if edge[2] not in widened]
        try:
            solution = least_solution(draws.shuffled(unknowns), given, kept)
        except TooLarge:
            widened.add(draws.pick([one for one in unknowns
                                    if one not in widened]))
            continue
        large = [one for one in unknowns if not fits(solution[one], leaves)
                 and one not in widened]
        if not large:
            return solution
        widened.add(draws.pick(large))


def reversed_edges(edges):
    """The edges for the reversed words."""
    return [(target, measured(reverse(label.tree)), source)
            for source, label, target in edges]


def reversed_solution(solution):
    return {one: measured(reverse(language.tree))
            for one, language in solution.items()}
