"""Document 01, "What the loader returns": verdicts, their lines, the word test, whose
no has the length of the longest beginning (document 02, Ask 3).

    python3 -m reference.loader [--instrument large|entry|four] < sheet
"""
import sys
from typing import NamedTuple

from .certificates import Fault, first_fault
from .conditions import places_of, tested
from .instruments import CHOICE, LARGE, chosen_instrument
from .reading import Refusal, read_sheet
from .rules import Rule, all_rules, certificates_needed, rule_count

MAX_WORD = 4096
USAGE = f"usage: python3 -m reference.loader [--instrument {CHOICE}] < sheet"


class Accepted(NamedTuple):
    count: int


class Unproved(NamedTuple):
    rule: Rule
    fault: Fault


def well_formed(data, instrument=LARGE):
    """The sheet, or the first of refusals 1 to 10, 18 to 20 and 24 to 26."""
    sheet = read_sheet(data, instrument)
    if isinstance(sheet, Refusal):
        return sheet
    if len(sheet.certificates) != certificates_needed(sheet):
        return Refusal(10, len(data))
    return sheet


def first_unproved(sheet):
    """The first rule at fault of a sheet with the certificates it needs."""
    certificates = iter(sheet.certificates)
    for rule in all_rules(sheet):
        if rule.has_certificate:
            fault = first_fault(rule.left, rule.right, next(certificates))
        else:
            fault = None if places_of(rule.left).nullable else Fault(5)
        if fault:
            return Unproved(rule, fault)
    return None


def verdict(data, instrument=LARGE):
    """What the loader returns for the bytes."""
    sheet = well_formed(data, instrument)
    if isinstance(sheet, Refusal):
        return sheet
    return first_unproved(sheet) or Accepted(rule_count(sheet))


def line_of(result):
    """The printed line of a verdict."""
    if isinstance(result, Accepted):
        return f"accepted {result.count}"
    if isinstance(result, Refusal):
        return f"refused {result.number} at {result.place}"
    rule, fault = result
    return (f"unproved rule {rule.number} {rule.subject_kind} {rule.subject}"
            f" clause {fault.clause} pair {fault.pair}"
            f" event {fault.event} place {fault.place}")


def load_line(data, instrument=LARGE):
    """The one line that the loading program prints."""
    return line_of(verdict(data, instrument))


def word_line_of(sheet, condition, word, instrument=LARGE):
    """The word test's line for what read_sheet returned on the instrument."""
    if isinstance(sheet, Refusal):
        return line_of(sheet)
    if condition >= len(sheet.conditions):
        return "refused 14"
    if len(word) > MAX_WORD:
        return "refused 12"
    for index, event in enumerate(word):
        if event >= instrument.events:
            return f"refused 13 at {index}"
    held, longest = tested(sheet.conditions[condition], word)
    return "yes" if held else f"no {longest}"


def word_line(data, condition, word, instrument=LARGE):
    """The word test's line: the sheet, a condition's number and a word."""
    return word_line_of(read_sheet(data, instrument), condition, word, instrument)


def main(arguments):
    try:
        instrument, rest = chosen_instrument(arguments)
    except ValueError as error:
        return str(error)
    if rest:
        return USAGE
    print(load_line(sys.stdin.buffer.read(), instrument))
    return None


if __name__ == "__main__":
    sys.exit(main(sys.argv[1:]))
