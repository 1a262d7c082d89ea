"""Sheets that fail a given rule and clause of document 01, and changed sheets.

A case's line is the whole line, the line's beginning if it ends in a blank,
or None where only the reference says it.
"""
from reference.conditions import bits, places_of
from reference.instruments import FOUR_CHANNEL, LARGE
from reference.loader import load_line
from reference.reading import FIELD_NAMES, FIELDS, read_record
from reference.rules import all_rules, rule_count, subject_kind
from sheets.records import TooManyPairs, encode, with_certificates

from .draws import Draws
from .plans import SHAPES, random_plan
from .refusals import Case
from .true_sheets import Solver
from .trees import random_tree

ALL_RIGHTS = (1 << 32) - 1
# The rules that have no certificate.
UNCERTIFIED = (1, 2, 4, 24, 25)
# The kinds of steps that have a rule, by the last rule; 26 is of calls of bodies.
STEP_KINDS = {9: (10,), 14: (11, 17, 22), 17: (12,), 21: (17,), 25: (19,),
              26: (11, 17)}


def certified(sheet):
    """The rules that have a certificate, in order."""
    return [rule for rule in all_rules(sheet) if rule.has_certificate]


def with_certificate(sheet, index, pairs):
    """The sheet with one certificate replaced."""
    certificates = list(sheet.certificates)
    certificates[index] = pairs
    return sheet._replace(certificates=certificates)


def unproved(rule, clause, pair=None):
    """The line, or its beginning if the pair is not given."""
    line = (f"unproved rule {rule.number} {rule.subject_kind} {rule.subject}"
            f" clause {clause} ")
    return line if pair is None else line + f"pair {pair} event 0 place 0"


def inserted(draws, pairs, pair):
    """The pairs with one more somewhere after the first, and its index."""
    index = draws.between(1, len(pairs))
    return pairs[:index] + [pair] + pairs[index:], index


def fail_clause_1(draws, rule, pairs):
    """A first pair that is missing or not (0, 1)."""
    firsts = [(0, 0), (0, 2), (0, 3), (1, 1), (255, 1), (0, 1 << 31),
              (0, ALL_RIGHTS), (1, 2)]
    way = draws.below(3)
    if way == 0:
        return [], unproved(rule, 1, 0)
    if way == 1:
        return [draws.pick(firsts)] + pairs, unproved(rule, 1, 0)
    return [draws.pick(firsts)] + pairs[1:], unproved(rule, 1, 0)


def fail_clause_2(draws, rule, pairs):
    """One more pair with a place or a set that is not of the sides."""
    left, right = places_of(rule.left).leaves, places_of(rule.right).leaves
    place, rights = draws.pick(pairs)
    if right < 31 and draws.chance(0.5):
        rights |= 1 << draws.pick((right + 1, 31))
    else:
        place = draws.pick((left + 1, left + 2, 255))
    changed, index = inserted(draws, pairs, (place, rights))
    return changed, unproved(rule, 2, index)


def fail_clause_3(draws, rule, pairs):
    """One more pair whose place ends a word, but none of the set does."""
    left, right = places_of(rule.left), places_of(rule.right)
    if not left.ending:
        return None
    rights = ALL_RIGHTS >> (31 - right.leaves) & ~right.ending
    if draws.chance(0.5):
        rights = 0
    place = draws.pick(list(bits(left.ending)))
    changed, index = inserted(draws, pairs, (place, rights))
    return changed, unproved(rule, 3, index)


def fail_clause_4(draws, rule, pairs):
    """A pair taken out, given a wider set, or added with nothing after it."""
    left, right = places_of(rule.left), places_of(rule.right)
    way = draws.below(3)
    if way == 0 or len(pairs) == 1:
        place = draws.below(left.leaves + 1)
        if left.ending >> place & 1:
            return None
        return inserted(draws, pairs, (place, 0))[0], unproved(rule, 4)
    index = draws.between(1, len(pairs) - 1)
    if way == 1:
        return pairs[:index] + pairs[index + 1:], unproved(rule, 4)
    place, rights = pairs[index]
    wider = rights | 1 << draws.below(right.leaves + 1)
    if wider == rights:
        return None
    return pairs[:index] + [(place, wider)] + pairs[index + 1:], unproved(rule, 4)


FAILURES = {1: fail_clause_1, 2: fail_clause_2, 3: fail_clause_3,
            4: fail_clause_4}


def certificate_faults(seed, sheets, each, numbers=range(1, 27), instrument=LARGE):
    """For each rule with a certificate and each clause, sheets that fail there.

    Few sheets may not have a clause: place 0 alone cannot fail clause 4.
    """
    draws = Draws(seed)
    by_rule = {}
    for sheet in sheets:
        for index, rule in enumerate(certified(sheet)):
            if rule.number in numbers:
                by_rule.setdefault(rule.number, []).append((sheet, index, rule))
    for number in sorted(by_rule):
        for clause, failure in FAILURES.items():
            made = tries = 0
            while made < each and tries < 50 * each:
                tries += 1
                sheet, index, rule = draws.pick(by_rule[number])
                result = failure(draws, rule, sheet.certificates[index])
                if result is None:
                    continue
                data = encode(with_certificate(sheet, index, result[0]))
                # Clause 4: a pair may be missed by nothing.
                if clause == 4 and not load_line(
                        data, instrument).startswith(result[1]):
                    continue
                yield Case(f"rule {number} clause {clause}", data, result[1])
                made += 1


def clauses_2_and_3(sheet):
    """For each certificate, one more pair that fails clauses 2 and 3: its place
    ends a word, and its set has just one place, which the right side lacks."""
    for index, rule in enumerate(certified(sheet)):
        place = max(bits(places_of(rule.left).ending))
        pair = (place, 1 << places_of(rule.right).leaves + 1)
        pairs = sheet.certificates[index] + [pair]
        yield Case(f"rule {rule.number} clauses 2 and 3",
                   encode(with_certificate(sheet, index, pairs)),
                   unproved(rule, 2, len(pairs) - 1))


def subjects(plan, number):
    """The methods or steps of a plan that have the rule."""
    if number < 3:
        return [0]
    if subject_kind(number) == "method":
        return [method for method, body in plan.bodies()
                if number < 7 or body.may_fail and (number < 24 or method == 0)]
    kinds = STEP_KINDS[min(last for last in STEP_KINDS if number <= last)]
    bodies = dict(plan.bodies())
    return [index for index, step in enumerate(plan.steps)
            if step.kind in kinds and plan.steps.index(step) == index
            and (number != 26 or step.operand in bodies)]


def broken_rule(draws, number, shapes, kinds):
    """A sheet that keeps every rule but one, or None; a step that has the rule is of
    these kinds."""
    plan = random_plan(draws, draws.pick(shapes))
    choice = [one for one in subjects(plan, number)
              if subject_kind(number) == "method" or plan.steps[one].kind in kinds]
    if not choice:
        return None
    subject = draws.pick(choice)
    sheet = Solver(draws, plan, (number, subject)).sheet()
    try:
        sheet = with_certificates(sheet, 150)
    except TooManyPairs:
        return None
    clause = 5 if number in UNCERTIFIED else 3
    return sheet, (f"unproved rule {number} {subject_kind(number)} {subject}"
                   f" clause {clause} ")


def broken_rules(seed, each, numbers=range(1, 18), shapes=SHAPES, instrument=LARGE,
                 kinds=range(23)):
    """For each of the rules, sheets on which just that rule is false."""
    draws = Draws(seed)
    for number in numbers:
        made = 0
        while made < each:
            result = broken_rule(draws, number, shapes, kinds)
            if result is None:
                continue
            data = encode(result[0])
            if load_line(data, instrument).startswith("accepted"):
                continue
            yield Case(f"rule {number} false", data, result[1])
            made += 1


def minimal_pairs(pairs):
    """The pairs without those whose set contains another's of the same place."""
    return [pairs[0]] + [
        (place, rights) for place, rights in pairs[1:]
        if not any(other == place and less != rights and less & ~rights == 0
                   for other, less in pairs)]


def enlarged_pairs(draws, rule, pairs):
    """The pairs and some more, whose sets contain those of listed pairs."""
    places = ALL_RIGHTS >> (31 - places_of(rule.right).leaves)
    more = [(place, (rights | draws.below(1 << 32)) & places)
            for place, rights in draws.some(pairs, draws.between(1, 3))]
    return pairs[:1] + draws.shuffled(pairs[1:] + more)


def kept_certificates(seed, sheets):
    """Certificates changed in ways that keep a sheet accepted."""
    draws = Draws(seed)
    for sheet in sheets:
        line = f"accepted {rule_count(sheet)}"
        rules = certified(sheet)
        ways = {
            "permuted": lambda rule, pairs:
                pairs[:1] + draws.shuffled(pairs[1:]),
            "repeated": lambda rule, pairs:
                pairs + draws.some(pairs, draws.between(1, len(pairs))),
            "thinned": lambda rule, pairs: minimal_pairs(pairs),
            "enlarged": lambda rule, pairs: enlarged_pairs(draws, rule, pairs)}
        for label, way in ways.items():
            changed = [way(rule, pairs)
                       for rule, pairs in zip(rules, sheet.certificates)]
            yield Case(label, encode(sheet._replace(certificates=changed)), line)


def changed_certificates(seed, sheets):
    """Certificates changed in ways that may break a sheet."""
    draws = Draws(seed)
    for sheet in sheets:
        index = draws.below(len(sheet.certificates))
        pairs = sheet.certificates[index]
        yield Case("permuted with the first", encode(with_certificate(
            sheet, index, draws.shuffled(pairs))))
        yield Case("thinned at random", encode(with_certificate(
            sheet, index, draws.some(pairs, draws.below(len(pairs) + 1)))))
        place, rights = draws.pick(pairs)
        bit = rights ^ 1 << draws.below(32)
        at = pairs.index((place, rights))
        yield Case("one bit changed", encode(with_certificate(
            sheet, index, pairs[:at] + [(place, bit)] + pairs[at + 1:])))
        other = draws.below(len(sheet.certificates))
        swapped = with_certificate(sheet, index, sheet.certificates[other])
        yield Case("certificates swapped", encode(with_certificate(
            swapped, other, pairs)))


def certificate_counts(seed, sheets):
    """More or fewer certificates than the rules need: refusal 10."""
    draws = Draws(seed)
    for sheet in sheets:
        certificates = sheet.certificates
        index = draws.below(len(certificates))
        for changed in (certificates[:-1], certificates[1:], [],
                        certificates + [[(0, 1)]], certificates + [[]],
                        [[]] + certificates, certificates * 2,
                        certificates[:index] + certificates[index + 1:]):
            data = encode(sheet._replace(certificates=changed))
            yield Case("number of certificates", data,
                       f"refused 10 at {len(data)}")


def two_faults(seed, sheets):
    """Two certificates at fault; the first in the order of testing counts."""
    draws = Draws(seed)
    for sheet in sheets:
        rules = certified(sheet)
        first, second = sorted(draws.some(range(len(rules)), 2))
        earlier = fail_clause_2(draws, rules[first], sheet.certificates[first])
        later = fail_clause_1(draws, rules[second], sheet.certificates[second])
        changed = with_certificate(sheet, first, earlier[0])
        changed = with_certificate(changed, second, later[0])
        yield Case("two faults", encode(changed), earlier[1])


def other_names(draws, sheet):
    """The sheet with one name of a condition or point changed."""
    points, methods = list(sheet.points), list(sheet.methods)
    name = draws.below(len(sheet.conditions))
    if draws.chance(0.6):
        index = draws.below(len(points))
        values = list(points[index])
        values[draws.below(3)] = name
        points[index] = type(points[index])(*values)
    else:
        index = draws.below(len(methods))
        kind = methods[index].kind
        names = [one for letter, one in zip(FIELDS[kind], FIELD_NAMES[kind])
                 if letter == "c"]
        changed = {names[draws.below(len(names))]: name}
        methods[index] = methods[index]._replace(**changed)
    return sheet._replace(points=points, methods=methods)


def other_condition(draws, sheet):
    """The sheet with one condition changed for a random one."""
    conditions = list(sheet.conditions)
    alphabet = draws.some(range(32), 3)
    conditions[draws.below(len(conditions))] = random_tree(
        draws, draws.between(1, 4), alphabet)
    return sheet._replace(conditions=conditions)


def changed_conditions(seed, sheets):
    """Other names or conditions, with certificates old or made anew."""
    draws = Draws(seed)
    for sheet in sheets:
        for change in (other_names, other_condition):
            changed = change(draws, sheet)
            yield Case(change.__name__, encode(changed))
            try:
                yield Case(change.__name__ + ", new certificates",
                           encode(with_certificates(changed, 300)))
            except TooManyPairs:
                pass


def changed_bytes(seed, sheets, each=2):
    """True sheets with a byte changed, taken out or put in."""
    draws = Draws(seed)
    for sheet in sheets:
        data = encode(sheet)
        for _ in range(each):
            at = draws.below(len(data))
            way = draws.below(4)
            if way == 0:
                new = bytes([data[at] ^ 1 << draws.below(8)]) + data[at + 1:]
            elif way == 1:
                new = draws.bytes(1) + data[at + 1:]
            elif way == 2:
                new = data[at + 1:]
            else:
                new = draws.bytes(1) + data[at:]
            yield Case("byte changed", data[:at] + new)


def records_of(data):
    """The records of a sheet that reading takes."""
    records, offset = [], 0
    while offset < len(data):
        record = read_record(data, offset, FOUR_CHANNEL.kinds)
        records.append(data[offset:record.end])
        offset = record.end
    return records


def changed_records(seed, sheets, each=2):
    """True sheets with records taken out, repeated, swapped or set to others."""
    draws = Draws(seed)
    for sheet in sheets:
        for _ in range(each):
            records = records_of(encode(sheet))
            index, other = draws.below(len(records)), draws.below(len(records))
            way = draws.below(4)
            if way == 0:
                del records[index]
            elif way == 1:
                records.insert(index, records[other])
            elif way == 2:
                records[index], records[other] = records[other], records[index]
            else:
                records[index] = records[other]
            yield Case("record changed", b"".join(records))


def near_record_changes(seed, sheets, each=2):
    """True sheets with two records of one kind swapped or made equal."""
    draws = Draws(seed)
    for sheet in sheets:
        for _ in range(each):
            records = records_of(encode(sheet))
            index = draws.below(len(records))
            alike = [at for at, record in enumerate(records)
                     if record[0] == records[index][0]]
            other = draws.pick(alike)
            if draws.chance(0.5):
                records[index] = records[other]
            else:
                records[index], records[other] = records[other], records[index]
            yield Case("record of a kind changed", b"".join(records))


def random_bytes(seed, count):
    """Random bytes, some of them all kinds of records."""
    draws = Draws(seed)
    for _ in range(count):
        yield Case("random bytes", draws.bytes(draws.between(0, 60)))
        yield Case("random kinds", bytes(draws.between(0, 15) for _ in
                                         range(draws.between(1, 80))))


def agrees(case, line):
    """Whether a line is the one that the case gives."""
    if case.line is None:
        return True
    return line == case.line or case.line[-1] == " " and line.startswith(case.line)
