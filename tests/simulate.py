"""Random runs of accepted sheets, also of those in which calls may fail (document
02, Ask 2), of those that stop (Ask 4), of those with owners (Ask 9) and of those with
calls on channels (Ask 11), checked against demand 3 of document 01 and against Asks 9
and 12 of document 02, by the languages of the conditions. Then runs of sheets that are
read whole, accepted or not, checked against Ask 9.

    python3 simulate.py [SEED [SHEETS]]

Every state of every run is checked. Impossible moves and moves after the
end are made too, and must change nothing.
"""
import sys
from collections import Counter
from typing import NamedTuple

from generate import channels, exchanges, outcomes, owners, stops
from generate.draws import Draws
from generate.faults import changed_bytes, changed_conditions
from generate.plans import FAILING_SHAPES, STOPPING_SHAPES, repeated_calls
from generate.special import examples
from generate.true_sheets import true_sheets
from generate.words import derived
from reference.channels import exchanged_word
from reference.instruments import FOUR_CHANNEL, LARGE
from reference.loader import Accepted, verdict
from reference.reading import (CALL_STEP, CHANNEL_CALL, EVENT_STEP, STOP_STEP,
                               Refusal, read_sheet)
from reference.runs import (FAIL, RETURN, Move, all_owned, callers, channel_of,
                            first_break, first_owed_break, first_owner_break,
                            in_caller, in_condition, make_move, missing, start)
from sheets.records import encode, with_certificates

RUNS = 12
MOVES = 40
MAX_HISTORY = 400


class Totals:
    def __init__(self):
        self.sheets = self.runs = self.moves = self.states = 0
        self.made = self.ended = self.after_end = self.deepest = 0
        self.owed = self.past_maker = self.told_apart = 0
        self.failed_primitives = self.failed_bodies = self.failed_ends = 0
        self.owed_by_failed = self.chosen = 0
        self.stopped = Counter()   # runs that stopped, by the number of open calls
        self.due_at_stop = self.due_above = 0
        self.owned = Counter()     # states in which all points have owners, by calls
        self.on_channel = Counter()  # calls by channel, if that is not 0
        self.exchanged = Counter()   # parts of these in which the exchange counts

    def count_owed(self, sheet, run):
        """Count the returned calls whose future is owed in a state."""
        for call in run.returned_calls:
            if in_caller(run, call):
                self.owed += 1
                self.exchanged["owed"] += channel_of(sheet, call) > 0
                self.owed_by_failed += call.failed
                self.past_maker += call.maker is not run.active
            else:
                self.told_apart += in_like_of_caller(run, call)

    def count_failed(self, sheet, before, move, after):
        """Count the calls that failed by a move, and those that could have failed
        or not, as the move says."""
        if len(after.returned_calls) == len(before.returned_calls):
            return
        other = make_move(sheet, before, move._replace(failed=not move.failed))
        self.chosen += other != before
        if not move.failed:
            return
        if move.step is not None:
            self.failed_primitives += 1
        elif after.ended:
            self.failed_ends += 1
        else:
            self.failed_bodies += 1

    def count_channel(self, sheet, before, after):
        """Count a call on a channel other than 0 that a move has made, and whether the
        exchange changes what it began with and what it raised."""
        if len(after.returned_calls) == len(before.returned_calls):
            return
        call = after.returned_calls[-1]
        channel = channel_of(sheet, call)
        if channel:
            self.on_channel[channel] += 1
            for part, word in (("pre", call.begun), ("trace", call.raised)):
                self.exchanged[part] += exchanged_word(word, channel) != word

    def count_ended(self, sheet, run):
        """Count the calls on a channel other than 0 whose future, at the end of a run,
        has a word that the exchange changes."""
        for call in run.returned_calls:
            channel, after = channel_of(sheet, call), run.history[len(call.returned):]
            self.exchanged["future"] += exchanged_word(after, channel) != after

    def count_owned(self, sheet, run):
        """Count a state with an open call in which the point's owner must be the active
        method: in the outermost call, in a further one, after a return, at a stop."""
        if run.active is None or not all_owned(sheet):
            return
        self.owned["inside" if len(run.open_calls) > 1 else "outermost"] += 1
        self.owned["stopped"] += run.stopped
        self.owned["returned"] += any(call.maker is run.active
                                      for call in run.returned_calls)

    def count_stop(self, run):
        """Count a run that has stopped, and the returned calls whose futures must be
        met then; those made by callers of the active call rest on rule 26."""
        self.stopped[len(run.open_calls)] += 1
        self.due_at_stop += len(run.returned_calls)
        self.due_above += sum(caller is call.maker for call in run.returned_calls
                              for caller in run.open_calls[:-1])


def in_like_of_caller(run, call):
    """Whether the active call has the method, the step and the beginning of
    one of a call's callers."""
    return run.active is not None and any(caller[:3] == run.active[:3]
                                          for caller in callers(call))


def uses_channels(sheet):
    """Whether a sheet has calls on channels."""
    return any(step.channel is not None for step in sheet.steps)


class Break(NamedTuple):
    sheet: int
    moves: list
    call: tuple
    broken: str


class Walker:
    """Makes random moves on one sheet."""

    def __init__(self, draws, sheet):
        self.draws = draws
        self.sheet = sheet
        self.known = {}
        self.events = (FOUR_CHANNEL if uses_channels(sheet) else LARGE).events

    def test(self, sheet, number, word, channel=0):
        """in_condition, remembered."""
        key = number, word, channel
        if key not in self.known:
            self.known[key] = in_condition(sheet, number, word, channel)
        return self.known[key]

    def find(self, sheet, due, future, since, channel=0):
        """missing, remembered."""
        key = due, future, since, channel
        if key not in self.known:
            self.known[key] = missing(sheet, due, future, since, channel)
        return self.known[key]

    def demand_3(self, run):
        return first_break(self.sheet, run, self.test)

    def ask_12(self, run):
        return first_owed_break(self.sheet, run, self.find)

    def ask_9(self, run):
        return first_owner_break(self.sheet, run)

    def any_break(self, run):
        return self.demand_3(run) or self.ask_12(run) or self.ask_9(run)

    def fails(self, may_fail):
        """The outcome of a move: either where the call may fail, mostly the normal
        one elsewhere."""
        return self.draws.chance(0.5 if may_fail else 0.1)

    def step_move(self, number):
        """A move with the step; with a word of the outcome's trace if it calls a
        primitive that has the outcome."""
        step = self.sheet.steps[number]
        if not step.is_call or self.sheet.methods[step.operand].has_body:
            word = None if self.draws.chance(0.8) else (0, 1)
            return Move(number, word, self.draws.chance(0.5))
        method = self.sheet.methods[step.operand]
        failed = self.fails(method.may_fail)
        trace = (method.outcome(failed) or method.outcome(False)).trace
        word = derived(self.draws, self.sheet.conditions[trace], self.draws.below(5))
        if step.channel and word and self.draws.chance(0.95):
            word = exchanged_word(word, step.channel)
        return Move(number, word, failed)

    def return_move(self, run):
        """A return, with an outcome that has its exit here if there is one."""
        method = self.sheet.methods[run.active.method]
        here = [failed for failed in method.outcomes
                if method.outcome(failed).exit == run.point]
        if not here:
            return FAIL if self.fails(method.may_fail) else RETURN
        return FAIL if self.draws.pick(here) else RETURN

    def fitting_move(self, run):
        """A move that control allows, if there is one."""
        active = self.sheet.methods[run.active.method]
        steps = [number for number, step in enumerate(self.sheet.steps)
                 if step.source == run.point]
        at_exit = run.point in (active.exit, active.failed_exit)
        if not steps or at_exit and self.draws.chance(0.5):
            return self.return_move(run)
        return self.step_move(self.draws.pick(steps))

    def any_move(self):
        """A move that mostly cannot be made."""
        failed = self.draws.chance(0.3)
        if self.draws.chance(0.3):
            return Move(failed=failed)
        word = tuple(self.draws.below(self.events + 2)
                     for _ in range(self.draws.below(4)))
        return Move(self.draws.below(len(self.sheet.steps) + 3) - 1,
                    word if self.draws.chance(0.6) else None, failed)

    def move(self, run):
        if run.ended or self.draws.chance(0.25):
            return self.any_move()
        return self.fitting_move(run)


def must_stay(sheet, run, move):
    """Whether a move can plainly not be made."""
    if run.ended:
        return True
    if move.step is None:
        method = sheet.methods[run.active.method]
        return run.point != (method.failed_exit if move.failed else method.exit)
    if not 0 <= move.step < len(sheet.steps):
        return True
    step = sheet.steps[move.step]
    return (step.source != run.point
            or step.kind == STOP_STEP and not sheet.new
            or step.kind in (CALL_STEP, CHANNEL_CALL) and move.failed
            and not sheet.methods[step.operand].has_body)


def check_move(sheet, before, move, after):
    """What a move may do to the history and to the calls."""
    if must_stay(sheet, before, move):
        assert after == before, "an impossible move changed the run"
    elif move.step is not None and sheet.steps[move.step].kind == STOP_STEP:
        assert after == before._replace(stopped=True), "a stop changed the run"
    else:
        assert not after.stopped, "a run stopped without a stop"
    assert after.history[:len(before.history)] == before.history
    assert (after.returned_calls[:len(before.returned_calls)]
            == before.returned_calls)
    added = len(after.history) - len(before.history)
    closed = len(after.returned_calls) - len(before.returned_calls)
    if after != before and move.step is not None:
        step = sheet.steps[move.step]
        assert added == (step.kind == EVENT_STEP) or step.is_call
    if closed:
        call = after.returned_calls[-1]
        assert (closed, call.failed) == (1, move.failed)
        if call.step is not None:
            assert after.point == where_it_leads(sheet.steps[call.step], move)


def where_it_leads(step, move):
    """Where a call's return leads."""
    return step.failed_target if move.failed else step.target


def walk(walker, totals, number, check=Walker.any_break):
    """One run; the first break that the check finds, or None."""
    sheet, run, moves = walker.sheet, start(walker.sheet), []
    late = 0
    totals.runs += 1
    while len(moves) < MOVES and late < 3 and len(run.history) < MAX_HISTORY:
        totals.states += 1
        totals.count_owed(sheet, run)
        totals.count_owned(sheet, run)
        found = check(walker, run)
        if found:
            return Break(number, moves, *found)
        move = walker.move(run)
        moves.append(move)
        after = make_move(sheet, run, move)
        check_move(sheet, run, move, after)
        totals.count_failed(sheet, run, move, after)
        totals.count_channel(sheet, run, after)
        totals.moves += 1
        totals.made += after != run
        late += run.ended
        totals.after_end += run.ended
        if after.ended and not run.ended:
            totals.ended += 1
            totals.count_ended(sheet, after)
        if after.stopped and not run.stopped:
            totals.count_stop(after)
        totals.deepest = max(totals.deepest, len(after.open_calls))
        run = after
    totals.states += 1
    totals.count_owed(sheet, run)
    totals.count_owned(sheet, run)
    found = check(walker, run)
    return Break(number, moves, *found) if found else None


def accepted_sheets(seed, count):
    """Accepted examples, random true sheets, also of those that may fail, of those that
    stop, of those with owners and of those with calls on channels, and changed ones
    still accepted."""
    sheets = [sheet for _, sheet in true_sheets(seed, count)]
    sheets += failing_sheets(seed + 4, count)
    sheets += stopping_sheets(seed + 5, count)
    sheets += owners.true_owned(seed + 6, count // 2)
    yield from accepted_among(examples())
    yield from accepted_among(outcomes.accepted_cases())
    yield from accepted_among(stops.accepted_cases())
    yield from accepted_among(owners.accepted_cases())
    yield from channel_sheets(seed + 8, count)
    yield from sheets
    for _, sheet in true_sheets(seed + 3, count // 4, shapes=[repeated_calls]):
        yield sheet
    yield from accepted_among(changed_conditions(seed + 1, sheets))
    yield from accepted_among(changed_bytes(seed + 2, sheets, 6))


def failing_sheets(seed, count):
    """Random true sheets in which calls may fail."""
    return [sheet for _, sheet in true_sheets(seed, count, shapes=FAILING_SHAPES)]


def stopping_sheets(seed, count):
    """Random true sheets of the new edition, most of which may stop."""
    return [sheet for _, sheet in true_sheets(seed, count, shapes=STOPPING_SHAPES)]


def channel_sheets(seed, count):
    """Accepted sheets with calls on channels: single ones, random true ones, and
    changed ones still accepted."""
    sheets = channels.channel_sheets(seed, count)
    yield from sheets
    for cases in (exchanges.whole_cases(), exchanges.site_cases(),
                  exchanges.channel_changes(seed + 1, sheets, 2),
                  changed_conditions(seed + 2, sheets)):
        yield from accepted_among(cases, FOUR_CHANNEL)


def accepted_among(cases, instrument=LARGE):
    for case in cases:
        if isinstance(verdict(case.data, instrument), Accepted):
            yield read_sheet(case.data, instrument)


def sheets_read_whole(seed, count):
    """Random sheets with owners at all points that are read whole, most of them
    unproved."""
    draws = Draws(seed)
    for number in range(count):
        sheet = owners.random_sheet(draws, number % 4 * 0.01, number % 2 == 1)
        sheet = read_sheet(encode(with_certificates(sheet)), FOUR_CHANNEL)
        if not isinstance(sheet, Refusal):
            yield sheet


def simulate(seed, sheets, totals, check=Walker.any_break):
    """Walk the sheets; the first break that the check finds, or None."""
    draws = Draws(seed)
    for number, sheet in enumerate(sheets):
        walker = Walker(draws, sheet)
        totals.sheets += 1
        for _ in range(RUNS):
            found = walk(walker, totals, number, check)
            if found:
                return found
    return None


def print_totals(totals):
    print(f"{totals.states} states checked: {totals.sheets} sheets, "
          f"{totals.runs} runs, {totals.moves} moves ({totals.made} made, "
          f"{totals.after_end} after the end), {totals.ended} runs ended, "
          f"deepest {totals.deepest} open calls")
    print(f"{totals.owed} futures owed, {totals.past_maker} of them after the "
          f"caller's return; {totals.told_apart} not owed in an activation "
          f"with the method, step and beginning of a caller")
    print(f"{totals.failed_primitives} calls of primitives failed, "
          f"{totals.failed_bodies} of methods with body, and "
          f"{totals.failed_ends} runs ended so; {totals.chosen} returns could "
          f"have had either outcome; {totals.owed_by_failed} futures owed by "
          f"calls that failed")
    print(f"{sum(totals.stopped.values())} runs stopped, with open calls "
          + ", ".join(f"{depth}: {runs}" for depth, runs
                      in sorted(totals.stopped.items()))
          + f"; {totals.due_at_stop} futures of returned calls met there, "
          f"{totals.due_above} of them of calls that a caller of the active call "
          f"had made")


def print_channels(totals):
    print(f"{sum(totals.on_channel.values())} calls on channels, "
          + ", ".join(f"{channel}: {calls}" for channel, calls
                      in sorted(totals.on_channel.items()))
          + "; the exchange changed what "
          f"{totals.exchanged['pre']} began with, what {totals.exchanged['trace']} "
          f"raised and what followed {totals.exchanged['future']}; "
          f"{totals.exchanged['owed']} futures owed by such calls")


def print_owned(totals):
    print(f"{totals.owned['outermost'] + totals.owned['inside']} states with owners at "
          f"all points, {totals.owned['inside']} of them in calls that were made, "
          f"{totals.owned['returned']} after a call had returned there, "
          f"{totals.owned['stopped']} at a stop")


def main(arguments):
    seed = int(arguments[0]) if arguments else 71
    count = int(arguments[1]) if len(arguments) > 1 else 400
    totals, whole = Totals(), Totals()
    found = simulate(seed, accepted_sheets(seed, count), totals)
    print_totals(totals)
    print_owned(totals)
    print_channels(totals)
    found = found or simulate(seed, sheets_read_whole(seed + 7, 2 * count), whole,
                              Walker.ask_9)
    print(f"{whole.sheets} sheets that are read whole, accepted or not:")
    print_owned(whole)
    if found is None:
        print("0 breaks")
        return 0
    print(f"break: sheet {found.sheet}, {found.broken} of {found.call}")
    for move in found.moves:
        print(f"  {move}")
    return 1


if __name__ == "__main__":
    sys.exit(main(sys.argv[1:]))
