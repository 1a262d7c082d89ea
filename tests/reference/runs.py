"""Document 01, "Runs": the state of a run, its moves, and demand 3 on a state;
document 02, Ask 2: calls that fail, Ask 4: stops, Ask 9: the owner of the point, Ask
11: calls on a channel, and Ask 12: what is owed while a run goes on.

Demand 3: every call so far, the outermost activation too, began after a
history in its pre; every returned call raised a word of its trace; if the
run has ended, the events after each return are in its future.

Ask 12: after a call has returned, and whenever control is in the activation
that made it or in one of that activation's callers, the events raised since
that return, followed by any word of the due at the present point, lie in the
call's future.

Ask 9: if all points have owners, the point of a run belongs to the active method as
long as a call is open, also where the run has stopped.

Failing is a way of returning. The trace and the future of a returned call are
those of its outcome.

In a sheet of the new edition a stop ends the whole run where it is. The calls that
are open stay open, and the innermost keeps control: Ask 12 holds there too. They owe
their pre only. What followed each return, up to the stop, is in the returned call's
future, also where an open call made it.

A call of kind 22 is held to its primitive's conditions with the events of channel 0 and
its own exchanged. Here the words are exchanged: an exchanged condition holds a word
exactly if the condition holds the exchanged word.
"""
from typing import NamedTuple

from .channels import exchanged, exchanged_word
from .conditions import holds
from .inclusion import missing_word
from .reading import EVENT_STEP, STOP_STEP


class Call(NamedTuple):
    """A call; the outermost has no step, an open one no history at return.

    Two activations may be equal in every field. They are told apart as
    objects: an open call stays one object until it returns.
    """
    method: int
    step: int | None
    begun: tuple
    maker: "Call | None" = None   # the activation that made it
    returned: tuple | None = None
    failed: bool | None = None    # the outcome, once it has returned

    @property
    def raised(self):
        return self.returned[len(self.begun):]

    def closed(self, history, failed):
        """The call, returned with that history and outcome."""
        return self._replace(returned=history, failed=failed)


class Run(NamedTuple):
    history: tuple
    open_calls: tuple   # the innermost comes last
    returned_calls: tuple
    point: int
    stopped: bool = False

    @property
    def active(self):
        """The innermost open call, which has control, or None."""
        return self.open_calls[-1] if self.open_calls else None

    @property
    def ended(self):
        return self.stopped or not self.open_calls


class Move(NamedTuple):
    """A step with or without a word; a return if the step is None. Either has an
    outcome, which counts where a call returns. A stop reads neither."""
    step: int | None = None
    word: tuple | None = None
    failed: bool = False


RETURN = Move()
FAIL = Move(failed=True)


def start(sheet):
    """The run that has made no move."""
    return Run((), (Call(0, None, ()),), (), sheet.methods[0].entry)


def channel_of(sheet, call):
    """The channel of a call of kind 22; 0, with which nothing is exchanged, of any
    other."""
    return (sheet.steps[call.step].channel or 0) if call.step is not None else 0


def in_condition(sheet, number, word, channel=0):
    """Whether the word is in the numbered condition, as a call on the channel reads
    it."""
    return holds(sheet.conditions[number], exchanged_word(word, channel))


def make_return(sheet, run, failed):
    """The run after a return with the outcome, or the same run."""
    call = run.active
    outcome = sheet.methods[call.method].outcome(failed)
    point = (run.point if call.step is None
             else sheet.steps[call.step].leads_to(failed))
    if outcome is None or point is None or run.point != outcome.exit:
        return run
    closed = call.closed(run.history, failed)
    return Run(run.history, run.open_calls[:-1],
               run.returned_calls + (closed,), point)


def make_call(sheet, run, move):
    """The run after a call step at whose source control is, or the same run."""
    step = sheet.steps[move.step]
    method = sheet.methods[step.operand]
    call = Call(step.operand, move.step, run.history, run.active)
    if method.has_body:
        return run._replace(open_calls=run.open_calls + (call,),
                            point=method.entry)
    outcome, point = method.outcome(move.failed), step.leads_to(move.failed)
    if (outcome is None or point is None or move.word is None
            or not in_condition(sheet, outcome.trace, move.word,
                                channel_of(sheet, call))):
        return run
    history = run.history + tuple(move.word)
    closed = call.closed(history, move.failed)
    return Run(history, run.open_calls, run.returned_calls + (closed,), point)


def make_move(sheet, run, move):
    """The run after a move; the same run if the move cannot be made."""
    if run.ended:
        return run
    if move.step is None:
        return make_return(sheet, run, move.failed)
    if not 0 <= move.step < len(sheet.steps):
        return run
    step = sheet.steps[move.step]
    if run.point != step.source:
        return run
    if step.is_call:
        return make_call(sheet, run, move)
    if step.kind == STOP_STEP:
        return run._replace(stopped=sheet.new)
    if step.kind == EVENT_STEP:
        run = run._replace(history=run.history + (step.operand,))
    return run._replace(point=step.target)


def broken_call(sheet, run, call, test):
    """What of demand 3 one call breaks, or None."""
    method, channel = sheet.methods[call.method], channel_of(sheet, call)
    if not test(sheet, method.pre, call.begun, channel):
        return "pre"
    if call.returned is None:
        return None
    outcome = method.outcome(call.failed)
    if not test(sheet, outcome.trace, call.raised, channel):
        return "trace"
    after = run.history[len(call.returned):]
    if run.ended and not test(sheet, outcome.future, after, channel):
        return "future"
    return None


def first_break(sheet, run, test=in_condition):
    """The first break of demand 3 as (call, what it breaks), or None."""
    for call in run.returned_calls + run.open_calls:
        broken = broken_call(sheet, run, call, test)
        if broken:
            return call, broken
    return None


def callers(call):
    """The activation that made a call, and that activation's callers."""
    while call.maker is not None:
        call = call.maker
        yield call


def in_caller(run, call):
    """Whether control is in one of a call's callers."""
    return any(caller is run.active for caller in callers(call))


def missing(sheet, due, future, since, channel=0):
    """A shortest word of due that, behind since, is not in future, as a call on the
    channel reads it, or None."""
    word = missing_word(exchanged(sheet.conditions[due], channel),
                        sheet.conditions[future], exchanged_word(since, channel))
    return None if word is None else exchanged_word(word, channel)


def first_owed_break(sheet, run, find=missing):
    """The first returned call that breaks Ask 12 as (call, "owed"), or None."""
    for call in run.returned_calls:
        if in_caller(run, call):
            future = sheet.methods[call.method].outcome(call.failed).future
            since = run.history[len(call.returned):]
            if find(sheet, sheet.points[run.point].due, future, since,
                    channel_of(sheet, call)) is not None:
                return call, "owed"
    return None


def all_owned(sheet):
    """Whether every point has an owner."""
    return all(point.owner is not None for point in sheet.points)


def first_owner_break(sheet, run):
    """The active call that breaks Ask 9 as (call, "owner"), or None."""
    if run.active is None or not all_owned(sheet):
        return None
    owner = sheet.points[run.point].owner
    return None if owner == run.active.method else (run.active, "owner")
