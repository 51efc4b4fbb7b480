"""What an update of the kind of `fetch_add` left: the log has either that or the operand in the column `written`, and does not say which."""

from logs.log import LEFT
from logs.mistakes import at_line, note


def settle(log, initial):
    """Puts what each of them left into its operation. `initial` has what locations hold at the start."""
    guessed = [fetch for fetch in log.fetches if fetch.word is not None]
    for fetch in log.fetches:
        if fetch.word is None:
            put(log, fetch)
    unlike = [fetch for fetch in guessed if left(log, fetch) != operation(log, fetch).written]
    if unlike and has_operands(log, guessed, unlike[0], initial):
        for fetch in guessed:
            put(log, fetch)


def operation(log, fetch):
    return log.processes[fetch.process][fetch.at]


def left(log, fetch):
    """What it left if `written` is its operand; `written` itself if that cannot be, since one of them is no number."""
    op = operation(log, fetch)
    if isinstance(op.read, int) and isinstance(op.written, int):
        return LEFT[fetch.function](op.read, op.written)
    return op.written


def put(log, fetch):
    op = operation(log, fetch)
    if fetch.word is None and not (isinstance(op.read, int) and isinstance(op.written, int)):
        raise at_line(op.line, f"{fetch.function} of {op.written} to {op.read}, and not of a number to a number")
    log.processes[fetch.process][fetch.at] = op._replace(written=left(log, fetch))


def has_operands(log, guessed, first, initial):
    """Whether `written` is the operand: if then fewer reads are of values that nothing wrote, or, where that is no answer, if all operands are
    one and the steps are not. If nothing tells, the log is refused, since one of the two would be wrong."""
    op = operation(log, first)
    without = [unexplained(log, guessed, initial, is_operand) for is_operand in (False, True)]
    steps = {fetch.function: set() for fetch in guessed}
    for fetch in guessed:
        done = operation(log, fetch)
        numbers = isinstance(done.read, int) and isinstance(done.written, int)
        steps[fetch.function].add((done.written - done.read, done.written) if numbers else (None, done.written))
    few = [all(len({pair[at] for pair in pairs}) == 1 for pairs in steps.values()) for at in (0, 1)]
    said = f"--kinds {first.word}=update says that `written` has what it left, --kinds {first.word}={first.function} that it has the operand"
    if without[0] == without[1] and few[0] == few[1]:
        raise at_line(op.line, f"{first.word} reads {op.read}, and {op.written} may be what it left or its operand: {said}")
    if without[1] < without[0] or without[0] == without[1] and few[1]:
        note(f"line {op.line}: {op.written} is taken for the operand of {first.word}, which leaves {left(log, first)}: {said}")
        return True
    if without[0]:
        note(f"line {op.line}: {op.written} is taken for what {first.word} left: {said}")
    return False


def unexplained(log, guessed, initial, is_operand):
    """How many reads of the locations of such updates are of values that nothing writes."""
    where = {operation(log, fetch).location for fetch in guessed}
    written = {(operation(log, fetch).location, left(log, fetch) if is_operand else operation(log, fetch).written) for fetch in guessed}
    own = {(fetch.process, fetch.at + 1) for fetch in guessed}
    touching = [op for operations in log.processes.values() for op in operations if op.location in where]
    written |= {(op.location, op.written) for op in touching if op.written is not None and (op.process, op.place) not in own}
    written |= {(location, initial[location]) for location in where if location in initial}
    return sum(op.read is not None and (op.location, op.read) not in written for op in touching)
