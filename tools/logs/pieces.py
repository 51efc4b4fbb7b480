"""Pieces of a log, and what the verdict of a piece means for the whole.

A piece refutes if each legal schedule of the whole, restricted to the piece's operations, is a legal schedule of the piece: then the piece is
INCONSISTENT only if the whole is. Pieces confirm if legal schedules of all of them make one of the whole: then the whole is CONSISTENT if all of
them are. docs/LOGS.md says why each of the pieces that are made here does which.
"""

import bisect
import collections

from logs.log import MOST_BEFORE, Log
from logs.orders import Orders

# A piece by itself: its operations as they stand in the whole (`kept`), and as they stand in it, each by process in order.
Piece = collections.namedtuple("Piece", "what kept processes orders initial final refutes confirms")


class Parts:
    """All pieces of one cut. `confirm` says whether the whole is CONSISTENT if all pieces are."""

    def __init__(self, pieces, confirm):
        self.pieces, self.confirm = pieces, confirm and all(piece.confirms for piece in pieces)


class Draft:
    """A piece while it is made."""

    def __init__(self, whole, what, refutes, confirms):
        self.whole, self.what, self.refutes, self.confirms = whole, what, refutes, confirms
        # By name, as they stand in the whole.
        self.kept = {}
        self.initial, self.final = {}, {}
        # By location the writers for which the initial value of the piece stands.
        self.stands_for = {}

    def keep(self, op):
        self.kept[(op.process, op.place)] = op

    def keep_as_writer(self, name):
        """Keeps what an operation leaves, of one that is not kept already."""
        if name not in self.kept:
            self.keep(self.whole.operation(name)._replace(read=None, source=None))

    def forget_read(self, op):
        """Leaves out what an operation read, and all of it if it wrote nothing."""
        del self.kept[(op.process, op.place)]
        if op.written is not None:
            self.keep(op._replace(read=None, source=None))
        self.confirms = False

    def made(self):
        """The piece, in which operations are numbered anew, with all that is known of their order."""
        kept = {process: [] for process in self.whole.processes}
        for name in sorted(self.kept, key=lambda name: name[1]):
            kept[name[0]].append(self.kept[name])
        kept = {process: operations for process, operations in kept.items() if operations}
        places = {(op.process, op.place): (process, at) for process, operations in kept.items() for at, op in enumerate(operations, 1)}
        processes = {process: [self.renamed(op, at, places) for at, op in enumerate(operations, 1)] for process, operations in kept.items()}
        orders = self.orders(kept, processes)
        confirms = self.confirms and orders.count() <= MOST_BEFORE
        return Piece(self.what, kept, processes, orders.lines(), self.initial, self.final, self.refutes, confirms)

    def renamed(self, op, at, places):
        """The operation in the piece. If the piece cannot say from where it reads, it does not, and then says less than the whole."""
        source, stands_for = op.source, self.stands_for.get(op.location)
        if source == "init" and stands_for or isinstance(source, tuple) and source not in places:
            source = "init" if stands_for == [source] else None
            self.confirms = self.confirms and source is not None
        return op._replace(place=at, source=places.get(source, source))

    def orders(self, kept, processes):
        """What stands before what, also where this follows from operations that the piece has not."""
        log, found = Log({}), []
        log.processes.update(processes)
        if self.whole.orders:
            places = {self.whole.orders.number[process]: [op.place for op in operations] for process, operations in kept.items()}
            for process, operations in kept.items():
                before, known = None, collections.Counter()
                for at, op in enumerate(operations, 1):
                    row = self.whole.orders.row((process, op.place))
                    for other in [other for other in places if self.whole.processes[other] != process and (not before or row[other] != before[other])]:
                        last = bisect.bisect_right(places[other], row[other])
                        if last > known[other]:
                            known[other] = last
                            found.append(((self.whole.processes[other], last), (process, at)))
                    before = row
        return Orders(log, False, found)


# ---- by locations


def by_locations(whole, groups):
    """A piece for each group of locations: all operations on them."""
    drafts = []
    for locations in map(set, groups):
        draft = Draft(whole, f"all on {', '.join(sorted(locations)[:8])}{' and more' if len(locations) > 8 else ''}", True, True)
        drafts.append(draft)
        for values, own in ((whole.initial, draft.initial), (whole.final, draft.final)):
            own.update((location, value) for location, value in values.items() if location in locations)
    of_location = collections.defaultdict(list)
    for draft, locations in zip(drafts, groups):
        for location in set(locations):
            of_location[location].append(draft)
    covers = all(len(of_location[location]) == 1 for location in {*whole.initial, *whole.final})
    for operations in whole.log.processes.values():
        for op in operations:
            found = of_location[op.location]
            covers = covers and len(found) == 1
            for draft in found:
                draft.keep(op)
    pieces = [draft.made() for draft in drafts]
    return Parts(pieces, covers and not whole.orders and is_forest(pieces))


def is_forest(pieces):
    """Whether pieces and processes, each joined with those that it has operations in common with, make no ring."""
    above = {}

    def top(one):
        while above.setdefault(one, one) != one:
            one = above[one]
        return one

    for number, piece in enumerate(pieces):
        for process in piece.kept:
            mine, other = top(number), top(process)
            if mine == other:
                return False
            above[mine] = other
    return True


# ---- by cuts


def between_cuts(whole, cuts, most_sources):
    """A piece for what lies between one cut and the next, which refutes. A cut is by process how many operations come before it."""
    return Parts([window(whole, begin, end, most_sources).made() for begin, end in pairs_of(whole, cuts)], True)


def pairs_of(whole, cuts):
    """What is before and after each piece, the start and the end of the whole with them."""
    ends = [dict.fromkeys(whole.processes, 0), *cuts, {process: len(operations) for process, operations in whole.log.processes.items()}]
    return list(zip(ends, ends[1:]))


def operations_between(whole, begin, end):
    return [op for process in whole.processes for op in whole.log.processes[process][begin[process] : end[process]]]


def is_last(whole, end):
    return all(end[process] == len(operations) for process, operations in whole.log.processes.items())


def named(inside):
    return f"lines {min(op.line for op in inside)} to {max(op.line for op in inside)}" if inside else "nothing"


def window(whole, begin, end, most_sources):
    inside = operations_between(whole, begin, end)
    begins, ends = is_barrier(whole, begin), is_barrier(whole, end)
    draft = Draft(whole, named(inside), True, begins and ends)
    for op in inside:
        draft.keep(op)
    if is_last(whole, end):
        draft.final = dict(whole.final)
    for location in {**dict.fromkeys(op.location for op in inside), **draft.final}:
        hold(draft, location, begin if begins else None)
    if not (begins and ends):
        keep_sources(draft, inside, begin, end, most_sources)
        for location, value in draft.final.items():
            for name in whole.last_writers(location, end):
                if whole.operation(name).written == value and not (location in draft.stands_for and name[1] <= begin[name[0]]):
                    draft.keep_as_writer(name)
    return draft


def hold(draft, location, barrier):
    """What a location holds at the start of a piece. Behind a barrier it is what one of the writers left that may be the last before it: if
    these left one value it is the initial value, and else they are kept."""
    last = draft.whole.last_writers(location, barrier) if barrier else []
    values = {draft.whole.operation(name).written for name in last}
    if not last and location in draft.whole.initial:
        draft.initial[location] = draft.whole.initial[location]
    elif len(values) == 1:
        draft.initial[location] = values.pop()
        draft.stands_for[location] = last
    elif last:
        draft.confirms = False
        for name in last:
            draft.keep_as_writer(name)


def keep_sources(draft, inside, begin, end, most):
    """Keeps the writers outside of which one of these may read. If there are too many for a reader, what it read is left out."""
    for op in inside:
        if op.read is None:
            continue
        sources = [op.source] if isinstance(op.source, tuple) else []
        if op.source is None:
            sources = draft.whole.sources_outside(op, begin, end, most)
        if sources is None:
            draft.forget_read(op)
            continue
        for name in sources:
            stands = op.location in draft.stands_for and name[1] <= begin[name[0]]
            if not stands and draft.whole.operation(name).written is not None:
                draft.keep_as_writer(name)


def with_values(whole, cuts, order):
    """A piece for what lies between one cut and the next, with what locations hold at both: what was written last in `order`. These confirm."""
    pieces, held = [], dict(whole.initial)
    at = {(op.process, op.place): number for number, op in enumerate(order)}
    for begin, end in pairs_of(whole, cuts):
        inside = operations_between(whole, begin, end)
        draft = Draft(whole, named(inside), False, is_closed(whole, end))
        written = {op.location: op for op in sorted(inside, key=lambda op: at[(op.process, op.place)]) if op.written is not None}
        touched = dict.fromkeys(op.location for op in inside)
        for op in inside:
            draft.keep(op)
        if is_last(whole, end):
            draft.final = dict(whole.final)
            touched.update(dict.fromkeys(whole.final))
        else:
            draft.final = {location: op.written for location, op in written.items()}
        draft.initial = {location: held[location] for location in touched if location in held}
        draft.refutes = is_certain(whole, touched, begin) and (is_last(whole, end) or is_certain(whole, written, end))
        for location in touched:
            last = whole.last_writers(location, begin)
            if last:
                draft.stands_for[location] = last if is_barrier(whole, begin) else [None, None]
        held.update((location, op.written) for location, op in written.items())
        pieces.append(draft.made())
    return Parts(pieces, True)


def is_certain(whole, locations, cut):
    """Whether the cut is a barrier, and these locations hold the same there in every schedule."""
    values = ({whole.operation(name).written for name in whole.last_writers(location, cut)} for location in locations)
    return is_barrier(whole, cut) and all(len(held) <= 1 for held in values)


# ---- where to cut


def is_barrier(whole, cut):
    """Whether all that comes before a cut stands before all that comes after it."""
    following = [process for process in whole.processes if cut[process] < len(whole.log.processes[process])]
    return all(
        whole.last_before((process, cut[process] + 1), other) >= cut[other] for process in following for other in whole.processes if other != process
    )


def is_closed(whole, cut):
    """Whether nothing that comes after a cut stands before anything that comes before it."""
    ended = [process for process in whole.processes if cut[process]]
    return all(whole.last_before((process, cut[process]), other) <= cut[other] for process in ended for other in whole.processes)


def at_barriers(whole, most):
    """As few cuts at barriers as leave no more than `most` operations between two, where that can be."""
    chosen, near = [], None
    for now in whole.orders.barriers():
        if near and now - (chosen[-1] if chosen else 0) > most:
            chosen.append(near)
        near = now
    order = whole.orders.order or [0] * whole.log.count()
    cut, cuts = collections.Counter(), []
    for begin, end in zip([0, *chosen], chosen):
        cut.update(whole.processes[number] for number in order[begin:end])
        cuts.append(collections.Counter(cut))
    return cuts


def each(order, count):
    """A cut after each so many operations of this order."""
    cut, found = collections.Counter(), []
    for number, op in enumerate(order[:-1], 1):
        cut[op.process] += 1
        if number % count == 0:
            found.append(collections.Counter(cut))
    return found


def at_lines(whole, lines):
    """Cuts before these lines of the log."""
    return [{process: sum(op.line < line for op in operations) for process, operations in whole.log.processes.items()} for line in sorted(lines)]
