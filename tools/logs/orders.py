"""Which operations stand before which, beside program order: from times and barriers."""

import array
import bisect
import itertools

from logs.log import MOST_BEFORE
from logs.mistakes import CIRCLE, Mistake, at_line, note


class Ends:
    """The times of a log. Processes are numbered, and so are the operations of each from 1."""

    def __init__(self, processes):
        ended = sorted((op.end, number, op.place) for number, operations in enumerate(processes) for op in operations if op.end is not None)
        self.times, self.numbers, self.places = ([row[at] for row in ended] for at in range(3))
        # For each count of operations that ended first: of those of them that matter the first one. All in front of it ended before another of
        # them began, which says more.
        latest = itertools.accumulate((processes[number][place - 1].start for _, number, place in ended), later)
        self.first = [0, *(0 if start is None else bisect.bisect_left(self.times, start) for start in latest)]

    def before(self, start):
        """The operations that ended before this time, without those that stand before another of them by their times."""
        count = bisect.bisect_left(self.times, start)
        first = self.first[count]
        return zip(self.numbers[first:count], self.places[first:count])


def later(one, other):
    """The later one of two times, of which either may be missing."""
    return other if one is None or other is not None and other > one else one


def look_at_program_order(processes):
    """Refuses times that turn the order of a process round. Those that do not make no ring with it."""
    for operations in processes:
        latest = None
        for op in operations:
            if latest is not None and op.end is not None and op.end < latest.start:
                raise at_line(op.line, f"it ended before line {latest.line} of the same process began: rows of a process stand in its order")
            if op.start is not None and (latest is None or op.start > latest.start):
                latest = op


class Orders:
    """Which operations stand before which, beside program order: from times, barriers and known orders, those left out that follow from others.
    Inside, a process is its number, and all is linear in the operations, but that the ends are sorted and each has a row of the processes."""

    def __init__(self, log, with_times, known=()):
        self.names, self.processes = list(log.processes), list(log.processes.values())
        self.number = {name: at for at, name in enumerate(self.names)}
        # By process and place: of other processes the last place that stands before it. Times are looked up in `ends`.
        self.known = [{} for _ in self.names]
        for earlier, later in known:
            self.add(earlier, later)
        self.from_barriers(log)
        self.ends = None
        if with_times and log.has_times:
            look_at_program_order(self.processes)
            self.ends = Ends(self.processes)
        # By process the rows of its operations, one behind the other: of each process the last place that stands before the operation.
        self.rows = [array.array("I") for _ in self.names]
        # By process the orders that are needed: the later place, and the process and place of the earlier operation.
        self.kept = [array.array("I") for _ in self.names]
        # The processes of all operations, each operation behind those that stand before it.
        self.order = array.array("I")
        if self.ends or any(self.known):
            self.walk()

    def add(self, earlier, later):
        """Notes an order; of several of one process before the same operation the last counts."""
        known = self.known[self.number[later[0]]].setdefault(later[1], {})
        number = self.number[earlier[0]]
        known[number] = max(known.get(number, 0), earlier[1])

    def from_barriers(self, log):
        for counts in log.barriers.values():
            for first, done in counts.items():
                for second, count in counts.items():
                    if first != second and done and count < len(log.processes[second]):
                        self.add((first, done), (second, count + 1))

    # ---- the walk

    def walk(self):
        """Takes all operations, each after those that stand before it."""
        done, ready = [0] * len(self.names), list(range(len(self.names)))
        taking = [self.take(me, done) for me in ready]
        # By process who waits for an operation of it, and for which place.
        waiting = [[] for _ in self.names]
        while ready:
            me = ready.pop()
            lacking = next(taking[me], None)
            if lacking:
                waiting[lacking[0]].append((lacking[1], me))
            if waiting[me]:
                ready += [other for place, other in waiting[me] if place <= done[me]]
                waiting[me] = [one for one in waiting[me] if one[0] > done[me]]
        if len(self.order) < sum(map(len, self.processes)):
            raise Mistake(CIRCLE)

    def take(self, me, done):
        """Takes the operations of a process one by one, and yields the process and the place for which the next one has to wait."""
        rows, known, ends, take_number = self.rows[me], self.known[me], self.ends, self.order.append
        row = array.array("I", [0]) * len(done)
        for place, op in enumerate(self.processes[me], 1):
            row[me] = place - 1
            last = {other: at for other, at in known[place].items() if at > row[other]} if place in known else {}
            if ends and op.start is not None:
                for other, at in ends.before(op.start):
                    if at > row[other] and at > last.get(other, 0):
                        last[other] = at
            if last:
                for other, at in last.items():
                    while done[other] < at:
                        yield other, at
                row = self.join(me, place, row, last)
            rows.extend(row)
            take_number(me)
            done[me] = place

    def join(self, me, place, row, last):
        """The row of an operation: what stands before the one in front of it, and before the last operations of others that stand before it.
        Notes which of these do not follow from the others."""
        width = len(row)
        found = array.array("I", map(max, row, *[self.rows[other][at * width - width : at * width] for other, at in last.items()]))
        for other in sorted(last) if len(last) > 1 else last:
            if found[other] < last[other]:
                found[other] = last[other]
                self.kept[me].extend((place, other, last[other]))
        return found

    # ---- what is known

    def __bool__(self):
        """Whether anything is known beside program order."""
        return any(self.kept)

    def row(self, name):
        """By the number of a process the last place that is known to stand before an operation, or 0."""
        width, number = len(self.names), self.number[name[0]]
        return self.rows[number][(name[1] - 1) * width : name[1] * width]

    def last_before(self, name, process):
        """The last place of another process that is known to stand before an operation, or 0."""
        return self.rows[self.number[name[0]]][(name[1] - 1) * len(self.names) + self.number[process]] if self.order else 0

    def barriers(self):
        """After how many operations of `order` all that came stands before all that comes, from the start to the end."""
        if not self.order:
            return list(range(len(self.processes[0]) + 1)) if len(self.processes) == 1 else []
        count, width = len(self.order), len(self.names)
        # By process where its operations stand in `order`, and the end behind them.
        at = [[] for _ in self.names]
        for number, me in enumerate(self.order):
            at[me].append(number)
        for own in at:
            own.append(count)
        found, least, left = [count], count, list(map(len, self.processes))
        for number in range(count - 1, -1, -1):
            me = self.order[number]
            left[me] -= 1
            # The first operation in that order that does not stand before this one, or before one behind it.
            row = self.rows[me][left[me] * width : (left[me] + 1) * width]
            least = min(least, min(map(list.__getitem__, at, row)))
            if least == number:
                found.append(number)
        return found[::-1]

    def count(self):
        """How many orders do not follow from others and program order."""
        return sum(map(len, self.kept)) // 3

    def needed(self):
        """The orders that do not follow from others and program order, each as two operations."""
        return list(self.pairs()) if self else []

    def pairs(self):
        names = [[(name, op.place) for op in operations] for name, operations in zip(self.names, self.processes)]
        for me, kept in enumerate(self.kept):
            for place, other, at in zip(kept[::3], kept[1::3], kept[2::3]):
                yield names[other][at - 1], names[me][place - 1]

    def lines(self):
        """As many orders as a trace has room for; those of one location go first."""
        count = self.count()
        if count <= MOST_BEFORE:
            return self.needed()
        note(f"{count} orders, and a trace has room for {MOST_BEFORE}: {count - MOST_BEFORE} are left out, so what they exclude is allowed")
        place = {(op.process, op.place): op.location for operations in self.processes for op in operations}
        is_one = [place[earlier] == place[later] for earlier, later in self.pairs()]
        room = {True: MOST_BEFORE, False: max(0, MOST_BEFORE - sum(is_one))}
        kept = []
        for pair, one in zip(self.pairs(), is_one):
            if room[one]:
                room[one] -= 1
                kept.append(pair)
        return kept
