"""The order of a log's rows, or of its times, as the text of a schedule."""

import collections
import heapq

from logs.mistakes import CIRCLE, Mistake

WAYS = ("rows", "start", "end")


def way_of(log, wanted):
    """By what the operations are put in order: what an option says, or else by times if the log has them, even if the trace gets none: a hint may be
    wrong, and the rows of a log with times often stand thread after thread."""
    return wanted or ("end" if log.has_times else "rows")


def keys(log, way):
    """By process the key of each operation. One without a time stands right behind the operation before it, or first."""
    found = {}
    for process, operations in log.processes.items():
        last, own = None, []
        for op in operations:
            # `evenly` is for a trace, which has no rows: as if all processes went on evenly.
            if way == "evenly":
                own.append((True, op.place / len(operations), op.line))
                continue
            time = op.line if way == "rows" else op.end if way == "end" and op.end is not None else op.start
            time = op.end if time is None and way == "start" else time
            last = last if time is None else time
            own.append((last is not None, 0 if last is None else last, op.line))
        found[process] = own
    return found


class Schedule:
    """The operations of a log, one by one: of those that may come next the first one by its key."""

    def __init__(self, log, orders, way, with_times):
        self.log, self.key = log, keys(log, way)
        # By operation those that an order puts behind it, and how many operations in front of it have not come.
        self.behind, self.lacking = collections.defaultdict(list), collections.Counter()
        for earlier, later in orders:
            self.behind[earlier].append(later)
            self.lacking[later] += 1
        # By process the place of its next operation.
        self.following = dict.fromkeys(log.processes, 1)
        # All ends, and how many of the first of them have come.
        self.ends = sorted((op.end, op.process, op.place) for op in log.operations() if op.end is not None) if with_times else []
        self.ended = 0
        # Next operations of processes: those that may come, by their keys, and those that wait for ends before their starts, by these.
        self.ready, self.early = [], []
        for process in log.processes:
            self.offer(process)

    def offer(self, process):
        """Puts the next operation of a process among those that may come or that wait for ends, unless an order keeps it back."""
        place, operations = self.following[process], self.log.processes[process]
        if place > len(operations) or self.lacking and self.lacking.get((process, place), 0):
            return
        start = operations[place - 1].start
        if start is not None and self.ended < len(self.ends) and self.ends[self.ended][0] < start:
            heapq.heappush(self.early, (start, process))
        else:
            heapq.heappush(self.ready, (self.key[process][place - 1], process))

    def pass_ends(self):
        """Passes the ends of operations that have come, and offers what waited for them."""
        ends, ended, following = self.ends, self.ended, self.following
        while ended < len(ends) and ends[ended][2] < following[ends[ended][1]]:
            ended += 1
        self.ended = ended
        while self.early and (ended == len(ends) or self.early[0][0] <= ends[ended][0]):
            self.offer(heapq.heappop(self.early)[1])

    def operations(self):
        while self.ready:
            _, process = heapq.heappop(self.ready)
            place = self.following[process]
            self.following[process] += 1
            yield self.log.processes[process][place - 1]
            for other in self.behind.get((process, place), ()) if self.behind else ():
                self.lacking[other] -= 1
                if other[0] != process and other[1] == self.following[other[0]] and not self.lacking[other]:
                    self.offer(other[0])
            self.offer(process)
            if self.ends:
                self.pass_ends()


def schedule(log, orders, way, with_times=False):
    """The operations in that order, but that none comes before what stands before it in its process, by an order that is known, or by times if
    these count."""
    found = list(Schedule(log, orders, way, with_times).operations())
    if len(found) < log.count():
        raise Mistake(CIRCLE)
    return found
