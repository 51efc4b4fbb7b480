"""A log as a whole, for cutting: its operations, what is known of their order, and who writes what."""

import bisect
import collections

from logs.orders import Orders


class Whole:
    """`initial` and `final` have what locations hold at the start and in the end. An operation is named by its process and its place."""

    def __init__(self, log, with_times, initial, final, known=()):
        self.log, self.initial, self.final = log, initial, final
        self.processes = list(log.processes)
        self.orders = Orders(log, with_times, known)
        # By location: by process the places that write it; by location and value: the same of those that leave the value.
        self.writers = collections.defaultdict(lambda: collections.defaultdict(list))
        self.leaving = collections.defaultdict(lambda: collections.defaultdict(list))
        for process, operations in log.processes.items():
            for op in operations:
                if op.written is not None:
                    self.writers[op.location][process].append(op.place)
                    self.leaving[(op.location, op.written)][process].append(op.place)

    def operation(self, name):
        return self.log.processes[name[0]][name[1] - 1]

    def last_before(self, name, process):
        """The last place of a process that stands before an operation, or 0."""
        if process == name[0]:
            return name[1] - 1
        return self.orders.last_before(name, process)

    def stands_before(self, one, other):
        return one[1] <= self.last_before(other, one[0])

    def sources_outside(self, reader, begin, end, most):
        """The writers from which an operation may read, but for those between two cuts: they leave the value, do not come after it, and no
        other writer is known to come between. None if they are more than `most`."""
        found = []
        for process, places in self.leaving[(reader.location, reader.read)].items():
            for name in self.sources_of_process(reader, process, places, ((1, begin[process]), (end[process] + 1, len(self.log.processes[process])))):
                found.append(name)
                if len(found) > most:
                    return None
        return found

    def sources_of_process(self, reader, process, places, ranges):
        me, all_places = (reader.process, reader.place), self.writers[reader.location][process]
        last = self.last_before(me, process)
        behind = bisect.bisect_right(all_places, last)
        # Of those that stand before the reader only the last one of a process is not hidden by a later one.
        first = all_places[behind - 1] if behind else 1
        for low, high in ranges:
            for at in range(bisect.bisect_left(places, max(low, first)), bisect.bisect_right(places, high)):
                name = (process, places[at])
                if name == me or self.stands_before(me, name):
                    return
                if name[1] > last or not self.is_hidden(name, me, reader.location):
                    yield name

    def is_hidden(self, writer, reader, location):
        """Whether a writer of the location is known to come between these two."""
        for process, places in self.writers[location].items():
            last = bisect.bisect_right(places, self.last_before(reader, process))
            if last and (process, places[last - 1]) != writer and self.stands_before(writer, (process, places[last - 1])):
                return True
        return False

    def last_writers(self, location, ends):
        """The writers of a location that may come last of those up to `ends`: by process how many operations there are."""
        last = []
        for process, places in self.writers[location].items():
            behind = bisect.bisect_right(places, ends[process])
            if behind:
                last.append((process, places[behind - 1]))
        return [one for one in last if not any(one != other and self.stands_before(one, other) for other in last)]
