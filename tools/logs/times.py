"""Times as a trace says them: numbers from 0 to 2^64 - 1, of which their order counts alone."""

from logs.log import has_times
from logs.mistakes import note

LARGEST = 2**64 - 1


class Times:
    """When the operations of a log began and were done, as the end of their lines in a trace."""

    def __init__(self, operations):
        found = {time for op in operations for time in (op.start, op.end) if time is not None}
        # The number of each time, if not all are numbers that a trace may have.
        self.of = None
        if not are_plain(found):
            self.of = {time: number for number, time in enumerate(sorted(found))}
            note(f"times are numbered by their order, from 0 to {len(found) - 1}, since not all are whole numbers from 0 to {LARGEST}")

    def number(self, time):
        return int(time) if self.of is None else self.of[time]

    def words(self, op):
        """What began at an unknown time may have begun at any, so nothing had ended before; and what has no end ended before nothing."""
        if not has_times(op):
            return ""
        return f" at {0 if op.start is None else self.number(op.start)} {LARGEST if op.end is None else self.number(op.end)}"


def are_plain(times):
    """Whether a trace may have all these times. Most logs have whole numbers alone."""
    is_small = not times or 0 <= min(times) and max(times) <= LARGEST
    return is_small and (set(map(type, times)) <= {int} or all(time == int(time) for time in times))
