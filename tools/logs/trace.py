"""The trace that a log becomes: its names, its numbers and its lines."""

import collections
import itertools
import re

from logs.log import ADVICE, MOST_LOCATIONS, MOST_SMALL
from logs.mistakes import Mistake, note

LARGEST = 2**64 - 1


class Names:
    """Names of the trace for what the log calls by any text: a letter or `_`, then letters, digits and `_`, 32 at most."""

    def __init__(self, what, letter):
        self.what, self.letter = what, letter
        self.of, self.taken = {}, set()

    def fill(self, texts):
        """Texts that are names already keep them; the others get one each."""
        for text in texts:
            if re.fullmatch(r"[A-Za-z_][A-Za-z0-9_]{0,31}", text):
                self.of[text] = text
                self.taken.add(text)
        for text in texts:
            if text not in self.of:
                self.of[text] = self.free(text)
                self.taken.add(self.of[text])

    def free(self, text):
        plain = re.sub(r"[^A-Za-z0-9_]+", "_", text)
        stem = plain if re.match(r"[A-Za-z_]", plain) else self.letter + plain
        name, number = stem[:32], 1
        while name in self.taken:
            number += 1
            name = f"{stem[:26]}_{number}"
        return name

    def table(self, whole):
        return [f"{self.what} {name} is {text}" for text, name in self.of.items() if whole or name != text]


def is_plain(key):
    return isinstance(key, int) and 0 <= key <= LARGEST


class Values:
    """Numbers of the trace for the values of the log. Those from 0 to 2^64 - 1 stay, and each other value gets one that no row has."""

    def __init__(self):
        # The values that do not stay.
        self.of = {}

    def fill(self, keys):
        other = [key for key in keys if not is_plain(key)]
        if other:
            self.of = dict(zip(other, self.free({key for key in keys if is_plain(key)})))

    @staticmethod
    def free(plain):
        """Numbers that are not among these: first those above all of them."""
        following = max(plain, default=-1) + 1
        yield from range(following, LARGEST + 1)
        yield from (number for number in range(following) if number not in plain)

    def number(self, key):
        return self.of.get(key, key)

    def table(self, keys):
        return [f"value {self.number(key)} is {key}" for key in keys]


class Naming:
    """What processes, locations and values are called in a trace of a log, and in traces of its pieces."""

    def __init__(self, log, initial, final):
        self.log, operations = log, log.operations()
        self.processes, self.locations, self.values = Names("process", "P"), Names("location", "L"), Values()
        self.processes.fill(list(log.processes))
        self.locations.fill(dict.fromkeys(itertools.chain((op.location for op in operations), initial, final)))
        self.used = dict.fromkeys(key for op in operations for key in (op.read, op.written) if key is not None)
        self.used.update(dict.fromkeys(itertools.chain(initial.values(), final.values())))
        self.values.fill(self.used)

    def look_at_limits(self):
        count = len(self.locations.of)
        if count > MOST_LOCATIONS:
            raise Mistake(f"{count} locations, and a trace has {MOST_LOCATIONS} at most: {ADVICE}")

    def renamed(self):
        return self.processes.table(False) + self.locations.table(False) + self.values.table(self.values.of)

    def table(self):
        said = self.processes.table(True) + self.locations.table(True) + self.values.table(self.used)
        return said + [f"operation {self.operation(op)} is line {op.line}" for op in self.log.operations()]

    def operation(self, op):
        return f"{self.processes.of[op.process]}.{op.place}"


class Trace:
    """The text of a trace: operations by process, with their times or without, orders, and what is held at the start and in the end."""

    def __init__(self, processes, orders, initial, final, naming, times=None):
        self.processes, self.orders, self.initial, self.final, self.naming, self.times = processes, orders, initial, final, naming, times

    def operation_line(self, op):
        name, number = self.naming.locations.of[op.location], self.naming.values.number
        if op.written is None:
            line = f"R {name} {number(op.read)}"
        else:
            line = f"W {name} {number(op.written)}" if op.read is None else f"U {name} {number(op.read)} {number(op.written)}"
        line = line if op.source is None else f"{line} {self.source(op.source)}"
        return line if self.times is None else line + self.times.words(op)

    def source(self, source):
        return "from init" if source == "init" else f"from {self.naming.processes.of[source[0]]} {source[1]}"

    def value_lines(self, key, values):
        named = sorted((self.naming.locations.of[text], self.naming.values.number(value)) for text, value in values.items())
        return [f"{key} {location} {value}" for location, value in named]

    def version(self):
        """The earliest version that has room for the trace, and lines for what it says."""
        operations = [op for own in self.processes.values() for op in own]
        locations = {op.location for op in operations}.union(self.initial, self.final)
        if self.times or max(len(operations), len(locations), len(self.orders)) > MOST_SMALL:
            return 3
        return 2 if self.orders or any(op.source for op in operations) else 1

    def head(self):
        return [f"vsc {self.version()}", *self.value_lines("init", self.initial), *self.value_lines("final", self.final)]

    def tail(self):
        name = self.naming.processes.of
        return (f"before {name[earlier[0]]} {earlier[1]} {name[later[0]]} {later[1]}" for earlier, later in self.orders)

    def lines(self):
        yield from self.head()
        for process, operations in self.processes.items():
            yield f"proc {self.naming.processes.of[process]}"
            yield from map(self.operation_line, operations)
        yield from self.tail()


def note_reads_without_source(log, initial):
    """Says which reads nothing can explain, since such a trace has no legal schedule for that reason alone."""
    written, operations = collections.defaultdict(set), log.operations()
    for op in operations:
        written[op.location].add(op.written)
    for op in operations:
        if op.read is None or op.read in written[op.location] or initial.get(op.location) == op.read:
            continue
        has = f"holds {initial[op.location]} at the start" if op.location in initial else "has no initial value (--init)"
        note(f"line {op.line}: reads {op.read} at {op.location}, which nothing writes, and {op.location} {has}")
